//! Messages as text: document 01's example, each rule of a line on both sides,
//! the program's streams and status, the slips, the faults.

use super::{faults, files, Tally};
use crate::compare::Task;
use crate::generate::random::Random;
use crate::generate::text::range::{self, FIELDS};
use crate::generate::text::slip::{self, unended, with_slip, PLACES, SLIPS};
use crate::generate::text::{lines, wide};
use crate::generate::{generate, Kind};
use crate::limits::MESSAGE_LENGTH;
use crate::message;
use crate::outcome::Outcome;
use crate::refusal::Refusal;
use crate::rules::Rules;
use crate::text::{from_text, line, read, to_text};

/// How many generated texts a fault has to show in.
const FILES: u64 = 48;
/// How many texts of a run have all slips and all numbers out of range.
const ALL_FILES: u64 = 320;
/// How often a thing that is drawn is drawn.
const DRAWS: u64 = 40;

/// Document 01's input as text.
const DOCUMENT_01: &str = "\
1 1 1 8 4 1
1 1 1 7 3 2
1 3
1 2 0 1 10
1 2 0 2 20
1 2 1 3 99
1 4 6
1 4 5
";

pub fn run(tally: &mut Tally) {
    example(tally);
    forms(tally);
    ranges(tally);
    program(tally);
    both_ways(tally);
    slips(tally);
    generated(tally);
}

fn of_text(text: &[u8]) -> Outcome {
    from_text(text, Rules::sound())
}

/// The refusal of a text, with its line.
fn refused(text: &[u8]) -> Option<(usize, Refusal)> {
    read(text, Rules::sound()).refused
}

fn example(tally: &mut Tally) {
    let messages = generate(Kind::Lesson, 0);
    let sound = Outcome::sound(messages.clone());
    tally.check(
        "document 01's input",
        of_text(DOCUMENT_01.as_bytes()) == sound,
    );
    let written = Outcome::sound(DOCUMENT_01.as_bytes().to_vec());
    tally.check("document 01's input written", to_text(&messages) == written);
    let bytes = b"DTR\x00\x01\x01\xff\x00\x00\x01\x51\x80\x00\x00\x00\x01\x00\x00\x01\x00";
    let board = of_text(b"1 1 255 86400 1 256\n");
    tally.check("a board's bytes", board.output == bytes);
    let bytes = b"DTR\x00\x01\x02\x07\x00\xff\xff\xff\xff\x3b\x9a\xca\x00\x00\x00\x00\x00";
    let request = of_text(b"1 2 7 4294967295 1000000000\n");
    tally.check("a request's bytes", request.output == bytes);
}

/// Lines of the form, and lines that are not; each has a neighbour on the other
/// side.
fn forms(tally: &mut Tally) {
    for sound in [
        "1 3",
        "01 3",
        "1 03",
        "0001 0003",
        "1 4 0",
        "1 4 000",
        "1 4 06",
        "1 2 00 01 010",
    ] {
        let text = format!("{sound}\n");
        tally.check(
            &format!("sound: {sound}"),
            refused(text.as_bytes()).is_none(),
        );
    }
    let no_lines: &[&[u8]] = &[
        b"\n",
        b" \n",
        b"1\n",
        b"1 \n",
        b" 1 3\n",
        b"1 3 \n",
        b"1  3\n",
        b"1\t3\n",
        b"1 3\t\n",
        b"1 3\r\n",
        b"1 3",
        b"1 3\0\n",
        b"13\n",
        b"1 4\n",
        b"1 4 \n",
        b"1 4 0 0\n",
        b"1 3 0\n",
        b"1 2 0 1\n",
        b"1 2 0 1 10 0\n",
        b"1 1 1 8 4\n",
        b"1 1 1 8 4 1 0\n",
        b"0 3\n",
        b"2 3\n",
        b"4294967297 3\n",
        b"18446744073709551617 3\n",
        b"1 0\n",
        b"1 5\n",
        b"1 5 1\n",
        b"1 4294967299\n",
        b"1 18446744073709551619\n",
        b"-1 3\n",
        b"1 4 -1\n",
        b"1 4 +1\n",
        b"1 4 1.0\n",
        b"1 4 0x1\n",
        b"1 4 /\n",
        b"1 4 :\n",
        b"1 4 \xb1\n",
    ];
    for text in no_lines {
        let name = format!("15: {}", text.escape_ascii());
        tally.check(&name, refused(text) == Some((0, Refusal::NotALine)));
    }
    // 15 comes before 6, wherever the number stands.
    for text in [
        &b"1 2 8 1 10 0\n"[..],
        b"1 2 8 1 x\n",
        b"1 4 4294967296 \n",
        b"1 4 1000000001",
    ] {
        let name = format!("15 before 6: {}", text.escape_ascii());
        tally.check(&name, refused(text) == Some((0, Refusal::NotALine)));
    }
}

fn ranges(tally: &mut Tally) {
    for field in &FIELDS {
        for number in [field.low, field.high] {
            let text = lines::line(&field.words(&number.to_string()));
            let name = format!("{} {number}", field.name);
            tally.check(&name, refused(&text).is_none());
        }
        for number in field.outside() {
            let name = format!("{} {number}: 6", field.name);
            let zeros = format!("0000000000{number}");
            let is_refused = [number, zeros].iter().all(|number| {
                let text = lines::line(&field.words(number));
                refused(&text) == Some((0, Refusal::Range))
            });
            tally.check(&name, is_refused);
        }
    }
}

/// All that the program leaves behind.
fn program(tally: &mut Tally) {
    tally.check("empty text", of_text(b"") == Outcome::sound(Vec::new()));
    let open = of_text(b"1 3\n").output;
    let stopped = |errors: &str| Outcome {
        output: open.clone(),
        errors: errors.as_bytes().to_vec(),
        status: Some(1),
    };
    let range = of_text(b"1 3\n1 4 1000000001\n1 3\n\n");
    tally.check("stops at 6", range == stopped("refused 1 6\n"));
    let form = of_text(b"1 3\n\n1 4 1000000001\n1 3\n");
    tally.check("stops at 15", form == stopped("refused 1 15\n"));
    let last = of_text(b"1 3\n1 3");
    tally.check("no last line feed", last == stopped("refused 1 15\n"));
    let late = of_text(&[&b"1 3\n".repeat(12_000)[..], b"1\n"].concat());
    tally.check("a late line", late.errors == b"refused 12000 15\n");
    let messages = late.output.len() / MESSAGE_LENGTH;
    tally.check("the messages before it", messages == 12_000);
}

/// Writing and reading undo each other, in messages and in texts.
fn both_ways(tally: &mut Tally) {
    let mut random = Random::new(1);
    let is_same = (0..DRAWS * 25).all(|_| {
        let message = lines::message(&mut random);
        let reading = read(line(&message).as_bytes(), Rules::sound());
        let bytes = message::bytes(&message);
        let of_bytes = message::read(&bytes).map(|(message, _)| message);
        reading.refused.is_none() && reading.messages == [message] && of_bytes == Ok(message)
    });
    tally.check("a message as text and back", is_same);
    let text = lines::some(&mut random, 1_000);
    let is_sound = refused(&text).is_none();
    let messages = of_text(&text).output;
    let again = of_text(&to_text(&messages).output).output;
    tally.check("leading zeros alter nothing", is_sound && messages == again);
    let damaged = [&messages[..40], b"DTS"].concat();
    let errors = to_text(&damaged).errors;
    tally.check("a message that no text gives", errors == b"refused 2 1\n");
}

/// Every slip is one, at every place, however its details are drawn.
fn slips(tally: &mut Tally) {
    for &(name, slip) in SLIPS {
        for place in PLACES {
            let is_refused = (0..DRAWS).all(|seed| {
                let (text, line) = with_slip(&mut Random::new(seed), slip, place);
                refused(&text) == Some((line, Refusal::NotALine))
            });
            tally.check(&format!("slip: {name}, {place:?}"), is_refused);
        }
    }
    let is_refused = (0..DRAWS).all(|seed| {
        let text = unended(&mut Random::new(seed));
        let line = text.iter().filter(|&&byte| byte == b'\n').count();
        refused(&text) == Some((line, Refusal::NotALine))
    });
    tally.check("slip: no last line feed", is_refused);
}

/// What the generated texts are made to show is there.
fn generated(tally: &mut Tally) {
    let first = files(Task::FromText, FILES);
    faults(tally, Task::FromText, &first);
    let is_sound = |kind: Kind| {
        first
            .iter()
            .any(|file| file.kind == kind && file.outcome.status == Some(0))
    };
    for kind in [Kind::Lines, Kind::Wide, Kind::Pages] {
        let name = format!("a sound text of kind {}", kind.name());
        tally.check(&name, is_sound(kind));
    }
    let longest = first
        .iter()
        .flat_map(|file| file.bytes.split(|&byte| byte == b'\n'))
        .map(<[u8]>::len)
        .max();
    tally.check(
        "a line longer than any buffer",
        longest > Some(wide::SHORTEST),
    );

    for start in [0, 7] {
        let seeds_of = |kind: Kind| {
            (0..ALL_FILES)
                .map(move |number| Task::FromText.numbered(start, number))
                .filter(move |(other, _)| *other == kind)
                .map(|(_, seed)| seed)
        };
        let slips: Vec<_> = seeds_of(Kind::Slip).filter_map(slip::chosen).collect();
        let has_all = (0..SLIPS.len()).all(|slip| {
            let mut places = PLACES.iter();
            places.all(|place| slips.contains(&(slip, *place)))
        });
        tally.check(&format!("all slips at all places from {start}"), has_all);
        let numbers: Vec<_> = seeds_of(Kind::Range).map(range::chosen).collect();
        let has_all = FIELDS.iter().all(|field| {
            let of_field = |number: &String| {
                numbers
                    .iter()
                    .any(|(other, put)| other.name == field.name && put == number)
            };
            field.outside().iter().all(of_field)
        });
        tally.check(&format!("all numbers out of range from {start}"), has_all);
    }
}
