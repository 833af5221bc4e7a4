//! The desk: document 01's example and edges, the refusals, the faults.

use super::{faults, files, Tally};
use crate::board::Board;
use crate::compare::Task;
use crate::console;
use crate::desk::{Desk, Step};
use crate::generate::{generate, Kind};
use crate::limits::{LAST_TICK, REPLY_LENGTH};
use crate::message::{self, Message};
use crate::refusal::Refusal;
use crate::request::Request;
use crate::rules::Rules;

/// How many generated files a fault has to show in.
const FILES: u64 = 64;

const DOCUMENT_01: &str = "\
answer 3 1 2
2 20 0
1 10 0
answer 4 0 1
2 20 0
answer 6 1 2
2 20 0
1 10 0
refused 7 11
held 1
";

pub fn run(tally: &mut Tally) {
    example(tally);
    definitions(tally);
    lists(tally);
    calls(tally);
    reader(tally);
    generated(tally);
}

fn board(window: u32, slide: u32, k: u32) -> Board {
    Board {
        mask: 1,
        window,
        slide,
        k,
    }
}

fn open_desk(boards: &[Board]) -> Desk {
    Desk::open_at(Rules::sound(), 0, boards)
}

/// Steps until the target; false if a step is refused.
fn go(desk: &mut Desk, target: u32) -> bool {
    loop {
        match desk.step(target, REPLY_LENGTH) {
            Ok(step) if step.clock == target => return true,
            Ok(_) => {}
            Err(_) => return false,
        }
    }
}

fn ids(entries: &[Request]) -> Vec<u32> {
    entries.iter().map(|entry| entry.id).collect()
}

fn example(tally: &mut Tally) {
    let output = console::output(&generate(Kind::Lesson, 0), Rules::sound());
    tally.check("document 01's example", output == DOCUMENT_01.as_bytes());
    let empty = console::output(&generate(Kind::Damage, 0), Rules::sound());
    tally.check("empty input", empty == b"held 0\n");
    let short = console::output(b"DTR", Rules::sound());
    tally.check("short input", short == b"refused 0 1\nheld 0\n");
}

fn definitions(tally: &mut Tally) {
    let rules = Rules::sound();
    tally.check("E1 (8, 4, 1)", rules.need(8, 4, 1) == 2);
    tally.check("E1 (7, 3, 2)", rules.need(7, 3, 2) == 6);
    tally.check("E1 (4, 8, 3)", rules.need(4, 8, 3) == 3);
    let moments: Vec<u32> = board(1, 3, 1).moments(0, 8).collect();
    tally.check("E2", moments == [3, 6]);
    tally.check("E3 tick 3", rules.is_before(3, 4));
    tally.check("E3 tick 4", !rules.is_before(4, 4));
    tally.check("E4 at 8", rules.reaches(0, 8, 8));
    tally.check("E4 at 9", !rules.reaches(0, 8, 9));
    tally.check(
        "mask 0 names all",
        (0..8).all(|topic| rules.names(0, topic)),
    );
    tally.check("mask 2 names topic 1", rules.names(2, 1));
    tally.check("mask 2 names not topic 0", !rules.names(2, 0));
}

fn lists(tally: &mut Tally) {
    let mut desk = open_desk(&[board(4, 4, 1)]);
    let taken = desk.request(0, 7, 5).is_ok() && desk.request(0, 8, 5).is_ok();
    tally.check("E5", taken && ids(&desk.answer(0, 4)) == [7]);

    let mut desk = open_desk(&[board(4, 8, 1)]);
    let taken = go(&mut desk, 3) && desk.request(0, 1, 1).is_ok();
    tally.check("E6 tick 3", taken && desk.list().is_empty());
    let taken = go(&mut desk, 4) && desk.request(0, 2, 1).is_ok();
    tally.check("E6 tick 4", taken && ids(&desk.list()) == [2]);

    let mut desk = open_desk(&[board(8, 4, 1), board(7, 3, 2)]);
    let taken = desk.request(0, 1, 10).is_ok() && desk.request(0, 2, 20).is_ok();
    let shows = |number, moment| ids(&desk.answer(number, moment)).contains(&1);
    tally.check("E7 shown", taken && shows(1, 3) && shows(1, 6));
    tally.check("E7 gap", !shows(0, 4) && !shows(0, 8));

    let mut desk = open_desk(&[board(4, 1, 1)]);
    let taken = desk.request(0, 1, 9).is_ok() && go(&mut desk, 1);
    let taken = taken && desk.request(0, 2, 5).is_ok();
    tally.check("E8", taken && ids(&desk.list()) == [1, 2]);

    for (slide, listed) in [(3, 0), (2, 1)] {
        let mut desk = Desk::open_at(Rules::sound(), LAST_TICK - 1, &[board(3, slide, 1)]);
        let taken = desk.request(0, 1, 1).is_ok();
        let name = format!("E9 slide {slide}");
        tally.check(&name, taken && desk.list().len() == listed);
    }
}

fn calls(tally: &mut Tally) {
    let mut desk = open_desk(&[board(4, 2, 1)]);
    let stays = desk.step(0, 5);
    let nothing_due = Step {
        clock: 0,
        due: Vec::new(),
    };
    tally.check("E10", stays == Ok(nothing_due));
    let short = desk.step(0, 4);
    tally.check("refusal 12", short == Err(Refusal::ReplyTooShort));
    let no_place = desk.place(0).err();
    tally.check("refusal 13", no_place == Some(Refusal::NoSuchPlace));

    let mut desk = Desk::fresh(Rules::sound());
    tally.check("refusal 10", desk.open() == Err(Refusal::NoBoard));
    let too_large = desk.board(board(1, 1, 257));
    tally.check("E12 k 257", too_large == Err(Refusal::Range));
    tally.check("E12 k 256", desk.board(board(4, 1, 256)).is_ok());
    tally.check("E11 needs 1,024", desk.sum_of_needs() == 1_024);
    let one_more = desk.board(board(1, 1, 1));
    tally.check("E11 one more", one_more == Err(Refusal::TooManyNeeds));
    let early = desk.request(0, 0, 0);
    tally.check("early request", early == Err(Refusal::WrongPhase));
    let early = desk.step(0, 0);
    tally.check("early step", early == Err(Refusal::WrongPhase));
    tally.check("open", desk.open().is_ok());
    let late = desk.board(board(1, 1, 1));
    tally.check("late board", late == Err(Refusal::WrongPhase));
    let beyond = desk.step(LAST_TICK + 1, 0);
    tally.check("target beyond", beyond == Err(Refusal::Range));

    let mut desk = Desk::fresh(Rules::sound());
    let loaded = (0..32).all(|_| desk.board(board(1, 1, 1)).is_ok());
    tally.check("32 boards", loaded);
    let one_more = desk.board(board(4, 1, 256));
    tally.check("7 before 8", one_more == Err(Refusal::TooManyBoards));
}

fn reader(tally: &mut Tally) {
    let sound = message::bytes(&Message::Clock { target: 9 });
    let longer = [&sound[..], b"rest"].concat();
    let read = message::read(&longer);
    let expected = (Message::Clock { target: 9 }, &b"rest"[..]);
    tally.check("the rest", read == Ok(expected));
    // Each damage is added to those before it, and comes first in the order.
    let mut piece = sound;
    for (place, byte, refusal) in [
        (8, 255, Refusal::Range),
        (19, 1, Refusal::NotZero),
        (5, 0, Refusal::Kind),
        (3, 1, Refusal::Version),
        (2, 0, Refusal::Mark),
    ] {
        piece[place] = byte;
        let name = format!("reader's refusal {}", refusal.number());
        tally.check(&name, message::read(&piece) == Err(refusal));
    }
    let short = message::read(&piece[..19]);
    tally.check("reader's refusal 1", short == Err(Refusal::Short));
}

/// Every refusal of the console and every fault shows in the first files.
fn generated(tally: &mut Tally) {
    let files = files(Task::Desk, FILES);
    for refusal in 1..=11 {
        let end = format!(" {refusal}");
        let is_shown = files.iter().any(|file| {
            let mut lines = file.outcome.output.split(|&byte| byte == b'\n');
            lines.any(|line| line.starts_with(b"refused") && line.ends_with(end.as_bytes()))
        });
        tally.check(&format!("refusal {refusal} in a file"), is_shown);
    }
    faults(tally, Task::Desk, &files);
}
