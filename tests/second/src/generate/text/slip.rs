//! A line that is not of document 01's form, as the first, a middle or the last
//! line of a text. Seeds in a row go through all slips at all three places.

use super::lines::{self, line, Words};
use crate::generate::random::Random;
use crate::message::{self, Message};

/// How the words of a sound line are made into a line that is not of the form.
#[derive(Clone, Copy)]
pub enum Slip {
    /// Something else than one space stands between two words.
    Between(&'static [u8]),
    /// The line begins with this.
    Begin(&'static [u8]),
    /// The line ends with this and not with a line feed alone.
    End(&'static [u8]),
    /// A word has this before it.
    Before(&'static [u8]),
    /// A word has this behind it.
    Behind(&'static [u8]),
    /// This stands for a line.
    Line(&'static [u8]),
    /// This is the version, or the kind.
    Version(&'static str),
    Kind(&'static str),
    /// Some other way.
    Drawn(fn(&mut Random, Words) -> Vec<u8>),
}

/// The slips, each with its name. Unknown versions and kinds are often known
/// ones if their high bits are lost.
pub const SLIPS: &[(&str, Slip)] = &[
    ("a tab for a space", Slip::Between(b"\t")),
    ("two spaces", Slip::Between(b"  ")),
    ("version 2^32 + 1", Slip::Version("4294967297")),
    ("15 before 6", Slip::Drawn(out_of_range_too)),
    ("kind 5", Slip::Kind("5")),
    ("a field too few", Slip::Drawn(one_too_few)),
    ("a field too many", Slip::Drawn(one_too_many)),
    ("a carriage return", Slip::End(b"\r\n")),
    ("a minus sign", Slip::Before(b"-")),
    ("a plus sign", Slip::Before(b"+")),
    ("a hexadecimal number", Slip::Before(b"0x")),
    ("a decimal point", Slip::Behind(b".0")),
    ("a power of ten", Slip::Behind(b"e0")),
    ("an underline", Slip::Behind(b"_000")),
    ("a comma for a space", Slip::Between(b",")),
    ("a comma and a space", Slip::Between(b", ")),
    ("a space of UTF-8", Slip::Between(b"\xc2\xa0")),
    ("a leading space", Slip::Begin(b" ")),
    ("a leading mark of UTF-8", Slip::Begin(b"\xef\xbb\xbf")),
    ("a trailing space", Slip::End(b" \n")),
    ("a trailing tab", Slip::End(b"\t\n")),
    ("a trailing NUL", Slip::End(b"\0\n")),
    ("a comment", Slip::End(b" # at noon\n")),
    ("a carriage return for a line feed", Slip::End(b"\r")),
    ("a NUL for a line feed", Slip::End(b"\0")),
    ("an empty line", Slip::Line(b"\n")),
    ("a space alone", Slip::Line(b" \n")),
    ("a carriage return alone", Slip::Line(b"\r\n")),
    ("a word", Slip::Line(b"open\n")),
    ("a message of 20 bytes", Slip::Drawn(bytes)),
    ("a byte beside the digits", Slip::Drawn(beside_the_digits)),
    ("a byte above 127", Slip::Drawn(above_127)),
    ("a byte of no number", Slip::Drawn(no_number)),
    ("another kind's fields", Slip::Drawn(another_kind)),
    ("version 0", Slip::Version("0")),
    ("version 2", Slip::Version("2")),
    ("version 2^8 + 1", Slip::Version("257")),
    ("version 2^16 + 1", Slip::Version("65537")),
    ("version 2^64 + 1", Slip::Version("18446744073709551617")),
    (
        "version 10^40",
        Slip::Version("10000000000000000000000000000000000000000"),
    ),
    ("kind 0", Slip::Kind("0")),
    ("kind 8", Slip::Kind("8")),
    ("kind 10", Slip::Kind("10")),
    ("kind 2^8 + 4", Slip::Kind("260")),
    ("kind 2^16 + 3", Slip::Kind("65539")),
    ("kind 2^32 + 3", Slip::Kind("4294967299")),
    ("kind 2^64 + 1", Slip::Kind("18446744073709551617")),
];

impl Slip {
    pub fn line(self, random: &mut Random, mut words: Words) -> Vec<u8> {
        match self {
            Slip::Between(other) => {
                let place = random.between(1, words.len() as u32 - 1) as usize;
                let (front, back) = words.split_at(place);
                [&front.join(&b' ')[..], other, &line(back)].concat()
            }
            Slip::Begin(begin) => [begin, &line(&words)].concat(),
            Slip::End(end) => [&words.join(&b' ')[..], end].concat(),
            Slip::Before(sign) => {
                any_word(random, &mut words).splice(..0, sign.iter().copied());
                line(&words)
            }
            Slip::Behind(sign) => {
                any_word(random, &mut words).extend(sign);
                line(&words)
            }
            Slip::Line(line) => line.to_vec(),
            Slip::Version(version) => {
                words[0] = version.as_bytes().to_vec();
                line(&words)
            }
            Slip::Kind(kind) => {
                words[1] = kind.as_bytes().to_vec();
                line(&words)
            }
            Slip::Drawn(draw) => draw(random, words),
        }
    }
}

/// Where a slip stands in its text.
#[derive(Clone, Copy, Debug, PartialEq, Eq)]
pub enum Place {
    First,
    Middle,
    Last,
}

pub const PLACES: [Place; 3] = [Place::First, Place::Middle, Place::Last];

/// Every so many texts one has no slip but its last line feed missing.
const UNENDED: u64 = 9;

pub fn slip(seed: u64, mut random: Random) -> Vec<u8> {
    match chosen(seed) {
        None => unended(&mut random),
        Some((slip, place)) => with_slip(&mut random, SLIPS[slip].1, place).0,
    }
}

/// The number and the place of a seed's slip, if it has one: places change from
/// slip to slip, and for a slip from round to round.
pub fn chosen(seed: u64) -> Option<(usize, Place)> {
    if seed % UNENDED == UNENDED - 1 {
        return None;
    }
    let number = (seed - seed / UNENDED) as usize;
    let (slip, round) = (number % SLIPS.len(), number / SLIPS.len());
    Some((slip, PLACES[(slip + round) % PLACES.len()]))
}

/// A text with a slip, and the slip's line.
pub fn with_slip(random: &mut Random, slip: Slip, place: Place) -> (Vec<u8>, usize) {
    let before = match place {
        Place::First => 0,
        _ => random.pick(&[1, 2, 7, 40, 700]),
    };
    let mut text = lines::some(random, before);
    let words = lines::words(random);
    text.extend(slip.line(random, words));
    if place != Place::Last {
        let after = random.between(1, 9);
        // What comes behind a refused line is not looked at.
        if random.percent(30) {
            text.extend(b"1 2 8 0 0\n");
        }
        text.extend(lines::some(random, after));
    }
    (text, before as usize)
}

/// A text whose last line has no line feed. The line is sound, or out of range,
/// or a part of one.
pub fn unended(random: &mut Random) -> Vec<u8> {
    let before = random.pick(&[0, 1, 5, 100]);
    let mut text = lines::some(random, before);
    let sound = lines::line(&lines::words(random));
    let sound = &sound[..sound.len() - 1];
    let part = random.between(1, sound.len() as u32) as usize;
    text.extend(random.pick(&[sound, sound, &sound[..part], b"1 2 8 0 0", b" ", b"1"]));
    text
}

fn any_word<'a>(random: &mut Random, words: &'a mut Words) -> &'a mut Vec<u8> {
    let place = random.between(0, words.len() as u32 - 1) as usize;
    &mut words[place]
}

/// A byte goes somewhere into a word, or takes a digit's place.
fn byte_in(random: &mut Random, mut words: Words, byte: u8) -> Vec<u8> {
    let word = any_word(random, &mut words);
    let place = random.between(0, word.len() as u32 - 1) as usize;
    let end = place + random.between(0, 1) as usize;
    word.splice(place..end, [byte]);
    line(&words)
}

fn beside_the_digits(random: &mut Random, words: Words) -> Vec<u8> {
    // The last three are digits with one bit altered.
    let byte = random.pick(&[b'/', b':', b'0' ^ 0x20, b'1' ^ 0x40, b'1' ^ 0x80]);
    byte_in(random, words, byte)
}

fn above_127(random: &mut Random, words: Words) -> Vec<u8> {
    let byte = random.between(128, 255) as u8;
    byte_in(random, words, byte)
}

fn no_number(random: &mut Random, words: Words) -> Vec<u8> {
    let mut byte = random.byte();
    while byte.is_ascii_digit() || byte == b' ' || byte == b'\n' {
        byte = random.byte();
    }
    byte_in(random, words, byte)
}

fn one_too_few(_: &mut Random, words: Words) -> Vec<u8> {
    line(&words[..words.len() - 1])
}

fn one_too_many(random: &mut Random, mut words: Words) -> Vec<u8> {
    words.push(
        random
            .pick(&[&b"0"[..], b"1", b"000", b"4294967296"])
            .to_vec(),
    );
    line(&words)
}

/// No two kinds have as many fields.
fn another_kind(random: &mut Random, mut words: Words) -> Vec<u8> {
    let kind = words[1][words[1].len() - 1] - b'0';
    let other = (kind - 1 + random.between(1, 3) as u8) % 4 + 1;
    words[1] = other.to_string().into_bytes();
    line(&words)
}

/// A request of topic 8 or an id that no 32 bits hold, and behind it, or before
/// it, what is no line: that comes first.
fn out_of_range_too(random: &mut Random, _: Words) -> Vec<u8> {
    random
        .pick(&[
            &b"1 2 8 1 10 \n"[..],
            b"1 2 8 1 10 0\n",
            b"1 2 8 1\n",
            b"1 2 0 4294967296 -1\n",
            b"1 2 0 4294967296\n",
            b"1 2 +0 4294967296 1\n",
            b"1 1 256 0 86401 257\r\n",
            b"1 1 256 0 86401\n",
            b"2 4 1000000001\n",
            b"1 5 1000000001\n",
            b"1 3 4294967296\n",
            b"1 4 18446744073709551616\t\n",
        ])
        .to_vec()
}

/// What a byte editor would have written.
fn bytes(random: &mut Random, _: Words) -> Vec<u8> {
    let target = random.between(0, 9);
    let message = message::bytes(&Message::Clock { target });
    [&message[..], b"\n"].concat()
}
