//! Sound lines: all kinds, both ends of every range, leading zeros.

use crate::board::Board;
use crate::generate::random::Random;
use crate::generate::{generate, Kind};
use crate::limits::{HIGHEST_SCORE, LAST_MASK, LAST_TICK, LAST_TOPIC, MOST_K, MOST_TICKS};
use crate::message::Message;
use crate::text;

/// The numbers of a line, as written.
pub type Words = Vec<Vec<u8>>;

/// Seed 0 is document 01's own input as text, seed 1 is empty.
pub fn lines(seed: u64, mut random: Random) -> Vec<u8> {
    match seed {
        0 => text::to_text(&generate(Kind::Lesson, 0)).output,
        1 => Vec::new(),
        _ => {
            let count = random.pick(&[1, 2, 5, 30, 30, 300]);
            some(&mut random, count)
        }
    }
}

/// So many sound lines.
pub fn some(random: &mut Random, count: u32) -> Vec<u8> {
    (0..count).flat_map(|_| line(&words(random))).collect()
}

/// One space between, a line feed after.
pub fn line(words: &[Vec<u8>]) -> Vec<u8> {
    let mut line = words.join(&b' ');
    line.push(b'\n');
    line
}

/// The words of a sound line.
pub fn words(random: &mut Random) -> Words {
    let mut words = words_of(&message(random));
    for word in &mut words {
        if random.percent(15) {
            let zeros = random.pick(&[1, 1, 2, 3, 10, 25, 300]);
            add_zeros(word, zeros);
        }
    }
    words
}

pub fn words_of(message: &Message) -> Words {
    text::line(message)
        .trim_end()
        .split(' ')
        .map(|word| word.as_bytes().to_vec())
        .collect()
}

pub fn add_zeros(word: &mut Vec<u8>, zeros: usize) {
    word.splice(..0, vec![b'0'; zeros]);
}

pub fn message(random: &mut Random) -> Message {
    match random.between(1, 7) {
        1 | 2 => Message::Board(Board {
            mask: number(random, 0, LAST_MASK),
            window: number(random, 1, MOST_TICKS),
            slide: number(random, 1, MOST_TICKS),
            k: number(random, 1, MOST_K),
        }),
        3 => Message::Open,
        4 | 5 => Message::Clock {
            target: number(random, 0, LAST_TICK),
        },
        _ => Message::Request {
            topic: number(random, 0, LAST_TOPIC),
            id: number(random, 0, u32::MAX),
            score: number(random, 0, HIGHEST_SCORE),
        },
    }
}

/// Often an end of the range, or beside it; often of few digits.
fn number(random: &mut Random, low: u32, high: u32) -> u32 {
    let any = random.between(low, high);
    let small = random.between(low, high.min(99));
    random.pick(&[low, low + 1, high - 1, high, small, small, any, any])
}
