//! Both sides of every range. Seeds in a row go through all fields and all
//! numbers that are out of a field's range.

use super::lines::{self, add_zeros, line, Words};
use crate::generate::random::Random;
use crate::limits::{HIGHEST_SCORE, LAST_MASK, LAST_TICK, LAST_TOPIC, MOST_K, MOST_TICKS};

/// A field: a line that has it, its place among the line's words, its range.
pub struct Field {
    pub name: &'static str,
    line: &'static str,
    word: usize,
    pub low: u32,
    pub high: u32,
}

const fn field(name: &'static str, line: &'static str, word: usize, low: u32, high: u32) -> Field {
    Field {
        name,
        line,
        word,
        low,
        high,
    }
}

pub const FIELDS: [Field; 8] = [
    field("mask", "1 1 1 8 4 1", 2, 0, LAST_MASK),
    field("window", "1 1 1 8 4 1", 3, 1, MOST_TICKS),
    field("slide", "1 1 1 8 4 1", 4, 1, MOST_TICKS),
    field("k", "1 1 1 8 4 1", 5, 1, MOST_K),
    field("topic", "1 2 0 1 10", 2, 0, LAST_TOPIC),
    field("id", "1 2 0 1 10", 3, 0, u32::MAX),
    field("score", "1 2 0 1 10", 4, 0, HIGHEST_SCORE),
    field("target", "1 4 6", 2, 0, LAST_TICK),
];

impl Field {
    /// The field's line with a number put there.
    pub fn words(&self, number: &str) -> Words {
        let mut words: Words = self
            .line
            .split(' ')
            .map(|word| word.as_bytes().to_vec())
            .collect();
        words[self.word] = number.as_bytes().to_vec();
        words
    }

    /// Numbers out of the range: beside it; those that are in it if their high
    /// bits are lost; those that no word holds.
    pub fn outside(&self) -> Vec<String> {
        let (low, high) = (u128::from(self.low), u128::from(self.high));
        let mut numbers = vec![0, high + 1];
        for bits in [8, 16, 32, 64] {
            numbers.extend([1 << bits, (1 << bits) + 1]);
        }
        numbers.push((1 << 32) - 1);
        numbers.retain(|number| !(low..=high).contains(number));
        numbers.sort_unstable();
        numbers.dedup();
        let mut outside: Vec<String> = numbers.iter().map(u128::to_string).collect();
        // 2^128 + 1 and 10^40.
        outside.push(String::from("340282366920938463463374607431768211457"));
        outside.push(format!("1{}", "0".repeat(40)));
        outside
    }
}

/// The field of a seed and the number put there.
pub fn chosen(seed: u64) -> (&'static Field, String) {
    let number = seed as usize;
    let field = &FIELDS[number % FIELDS.len()];
    let mut outside = field.outside();
    let place = number / FIELDS.len() % outside.len();
    (field, outside.swap_remove(place))
}

/// The ends of all ranges, which are accepted, and among them a number that is
/// out of its range.
pub fn range(seed: u64, mut random: Random) -> Vec<u8> {
    let (field, number) = chosen(seed);
    let mut refused = field.words(&number);
    if random.percent(40) {
        let zeros = random.pick(&[1, 7, 40, 5_000]);
        add_zeros(&mut refused[field.word], zeros);
    }
    let mut ends: Vec<Words> = FIELDS
        .iter()
        .flat_map(|field| {
            let Field { low, high, .. } = *field;
            [low, low + 1, high - 1, high].map(|number| field.words(&number.to_string()))
        })
        .collect();
    let place = random.between(0, ends.len() as u32) as usize;
    ends.insert(place, refused);
    let before = random.pick(&[0, 0, 3, 200]);
    let mut text = lines::some(&mut random, before);
    text.extend(ends.iter().flat_map(|words| line(words)));
    text
}
