//! Lines longer than any buffer, and lines that end beside a power of two.

use super::lines::{self, add_zeros, line, Words};
use crate::generate::random::Random;

pub fn wide(seed: u64, mut random: Random) -> Vec<u8> {
    let before = random.pick(&[0, 1, 20]);
    let mut text = lines::some(&mut random, before);
    let wide = match seed % 8 {
        0 | 1 => return beside_powers(&mut random, text),
        2 => zeros(&mut random),
        3 => digits(&mut random),
        4 => spoilt_at_its_end(&mut random),
        5 => unended(&mut random),
        6 => of_many_words(&mut random),
        _ => unknown(&mut random),
    };
    text.extend(wide);
    let after = random.between(0, 9);
    text.extend(lines::some(&mut random, after));
    text
}

/// The shortest line that is longer than any buffer.
pub const SHORTEST: usize = 150_000;

fn width(random: &mut Random) -> usize {
    SHORTEST + random.between(0, 150_000) as usize
}

fn any_word<'a>(random: &mut Random, words: &'a mut Words, from: usize) -> &'a mut Vec<u8> {
    let place = random.between(from as u32, words.len() as u32 - 1) as usize;
    &mut words[place]
}

/// Sound lines that end at a power of two of bytes from the beginning of the
/// text, or one byte before or behind it.
fn beside_powers(random: &mut Random, mut text: Vec<u8>) -> Vec<u8> {
    for power in 8..=17 {
        let end = (1 << power) + random.between(0, 2) as usize - 1;
        let mut words = lines::words(random);
        let length = text.len() + line(&words).len();
        if length <= end {
            add_zeros(any_word(random, &mut words, 0), end - length);
            text.extend(line(&words));
        }
    }
    // One in two has no line feed there.
    text.truncate(text.len() - random.between(0, 1) as usize);
    text
}

/// A sound line.
fn zeros(random: &mut Random) -> Vec<u8> {
    let mut words = lines::words(random);
    let width = width(random);
    add_zeros(any_word(random, &mut words, 0), width);
    line(&words)
}

/// Out of range, in whatever field; an open has none, and is given one.
fn digits(random: &mut Random) -> Vec<u8> {
    let mut words = lines::words(random);
    if words.len() == 2 {
        words.push(Vec::new());
    }
    let digit = random.between(1, 9) as u8 + b'0';
    let width = width(random);
    *any_word(random, &mut words, 2) = vec![digit; width];
    line(&words)
}

fn spoilt_at_its_end(random: &mut Random) -> Vec<u8> {
    let mut line = zeros(random);
    let end = line.len() - 1;
    line.splice(end..end, [random.pick(&[b'-', b'\r', b' ', b'\t', 0, 255])]);
    line
}

/// Two lines in one, since the line feed between them is missing.
fn unended(random: &mut Random) -> Vec<u8> {
    let mut line = zeros(random);
    line.pop();
    line
}

fn of_many_words(random: &mut Random) -> Vec<u8> {
    let half = width(random) / 2;
    let word = random.pick(&[&b"1 "[..], b"  ", b"1\t"]);
    let mut line = word.repeat(half);
    line.extend(b"1\n");
    line
}

fn unknown(random: &mut Random) -> Vec<u8> {
    let mut words = lines::words(random);
    let place = random.between(0, 1) as usize;
    let digit = random.between(1, 9) as u8 + b'0';
    words[place] = vec![digit; width(random)];
    line(&words)
}
