//! Tens of thousands of lines, so that every buffer is filled again and again.

use super::lines;
use super::slip::{unended, SLIPS};
use crate::generate::random::Random;

pub fn pages(seed: u64, mut random: Random) -> Vec<u8> {
    let count = random.between(20_000, 90_000);
    let mut text = lines::some(&mut random, count);
    let (_, slip) = random.pick(SLIPS);
    let words = lines::words(&mut random);
    match seed % 4 {
        0 => {}
        1 => text.extend(slip.line(&mut random, words)),
        2 => text.extend(unended(&mut random)),
        _ => {
            text.extend(slip.line(&mut random, words));
            text.extend(lines::some(&mut random, count / 4));
        }
    }
    text
}
