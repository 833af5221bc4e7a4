//! Boards drawn for the files.

use super::random::Random;
use super::sheet::Sheet;
use crate::board::Board;
use crate::limits::{LAST_MASK, MOST_K, MOST_TICKS};
use crate::message::Message;

pub fn mask(random: &mut Random) -> u32 {
    match random.between(0, 4) {
        0 => 0,
        1 => 1 << random.between(0, 7),
        2 => LAST_MASK,
        _ => random.between(0, LAST_MASK),
    }
}

/// A board of small numbers, its windows and slides scaled up by some ticks.
pub fn small(random: &mut Random, scale: u32) -> Board {
    let longest_window = random.pick(&[6, 20, 80]);
    let longest_slide = random.pick(&[3, 9, 30]);
    let highest_k = random.pick(&[1, 3, 8, 8, 40]);
    let window = random.between(1, longest_window) * scale - random.between(0, scale / 2);
    let slide = random.between(1, longest_slide) * scale - random.between(0, scale / 2);
    Board {
        mask: mask(random),
        window: window.min(MOST_TICKS),
        slide: slide.min(MOST_TICKS),
        k: random.between(1, highest_k),
    }
}

/// Loads so many small boards, as far as their needs fit.
pub fn load_small(sheet: &mut Sheet, boards: u32, scale: u32) {
    for _ in 0..boards {
        let mut board = small(&mut sheet.random, scale);
        if !sheet.board_fits(&board) {
            board.k = 1;
            board.slide = board.slide.max(board.window);
        }
        if sheet.board_fits(&board) {
            sheet.message(Message::Board(board));
        }
    }
}

/// A board of exactly this need, if k can divide it: the window is often no
/// multiple of the slide, and is below it where the need is k itself.
pub fn of_need(random: &mut Random, need: u32, longest_slide: u32) -> Option<Board> {
    let divisors: Vec<u32> = (1..=need.min(MOST_K))
        .filter(|k| need.is_multiple_of(*k) && need / k <= MOST_TICKS)
        .collect();
    if divisors.is_empty() {
        return None;
    }
    let k = random.pick(&divisors);
    let slides_in_window = need / k;
    let slide = random
        .between(1, longest_slide)
        .min(MOST_TICKS / slides_in_window);
    let wanting = random.between(0, slide - 1);
    Some(Board {
        mask: mask(random),
        window: slides_in_window * slide - wanting,
        slide,
        k,
    })
}
