//! Sound lessons: several overlapping boards, ties, repeated ids, many requests
//! in one tick, many steps.

use super::boards;
use super::course::Course;
use super::random::Random;
use super::sheet::Sheet;
use crate::board::Board;
use crate::message::Message;

const LINES: u64 = 40_000;

pub fn lesson(seed: u64, random: Random) -> Vec<u8> {
    let mut sheet = Sheet::new(random, LINES);
    if seed == 0 {
        document_01(&mut sheet);
        return sheet.finish();
    }
    let scale = sheet.random.pick(&[1, 1, 1, 10, 1_000]);
    let count = sheet.random.between(1, 12);
    boards::load_small(&mut sheet, count, scale);
    sheet.message(Message::Open);
    let mut course = Course::draw(&mut sheet.random, scale);
    let messages = sheet.random.between(20, 400);
    course.play(&mut sheet, messages);
    sheet.finish()
}

/// Document 01's own input.
fn document_01(sheet: &mut Sheet) {
    let board = |window, slide, k| {
        Message::Board(Board {
            mask: 1,
            window,
            slide,
            k,
        })
    };
    let request = |topic, id, score| Message::Request { topic, id, score };
    for message in [
        board(8, 4, 1),
        board(7, 3, 2),
        Message::Open,
        request(0, 1, 10),
        request(0, 2, 20),
        request(1, 3, 99),
        Message::Clock { target: 6 },
        Message::Clock { target: 5 },
    ] {
        sheet.message(message);
    }
}
