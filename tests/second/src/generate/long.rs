//! Long runs: 20,000 messages and more, needs near 1,024, some messages damaged.

use super::boards;
use super::course::Course;
use super::damage::damaged_piece;
use super::random::Random;
use super::sheet::Sheet;
use crate::limits::LAST_TOPIC;
use crate::message::Message;

const LINES: u64 = 120_000;

pub fn long(random: Random) -> Vec<u8> {
    let mut sheet = Sheet::new(random, LINES);
    let scale = sheet.random.pick(&[1, 1, 4, 60]);
    load(&mut sheet, scale);
    sheet.message(Message::Open);
    let messages = sheet.random.between(20_000, 24_000);
    let mut course = Course::draw(&mut sheet.random, scale);
    course.last_topic = LAST_TOPIC;
    spread_steps(&sheet, &mut course, messages);
    for _ in 0..messages {
        if sheet.random.percent(1) {
            let piece = damaged_piece(&mut sheet, &mut course);
            sheet.piece(piece);
        } else {
            course.play_one(&mut sheet);
        }
    }
    sheet.finish()
}

/// Boards until a need of at most 3 is left.
fn load(sheet: &mut Sheet, scale: u32) {
    let largest = sheet.random.pick(&[60, 200, 500, 1_024]);
    let left_over = sheet.random.between(0, 3);
    while sheet.needs_left() > u64::from(left_over) {
        let left = sheet.needs_left() as u32 - left_over;
        // The last places go to boards of what is left, so that 32 suffice.
        let need = if left <= largest || sheet.desk.boards().len() > 25 {
            left
        } else {
            sheet.random.between(largest / 3, largest)
        };
        let slide = scale * sheet.random.pick(&[2, 7, 20]);
        match boards::of_need(&mut sheet.random, need, slide) {
            Some(board) if sheet.board_fits(&board) => sheet.message(Message::Board(board)),
            _ => break,
        }
    }
}

/// Makes the steps so long that the lines last for the whole run.
fn spread_steps(sheet: &Sheet, course: &mut Course, messages: u32) {
    let lines_in_a_thousand_ticks: u64 = sheet
        .desk
        .boards()
        .iter()
        .map(|board| 1_000 * (1 + u64::from(board.k)) / u64::from(board.slide))
        .sum();
    let ticks = LINES * 1_000 / lines_in_a_thousand_ticks.max(1);
    let clocks = u64::from(messages * course.clocks / 100).max(1);
    // A step is half the longest one on the average, or a little more.
    let longest = (ticks * 2 / clocks) as u32;
    course.longest_step = longest.max(1);
    course.jump = 3 * course.longest_step;
    if longest == 0 {
        // Fewer clock messages, of one tick each.
        course.clocks = (ticks * 100 / u64::from(messages)).max(1) as u32;
    }
}
