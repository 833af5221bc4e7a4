//! Lessons with damaged, misplaced, early and late messages.

use super::boards;
use super::course::Course;
use super::random::Random;
use super::sheet::{Piece, Sheet};
use crate::limits::{
    HIGHEST_SCORE, LAST_TICK, LAST_TOPIC, MESSAGE_LENGTH, MOST_BOARDS, MOST_K, MOST_TICKS,
};
use crate::message::{self, Message};

const LINES: u64 = 20_000;

pub fn damage(seed: u64, random: Random) -> Vec<u8> {
    let mut sheet = Sheet::new(random, LINES);
    if seed == 0 {
        return sheet.finish();
    }
    let mut course = Course::draw(&mut sheet.random, 1);
    let share = sheet.random.pick(&[5, 20, 50, 90]);
    if sheet.random.percent(60) {
        // No board is loaded yet, so this is refused.
        sheet.message(Message::Open);
    }
    load(&mut sheet, &mut course, share);
    sheet.message(Message::Open);
    let messages = sheet.random.between(20, 250);
    for _ in 0..messages {
        if sheet.random.percent(share) {
            something_wrong(&mut sheet, &mut course);
        } else {
            course.play_one(&mut sheet);
        }
    }
    if sheet.random.percent(60) {
        short_piece(&mut sheet, &mut course);
    }
    sheet.finish()
}

/// Loads boards: a few, or more than 32, or ones whose needs pass 1,024.
fn load(sheet: &mut Sheet, course: &mut Course, share: u32) {
    let most = MOST_BOARDS as u32;
    let (count, needs) = match sheet.random.between(0, 3) {
        0 => (sheet.random.between(most - 1, most + 4), (1, 30)),
        1 => (sheet.random.between(3, 14), (100, 600)),
        _ => (sheet.random.between(1, 6), (1, 60)),
    };
    for _ in 0..count {
        if sheet.random.percent(share) {
            something_wrong(sheet, course);
        }
        let need = sheet.random.between(needs.0, needs.1);
        if let Some(board) = boards::of_need(&mut sheet.random, need, 9) {
            sheet.message(Message::Board(board));
        }
    }
}

fn something_wrong(sheet: &mut Sheet, course: &mut Course) {
    match sheet.random.between(0, 9) {
        0..=5 => {
            let piece = damaged_piece(sheet, course);
            sheet.piece(piece);
        }
        6 | 7 => misplaced(sheet, course),
        8 => extra_bytes(sheet, course),
        _ => {
            let piece = any_piece(&mut sheet.random);
            sheet.piece(piece);
        }
    }
}

/// A sound message of any kind, to be damaged.
fn sound_message(sheet: &mut Sheet, course: &mut Course) -> Message {
    match sheet.random.between(1, 4) {
        1 => Message::Board(boards::small(&mut sheet.random, 1)),
        2 => course.request(&mut sheet.random),
        3 => Message::Open,
        _ => Message::Clock {
            target: sheet.desk.clock() + sheet.random.between(0, 5),
        },
    }
}

/// Several damages at once show the order of the refusals.
pub fn damaged_piece(sheet: &mut Sheet, course: &mut Course) -> Piece {
    let message = sound_message(sheet, course);
    let mut piece = message::bytes(&message);
    let damages = sheet.random.pick(&[1, 1, 1, 2, 3]);
    for _ in 0..damages {
        match sheet.random.between(0, 7) {
            0 => wrong_mark(&mut sheet.random, &mut piece),
            1 => wrong_version(&mut sheet.random, &mut piece),
            2 => wrong_kind(&mut sheet.random, &mut piece),
            3 | 4 => not_zero(&mut sheet.random, &message, &mut piece),
            _ => out_of_range(&mut sheet.random, &message, &mut piece),
        }
    }
    piece
}

fn wrong_mark(random: &mut Random, piece: &mut Piece) {
    match random.between(0, 4) {
        0 => piece[0..3].copy_from_slice(b"dtr"),
        1 => piece[0..3].copy_from_slice(b"RTD"),
        _ => piece[random.between(0, 2) as usize] ^= random.between(1, 255) as u8,
    }
}

fn wrong_version(random: &mut Random, piece: &mut Piece) {
    let version: u16 = match random.between(0, 6) {
        0 => 0,
        1 => 2,
        2 => 256,
        3 => 257,
        4 => u16::MAX,
        _ => random.between(2, u32::from(u16::MAX)) as u16,
    };
    piece[3..5].copy_from_slice(&version.to_be_bytes());
}

/// Another kind among 1 to 4 is a damage too: its zeros lie elsewhere.
fn wrong_kind(random: &mut Random, piece: &mut Piece) {
    piece[5] = match random.between(0, 6) {
        0 => 0,
        1 => 5,
        2 => 6,
        3 => 255,
        4 => random.between(1, 4) as u8,
        _ => random.between(5, 255) as u8,
    };
}

fn not_zero(random: &mut Random, message: &Message, piece: &mut Piece) {
    let places: Vec<usize> = match message {
        Message::Board(_) => vec![7],
        Message::Request { .. } => vec![7, 16, 17, 18, 19],
        Message::Open => (6..MESSAGE_LENGTH).collect(),
        Message::Clock { .. } => [6, 7].into_iter().chain(12..MESSAGE_LENGTH).collect(),
    };
    let byte = random.between(1, 255) as u8;
    piece[random.pick(&places)] = random.pick(&[1, 128, 255, byte]);
}

/// A field out of its range; an open has no field, so one of its zeros goes.
fn out_of_range(random: &mut Random, message: &Message, piece: &mut Piece) {
    let ticks = [0, MOST_TICKS + 1, u32::MAX, 1 << 31];
    let (place, number) = match message {
        Message::Board(_) => match random.between(0, 2) {
            0 => (8, random.pick(&ticks)),
            1 => (12, random.pick(&ticks)),
            _ => (16, random.pick(&[0, MOST_K + 1, u32::MAX, 65_536 + 1])),
        },
        Message::Request { .. } => {
            if random.percent(50) {
                let topic = random.between(LAST_TOPIC + 1, 255);
                piece[6] = random.pick(&[LAST_TOPIC + 1, 255, topic]) as u8;
                return;
            }
            let beyond = random.between(HIGHEST_SCORE + 1, u32::MAX);
            (12, random.pick(&[HIGHEST_SCORE + 1, u32::MAX, beyond]))
        }
        Message::Clock { .. } => {
            let beyond = random.between(LAST_TICK + 1, u32::MAX);
            (8, random.pick(&[LAST_TICK + 1, u32::MAX, beyond]))
        }
        Message::Open => return not_zero(random, message, piece),
    };
    piece[place..place + 4].copy_from_slice(&number.to_be_bytes());
}

/// A sound message at a wrong time: which ones are wrong depends on the phase.
fn misplaced(sheet: &mut Sheet, course: &mut Course) {
    if !sheet.desk.is_open() {
        let message = if sheet.random.percent(50) {
            course.request(&mut sheet.random)
        } else {
            let target = sheet.random.pick(&[0, 1, 5, LAST_TICK]);
            Message::Clock { target }
        };
        sheet.message(message);
        return;
    }
    let clock = sheet.desk.clock();
    let message = match sheet.random.between(0, 3) {
        0 => Message::Open,
        1 => Message::Board(boards::small(&mut sheet.random, 1)),
        _ => {
            let below = sheet.random.between(0, clock);
            Message::Clock {
                target: sheet.random.pick(&[0, clock.saturating_sub(1), below]),
            }
        }
    };
    sheet.message(message);
}

/// Extra bytes make later messages unreadable until others fill the place up.
fn extra_bytes(sheet: &mut Sheet, course: &mut Course) {
    for _ in 0..sheet.random.between(1, MESSAGE_LENGTH as u32 - 1) {
        let byte = sheet.random.byte();
        sheet.extra(&[byte]);
    }
    for _ in 0..sheet.random.between(0, 3) {
        let lost = sound_message(sheet, course);
        sheet.message(lost);
    }
    for _ in 0..sheet.bytes_to_next_place() {
        let byte = sheet.random.byte();
        sheet.extra(&[byte]);
    }
}

/// Twenty bytes of no meaning, or with no more than a sound front.
fn any_piece(random: &mut Random) -> Piece {
    let mut piece: Piece = match random.between(0, 2) {
        0 => [0; MESSAGE_LENGTH],
        1 => [255; MESSAGE_LENGTH],
        _ => std::array::from_fn(|_| random.byte()),
    };
    let sound = message::bytes(&Message::Open);
    let front = random.between(0, 6) as usize;
    piece[..front].copy_from_slice(&sound[..front]);
    piece
}

/// A last piece of 1 to 19 bytes, often the front of a sound message.
fn short_piece(sheet: &mut Sheet, course: &mut Course) {
    let message = sound_message(sheet, course);
    let length = sheet.random.between(1, MESSAGE_LENGTH as u32 - 1) as usize;
    if sheet.random.percent(70) {
        sheet.extra(&message::bytes(&message)[..length]);
    } else {
        let piece = any_piece(&mut sheet.random);
        sheet.extra(&piece[..length]);
    }
}
