//! Reading and writing messages of 20 bytes.

use crate::board::Board;
use crate::limits::{HIGHEST_SCORE, LAST_TICK, LAST_TOPIC, MESSAGE_LENGTH};
use crate::refusal::Refusal;

const MARK: &[u8; 3] = b"DTR";
pub const VERSION: u32 = 1;

#[derive(Clone, Copy, Debug, PartialEq, Eq)]
pub enum Message {
    Board(Board),
    Request { topic: u32, id: u32, score: u32 },
    Open,
    Clock { target: u32 },
}

/// Reads the message at the front and hands on what follows its twentieth byte.
pub fn read(buffer: &[u8]) -> Result<(Message, &[u8]), Refusal> {
    if buffer.len() < MESSAGE_LENGTH {
        return Err(Refusal::Short);
    }
    let (front, rest) = buffer.split_at(MESSAGE_LENGTH);
    if &front[0..3] != MARK {
        return Err(Refusal::Mark);
    }
    if number(&front[3..5]) != VERSION {
        return Err(Refusal::Version);
    }
    let kind = front[5];
    if !(1..=4).contains(&kind) {
        return Err(Refusal::Kind);
    }
    if !has_its_zeros(kind, front) {
        return Err(Refusal::NotZero);
    }
    let message = fields(kind, front);
    if !is_in_range(&message) {
        return Err(Refusal::Range);
    }
    Ok((message, rest))
}

/// The twenty bytes of a message; its fields may be out of range.
pub fn bytes(message: &Message) -> [u8; MESSAGE_LENGTH] {
    let (kind, byte_6, first, second, third) = match *message {
        Message::Board(board) => (1, board.mask, board.window, board.slide, board.k),
        Message::Request { topic, id, score } => (2, topic, id, score, 0),
        Message::Open => (3, 0, 0, 0, 0),
        Message::Clock { target } => (4, 0, target, 0, 0),
    };
    let mut bytes = [0; MESSAGE_LENGTH];
    bytes[0..3].copy_from_slice(MARK);
    bytes[4] = VERSION as u8;
    bytes[5] = kind;
    bytes[6] = byte_6 as u8;
    bytes[8..12].copy_from_slice(&first.to_be_bytes());
    bytes[12..16].copy_from_slice(&second.to_be_bytes());
    bytes[16..20].copy_from_slice(&third.to_be_bytes());
    bytes
}

fn number(big_endian: &[u8]) -> u32 {
    big_endian
        .iter()
        .fold(0, |number, &byte| number << 8 | u32::from(byte))
}

fn has_its_zeros(kind: u8, front: &[u8]) -> bool {
    let is_zero = |part: &[u8]| part.iter().all(|&byte| byte == 0);
    match kind {
        1 => is_zero(&front[7..8]),
        2 => is_zero(&front[7..8]) && is_zero(&front[16..20]),
        3 => is_zero(&front[6..20]),
        _ => is_zero(&front[6..8]) && is_zero(&front[12..20]),
    }
}

fn fields(kind: u8, front: &[u8]) -> Message {
    let byte_6 = u32::from(front[6]);
    let first = number(&front[8..12]);
    let second = number(&front[12..16]);
    let third = number(&front[16..20]);
    match kind {
        1 => Message::Board(Board {
            mask: byte_6,
            window: first,
            slide: second,
            k: third,
        }),
        2 => Message::Request {
            topic: byte_6,
            id: first,
            score: second,
        },
        3 => Message::Open,
        _ => Message::Clock { target: first },
    }
}

pub fn is_in_range(message: &Message) -> bool {
    match *message {
        Message::Board(board) => board.is_in_range(),
        Message::Request { topic, score, .. } => is_request_in_range(topic, score),
        Message::Open => true,
        Message::Clock { target } => target <= LAST_TICK,
    }
}

pub fn is_request_in_range(topic: u32, score: u32) -> bool {
    topic <= LAST_TOPIC && score <= HIGHEST_SCORE
}
