//! The message file being written, beside a desk that takes the same messages:
//! so a generator knows the clock and how much its file will print.

use super::random::Random;
use crate::board::Board;
use crate::console;
use crate::desk::Desk;
use crate::limits::{LAST_TICK, MESSAGE_LENGTH, MOST_BOARDS, MOST_NEEDS};
use crate::message::{self, Message};
use crate::rules::Rules;

pub type Piece = [u8; MESSAGE_LENGTH];

pub struct Sheet {
    pub random: Random,
    pub desk: Desk,
    bytes: Vec<u8>,
    /// How many lines of answers the rest of the file may still print.
    lines_left: u64,
}

impl Sheet {
    pub fn new(random: Random, lines: u64) -> Sheet {
        Sheet {
            random,
            desk: Desk::fresh(Rules::sound()),
            bytes: Vec::new(),
            lines_left: lines,
        }
    }

    pub fn finish(self) -> Vec<u8> {
        self.bytes
    }

    pub fn message(&mut self, message: Message) {
        self.piece(message::bytes(&message));
    }

    /// Writes twenty bytes, unless they would step further than the file may print.
    pub fn piece(&mut self, piece: Piece) {
        // Between extra bytes nothing stands where a message is looked for.
        if self.bytes.len().is_multiple_of(MESSAGE_LENGTH) {
            if let Ok((message, _)) = message::read(&piece) {
                if let Message::Clock { target } = message {
                    let lines = self.lines_to(target);
                    if lines > self.lines_left {
                        return;
                    }
                    self.lines_left -= lines;
                }
                // A refusal is as welcome here as an acceptance.
                let _ = console::take(message, &mut self.desk);
            }
        }
        self.bytes.extend_from_slice(&piece);
    }

    /// Writes bytes of any number, without a look at what they say.
    pub fn extra(&mut self, bytes: &[u8]) {
        self.bytes.extend_from_slice(bytes);
    }

    /// How many bytes are wanting until the next message is looked for.
    pub fn bytes_to_next_place(&self) -> usize {
        (MESSAGE_LENGTH - self.bytes.len() % MESSAGE_LENGTH) % MESSAGE_LENGTH
    }

    /// Steps so many ticks on, or fewer if that would print too much.
    pub fn step_by(&mut self, ticks: u32) {
        let clock = self.desk.clock();
        let mut ticks = ticks.min(LAST_TICK - clock);
        while ticks > 0 && self.lines_to(clock + ticks) > self.lines_left {
            ticks /= 2;
        }
        self.message(Message::Clock {
            target: clock + ticks,
        });
    }

    pub fn board_fits(&self, board: &Board) -> bool {
        board.is_in_range()
            && self.desk.boards().len() < MOST_BOARDS
            && self.desk.need(board) <= self.needs_left()
    }

    pub fn needs_left(&self) -> u64 {
        MOST_NEEDS - self.desk.sum_of_needs()
    }

    /// At most so many lines of answers come from a step to the target.
    fn lines_to(&self, target: u32) -> u64 {
        if !self.desk.is_open() || target <= self.desk.clock() {
            return 0;
        }
        let accepted = self.desk.accepted() as u64;
        let lines_of = |board: &Board| {
            let moments = target / board.slide - self.desk.clock() / board.slide;
            u64::from(moments) * (1 + accepted.min(u64::from(board.k)))
        };
        self.desk.boards().iter().map(lines_of).sum()
    }
}
