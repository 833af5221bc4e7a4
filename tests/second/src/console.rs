//! The console program. It reads all messages first and answers afterwards, from
//! all requests ever accepted: so the windows' rule alone, and not the order of
//! work, keeps requests of tick T out of the answer at T.

use std::io::{self, Write};

use crate::desk::Desk;
use crate::limits::{MESSAGE_LENGTH, REPLY_LENGTH};
use crate::message::{self, Message};
use crate::refusal::Refusal;
use crate::rules::Rules;

/// What a message leaves to print; an accepted board, open or request leaves nothing.
enum Outcome {
    Refused { place: usize, refusal: Refusal },
    Stepped { from: u32, target: u32 },
}

/// What the console prints for a file.
pub fn output(file: &[u8], rules: Rules) -> Vec<u8> {
    let mut output = Vec::new();
    // Writing to memory does not fail.
    let _ = print(file, rules, &mut output);
    output
}

fn print(input: &[u8], rules: Rules, output: &mut impl Write) -> io::Result<()> {
    let mut desk = Desk::fresh(rules);
    let outcomes = take_all(input, &mut desk);
    for outcome in outcomes {
        match outcome {
            Outcome::Refused { place, refusal } => {
                writeln!(output, "refused {place} {}", refusal.number())?;
            }
            Outcome::Stepped { from, target } => {
                print_answers(&desk, from, target, output)?;
            }
        }
    }
    writeln!(output, "held {}", desk.list().len())
}

/// A last piece shorter than a message is refused by the reader like any other.
fn take_all(input: &[u8], desk: &mut Desk) -> Vec<Outcome> {
    let mut outcomes = Vec::new();
    for (place, piece) in input.chunks(MESSAGE_LENGTH).enumerate() {
        let from = desk.clock();
        match message::read(piece).and_then(|(message, _)| take(message, desk)) {
            Ok(()) if desk.clock() > from => outcomes.push(Outcome::Stepped {
                from,
                target: desk.clock(),
            }),
            Ok(()) => {}
            Err(refusal) => outcomes.push(Outcome::Refused { place, refusal }),
        }
    }
    outcomes
}

/// Hands one message to the desk. Only the first step of a clock message can be
/// refused, for the clock never passes the target.
pub fn take(message: Message, desk: &mut Desk) -> Result<(), Refusal> {
    match message {
        Message::Board(board) => desk.board(board),
        Message::Request { topic, id, score } => desk.request(topic, id, score),
        Message::Open => desk.open(),
        Message::Clock { target } => {
            while desk.step(target, REPLY_LENGTH)?.clock < target {}
            Ok(())
        }
    }
}

fn print_answers(desk: &Desk, from: u32, target: u32, output: &mut impl Write) -> io::Result<()> {
    let mut clock = from;
    while let Some(moment) = desk.next_moment(clock, target) {
        for (number, entries) in desk.answers(moment) {
            writeln!(output, "answer {moment} {number} {}", entries.len())?;
            for entry in entries {
                writeln!(output, "{} {} {}", entry.id, entry.score, entry.tick)?;
            }
        }
        clock = moment;
    }
    Ok(())
}
