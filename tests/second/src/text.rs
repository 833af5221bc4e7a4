//! Messages written as text, a line for each.

use crate::board::Board;
use crate::limits::MESSAGE_LENGTH;
use crate::message::{self, Message, VERSION};
use crate::outcome::Outcome;
use crate::refusal::Refusal;
use crate::rules::Rules;

/// A refusal with its place: lines, or messages, counted from 0.
pub type Refused = (usize, Refusal);

/// What a text says: the messages of its lines up to the first refused one.
pub struct Reading {
    pub messages: Vec<Message>,
    pub refused: Option<Refused>,
}

/// Reads a text line by line.
pub fn read(text: &[u8], rules: Rules) -> Reading {
    let mut messages = Vec::new();
    let mut refused = None;
    for (place, line) in text.split_inclusive(|&byte| byte == b'\n').enumerate() {
        match read_line(line, rules) {
            Ok(message) => messages.push(message),
            Err(refusal) => {
                refused = refused.or(Some((place, refusal)));
                if rules.stops_at_a_refusal() {
                    break;
                }
            }
        }
    }
    Reading { messages, refused }
}

/// Reads one line with its line feed: its form first, then its numbers' ranges.
fn read_line(line: &[u8], rules: Rules) -> Result<Message, Refusal> {
    let line = match line.strip_suffix(b"\n") {
        Some(line) => line,
        None if rules.takes_no_line_feed_at_the_end() => line,
        None => return Err(Refusal::NotALine),
    };
    let words = rules.words(line);
    if !words.iter().all(|word| rules.is_decimal(word)) {
        return Err(Refusal::NotALine);
    }
    let numbers: Vec<u64> = words.iter().map(|word| rules.number(word)).collect();
    let fits = |&number: &u64| u32::try_from(number).is_ok();
    if !rules.asks_for_form_first() && !numbers.iter().all(fits) {
        return Err(Refusal::Range);
    }
    let [version, kind, fields @ ..] = &numbers[..] else {
        return Err(Refusal::NotALine);
    };
    if *version != u64::from(VERSION) {
        return Err(rules.unknown(Refusal::Version));
    }
    let message = of_fields(*kind, fields, rules)?;
    if !message::is_in_range(&message) {
        return Err(Refusal::Range);
    }
    Ok(message)
}

/// The message of a kind and its fields, which are in byte order and as many as
/// the kind has. A field that no 32 bits hold is out of range in any kind.
fn of_fields(kind: u64, fields: &[u64], rules: Rules) -> Result<Message, Refusal> {
    let field = |number: u64| u32::try_from(number).map_err(|_| Refusal::Range);
    match (kind, fields) {
        (1, &[mask, window, slide, k]) => Ok(Message::Board(Board {
            mask: field(mask)?,
            window: field(window)?,
            slide: field(slide)?,
            k: field(k)?,
        })),
        (2, &[topic, id, score]) => Ok(Message::Request {
            topic: field(topic)?,
            id: field(id)?,
            score: field(score)?,
        }),
        (3, []) => Ok(Message::Open),
        (4, &[target]) => Ok(Message::Clock {
            target: field(target)?,
        }),
        (1..=4, _) => Err(Refusal::NotALine),
        _ => Err(rules.unknown(Refusal::Kind)),
    }
}

/// A message as text, without leading zeros.
pub fn line(message: &Message) -> String {
    let own = match *message {
        Message::Board(board) => {
            let Board {
                mask,
                window,
                slide,
                k,
            } = board;
            format!("1 {mask} {window} {slide} {k}")
        }
        Message::Request { topic, id, score } => format!("2 {topic} {id} {score}"),
        Message::Open => String::from("3"),
        Message::Clock { target } => format!("4 {target}"),
    };
    format!("{VERSION} {own}\n")
}

/// The program that turns a text into a message file.
pub fn from_text(text: &[u8], rules: Rules) -> Outcome {
    let Reading { messages, refused } = read(text, rules);
    let output = messages.iter().flat_map(message::bytes).collect();
    until_refused(output, refused)
}

/// The program that turns a message file into a text.
pub fn to_text(file: &[u8]) -> Outcome {
    let mut output = Vec::new();
    let mut refused = None;
    for (place, piece) in file.chunks(MESSAGE_LENGTH).enumerate() {
        match message::read(piece) {
            Ok((message, _)) => output.extend_from_slice(line(&message).as_bytes()),
            Err(refusal) => {
                refused = Some((place, refusal));
                break;
            }
        }
    }
    until_refused(output, refused)
}

/// The product of a program that stops at its first refusal, which it names on
/// standard error.
fn until_refused(output: Vec<u8>, refused: Option<Refused>) -> Outcome {
    match refused {
        None => Outcome::sound(output),
        Some((place, refusal)) => Outcome {
            output,
            errors: format!("refused {place} {}\n", refusal.number()).into_bytes(),
            status: Some(1),
        },
    }
}
