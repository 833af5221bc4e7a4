//! The rules that a planted fault can alter, each beside its fault, and no
//! fault anywhere else. Without a fault they are the documents' own.

use std::cmp::Ordering;

use crate::limits::LAST_TICK;
use crate::refusal::Refusal;
use crate::request::Request;

#[derive(Clone, Copy, Debug, PartialEq, Eq)]
pub enum Fault {
    Tie,
    Window,
    Tick,
    Limit,
    Mask,
    Need,
    Held,
    Empty,
    Order,
    Zeros,
    Wrap,
    Final,
    Early,
    Spaces,
    Known,
    Stop,
}

/// Faults, each with its name and what it does.
pub type Faults = [(Fault, &'static str, &'static str)];

/// The faults of the desk.
pub const DESK_FAULTS: &Faults = &[
    (
        Fault::Tie,
        "tie",
        "the later accepted is better on equal scores",
    ),
    (
        Fault::Window,
        "window",
        "a window holds T < t + window only",
    ),
    (
        Fault::Tick,
        "tick",
        "requests of tick T appear in the answer at T",
    ),
    (
        Fault::Limit,
        "limit",
        "future views count beyond 1,000,000,000",
    ),
    (Fault::Mask, "mask", "mask 0 names no topic"),
    (
        Fault::Need,
        "need",
        "the need is rounded after k is applied",
    ),
    (
        Fault::Held,
        "held",
        "the list keeps all that lie in some future view",
    ),
    (
        Fault::Empty,
        "empty",
        "a due board with an empty window is not answered",
    ),
    (Fault::Order, "order", "a board is refused by 8 before 7"),
];

/// The faults of the reader of text.
pub const TEXT_FAULTS: &Faults = &[
    (
        Fault::Zeros,
        "zeros",
        "a number with leading zeros is refused with 15",
    ),
    (Fault::Wrap, "wrap", "numbers are taken modulo 2^32"),
    (
        Fault::Final,
        "final",
        "a last line without its line feed is taken",
    ),
    (
        Fault::Early,
        "early",
        "a number that no 32 bits hold is refused with 6 before 15 is asked for",
    ),
    (
        Fault::Spaces,
        "spaces",
        "several spaces part two numbers as one does",
    ),
    (
        Fault::Known,
        "known",
        "an unknown version or kind is refused with 3 or 4",
    ),
    (
        Fault::Stop,
        "stop",
        "the lines behind a refused one are written too",
    ),
];

#[derive(Clone, Copy, Debug)]
pub struct Rules {
    fault: Option<Fault>,
}

impl Rules {
    pub fn sound() -> Rules {
        Rules { fault: None }
    }

    pub fn with(fault: Fault) -> Rules {
        Rules { fault: Some(fault) }
    }

    /// The rules with the fault of this name, if there is one of it.
    pub fn named(faults: &Faults, name: &str) -> Option<Rules> {
        let (fault, _, _) = faults.iter().find(|(_, known, _)| *known == name)?;
        Some(Rules::with(*fault))
    }

    fn has(&self, fault: Fault) -> bool {
        self.fault == Some(fault)
    }

    /// Less means better: the order of a list that has the best first.
    pub fn rank(&self, one: &Request, other: &Request) -> Ordering {
        let by_arrival = if self.has(Fault::Tie) {
            other.arrival.cmp(&one.arrival)
        } else {
            one.arrival.cmp(&other.arrival)
        };
        other.score.cmp(&one.score).then(by_arrival)
    }

    /// The half of the window's rule that keeps out what is too new: t < T.
    pub fn is_before(&self, tick: u32, moment: u32) -> bool {
        if self.has(Fault::Tick) {
            tick <= moment
        } else {
            tick < moment
        }
    }

    /// The half that keeps out what is too old: T <= t + window.
    pub fn reaches(&self, tick: u32, window: u32, moment: u32) -> bool {
        if self.has(Fault::Window) {
            moment < tick + window
        } else {
            moment <= tick + window
        }
    }

    /// The last tick at which a future view may lie.
    pub fn last_view(&self, clock: u32, window: u32) -> u32 {
        if self.has(Fault::Limit) {
            clock + window
        } else {
            (clock + window).min(LAST_TICK)
        }
    }

    pub fn names(&self, mask: u32, topic: u32) -> bool {
        let names_all = mask == 0 && !self.has(Fault::Mask);
        names_all || mask >> topic & 1 == 1
    }

    pub fn need(&self, window: u32, slide: u32, k: u32) -> u64 {
        let (window, slide, k) = (u64::from(window), u64::from(slide), u64::from(k));
        if self.has(Fault::Need) {
            (k * window).div_ceil(slide)
        } else {
            k * window.div_ceil(slide)
        }
    }

    /// How many of a future view's window the list keeps.
    pub fn kept_of_a_view(&self, k: u32) -> usize {
        if self.has(Fault::Held) {
            usize::MAX
        } else {
            k as usize
        }
    }

    pub fn answers_empty_windows(&self) -> bool {
        !self.has(Fault::Empty)
    }

    pub fn counts_boards_first(&self) -> bool {
        !self.has(Fault::Order)
    }

    /// Decimal text is one digit or more, leading zeros allowed.
    pub fn is_decimal(&self, word: &[u8]) -> bool {
        let has_leading_zero = word.len() > 1 && word.starts_with(b"0");
        let is_allowed = !(has_leading_zero && self.has(Fault::Zeros));
        !word.is_empty() && word.iter().all(u8::is_ascii_digit) && is_allowed
    }

    /// The number that some digits say, or the highest of 64 bits where it is
    /// above that: out of every range all the same.
    pub fn number(&self, digits: &[u8]) -> u64 {
        let values = digits.iter().map(|digit| u64::from(digit - b'0'));
        if self.has(Fault::Wrap) {
            return values.fold(0, |number, digit| (number * 10 + digit) % (1 << 32));
        }
        values.fold(0, |number: u64, digit| {
            number.saturating_mul(10).saturating_add(digit)
        })
    }

    pub fn takes_no_line_feed_at_the_end(&self) -> bool {
        self.has(Fault::Final)
    }

    /// Whether the form of a line is decided before any number's range.
    pub fn asks_for_form_first(&self) -> bool {
        !self.has(Fault::Early)
    }

    /// The words of a line: one space between.
    pub fn words<'a>(&self, line: &'a [u8]) -> Vec<&'a [u8]> {
        line.split(|&byte| byte == b' ')
            .filter(|word| !(word.is_empty() && self.has(Fault::Spaces)))
            .collect()
    }

    /// What a line is refused with whose version or kind is unknown; in the
    /// reader of messages that is a refusal of its own.
    pub fn unknown(&self, in_messages: Refusal) -> Refusal {
        if self.has(Fault::Known) {
            in_messages
        } else {
            Refusal::NotALine
        }
    }

    pub fn stops_at_a_refusal(&self) -> bool {
        !self.has(Fault::Stop)
    }
}
