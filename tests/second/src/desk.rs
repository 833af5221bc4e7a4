//! The desk by the plainest means: every accepted request is kept for ever, and
//! windows and the list are worked out anew from all of them by their rules.

use crate::board::Board;
use crate::limits::{LAST_TICK, MOST_BOARDS, MOST_NEEDS};
use crate::message::is_request_in_range;
use crate::refusal::Refusal;
use crate::request::Request;
use crate::rules::Rules;

#[derive(Clone, Copy, Debug, PartialEq, Eq)]
enum Phase {
    Loading,
    Open,
}

/// What an accepted step did: the clock reached and the numbers of the boards due.
#[derive(Debug, PartialEq, Eq)]
pub struct Step {
    pub clock: u32,
    pub due: Vec<usize>,
}

pub struct Desk {
    rules: Rules,
    clock: u32,
    phase: Phase,
    boards: Vec<Board>,
    /// In order of arrival, which is the order of ticks too.
    accepted: Vec<Request>,
}

impl Desk {
    pub fn fresh(rules: Rules) -> Desk {
        Desk {
            rules,
            clock: 0,
            phase: Phase::Loading,
            boards: Vec::new(),
            accepted: Vec::new(),
        }
    }

    /// An open desk that stands at some clock, with nothing accepted before it:
    /// for the edges that a run from 0 reaches only after too many steps.
    pub fn open_at(rules: Rules, clock: u32, boards: &[Board]) -> Desk {
        Desk {
            clock,
            phase: Phase::Open,
            boards: boards.to_vec(),
            ..Desk::fresh(rules)
        }
    }

    pub fn clock(&self) -> u32 {
        self.clock
    }

    pub fn boards(&self) -> &[Board] {
        &self.boards
    }

    pub fn is_open(&self) -> bool {
        self.phase == Phase::Open
    }

    /// How many requests were accepted so far.
    pub fn accepted(&self) -> usize {
        self.accepted.len()
    }

    pub fn need(&self, board: &Board) -> u64 {
        self.rules.need(board.window, board.slide, board.k)
    }

    pub fn sum_of_needs(&self) -> u64 {
        self.boards.iter().map(|board| self.need(board)).sum()
    }

    pub fn board(&mut self, board: Board) -> Result<(), Refusal> {
        if !board.is_in_range() {
            return Err(Refusal::Range);
        }
        if self.phase != Phase::Loading {
            return Err(Refusal::WrongPhase);
        }
        let too_many_boards = self.boards.len() >= MOST_BOARDS;
        let too_many_needs = self.sum_of_needs() + self.need(&board) > MOST_NEEDS;
        if too_many_boards && (self.rules.counts_boards_first() || !too_many_needs) {
            return Err(Refusal::TooManyBoards);
        }
        if too_many_needs {
            return Err(Refusal::TooManyNeeds);
        }
        self.boards.push(board);
        Ok(())
    }

    pub fn open(&mut self) -> Result<(), Refusal> {
        if self.phase != Phase::Loading {
            return Err(Refusal::WrongPhase);
        }
        if self.boards.is_empty() {
            return Err(Refusal::NoBoard);
        }
        self.phase = Phase::Open;
        Ok(())
    }

    pub fn request(&mut self, topic: u32, id: u32, score: u32) -> Result<(), Refusal> {
        if !is_request_in_range(topic, score) {
            return Err(Refusal::Range);
        }
        if self.phase != Phase::Open {
            return Err(Refusal::WrongPhase);
        }
        self.accepted.push(Request {
            arrival: self.accepted.len(),
            id,
            score,
            tick: self.clock,
            topic,
        });
        Ok(())
    }

    /// Only the reply's length is asked for: the answers themselves come from
    /// `answer`, which any moment can be given to.
    pub fn step(&mut self, target: u32, reply_length: usize) -> Result<Step, Refusal> {
        if target > LAST_TICK {
            return Err(Refusal::Range);
        }
        if self.phase != Phase::Open {
            return Err(Refusal::WrongPhase);
        }
        if target < self.clock {
            return Err(Refusal::TargetBelowClock);
        }
        if reply_length < self.longest_reply() {
            return Err(Refusal::ReplyTooShort);
        }
        let due = match self.next_moment(self.clock, target) {
            Some(moment) => {
                self.clock = moment;
                self.due(moment).collect()
            }
            None => {
                self.clock = target;
                Vec::new()
            }
        };
        Ok(Step {
            clock: self.clock,
            due,
        })
    }

    fn longest_reply(&self) -> usize {
        self.boards
            .iter()
            .map(|board| 2 + 3 * board.k as usize)
            .sum()
    }

    /// The earliest moment of any board above a clock and up to a target.
    pub fn next_moment(&self, clock: u32, target: u32) -> Option<u32> {
        self.boards
            .iter()
            .filter_map(|board| board.moments(clock, target).next())
            .min()
    }

    /// The numbers of the boards due at a moment, in board order.
    pub fn due(&self, moment: u32) -> impl Iterator<Item = usize> + '_ {
        (0..self.boards.len()).filter(move |&number| self.boards[number].is_due(moment))
    }

    /// The answers of all boards due at a moment: board number and entries.
    pub fn answers(&self, moment: u32) -> Vec<(usize, Vec<Request>)> {
        self.due(moment)
            .map(|number| (number, self.answer(number, moment)))
            .filter(|(_, entries)| !entries.is_empty() || self.rules.answers_empty_windows())
            .collect()
    }

    /// The first k of a board's window at a moment, best first.
    pub fn answer(&self, number: usize, moment: u32) -> Vec<Request> {
        let board = &self.boards[number];
        let mut window = self.ranked_window(board, moment);
        window.truncate(board.k as usize);
        window
    }

    /// Every accepted request that a board's window holds at a moment, best first.
    fn ranked_window(&self, board: &Board, moment: u32) -> Vec<Request> {
        let too_old = |request: &Request| !self.rules.reaches(request.tick, board.window, moment);
        // Arrival order is tick order, so the old ones stand in front.
        let first = self.accepted.partition_point(too_old);
        let mut window: Vec<Request> = self.accepted[first..]
            .iter()
            .take_while(|request| self.rules.is_before(request.tick, moment))
            .filter(|request| self.rules.names(board.mask, request.topic))
            .copied()
            .collect();
        window.sort_unstable_by(|one, other| self.rules.rank(one, other));
        window
    }

    /// The shared list by its rule: a request is on it if it is among the first
    /// k of the window of some future view.
    pub fn list(&self) -> Vec<Request> {
        let mut is_listed = vec![false; self.accepted.len()];
        for board in &self.boards {
            let last = self.rules.last_view(self.clock, board.window);
            for moment in board.moments(self.clock, last) {
                let kept = self.rules.kept_of_a_view(board.k);
                for request in self.ranked_window(board, moment).iter().take(kept) {
                    is_listed[request.arrival] = true;
                }
            }
        }
        let mut list: Vec<Request> = self
            .accepted
            .iter()
            .filter(|request| is_listed[request.arrival])
            .copied()
            .collect();
        list.sort_unstable_by(|one, other| self.rules.rank(one, other));
        list
    }

    pub fn place(&self, place: usize) -> Result<Request, Refusal> {
        self.list().get(place).copied().ok_or(Refusal::NoSuchPlace)
    }
}
