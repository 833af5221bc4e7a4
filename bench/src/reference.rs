//! The second desk as a contestant: the one that all others are held against.

use second::desk::Desk;
use second::limits::REPLY_LENGTH;
use second::rules::Rules;

use crate::contest::{write_block, Board, Entry, Step};

pub struct Reference {
    desk: Desk,
}

impl Reference {
    pub fn open_at(rules: Rules, boards: &[Board], clock: u32) -> Reference {
        Reference {
            desk: Desk::open_at(rules, clock, boards),
        }
    }

    pub fn request(&mut self, topic: u32, id: u32, score: u32) {
        let accepted = self.desk.request(topic, id, score);
        accepted.expect("the request is in range");
    }

    pub fn step(&mut self, target: u32, reply: &mut [u32]) -> Step {
        let step = self.desk.step(target, REPLY_LENGTH);
        let step = step.expect("the target is in range");
        let mut words = 0;
        let mut due = 0;
        if !step.due.is_empty() {
            for (number, entries) in self.desk.answers(step.clock) {
                let shown = entries
                    .iter()
                    .map(|entry| [entry.id, entry.score, entry.tick]);
                words += write_block(&mut reply[words..], number, shown);
                due += 1;
            }
        }
        Step {
            clock: step.clock,
            due,
            words,
        }
    }

    pub fn list(&self) -> Vec<Entry> {
        let entry = |request: &second::request::Request| Entry {
            id: request.id,
            score: request.score,
            tick: request.tick,
            topic: request.topic,
        };
        self.desk.list().iter().map(entry).collect()
    }
}
