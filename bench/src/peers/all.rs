//! B0, keep all: every request of the longest window stands in one queue, and an
//! answer reads the whole window for its best k.

use std::cmp::Reverse;
use std::collections::VecDeque;

use super::{arrival, heap_bytes, key, score, Keeper, Key};
use crate::contest::{names, write_block, Board, Entry, Size};

#[derive(Clone)]
pub struct All {
    boards: Vec<Board>,
    longest: u32,
    queue: VecDeque<Entry>,
    /// The best of the answer at work, kept for its room.
    best: Vec<Key>,
}

impl Keeper for All {
    fn new(boards: &[Board], _clock: u32) -> All {
        All {
            boards: boards.to_vec(),
            longest: boards.iter().map(|board| board.window).max().unwrap_or(0),
            queue: VecDeque::new(),
            best: Vec::new(),
        }
    }

    fn accept(&mut self, entry: &Entry, _key: Key) {
        self.queue.push_back(*entry);
    }

    fn answer(&mut self, number: usize, moment: u32, reply: &mut [u32]) -> usize {
        let board = &self.boards[number];
        let start = self
            .queue
            .partition_point(|entry| entry.tick + board.window < moment);
        // Twice k are gathered before the worse half is dropped, so that no order of scores is slow; the
        // lowest of the better half turns nearly all others away.
        let k = board.k as usize;
        let mut lowest = 0;
        self.best.clear();
        for (place, entry) in self.queue.range(start..).enumerate() {
            if entry.score < lowest || !names(board, entry.topic) {
                continue;
            }
            // The place in the queue tells who came earlier.
            self.best.push(key(entry.score, place as u32));
            if self.best.len() == 2 * k {
                let (_, last, _) = self
                    .best
                    .select_nth_unstable_by_key(k - 1, |&key| Reverse(key));
                lowest = score(*last);
                self.best.truncate(k);
            }
        }
        self.best.sort_unstable_by_key(|&key| Reverse(key));
        self.best.truncate(k);
        let queue = &self.queue;
        let shown = self.best.iter().map(|&key| {
            let entry = &queue[start + arrival(key) as usize];
            [entry.id, entry.score, entry.tick]
        });
        write_block(reply, number, shown)
    }

    fn move_on(&mut self, clock: u32) {
        while let Some(entry) = self.queue.front() {
            if entry.tick + self.longest > clock {
                break;
            }
            self.queue.pop_front();
        }
    }

    fn size(&self) -> Size {
        let queue = self.queue.capacity() * size_of::<Entry>();
        Size::of(
            self.queue.len(),
            queue + heap_bytes(&self.boards) + heap_bytes(&self.best),
        )
    }
}
