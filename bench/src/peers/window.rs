//! B1, MinTopK for each board: one list, in which an entry is shown from view
//! `low` to view `high`, and for each future view the lowest that it shows.

use super::each::Watch;
use super::views::Views;
use super::{heap_bytes, Key, Ranked};
use crate::contest::{write_block, Board, Size};

#[derive(Clone)]
struct Held {
    entry: Ranked,
    low: u32,
    high: u32,
}

#[derive(Clone)]
pub struct MinTopK {
    k: u32,
    views: Views,
    /// Best first.
    list: Vec<Held>,
}

impl MinTopK {
    /// Where a key stands, or would stand.
    fn place(&self, key: Key) -> usize {
        self.list.partition_point(|held| held.entry.key > key)
    }

    /// The lowest of a full view leaves it; the next above that lies in the view
    /// is the lowest then.
    fn push_out(&mut self, number: u32) {
        let lowest = self.views.view(number).lowest;
        let place = self.place(lowest);
        let mut above = self.list[..place].iter().rev();
        let next = above.find(|held| held.high >= number);
        let next = next.expect("the new entry stands above the lowest");
        self.views.view(number).lowest = next.entry.key;
        self.list[place].low = number + 1;
        if self.list[place].high <= number {
            self.list.remove(place);
        }
    }
}

impl Watch for MinTopK {
    fn new(board: &Board, clock: u32) -> MinTopK {
        MinTopK {
            k: board.k,
            views: Views::at(board, clock),
            list: Vec::new(),
        }
    }

    fn accept(&mut self, entry: Ranked) {
        let taking = self.views.taking(entry.key);
        if taking.is_empty() {
            return;
        }
        let held = Held {
            entry,
            low: taking.start,
            high: taking.end - 1,
        };
        self.list.insert(self.place(entry.key), held);
        for number in taking {
            let view = self.views.view(number);
            if view.count < self.k {
                view.fill(entry.key);
            } else {
                self.push_out(number);
            }
        }
    }

    fn answer(&mut self, number: usize, moment: u32, reply: &mut [u32]) -> usize {
        let (view, count) = self.views.due(moment).unwrap_or_default();
        // What is on the list lies in the front view, so its best are the list's first.
        let shown = &mut self.list[..count];
        let words = write_block(reply, number, shown.iter().map(|held| held.entry.shown()));
        for held in shown {
            held.low = view + 1;
        }
        self.list.retain(|held| held.low <= held.high);
        words
    }

    fn move_on(&mut self, clock: u32) {
        self.views.move_on(clock);
    }

    fn size(&self) -> Size {
        Size::of(self.list.len(), heap_bytes(&self.list) + self.views.bytes())
    }
}
