//! B2, a k-skyband for each board: every request of the window that fewer than k
//! better ones came after. What has left the window goes at the board's moments.

use super::each::Watch;
use super::{heap_bytes, Ranked};
use crate::contest::{write_block, Board, Size};

#[derive(Clone)]
struct Held {
    entry: Ranked,
    /// How many better ones came after it.
    beaten: u32,
}

#[derive(Clone)]
pub struct Skyband {
    window: u32,
    k: u32,
    /// Best first.
    band: Vec<Held>,
}

impl Watch for Skyband {
    fn new(board: &Board, _clock: u32) -> Skyband {
        Skyband {
            window: board.window,
            k: board.k,
            band: Vec::new(),
        }
    }

    fn accept(&mut self, entry: Ranked) {
        let is_better = |held: &Held| held.entry.key > entry.key;
        let held = Held { entry, beaten: 0 };
        // A band can hold the whole window: the worst of all needs no search.
        if self.band.last().is_none_or(is_better) {
            self.band.push(held);
            return;
        }
        let place = self.band.partition_point(is_better);
        self.band.insert(place, held);
        let mut kept = place + 1;
        for at in place + 1..self.band.len() {
            self.band[at].beaten += 1;
            if self.band[at].beaten < self.k {
                if kept < at {
                    self.band.swap(kept, at);
                }
                kept += 1;
            }
        }
        self.band.truncate(kept);
    }

    fn answer(&mut self, number: usize, moment: u32, reply: &mut [u32]) -> usize {
        let window = self.window;
        self.band.retain(|held| held.entry.tick + window >= moment);
        let shown = self.band.iter().take(self.k as usize);
        write_block(reply, number, shown.map(|held| held.entry.shown()))
    }

    fn move_on(&mut self, _clock: u32) {}

    fn size(&self) -> Size {
        Size::of(self.band.len(), heap_bytes(&self.band))
    }
}
