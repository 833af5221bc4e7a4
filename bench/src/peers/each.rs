//! Boards that share nothing: each has a watch of its own.

use super::{heap_bytes, Keeper, Key, Ranked};
use crate::contest::{names, Board, Entry, Size};

/// What is kept for one board. Only requests that count for it come here.
pub trait Watch: Clone + 'static {
    fn new(board: &Board, clock: u32) -> Self;

    fn accept(&mut self, entry: Ranked);

    fn answer(&mut self, number: usize, moment: u32, reply: &mut [u32]) -> usize;

    fn move_on(&mut self, clock: u32);

    /// The bytes are those outside the watch's own value.
    fn size(&self) -> Size;
}

#[derive(Clone)]
pub struct Each<W> {
    watches: Vec<(Board, W)>,
}

impl<W: Watch> Keeper for Each<W> {
    fn new(boards: &[Board], clock: u32) -> Each<W> {
        Each {
            watches: boards
                .iter()
                .map(|board| (*board, W::new(board, clock)))
                .collect(),
        }
    }

    fn accept(&mut self, entry: &Entry, key: Key) {
        let ranked = Ranked {
            key,
            id: entry.id,
            tick: entry.tick,
        };
        for (board, watch) in &mut self.watches {
            if names(board, entry.topic) {
                watch.accept(ranked);
            }
        }
    }

    fn answer(&mut self, board: usize, moment: u32, reply: &mut [u32]) -> usize {
        self.watches[board].1.answer(board, moment, reply)
    }

    fn move_on(&mut self, clock: u32) {
        for (_, watch) in &mut self.watches {
            watch.move_on(clock);
        }
    }

    fn size(&self) -> Size {
        let mut size = Size::of(0, heap_bytes(&self.watches));
        for (_, watch) in &self.watches {
            let own = watch.size();
            size.entries += own.entries;
            size.bytes += own.bytes;
        }
        size
    }
}
