//! The peers: other ways to answer the same boards. They share a frame that
//! steps the clock, and differ in what they keep.

pub mod all;
pub mod band;
pub mod each;
pub mod list;
pub mod skyband;
pub mod views;
pub mod window;

use crate::contest::{Board, Contestant, Entry, Size, Step};

/// The rank of an entry: greater is better. With equal scores the earlier accepted
/// is better, and no two are equal.
pub type Key = u64;

fn key(score: u32, arrival: u32) -> Key {
    Key::from(score) << 32 | Key::from(!arrival)
}

fn score(key: Key) -> u32 {
    (key >> 32) as u32
}

fn arrival(key: Key) -> u32 {
    !(key as u32)
}

/// An entry as a board of its own needs it.
#[derive(Clone, Copy, Default)]
pub struct Ranked {
    key: Key,
    id: u32,
    tick: u32,
}

impl Ranked {
    fn shown(&self) -> [u32; 3] {
        [self.id, score(self.key), self.tick]
    }
}

/// What a peer keeps of the requests, and how it answers from that.
pub trait Keeper: Clone + 'static {
    fn new(boards: &[Board], clock: u32) -> Self;

    fn accept(&mut self, entry: &Entry, key: Key);

    /// Writes the block of a board that is due, and says how many words it has.
    fn answer(&mut self, board: usize, moment: u32, reply: &mut [u32]) -> usize;

    /// The clock has moved, and the boards due have been answered.
    fn move_on(&mut self, clock: u32);

    /// The bytes are those outside the keeper's own value.
    fn size(&self) -> Size;

    fn list(&self) -> Option<Vec<Entry>> {
        None
    }
}

/// The frame: the clock and each board's next moment.
#[derive(Clone)]
pub struct Peer<K> {
    clock: u32,
    arrivals: u32,
    slides: Vec<u32>,
    /// Past the clock's limit no step reaches them.
    moments: Vec<u32>,
    keeper: K,
}

impl<K: Keeper> Peer<K> {
    pub fn open_at(boards: &[Board], clock: u32) -> Peer<K> {
        Peer {
            clock,
            arrivals: 0,
            slides: boards.iter().map(|board| board.slide).collect(),
            moments: boards
                .iter()
                .map(|board| (clock / board.slide + 1) * board.slide)
                .collect(),
            keeper: K::new(boards, clock),
        }
    }
}

impl<K: Keeper> Contestant for Peer<K> {
    fn request(&mut self, topic: u32, id: u32, score: u32) {
        let entry = Entry {
            id,
            score,
            tick: self.clock,
            topic,
        };
        self.keeper.accept(&entry, key(score, self.arrivals));
        self.arrivals += 1;
    }

    fn step(&mut self, target: u32, reply: &mut [u32]) -> Step {
        let first = self.moments.iter().fold(u32::MAX, |a, &b| a.min(b));
        let clock = first.min(target);
        let mut step = Step {
            clock,
            due: 0,
            words: 0,
        };
        if first == clock {
            for board in 0..self.moments.len() {
                if self.moments[board] == clock {
                    step.words += self.keeper.answer(board, clock, &mut reply[step.words..]);
                    step.due += 1;
                    self.moments[board] += self.slides[board];
                }
            }
        }
        if clock != self.clock {
            self.clock = clock;
            self.keeper.move_on(clock);
        }
        step
    }

    fn size(&self) -> Size {
        let outside = heap_bytes(&self.slides) + heap_bytes(&self.moments);
        let kept = self.keeper.size();
        Size::of(kept.entries, size_of::<Self>() + outside + kept.bytes)
    }

    fn list(&self) -> Option<Vec<Entry>> {
        self.keeper.list()
    }

    fn copied(&self) -> Box<dyn Contestant> {
        Box::new(self.clone())
    }
}

fn heap_bytes<T>(kept: &Vec<T>) -> usize {
    kept.capacity() * size_of::<T>()
}
