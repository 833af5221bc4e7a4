//! What a contestant is.

pub use second::board::Board;

/// An accepted request, as an answer shows it; laid out like the proved desk's.
#[repr(C)]
#[derive(Clone, Copy, Debug, Default, PartialEq, Eq)]
pub struct Entry {
    pub id: u32,
    pub score: u32,
    pub tick: u32,
    pub topic: u32,
}

/// What a step did: the clock reached, the boards due and the words written.
#[derive(Clone, Copy, Debug, PartialEq, Eq)]
pub struct Step {
    pub clock: u32,
    pub due: u32,
    pub words: usize,
}

/// How many entries are held, each as often as it is stored, and the bytes of the whole state.
#[derive(Clone, Copy)]
pub struct Size {
    pub entries: usize,
    pub bytes: usize,
}

impl Size {
    pub fn of(entries: usize, bytes: usize) -> Size {
        Size { entries, bytes }
    }
}

/// An open desk, proved or not. Every call goes through a table of functions, so
/// that none is inlined into the timing and none has an advantage.
pub trait Contestant {
    fn request(&mut self, topic: u32, id: u32, score: u32);

    /// One step to the target, or to the earliest moment on the way there.
    fn step(&mut self, target: u32, reply: &mut [u32]) -> Step;

    fn size(&self) -> Size;

    /// The shared list, best first, where exactly that is kept.
    fn list(&self) -> Option<Vec<Entry>> {
        None
    }

    fn copied(&self) -> Box<dyn Contestant>;
}

/// Writes a board's block: id, score and tick of each entry shown. What comes back is its words.
pub fn write_block(
    reply: &mut [u32],
    number: usize,
    shown: impl Iterator<Item = [u32; 3]>,
) -> usize {
    let mut words = 2;
    let mut count = 0;
    for entry in shown {
        reply[words..words + 3].copy_from_slice(&entry);
        words += 3;
        count += 1;
    }
    reply[0] = number as u32;
    reply[1] = count;
    words
}

pub fn names(board: &Board, topic: u32) -> bool {
    board.mask == 0 || board.mask >> topic & 1 == 1
}
