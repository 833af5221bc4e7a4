//! The proved desk, from its archive.

use second::limits::{MOST_BOARDS, MOST_NEEDS};

use crate::contest::{Board, Contestant, Entry, Size, Step};

#[repr(C)]
#[derive(Clone, Copy, Default)]
struct Loaded {
    mask: u32,
    window: u32,
    slide: u32,
    k: u32,
}

#[repr(C)]
#[derive(Clone)]
pub struct Desk {
    clock: u32,
    phase: u32,
    count: usize,
    boards: [Loaded; MOST_BOARDS],
    len: usize,
    entries: [Entry; MOST_NEEDS as usize],
}

/// A refusal of 0 says that the message was accepted.
#[repr(C)]
#[derive(Clone, Copy, Debug)]
pub struct Replied {
    pub refusal: u32,
    pub clock: u32,
    pub due: u32,
    pub words: u32,
}

/// The exported function: desk, kind, byte, first, second, third, reply and its length.
pub type Take =
    unsafe extern "C" fn(*mut Desk, u32, u32, u32, u32, u32, *mut u32, usize) -> Replied;

/// The archive's function under each name that `bench/run` gives it.
macro_rules! exported {
    ($name:ident) => {
        extern "C" {
            pub fn $name(
                desk: *mut Desk,
                kind: u32,
                byte: u32,
                first: u32,
                second: u32,
                third: u32,
                reply: *mut u32,
                reply_len: usize,
            ) -> Replied;
        }
    };
}
exported!(desk_take);
exported!(desk_take_counted);
#[cfg(feature = "before")]
exported!(desk_take_before);
#[cfg(feature = "before")]
exported!(desk_take_before_counted);

pub const BOARD: u32 = 1;
pub const REQUEST: u32 = 2;
pub const OPEN: u32 = 3;
pub const CLOCK: u32 = 4;

#[derive(Clone)]
pub struct Proved {
    take: Take,
    desk: Box<Desk>,
}

impl Proved {
    /// A desk with no board, at clock 0.
    pub fn fresh(take: Take) -> Proved {
        let desk = Box::new(Desk {
            clock: 0,
            phase: 0,
            count: 0,
            boards: [Loaded::default(); MOST_BOARDS],
            len: 0,
            entries: [Entry::default(); MOST_NEEDS as usize],
        });
        Proved { take, desk }
    }

    /// An open desk that stands at some clock with some list.
    pub fn open_at(take: Take, boards: &[Board], clock: u32, list: &[Entry]) -> Proved {
        let mut proved = Proved::fresh(take);
        for board in boards {
            let fields = [board.mask, board.window, board.slide, board.k];
            proved.accepted(BOARD, fields, &mut []);
        }
        proved.accepted(OPEN, [0; 4], &mut []);
        proved.desk.clock = clock;
        proved.desk.len = list.len();
        proved.desk.entries[..list.len()].copy_from_slice(list);
        proved
    }

    /// A copy that goes on by another function.
    pub fn taking_by(&self, take: Take) -> Proved {
        let desk = self.desk.clone();
        Proved { take, desk }
    }

    pub fn take(&mut self, kind: u32, fields: [u32; 4], reply: &mut [u32]) -> Replied {
        let [byte, first, second, third] = fields;
        let (words, len) = (reply.as_mut_ptr(), reply.len());
        // The desk and the reply are lent for the call alone, and no value of them is out of bounds for it.
        unsafe {
            (self.take)(
                &mut *self.desk,
                kind,
                byte,
                first,
                second,
                third,
                words,
                len,
            )
        }
    }

    fn accepted(&mut self, kind: u32, fields: [u32; 4], reply: &mut [u32]) -> Replied {
        let replied = self.take(kind, fields, reply);
        assert_eq!(
            replied.refusal, 0,
            "kind {kind} with {fields:?} was refused"
        );
        replied
    }
}

impl Contestant for Proved {
    fn request(&mut self, topic: u32, id: u32, score: u32) {
        self.accepted(REQUEST, [topic, id, score, 0], &mut []);
    }

    fn step(&mut self, target: u32, reply: &mut [u32]) -> Step {
        let replied = self.accepted(CLOCK, [0, target, 0, 0], reply);
        Step {
            clock: replied.clock,
            due: replied.due,
            words: replied.words as usize,
        }
    }

    fn size(&self) -> Size {
        Size::of(self.desk.len, size_of::<Desk>())
    }

    fn list(&self) -> Option<Vec<Entry>> {
        Some(self.desk.entries[..self.desk.len].to_vec())
    }

    fn copied(&self) -> Box<dyn Contestant> {
        Box::new(self.clone())
    }
}
