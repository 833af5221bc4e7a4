//! A board: its fields and its moments.

use crate::limits::{LAST_MASK, MOST_K, MOST_TICKS};

#[derive(Clone, Copy, Debug, PartialEq, Eq)]
pub struct Board {
    pub mask: u32,
    pub window: u32,
    pub slide: u32,
    pub k: u32,
}

impl Board {
    pub fn is_in_range(&self) -> bool {
        self.mask <= LAST_MASK
            && (1..=MOST_TICKS).contains(&self.window)
            && (1..=MOST_TICKS).contains(&self.slide)
            && (1..=MOST_K).contains(&self.k)
    }

    /// The positive multiples of the slide above one tick and up to another.
    pub fn moments(&self, above: u32, up_to: u32) -> impl Iterator<Item = u32> {
        let slide = self.slide;
        let first = (above / slide + 1) * slide;
        (first..=up_to).step_by(slide as usize)
    }

    pub fn is_due(&self, moment: u32) -> bool {
        moment > 0 && moment.is_multiple_of(self.slide)
    }
}
