//! The future views of a board, by number: the view of moment T is number
//! T / slide. Those of one clock are few, so a ring has a slot for each.

use std::ops::Range;

use second::limits::LAST_TICK;

use super::Key;
use crate::contest::Board;

/// How many entries a view shows so far, and the lowest of them.
#[derive(Clone, Copy, Default)]
pub struct View {
    pub count: u32,
    pub lowest: Key,
}

impl View {
    /// An entry comes into a view that has room.
    pub fn fill(&mut self, key: Key) {
        self.lowest = if self.count == 0 {
            key
        } else {
            self.lowest.min(key)
        };
        self.count += 1;
    }
}

#[derive(Clone)]
pub struct Views {
    window: u32,
    slide: u32,
    k: u32,
    numbers: Range<u32>,
    /// A power of two of slots, so that a slot is found by one `and`.
    slots: Vec<View>,
}

impl Views {
    pub fn at(board: &Board, clock: u32) -> Views {
        let most = board.window.div_ceil(board.slide) as usize;
        let mut views = Views {
            window: board.window,
            slide: board.slide,
            k: board.k,
            numbers: 0..0,
            slots: vec![View::default(); most.next_power_of_two()],
        };
        views.move_on(clock);
        views
    }

    pub fn slots(&self) -> usize {
        self.slots.len()
    }

    pub fn slot(&self, number: u32) -> usize {
        number as usize & (self.slots.len() - 1)
    }

    pub fn view(&mut self, number: u32) -> &mut View {
        let slot = self.slot(number);
        &mut self.slots[slot]
    }

    pub fn numbers(&self) -> Range<u32> {
        self.numbers.clone()
    }

    pub fn moment(&self, number: u32) -> u32 {
        number * self.slide
    }

    /// The future views that take a new entry. A later view holds less of what
    /// came before, so they are the last ones.
    pub fn taking(&self, key: Key) -> Range<u32> {
        let mut first = self.numbers.end;
        while first > self.numbers.start {
            let view = &self.slots[self.slot(first - 1)];
            if view.count == self.k && key < view.lowest {
                break;
            }
            first -= 1;
        }
        first..self.numbers.end
    }

    /// The view that ends at a moment, and how many it shows. There is none
    /// where no clock lay in its window.
    pub fn due(&self, moment: u32) -> Option<(u32, usize)> {
        let number = moment / self.slide;
        let count = self.slots[self.slot(number)].count as usize;
        self.numbers.contains(&number).then_some((number, count))
    }

    /// The future views at a new clock; those that appear are empty.
    pub fn move_on(&mut self, clock: u32) {
        let first = clock / self.slide + 1;
        let end = (clock + self.window).min(LAST_TICK) / self.slide + 1;
        for number in self.numbers.end.max(first)..end {
            *self.view(number) = View::default();
        }
        self.numbers = first..end.max(first);
    }

    pub fn shown(&self) -> usize {
        let shown = |number| self.slots[self.slot(number)].count as usize;
        self.numbers().map(shown).sum()
    }

    /// What stands outside this value.
    pub fn bytes(&self) -> usize {
        super::heap_bytes(&self.slots)
    }
}
