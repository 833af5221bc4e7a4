//! B5, MTopBand: for each board and each of its future views a sorted list of the
//! best k. All of a board's lists stand in one allocation, k places to a slot.

use super::each::Watch;
use super::views::Views;
use super::{heap_bytes, Ranked};
use crate::contest::{write_block, Board, Size};

#[derive(Clone)]
pub struct Band {
    k: usize,
    views: Views,
    places: Vec<Ranked>,
}

impl Watch for Band {
    fn new(board: &Board, clock: u32) -> Band {
        let k = board.k as usize;
        let views = Views::at(board, clock);
        Band {
            k,
            places: vec![Ranked::default(); views.slots() * k],
            views,
        }
    }

    fn accept(&mut self, entry: Ranked) {
        for number in self.views.taking(entry.key) {
            let start = self.views.slot(number) * self.k;
            let view = self.views.view(number);
            let count = view.count as usize;
            let kept = (count + 1).min(self.k);
            let places = &mut self.places[start..start + kept];
            let place = places[..count].partition_point(|held| held.key > entry.key);
            places.copy_within(place..kept - 1, place + 1);
            places[place] = entry;
            view.count = kept as u32;
            view.lowest = places[kept - 1].key;
        }
    }

    fn answer(&mut self, number: usize, moment: u32, reply: &mut [u32]) -> usize {
        let (view, count) = self.views.due(moment).unwrap_or_default();
        let start = self.views.slot(view) * self.k;
        let shown = self.places[start..start + count].iter();
        write_block(reply, number, shown.map(Ranked::shown))
    }

    fn move_on(&mut self, clock: u32) {
        self.views.move_on(clock);
    }

    fn size(&self) -> Size {
        Size::of(
            self.views.shown(),
            heap_bytes(&self.places) + self.views.bytes(),
        )
    }
}
