//! Which workloads a run has.

use crate::workload::{large_k, many_boards, many_views, Drawn, Masks, Scores, Workload};

pub const FEW: u32 = 10;
pub const MANY: u32 = 1_000;

const COUNTS: [u32; 5] = [1, 2, 5, 10, 32];
/// Requests to a tick.
const RATES: [u32; 3] = [FEW, 100, MANY];
/// The number of boards where all but one thing is as usual.
pub const USUAL_COUNT: u32 = 10;
// The first of each is the usual one.
const DRAWN: [Drawn; 4] = [Drawn::All, Drawn::K, Drawn::Slide, Drawn::Window];
const SCORES: [Scores; 3] = [Scores::Uniform, Scores::Rising, Scores::Falling];
const MASKS: [Masks; 2] = [Masks::Drawn, Masks::Zero];

/// What a workload is made from.
#[derive(Clone, Copy)]
pub struct Choice {
    pub count: u32,
    pub rate: u32,
    drawn: Drawn,
    scores: Scores,
    masks: Masks,
}

impl Choice {
    pub fn workload(self) -> Workload {
        Workload::new(self.count, self.drawn, self.rate, self.scores, self.masks)
    }

    pub fn is_usual(self) -> bool {
        self.unusual() == 0
    }

    fn unusual(self) -> usize {
        let unusual = [
            self.drawn != DRAWN[0],
            self.scores != SCORES[0],
            self.masks != MASKS[0],
        ];
        unusual.into_iter().filter(|is_so| *is_so).count()
    }

    /// A short run has all that is usual and, for one number of boards, one thing unusual.
    fn is_short(self) -> bool {
        let is_odd = self.unusual() == 1 && self.count == USUAL_COUNT;
        self.is_usual() || is_odd && [FEW, MANY].contains(&self.rate)
    }
}

pub fn choices(all: bool) -> Vec<Choice> {
    let mut choices = Vec::new();
    for rate in RATES {
        for count in COUNTS {
            for drawn in DRAWN {
                for scores in SCORES {
                    for masks in MASKS {
                        choices.push(Choice {
                            count,
                            rate,
                            drawn,
                            scores,
                            masks,
                        });
                    }
                }
            }
        }
    }
    choices.retain(|choice| all || choice.is_short());
    choices
}

pub fn worst() -> [Workload; 3] {
    [many_views(), many_boards(), large_k()]
}
