//! Who takes part.

use crate::contest::{Board, Contestant, Entry};
use crate::peers::all::All;
use crate::peers::band::Band;
use crate::peers::each::Each;
use crate::peers::list::List;
use crate::peers::skyband::Skyband;
use crate::peers::window::MinTopK;
use crate::peers::{Keeper, Peer};
use crate::proved::{self, Proved, Take};

pub struct Entrant {
    pub name: &'static str,
    start: Start,
}

enum Start {
    /// A proved desk can be put where another one stands, by its list.
    Proved(Take),
    Peer(fn(&[Board], u32) -> Box<dyn Contestant>),
}

impl Entrant {
    const fn proved(name: &'static str, take: Take) -> Entrant {
        let start = Start::Proved(take);
        Entrant { name, start }
    }

    const fn peer<K: Keeper>(name: &'static str) -> Entrant {
        let start = Start::Peer(|boards, clock| Box::new(Peer::<K>::open_at(boards, clock)));
        Entrant { name, start }
    }

    /// An open desk at some clock, with nothing accepted before it.
    pub fn open_at(&self, boards: &[Board], clock: u32) -> Box<dyn Contestant> {
        match self.start {
            Start::Proved(take) => Box::new(Proved::open_at(take, boards, clock, &[])),
            Start::Peer(open_at) => open_at(boards, clock),
        }
    }

    /// A proved desk that goes on from a clock and a list, and no peer.
    pub fn go_on(
        &self,
        boards: &[Board],
        clock: u32,
        list: &[Entry],
    ) -> Option<Box<dyn Contestant>> {
        match self.start {
            Start::Proved(take) => Some(Box::new(Proved::open_at(take, boards, clock, list))),
            Start::Peer(_) => None,
        }
    }
}

/// The desk is first, since the others are shown as ratios to it. The last holds
/// the shared list.
pub const ENTRANTS: &[Entrant] = &[
    Entrant::proved("desk", proved::desk_take),
    #[cfg(feature = "before")]
    Entrant::proved("before", proved::desk_take_before),
    Entrant::peer::<All>("B0 keep all"),
    Entrant::peer::<Each<MinTopK>>("B1 MinTopK"),
    Entrant::peer::<Each<Skyband>>("B2 skyband"),
    Entrant::peer::<Each<Band>>("B5 MTopBand"),
    LISTED,
];

/// The peer that holds the shared list.
pub const LISTED: Entrant = Entrant::peer::<List>("B6 MTopList");
