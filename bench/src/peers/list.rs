//! B6, MTopList, repaired: one list for all boards, in which an entry counts the
//! views that show it. It is the proved desk's list, kept by other means.

use super::views::Views;
use super::{heap_bytes, Keeper, Key};
use crate::contest::{names, write_block, Board, Entry, Size};

#[derive(Clone)]
struct Held {
    key: Key,
    entry: Entry,
    views: u32,
}

#[derive(Clone)]
pub struct List {
    boards: Vec<(Board, Views)>,
    /// Best first.
    list: Vec<Held>,
    /// Whether a view has ended since the last thinning.
    ended: bool,
}

/// Whether an entry lies in a board's window at a moment that is still ahead of it.
fn lies_in(board: &Board, moment: u32, entry: &Entry) -> bool {
    names(board, entry.topic) && moment <= entry.tick + board.window
}

fn place(list: &[Held], key: Key) -> usize {
    list.partition_point(|held| held.key > key)
}

/// The lowest of a full view leaves it; what comes back is the lowest then.
fn push_out(list: &mut Vec<Held>, board: &Board, moment: u32, lowest: Key) -> Key {
    let place = place(list, lowest);
    let above = list[..place].iter().rev();
    let next = above
        .filter(|held| lies_in(board, moment, &held.entry))
        .map(|held| held.key)
        .next();
    list[place].views -= 1;
    if list[place].views == 0 {
        list.remove(place);
    }
    next.expect("the new entry stands above the lowest")
}

impl Keeper for List {
    fn new(boards: &[Board], clock: u32) -> List {
        List {
            boards: boards
                .iter()
                .map(|board| (*board, Views::at(board, clock)))
                .collect(),
            list: Vec::new(),
            ended: false,
        }
    }

    fn accept(&mut self, entry: &Entry, key: Key) {
        let mut views = 0;
        for (board, future) in &self.boards {
            if names(board, entry.topic) {
                views += future.taking(key).len() as u32;
            }
        }
        if views == 0 {
            return;
        }
        let held = Held {
            key,
            entry: *entry,
            views,
        };
        self.list.insert(place(&self.list, key), held);
        for (board, future) in &mut self.boards {
            if !names(board, entry.topic) {
                continue;
            }
            for number in future.taking(key) {
                let moment = future.moment(number);
                let view = future.view(number);
                if view.count < board.k {
                    view.fill(key);
                } else {
                    view.lowest = push_out(&mut self.list, board, moment, view.lowest);
                }
            }
        }
    }

    fn answer(&mut self, number: usize, moment: u32, reply: &mut [u32]) -> usize {
        let (board, _) = &self.boards[number];
        self.ended = true;
        let shown = self
            .list
            .iter_mut()
            .filter(|held| lies_in(board, moment, &held.entry))
            .take(board.k as usize);
        // The view ends here, and its members are shown by one view less.
        let shown = shown.map(|held| {
            held.views -= 1;
            [held.entry.id, held.entry.score, held.entry.tick]
        });
        write_block(reply, number, shown)
    }

    fn move_on(&mut self, clock: u32) {
        for (_, views) in &mut self.boards {
            views.move_on(clock);
        }
        if self.ended {
            self.list.retain(|held| held.views > 0);
            self.ended = false;
        }
    }

    fn size(&self) -> Size {
        let views: usize = self.boards.iter().map(|(_, views)| views.bytes()).sum();
        Size::of(
            self.list.len(),
            heap_bytes(&self.boards) + heap_bytes(&self.list) + views,
        )
    }

    fn list(&self) -> Option<Vec<Entry>> {
        Some(self.list.iter().map(|held| held.entry).collect())
    }
}
