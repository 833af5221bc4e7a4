//! One call of each kind on the proved desk, its list full: for counting, not for timing.

use second::limits::{HIGHEST_SCORE, LAST_TOPIC, MOST_NEEDS, REPLY_LENGTH};

use crate::contest::Contestant;
use crate::entrants::LISTED;
use crate::proved::{Proved, Replied, Take, BOARD, CLOCK, OPEN, REQUEST};
use crate::workload;

pub struct Call {
    pub name: &'static str,
    desk: Proved,
    kind: u32,
    fields: [u32; 4],
}

impl Call {
    /// Makes the call by this function, on a copy of the desk.
    pub fn made(&self, take: Take) -> Replied {
        let mut reply = vec![0; REPLY_LENGTH];
        let mut desk = self.desk.taking_by(take);
        desk.take(self.kind, self.fields, &mut reply)
    }
}

/// The desks are prepared by a function of their own, so that a count of another's work has none of that in it.
pub fn calls(prepare: Take) -> Vec<Call> {
    let mut workload = workload::many_boards();
    // A few ticks after a moment all windows of future views have begun, and the list is full.
    workload.warm = workload.warm.next_multiple_of(8) + 5;
    let listed = workload.warmed(&LISTED);
    let list = listed.list().expect("this peer keeps the list");
    assert_eq!(list.len() as u64, MOST_NEEDS);
    let fresh = Proved::fresh(prepare);
    let open = Proved::open_at(prepare, &workload.boards, workload.warm, &list);
    let clock = workload.warm;
    // All boards of this workload are due at the multiples of eight.
    let due = clock.next_multiple_of(8);
    let mut nearly_due = open.clone();
    nearly_due.step(due - 1, &mut vec![0; REPLY_LENGTH]);
    let call = |name, desk: &Proved, kind, fields| Call {
        name,
        desk: desk.clone(),
        kind,
        fields,
    };
    let best = [0, 1, HIGHEST_SCORE, 0];
    let worst = [0, 1, 0, 0];
    let unknown_topic = [LAST_TOPIC + 1, 1, 1, 0];
    vec![
        call("board, accepted", &fresh, BOARD, [0, 8, 8, 1]),
        call("board, refused (9)", &open, BOARD, [0, 8, 8, 1]),
        call("open, refused (9)", &open, OPEN, [0; 4]),
        call("request, goes on the list", &open, REQUEST, best),
        call("request, does not", &open, REQUEST, worst),
        call("request, refused (6)", &open, REQUEST, unknown_topic),
        call("step in place", &open, CLOCK, [0, clock, 0, 0]),
        call("step, nothing due", &open, CLOCK, [0, clock + 1, 0, 0]),
        call("step, 32 boards due", &nearly_due, CLOCK, [0, due, 0, 0]),
        call("step, refused (11)", &open, CLOCK, [0, clock - 1, 0, 0]),
        call("no known kind (4)", &open, 9, [0; 4]),
    ]
}
