//! Counts the copies that the proved desk makes: in one copy of its archive the
//! names `memcpy` and `memmove` are those of the functions here.

use std::sync::atomic::{AtomicU64, Ordering::Relaxed};

use crate::calls::{calls, Call};
use crate::proved::{self, Take};

/// The archives whose copies are counted, by the entrant's name.
pub const COUNTED: &[(&str, Take)] = &[
    ("desk", proved::desk_take_counted),
    #[cfg(feature = "before")]
    ("before", proved::desk_take_before_counted),
];

/// A copy of this many bytes or more is one of the whole list.
const LARGE: usize = 16 * 1024;

static COPIES: AtomicU64 = AtomicU64::new(0);
static BYTES: AtomicU64 = AtomicU64::new(0);

fn count(bytes: usize) {
    COPIES.fetch_add(u64::from(bytes >= LARGE), Relaxed);
    BYTES.fetch_add(bytes as u64, Relaxed);
}

#[no_mangle]
unsafe extern "C" fn counted_memcpy(to: *mut u8, from: *const u8, bytes: usize) -> *mut u8 {
    count(bytes);
    std::ptr::copy_nonoverlapping(from, to, bytes);
    to
}

#[no_mangle]
unsafe extern "C" fn counted_memmove(to: *mut u8, from: *const u8, bytes: usize) -> *mut u8 {
    count(bytes);
    std::ptr::copy(from, to, bytes);
    to
}

/// For each call its name, and for each archive the large copies and the bytes of all copies.
pub fn counted() -> Vec<(&'static str, Vec<[u64; 2]>)> {
    let of_call = |call: &Call| {
        let counts = COUNTED.iter().map(|(_, take)| count_in(call, *take));
        (call.name, counts.collect())
    };
    calls(proved::desk_take).iter().map(of_call).collect()
}

fn count_in(call: &Call, take: Take) -> [u64; 2] {
    COPIES.store(0, Relaxed);
    BYTES.store(0, Relaxed);
    call.made(take);
    [COPIES.load(Relaxed), BYTES.load(Relaxed)]
}
