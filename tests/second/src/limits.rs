//! The ranges of document 01.

/// The clock, a step's target and a moment.
pub const LAST_TICK: u32 = 1_000_000_000;
/// A window and a slide, in ticks.
pub const MOST_TICKS: u32 = 86_400;
pub const MOST_K: u32 = 256;
pub const MOST_BOARDS: usize = 32;
pub const LAST_TOPIC: u32 = 7;
pub const LAST_MASK: u32 = 255;
pub const HIGHEST_SCORE: u32 = 1_000_000_000;
pub const MOST_NEEDS: u64 = 1_024;

/// Bytes of one message.
pub const MESSAGE_LENGTH: usize = 20;
/// Words of the console's reply: 2 for each of 32 boards and 3 for each of
/// 1,024 entries, since k is never above the need.
pub const REPLY_LENGTH: usize = 3_136;
