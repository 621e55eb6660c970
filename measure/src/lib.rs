//! What the two programs share: times, and a thread's stack.

pub mod stack;
pub mod times;

/// A history that is never full in these games.
pub const HISTORY_BYTES: usize = samtrekhu::raw::RECORD_BYTES * 6_000;
