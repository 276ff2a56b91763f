//! The switch behind the planted mistakes (PLANTED.md). Without the feature `planted` it is never on.
use std::sync::atomic::{AtomicU32, Ordering};

static NUMBER: AtomicU32 = AtomicU32::new(0);

/// Is the wrong version `n` asked for?
#[inline(always)]
pub fn on(n: u32) -> bool {
    cfg!(feature = "planted") && NUMBER.load(Ordering::Relaxed) == n
}

pub fn set(n: u32) {
    NUMBER.store(n, Ordering::Relaxed)
}
