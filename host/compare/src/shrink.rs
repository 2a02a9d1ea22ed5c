//! Finds a smaller input that still differs.

use std::sync::atomic::{AtomicU64, Ordering};
use std::time::{Duration, Instant};

/// How many seconds a smaller input is looked for.
static PATIENCE: AtomicU64 = AtomicU64::new(10);

pub fn set_patience(seconds: u64) {
    PATIENCE.store(seconds, Ordering::Relaxed);
}

/// Cases made one after the other, as they are asked for.
pub type Cases<'a, C> = Box<dyn Iterator<Item = C> + 'a>;

/// Takes the first simpler case that still differs, until none does or patience ends. Every simpler case must be
/// smaller in some measure.
pub fn shrink<C>(mut case: C, simpler: impl Fn(&C) -> Cases<C>, mut differs: impl FnMut(&C) -> bool) -> C {
    let (start, patience) = (Instant::now(), Duration::from_secs(PATIENCE.load(Ordering::Relaxed)));
    loop {
        let smaller = simpler(&case).take_while(|_| start.elapsed() < patience).find(&mut differs);
        match smaller {
            Some(smaller) => case = smaller,
            None => return case,
        }
    }
}

/// Bytes below `n`, the boldest first.
pub fn smaller_bytes(n: u8) -> impl Iterator<Item = u8> {
    [0, n / 2, n.wrapping_sub(2), n.wrapping_sub(1)].into_iter().filter(move |smaller| *smaller < n)
}
