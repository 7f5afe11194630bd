//! What the judged files can be asked without taking the machine's memory or its day: they make
//! every split of a run before they hand one out.

use std::alloc::{GlobalAlloc, Layout, System};

/// Splits of a run that may be asked for.
const SPLITS: u128 = 100_000;
/// Sets of folds, whole or begun, that the engine may walk through.
const STEPS: u128 = 2_000_000;
/// Bytes that one allocation may have. Above, it fails and the process ends with the message of
/// the standard library.
pub const BYTES: usize = 1 << 30;

/// The system's allocator with a ceiling.
pub struct Ceiling;

// SAFETY: every request is handed on unchanged or answered by null, as the trait allows.
unsafe impl GlobalAlloc for Ceiling {
    unsafe fn alloc(&self, layout: Layout) -> *mut u8 {
        if layout.size() > BYTES { std::ptr::null_mut() } else { unsafe { System.alloc(layout) } }
    }

    unsafe fn dealloc(&self, memory: *mut u8, layout: Layout) {
        unsafe { System.dealloc(memory, layout) }
    }
}

/// C(n, k), or `u128::MAX` where a step of the product does not fit.
pub fn choose(n: usize, k: usize) -> u128 {
    if k > n {
        return 0;
    }
    let step =
        |product: u128, i: usize| Some(product.checked_mul((n - i) as u128)? / (i as u128 + 1));
    (0..k.min(n - k)).try_fold(1, step).unwrap_or(u128::MAX)
}

/// Whether the splits (or paths) of `folds` taken `tested` at a time may be asked for: few, or
/// so many that the judged check on the count refuses.
pub fn listed(folds: usize, tested: usize) -> bool {
    let sets = choose(folds, tested);
    let smaller = tested.min(folds.saturating_sub(tested)) as u128;
    tested == 0 || sets <= SPLITS || sets.saturating_mul(smaller) > u128::from(u64::MAX)
}

/// The same for the engine, which walks through every set of at most `tested` folds.
pub fn walked(folds: usize, tested: usize) -> bool {
    let refused = folds < 2 || tested == 0 || tested >= folds;
    refused
        || (0..=tested).fold(0u128, |sum, size| sum.saturating_add(choose(folds, size))) <= STEPS
}
