//! Made-up tables of every kind, and the fractions that go with them.

use crate::rng::Rng;
use crate::text::at;
use chrono::NaiveDateTime;

/// Starts and ends in microseconds.
pub type Rows = Vec<(i64, i64)>;

/// How the spans of a table lie.
#[derive(Clone, Copy, PartialEq)]
pub enum Kind {
    Apart,
    Sorted,
    Touching,
    Points,
    Equal,
    Nested,
    Long,
    Unsorted,
    Falling,
    Clock,
    Edges,
    Few,
}

pub const KINDS: [Kind; 12] = [
    Kind::Apart,
    Kind::Sorted,
    Kind::Touching,
    Kind::Points,
    Kind::Equal,
    Kind::Nested,
    Kind::Long,
    Kind::Unsorted,
    Kind::Falling,
    Kind::Clock,
    Kind::Edges,
    Kind::Few,
];

/// Fractions that are accepted; the names are those of 01's examples on the edges.
pub const GOOD: [f64; 12] =
    [0.0, -0.0, 5e-324, 0.01, 0.05, 0.07, 0.1, 0.25, 1.0 / 3.0, 0.5, 0.9, 0.999_999_999_999_999_9];

/// Bits of fractions that are refused: 1, the next, 2, the largest, the infinities, NaNs quiet
/// and signalling of both signs, the smallest below 0, -0.5, -1.
pub const BAD: [u64; 13] = [
    0x3FF0_0000_0000_0000,
    0x3FF0_0000_0000_0001,
    0x4000_0000_0000_0000,
    0x7FEF_FFFF_FFFF_FFFF,
    0x7FF0_0000_0000_0000,
    0xFFF0_0000_0000_0000,
    0x7FF8_0000_0000_0000,
    0xFFF8_0000_0000_0000,
    0x7FF0_0000_0000_0001,
    0xFFFF_FFFF_FFFF_FFFF,
    0x8000_0000_0000_0001,
    0xBFE0_0000_0000_0000,
    0xBFF0_0000_0000_0000,
];

/// A table of `n` rows, each end at or after its start.
pub fn made(rng: &mut Rng, kind: Kind, n: usize) -> Rows {
    let mut clock = rng.within(0, 20) as i64 - 10;
    (0..n as i64).map(|i| span(rng, kind, n as i64, i, &mut clock)).collect()
}

fn span(rng: &mut Rng, kind: Kind, n: i64, i: i64, clock: &mut i64) -> (i64, i64) {
    match kind {
        Kind::Equal => (*clock, *clock + 3),
        Kind::Nested => (i, 2 * n - i),
        Kind::Unsorted => {
            let start = rng.below(3 * n as usize) as i64 - n;
            (start, start + rng.below(4) as i64)
        }
        Kind::Falling => (3 * (n - i), 3 * (n - i) + rng.below(5) as i64),
        Kind::Clock => {
            // Hours of January 2024, labels of one to three hours.
            let start = 1_704_186_000_000_000 + i * 3_600_000_000;
            (start, start + rng.within(1, 3) as i64 * 3_600_000_000)
        }
        Kind::Edges => in_order(edge(rng), edge(rng)),
        Kind::Few => in_order(rng.below(5) as i64, rng.below(5) as i64),
        _ => in_turn(rng, kind, n, clock),
    }
}

/// A span of the kinds whose starts follow one another on the clock.
fn in_turn(rng: &mut Rng, kind: Kind, n: i64, clock: &mut i64) -> (i64, i64) {
    let start = *clock;
    let (step, length) = match kind {
        Kind::Apart => {
            let gap = rng.within(2, 6);
            (gap, rng.below(gap))
        }
        Kind::Sorted => (rng.below(4), rng.below(6)),
        Kind::Touching => {
            let gap = rng.within(1, 3);
            (gap, gap)
        }
        Kind::Long => {
            (rng.within(1, 3), rng.below(2) + if rng.once_in(5) { n as usize } else { 0 })
        }
        _ => (rng.below(2), 0),
    };
    *clock += step as i64;
    (start, start + length as i64)
}

fn in_order(a: i64, b: i64) -> (i64, i64) {
    (a.min(b), a.max(b))
}

/// A time at or near an end of what chrono holds, or near 0.
fn edge(rng: &mut Rng) -> i64 {
    let near = rng.below(3) as i64;
    let low = NaiveDateTime::MIN.timestamp_micros() + near;
    let high = NaiveDateTime::MAX.timestamp_micros() - near;
    rng.pick(&[low, high, near - 1, low, high])
}

/// The same table with one to three ends before their starts.
pub fn spoilt(rng: &mut Rng, mut rows: Rows) -> Rows {
    for _ in 0..rng.within(1, 3) {
        let row = rng.below(rows.len());
        let earlier = rows[row].0 - rng.within(1, 4) as i64;
        if at(earlier).is_some() {
            rows[row].1 = earlier;
        }
    }
    rows
}

/// An accepted fraction: an edge, a quotient of the row count (and its neighbours, where the
/// product rounds one way or the other), or any.
pub fn fraction(rng: &mut Rng, n: usize) -> f64 {
    let any = (rng.next() >> 11) as f64 / (1u64 << 53) as f64;
    // Small shares oftener: a wide embargo leaves many a split without training rows.
    let most = rng.within(1, n.max(1));
    let share = rng.below(most) as f64 / n.max(1) as f64;
    match rng.below(12) {
        0..=2 => rng.pick(&GOOD),
        3..=5 => share,
        6 | 7 => share.next_up(),
        8 | 9 => share.next_down().max(0.0),
        10 => any,
        _ => 0.0,
    }
}
