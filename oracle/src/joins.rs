//! Where each row of a joined path comes from. The engine hands back only the mean and the
//! deviation of a path, so the places are found by runs with chosen returns:
//!
//! 1. For each place of the flat list a run with 1 there and 0 elsewhere: the mean of a path is
//!    1/n exactly if the place is on it. Its row is known from the split's test rows.
//! 2. For each row i above 0 a run with 2^60 at its place, -2^60 at row 0's place and 1
//!    elsewhere. Ones before the later of the two are lost in rounding, so the sum tells how
//!    many rows are joined after it: n-1-i in row order. (The first two rows could be exchanged
//!    unseen: a sum of two doubles is the same in either order.)
//! 3. A run with scattered returns made from the seed: mean and deviation must be, bit for bit,
//!    those of the list joined from the places found.

use crate::engine::{Carried, refusal, run_with};
use crate::rng::Rng;
use crate::text::{Fields, Span, Trouble, at, row};
use crate::window::NO_SUCH;
use openquant::backtesting_engine::CpcvResult;
use openquant::util::stats;
use std::collections::HashMap;

/// Rows of a joining question; the second kind of run needs fewer than 128 ones.
const ROWS: usize = 100;
/// Runs of one question.
const PLACES: usize = 20_000;

/// For each path the places of its rows.
type Paths = Vec<Vec<usize>>;

/// The paths already found, by rows, folds and tested folds.
#[derive(Default)]
pub struct Joins(HashMap<[usize; 3], Result<Paths, String>>);

impl Joins {
    /// `JN` n N k path seed
    pub fn ask(&mut self, fields: &mut Fields) -> Result<String, Trouble> {
        let (rows, folds, tested) = (fields.number()?, fields.number()?, fields.number()?);
        let (number, seed) = (fields.number()?, fields.number()?);
        if rows > ROWS {
            return Err("too many rows to join".to_string());
        }
        let table = apart(rows);
        let key = [rows, folds, tested];
        if !self.0.contains_key(&key) {
            let found = find(&table, folds, tested)?;
            self.0.insert(key, found);
        }
        Ok(match &self.0[&key] {
            Err(refused) => refused.clone(),
            Ok(paths) => match paths.get(number) {
                None => NO_SUCH.to_string(),
                Some(places) => {
                    check_order(&table, folds, tested, number, places);
                    check_scattered(&table, folds, tested, number, places, seed as u64);
                    row("J", places)
                }
            },
        })
    }
}

fn find(table: &[Span], folds: usize, tested: usize) -> Result<Result<Paths, String>, Trouble> {
    let rows = table.len();
    let first = match run_with(table, folds, tested, |_| 0.0) {
        Ok(run) => run,
        Err(error) => {
            return Ok(Err(refusal(&error, Carried { folds, rows, fraction: 0.0 })));
        }
    };
    let row_of: Vec<usize> =
        first.splits.iter().flat_map(|split| split.test_indices.iter().copied()).collect();
    if row_of.len() > PLACES {
        return Err("too many places to find".to_string());
    }
    let mut paths: Vec<Vec<Option<usize>>> = vec![vec![None; rows]; first.path_count];
    for (place, &row) in row_of.iter().enumerate() {
        let run = run_with(table, folds, tested, |p| if p == place { 1.0 } else { 0.0 });
        for (path, met) in paths.iter_mut().zip(sums(&run.expect("ran before"), rows)) {
            assert!(met == 0.0 || met == 1.0, "place {place} is joined more than once");
            if met == 1.0 {
                assert_eq!(path[row].replace(place), None, "row {row} is joined more than once");
            }
        }
    }
    let whole = |path: Vec<Option<usize>>| path.into_iter().collect::<Option<Vec<usize>>>();
    Ok(Ok(paths.into_iter().map(|p| whole(p).expect("each row is joined")).collect()))
}

fn check_order(table: &[Span], folds: usize, tested: usize, number: usize, places: &[usize]) {
    let large = 2f64.powi(60);
    for (row, &here) in places.iter().enumerate().skip(1) {
        let value = |place| {
            if place == here {
                large
            } else if place == places[0] {
                -large
            } else {
                1.0
            }
        };
        let run = run_with(table, folds, tested, value).expect("ran before");
        let after = (places.len() - 1 - row) as f64;
        assert_eq!(sums(&run, places.len())[number], after, "row {row} is joined elsewhere");
    }
}

fn check_scattered(
    table: &[Span],
    folds: usize,
    tested: usize,
    number: usize,
    places: &[usize],
    seed: u64,
) {
    let value = |place: usize| {
        let mut rng = Rng::new(seed ^ (place as u64).wrapping_mul(0x9E37_79B9));
        (rng.below(2001) as f64 - 1000.0) * 2f64.powi(rng.below(40) as i32 - 20)
    };
    let run = run_with(table, folds, tested, value).expect("ran before");
    let path = &run.path_distribution[number];
    let joined: Vec<f64> = places.iter().map(|place| value(*place)).collect();
    let deviation = stats::std_dev(&joined, 1).unwrap_or(0.0);
    assert_eq!(path.observations, joined.len());
    assert_eq!(Some(path.mean_return.to_bits()), stats::mean(&joined).map(f64::to_bits));
    assert_eq!(path.std_return.to_bits(), deviation.to_bits());
}

/// The sum that each path's mean stands for, where it is a whole number.
fn sums(run: &CpcvResult, rows: usize) -> Vec<f64> {
    let sum = |mean: f64| {
        let sum = (mean * rows as f64).round();
        assert_eq!(sum / rows as f64, mean, "the sum is no whole number");
        sum
    };
    run.path_distribution.iter().map(|path| sum(path.mean_return)).collect()
}

/// Rows whose spans lie apart, so that no split is without training rows.
fn apart(rows: usize) -> Vec<Span> {
    (0..rows as i64).map(|t| (at(t).expect("small"), at(t).expect("small"))).collect()
}
