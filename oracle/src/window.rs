//! Questions to `cross_validation.rs`.

use crate::reach;
use crate::text::{Fields, Span, Trouble, at, hex, row};
use openquant::cross_validation::{
    CrossValidationError, PurgedKFold, PurgedSplit, count_train_test_overlaps, ml_get_train_times,
    naive_kfold_splits,
};

/// Rows that a question on N and k alone may need.
const FOLDS: usize = 4096;

/// The answer to a split or path number at or past the end of the Rust's list.
pub const NO_SUCH: &str = "X\t13";

/// `KW` N bits split
pub fn kfold(table: &[Span], fields: &mut Fields) -> Result<String, Trouble> {
    let (folds, fraction, number) = (fields.number()?, fields.fraction()?, fields.number()?);
    let splits = PurgedKFold::new(folds, table.to_vec(), fraction)
        .and_then(|folds| folds.split_with_diagnostics(table.len()));
    Ok(answered(splits, |splits| {
        splits.get(number).map(|split| marked(split, table.len(), table.len()))
    }))
}

/// `CW` N k bits split
pub fn cpcv(table: &[Span], fields: &mut Fields) -> Result<String, Trouble> {
    let (folds, tested) = (fields.number()?, fields.number()?);
    let (fraction, number) = (fields.fraction()?, fields.number()?);
    let made = PurgedKFold::new(folds, table.to_vec(), fraction);
    if made.is_ok() && !reach::listed(folds, tested) {
        return Err("too many splits to ask for".to_string());
    }
    let splits = made.and_then(|made| made.cpcv_splits(table.len(), tested));
    Ok(answered(splits, |splits| {
        splits.get(number).map(|split| marked(&split.split, table.len(), table.len()))
    }))
}

/// `WF` N m bits split
pub fn walk_forward(table: &[Span], fields: &mut Fields) -> Result<String, Trouble> {
    let (folds, minimum) = (fields.number()?, fields.number()?);
    let (fraction, number) = (fields.fraction()?, fields.number()?);
    let splits = PurgedKFold::new(folds, table.to_vec(), fraction)
        .and_then(|folds| folds.walk_forward_splits(table.len(), minimum));
    Ok(answered(splits, |splits| {
        let split = &splits.get(number)?.split;
        let after = split.test_indices.last().map_or(0, |last| last + 1);
        Some(marked(split, table.len(), after))
    }))
}

/// `CF` N k split
pub fn folds_of(fields: &mut Fields) -> Result<String, Trouble> {
    let (folds, tested, number) = (fields.number()?, fields.number()?, fields.number()?);
    let made = over_points(folds, tested)?;
    let splits = made.and_then(|made| made.cpcv_splits(folds, tested));
    Ok(answered(splits.map_err(rowless), |splits| {
        splits.get(number).map(|split| row(&format!("F\t{tested}"), &split.test_fold_ids))
    }))
}

/// `PA` N k path
pub fn path(fields: &mut Fields) -> Result<String, Trouble> {
    let (folds, tested, number) = (fields.number()?, fields.number()?, fields.number()?);
    let paths = over_points(folds, tested)?.and_then(|made| made.cpcv_paths(tested));
    Ok(answered(paths.map_err(rowless), |paths| {
        paths.get(number).map(|path| row(&format!("W\t{folds}"), &path.split_for_fold))
    }))
}

/// `NK` n N split
pub fn naive(fields: &mut Fields) -> Result<String, Trouble> {
    let (rows, folds, number) = (fields.number()?, fields.number()?, fields.number()?);
    Ok(answered(naive_kfold_splits(rows, folds), |splits| {
        let (train, test) = splits.get(number)?;
        let mut marks = Marks::new(rows);
        marks.put(train, b'5', b'0');
        marks.put(test, b'5', b'1');
        Some(format!("M\t{}", marks.text(rows)))
    }))
}

/// `OC` t train.. u test..
pub fn overlaps(table: &[Span], fields: &mut Fields) -> Result<String, Trouble> {
    let (train, test) = (fields.numbers()?, fields.numbers()?);
    Ok(answered(count_train_test_overlaps(table, &train, &test), |count| {
        Some(format!("V\t{count}"))
    }))
}

/// `TT` u ts0 te0 ..
pub fn train_times(table: &[Span], fields: &mut Fields) -> Result<String, Trouble> {
    let tests = fields.spans()?;
    // The Rust hands back the kept spans: asked of one span, that is a flag.
    let kept: Vec<bool> =
        table.iter().map(|span| !ml_get_train_times(&[*span], &tests).is_empty()).collect();
    let by_flag: Vec<Span> =
        table.iter().zip(&kept).filter(|(_, kept)| **kept).map(|(span, _)| *span).collect();
    assert_eq!(ml_get_train_times(table, &tests), by_flag, "one by one and all at once differ");
    let flags: String = kept.iter().map(|kept| if *kept { '1' } else { '0' }).collect();
    Ok(format!("M\t{flags}"))
}

/// A splitter over `folds` rows that lie apart, for questions that need no table. What the
/// answer carries of its row count is dropped by `rowless`.
fn over_points(
    folds: usize,
    tested: usize,
) -> Result<Result<PurgedKFold, CrossValidationError>, Trouble> {
    if folds > FOLDS || !reach::listed(folds, tested) {
        return Err("too many splits to ask for".to_string());
    }
    let points = (0..folds.max(1) as i64).map(|t| (at(t).expect("small"), at(t).expect("small")));
    Ok(PurgedKFold::new(folds, points.collect(), 0.0))
}

/// 01 carries no rows where a call has none.
fn rowless(error: CrossValidationError) -> CrossValidationError {
    match error {
        CrossValidationError::InvalidSplits { n_splits, .. } => {
            CrossValidationError::InvalidSplits { n_splits, n_samples: 0 }
        }
        other => other,
    }
}

fn answered<T>(
    result: Result<T, CrossValidationError>,
    found: impl FnOnce(T) -> Option<String>,
) -> String {
    match result {
        Ok(value) => found(value).unwrap_or_else(|| NO_SUCH.to_string()),
        Err(error) => refusal(error),
    }
}

fn refusal(error: CrossValidationError) -> String {
    use CrossValidationError as E;
    match error {
        E::Empty(_) => "X\t1".to_string(),
        E::InvalidSplits { n_splits, n_samples } => row("X\t2", &[n_splits, n_samples]),
        E::InvalidEmbargo { pct_embargo } => format!("X\t3\t{}", hex(pct_embargo.to_bits())),
        E::InvalidInfoSet { index } => row("X\t4", &[index]),
        E::InvalidTestSplits { .. } => "X\t6".to_string(),
        E::InvalidMinTrainFolds { .. } => "X\t7".to_string(),
        E::TooManySplits { .. } => "X\t8".to_string(),
        E::IndexOutOfRange { index, .. } => row("X\t9", &[index]),
        other => panic!("no call asked here gives this: {other}"),
    }
}

/// Marks of a split and the counts that the Rust gives; rows from `unused` on stand in no list.
fn marked(split: &PurgedSplit, rows: usize, unused: usize) -> String {
    let why = &split.diagnostics;
    let mut marks = Marks::new(rows);
    marks.put(&split.train_indices, b'5', b'0');
    marks.put(&split.test_indices, b'5', b'1');
    marks.put(&why.purged_indices, b'5', b'2');
    let (both, only): (Vec<usize>, Vec<usize>) =
        why.embargo_indices.iter().partition(|row| marks.0[**row] == b'2');
    marks.put(&only, b'5', b'3');
    marks.put(&both, b'2', b'4');
    let counts = [
        split.train_indices.len(),
        split.test_indices.len(),
        why.purged_indices.len(),
        why.embargo_indices.len(),
        why.overlap_count_after_purge,
    ];
    row(&format!("M\t{}", marks.text(unused)), &counts)
}

/// A mark for each row, 5 where nothing was put.
pub struct Marks(Vec<u8>);

impl Marks {
    pub fn new(rows: usize) -> Self {
        Marks(vec![b'5'; rows])
    }

    /// Changes the mark of the listed rows. A row in two lists is a fault of this program's
    /// reading of the Rust and stops it.
    pub fn put(&mut self, rows: &[usize], from: u8, to: u8) {
        for &row in rows {
            assert_eq!(self.0[row], from, "row {row} stands in two lists");
            self.0[row] = to;
        }
    }

    /// The marks as text; exactly the rows from `unused` on have 5.
    pub fn text(self, unused: usize) -> String {
        let as_said = |(row, mark): (usize, &u8)| (*mark == b'5') == (row >= unused);
        assert!(self.0.iter().enumerate().all(as_said), "a row stands in no list");
        String::from_utf8(self.0).expect("digits")
    }
}
