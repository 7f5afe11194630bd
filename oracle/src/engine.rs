//! Questions to `backtesting_engine.rs`, which runs all splits of a layout or none.

use crate::reach;
use crate::text::{Fields, Span, Trouble, hex, row};
use crate::window::NO_SUCH;
use openquant::backtesting_engine::{
    BacktestData, BacktestError, BacktestRunConfig, BacktestSafeguards, CpcvConfig, CpcvResult,
    CrossValidationConfig, SplitDefinition, WalkForwardConfig, cpcv_path_count, run_cpcv,
    run_cross_validation, run_walk_forward,
};

/// What a refusal carries and the engine's error does not.
#[derive(Clone, Copy)]
pub struct Carried {
    pub folds: usize,
    pub rows: usize,
    pub fraction: f64,
}

/// `KP` N bits split
pub fn kfold(table: &[Span], fields: &mut Fields) -> Result<String, Trouble> {
    let (folds, fraction, number) = (fields.number()?, fields.fraction()?, fields.number()?);
    let config = CrossValidationConfig { n_splits: folds, pct_embargo: fraction };
    let run = run_cross_validation(&data(table), &record(), &config, nothing_earned);
    let carried = Carried { folds, rows: table.len(), fraction };
    Ok(answered(run.map(|run| run.splits), number, table.len(), false, carried))
}

/// `CP` N k bits split
pub fn cpcv(table: &[Span], fields: &mut Fields) -> Result<String, Trouble> {
    let (folds, tested) = (fields.number()?, fields.number()?);
    let (fraction, number) = (fields.fraction()?, fields.number()?);
    if folds <= table.len() && !reach::walked(folds, tested) {
        return Err("too many sets of folds to walk through".to_string());
    }
    let config = CpcvConfig { n_groups: folds, test_groups: tested, pct_embargo: fraction };
    let run = run_cpcv(&data(table), &record(), &config, nothing_earned);
    let carried = Carried { folds, rows: table.len(), fraction };
    Ok(answered(run.map(|run| run.splits), number, table.len(), false, carried))
}

/// `RP` a testsize step bits split
pub fn rolling(table: &[Span], fields: &mut Fields) -> Result<String, Trouble> {
    let config = WalkForwardConfig {
        min_train_size: fields.number()?,
        test_size: fields.number()?,
        step_size: fields.number()?,
        pct_embargo: fields.fraction()?,
    };
    let number = fields.number()?;
    let run = run_walk_forward(&data(table), &record(), &config, nothing_earned);
    let carried = Carried { folds: 0, rows: table.len(), fraction: config.pct_embargo };
    Ok(answered(run.map(|run| run.splits), number, table.len(), true, carried))
}

/// `PC` N k
pub fn path_count(fields: &mut Fields) -> Result<String, Trouble> {
    let (folds, tested) = (fields.number()?, fields.number()?);
    let carried = Carried { folds, rows: 0, fraction: 0.0 };
    Ok(match cpcv_path_count(folds, tested) {
        Ok(count) => format!("V\t{count}"),
        Err(error) => refusal(&error, carried),
    })
}

/// One CPCV run whose returns are `value` of their place in the flat list: split after split,
/// each split's test rows in row order.
pub fn run_with(
    table: &[Span],
    folds: usize,
    tested: usize,
    value: impl Fn(usize) -> f64,
) -> Result<CpcvResult, BacktestError> {
    let config = CpcvConfig { n_groups: folds, test_groups: tested, pct_embargo: 0.0 };
    let mut asked = 0;
    let mut place = 0;
    run_cpcv(&data(table), &record(), &config, |split| {
        assert_eq!(split.split_id, asked, "splits are run in their order");
        asked += 1;
        let first = place;
        place += split.test_indices.len();
        Ok((first..place).map(&value).collect())
    })
}

pub fn refusal(error: &BacktestError, carried: Carried) -> String {
    use BacktestError as E;
    match error {
        E::Empty("returns") => "X\t1".to_string(),
        E::TooManyFolds => row("X\t2", &[carried.folds, carried.rows]),
        E::LabelSpanEndBeforeStart => "X\t4\t-".to_string(),
        E::TestGroupsNotBelowGroups => "X\t6".to_string(),
        E::CombinationCountOverflow => "X\t8".to_string(),
        E::NoWalkForwardSplits => "X\t16".to_string(),
        E::EmptyCrossValidationTrainSplit
        | E::EmptyCpcvTrainSplit
        | E::EmptyWalkForwardTrainSplit => "E".to_string(),
        E::Invalid { name, .. } => match *name {
            "n_splits" | "n_groups" => row("X\t2", &[carried.folds, carried.rows]),
            "pct_embargo" => format!("X\t3\t{}", hex(carried.fraction.to_bits())),
            "test_groups" => "X\t6".to_string(),
            "min_train_size" | "test_size" | "step_size" => "X\t15".to_string(),
            other => panic!("no call asked here gives this: {other}"),
        },
        other => panic!("no call asked here gives this: {other}"),
    }
}

fn answered(
    splits: Result<Vec<SplitDefinition>, BacktestError>,
    number: usize,
    rows: usize,
    forward: bool,
    carried: Carried,
) -> String {
    match splits {
        Ok(splits) => {
            splits.get(number).map_or(NO_SUCH.to_string(), |split| lettered(split, rows, forward))
        }
        Err(error) => refusal(&error, carried),
    }
}

/// The engine lists the trained and the tested rows and counts the others.
fn lettered(split: &SplitDefinition, rows: usize, forward: bool) -> String {
    let mut letters = vec![b'-'; rows];
    if forward {
        let after = split.test_indices.last().map_or(0, |last| last + 1);
        letters[after..].fill(b'5');
    }
    let lists = [(&split.train_indices, b'0'), (&split.test_indices, b'1')];
    for (list, letter) in lists {
        for &row in list {
            assert_eq!(letters[row], b'-', "row {row} stands in two lists");
            letters[row] = letter;
        }
    }
    let counts = [
        split.train_indices.len(),
        split.test_indices.len(),
        split.purged_count,
        split.embargo_count,
    ];
    row(&format!("P\t{}", String::from_utf8(letters).expect("letters")), &counts)
}

fn nothing_earned(split: &SplitDefinition) -> Result<Vec<f64>, BacktestError> {
    Ok(vec![0.0; split.test_indices.len()])
}

fn data(table: &[Span]) -> BacktestData {
    BacktestData { returns: vec![0.0; table.len()], label_spans: table.to_vec() }
}

/// The notes that every run must carry; no answer depends on them.
fn record() -> BacktestRunConfig {
    let note = || "recorded answers".to_string();
    BacktestRunConfig {
        mode_provenance: note(),
        trials_count: 1,
        safeguards: BacktestSafeguards {
            survivorship_bias_control: note(),
            look_ahead_control: note(),
            data_mining_control: note(),
            cost_assumption: note(),
            multiple_testing_control: note(),
        },
    }
}
