//! The recorded cases: what is asked, in which order. Every answer comes from `ask`.

use crate::ask::Asker;
use crate::reach::choose;
use crate::rng::Rng;
use crate::tables::{BAD, GOOD, KINDS, Kind, Rows, fraction, made, spoilt};
use crate::text::{hex, row};

/// Splits of a run in a random question.
const SPLITS: u128 = 1000;

/// The two lists: one for every program that follows 01, and one with the questions that the
/// engine is known to answer in another way (its other check order, its wider count).
pub struct Recorder {
    asker: Asker,
    rng: Rng,
    rows: Rows,
    table: String,
    main: Vec<String>,
    differ: Vec<String>,
    differ_table: String,
}

pub fn recorded(seed: u64) -> Recorder {
    let mut it = Recorder {
        asker: Asker::default(),
        rng: Rng::new(seed),
        rows: Vec::new(),
        table: String::new(),
        main: Vec::new(),
        differ: Vec::new(),
        differ_table: String::new(),
    };
    it.examples();
    it.all_small();
    it.settings();
    it.made_tables();
    it.roomy_tables();
    it.larger_tables();
    it.listings();
    it.naive();
    it.joins();
    it
}

impl Recorder {
    pub fn lines(&self, differing: bool) -> &[String] {
        if differing { &self.differ } else { &self.main }
    }

    fn table(&mut self, rows: Rows) {
        let times: Vec<i64> = rows.iter().flat_map(|(start, end)| [*start, *end]).collect();
        self.table = self.line(row(&format!("T\t{}", rows.len()), &times));
        self.main.push(self.table.clone());
        self.rows = rows;
    }

    fn line(&mut self, question: String) -> String {
        self.asker.line(&question).unwrap_or_else(|e| panic!("{question}: {e}"))
    }

    fn answer(&mut self, question: &str) -> String {
        self.asker.answer(question).unwrap_or_else(|e| panic!("{question}: {e}"))
    }

    fn ask(&mut self, question: String) {
        let line = self.line(question);
        self.main.push(line);
    }

    /// A question to the engine. Where `other`, the same question to the other module, is
    /// refused with another number or the engine answers it, it goes to the second list.
    fn ask_engine(&mut self, question: String, other: String) {
        let line = self.line(question);
        let said = line.split_once("\t=\t").expect("an answer").1.to_string();
        let number = |answer: &str| {
            answer.strip_prefix("X\t").map(|rest| rest.split('\t').next().unwrap_or("").to_string())
        };
        let rule = number(&self.answer(&other));
        // `E` needs no list of its own: it tells itself apart.
        if said != "E" && rule.is_some() && rule != number(&said) {
            self.set_apart(line);
        } else {
            self.main.push(line);
        }
    }

    fn set_apart(&mut self, line: String) {
        let of_table = line.starts_with("KP") || line.starts_with("CP") || line.starts_with("RP");
        if of_table && self.differ_table != self.table {
            self.differ.push(self.table.clone());
            self.differ_table = self.table.clone();
        }
        self.differ.push(line);
    }

    fn kfold(&mut self, folds: usize, bits: u64, split: usize) {
        let tail = format!("{folds}\t{}\t{split}", hex(bits));
        self.ask(format!("KW\t{tail}"));
        self.ask_engine(format!("KP\t{tail}"), format!("KW\t{tail}"));
        if self.run_refused() && bits != 0 {
            self.ask(format!("KP\t{folds}\t{}\t{split}", hex(0)));
        }
    }

    fn run_refused(&self) -> bool {
        self.main.last().is_some_and(|line| line.ends_with("\t=\tE"))
    }

    fn cpcv(&mut self, folds: usize, tested: usize, bits: u64, split: usize) {
        let tail = format!("{folds}\t{tested}\t{}\t{split}", hex(bits));
        self.ask(format!("CW\t{tail}"));
        // The engine makes all splits with no check on their count.
        if choose(folds, tested) <= SPLITS {
            self.ask_engine(format!("CP\t{tail}"), format!("CW\t{tail}"));
        }
        if self.run_refused() && bits != 0 {
            self.ask(format!("CP\t{folds}\t{tested}\t{}\t{split}", hex(0)));
        }
    }

    fn forward(&mut self, folds: usize, minimum: usize, bits: u64, split: usize) {
        self.ask(format!("WF\t{folds}\t{minimum}\t{}\t{split}", hex(bits)));
    }

    fn rolling(&mut self, sizes: [usize; 3], bits: u64, split: usize) {
        let [first, size, step] = sizes;
        let question = format!("RP\t{first}\t{size}\t{step}\t{}\t{split}", hex(bits));
        // The engine looks at spans before the fraction, 01 after it.
        let spoilt = self.rows.iter().any(|(start, end)| end < start);
        if spoilt && !(0.0..1.0).contains(&f64::from_bits(bits)) {
            let line = self.line(question);
            self.set_apart(line);
        } else {
            self.ask(question);
        }
    }
}

/// 01's examples.
impl Recorder {
    fn examples(&mut self) {
        for split in 0..3 {
            self.ask(format!("NK\t10\t3\t{split}"));
        }
        self.ask("NK\t2\t2\t0".to_string());
        self.ask("NK\t2\t2\t1".to_string());
        for rows in [
            vec![(10, 12), (0, 2), (20, 21), (1, 3)],
            vec![(0, 1), (10, 11), (5, 6), (20, 21)],
            vec![(0, 5), (10, 20), (20, 25), (30, 35), (40, 45), (50, 55)],
        ] {
            let folds = if rows.len() == 4 { 2 } else { 3 };
            self.table(rows);
            for bits in [0, 0.1f64.to_bits()] {
                for split in 0..folds {
                    self.kfold(folds, bits, split);
                    self.cpcv(folds, 1, bits, split);
                }
            }
        }
        self.table(vec![(4, 1), (1, 4), (6, 7)]);
        self.ask("TT\t1\t3\t5".to_string());
        self.ask("OC\t3\t0\t1\t2\t1\t1".to_string());
        self.widths();
    }

    /// Widths are seen as the embargoed rows after the first of two folds.
    fn widths(&mut self) {
        for n in [2, 3, 5, 100] {
            self.table((0..n).map(|t| (2 * t, 2 * t)).collect());
            for fraction in GOOD {
                self.kfold(n as usize, fraction.to_bits(), 0);
            }
        }
    }
}

/// Every table of up to three rows over three times.
impl Recorder {
    fn all_small(&mut self) {
        let spans: Vec<(i64, i64)> =
            (0..3).flat_map(|start| (start..3).map(move |end| (start, end))).collect();
        for &a in &spans {
            for &b in &spans {
                self.small(vec![a, b]);
                for &c in &spans {
                    self.small(vec![a, b, c]);
                }
            }
        }
    }

    fn small(&mut self, rows: Rows) {
        let n = rows.len();
        self.table(rows);
        let fractions = [hex(0), hex((1.0 / n as f64).to_bits())];
        for folds in 2..=n {
            self.both_rules("K", &folds.to_string(), folds, &fractions);
        }
        if n == 3 {
            self.both_rules("C", "3\t2", 3, &fractions);
        }
        for minimum in 1..n {
            for split in 0..n - minimum {
                self.forward(n, minimum, 0, split);
            }
            self.engine_run(&format!("RP\t{minimum}\t2\t1\t{}", hex(0)), n - minimum);
        }
    }

    /// All splits by the window rule; by the pair rule too until the engine refuses the run,
    /// which a wider embargo would not change.
    fn both_rules(&mut self, layout: &str, sizes: &str, splits: usize, fractions: &[String]) {
        let mut refused = false;
        for bits in fractions {
            for split in 0..splits {
                self.ask(format!("{layout}W\t{sizes}\t{bits}\t{split}"));
            }
            refused = refused || self.engine_run(&format!("{layout}P\t{sizes}\t{bits}"), splits);
        }
    }

    /// All splits of an engine run, or the first where the whole run is refused: then true.
    fn engine_run(&mut self, head: &str, splits: usize) -> bool {
        for split in 0..splits {
            self.ask(format!("{head}\t{split}"));
            if self.run_refused() {
                return true;
            }
        }
        false
    }
}

/// Settings at their edges, alone and together, on good, spoilt and empty tables.
impl Recorder {
    fn settings(&mut self) {
        let good: Rows = (0..6).map(|t| (3 * t, 3 * t + 1)).collect();
        let mut bad = good.clone();
        bad[2].1 = bad[2].0 - 1;
        bad[4].1 = bad[4].0 - 2;
        let backward = (0..1).map(|_| (1, 0)).collect();
        for rows in [Vec::new(), vec![(0, 0)], backward, good, bad] {
            self.table(rows);
            self.fold_counts();
            self.tested_counts();
            self.rolling_sizes();
            self.lists_at_edges();
        }
        self.too_many();
    }

    fn lists_at_edges(&mut self) {
        let (n, far) = (self.rows.len(), usize::MAX);
        for lists in [
            "0\t0".to_string(),
            format!("1\t{n}\t0"),
            format!("0\t1\t{far}"),
            format!("1\t{far}\t1\t{n}"),
            format!("2\t{n}\t{far}\t1\t0"),
        ] {
            self.ask(format!("OC\t{lists}"));
        }
        for tests in ["0", "1\t0\t0", "1\t1\t0", "2\t0\t0\t3\t4"] {
            self.ask(format!("TT\t{tests}"));
        }
    }

    fn edges(&self) -> Vec<usize> {
        let n = self.rows.len();
        let mut edges = vec![0, 1, 2, n.saturating_sub(1), n, n + 1, usize::MAX];
        edges.sort_unstable();
        edges.dedup();
        edges
    }

    fn fold_counts(&mut self) {
        let fractions: Vec<u64> = GOOD.iter().step_by(5).map(|f| f.to_bits()).chain(BAD).collect();
        for folds in self.edges() {
            for &bits in &fractions {
                let split = self.rng.pick(&[0, 1, folds.saturating_sub(1), folds, usize::MAX]);
                self.kfold(folds, bits, split);
            }
        }
    }

    fn tested_counts(&mut self) {
        for folds in self.edges() {
            for tested in [0, 1, folds.saturating_sub(1), folds, usize::MAX] {
                let few = choose(folds, tested).min(SPLITS) as usize;
                for split in [0, few / 2, few.saturating_sub(1), few, usize::MAX] {
                    let bits = self.either_fraction();
                    self.cpcv(folds, tested, bits, split);
                }
                for split in [0, folds.saturating_sub(tested), usize::MAX] {
                    let bits = self.either_fraction();
                    self.forward(folds, tested, bits, split);
                }
            }
        }
    }

    fn rolling_sizes(&mut self) {
        let edges = self.edges();
        for first in edges.clone() {
            for size in [0, 1, 4, usize::MAX] {
                let step = self.rng.pick(&edges);
                for split in [0, 1, usize::MAX] {
                    let bits = self.either_fraction();
                    self.rolling([first, size, step], bits, split);
                }
            }
        }
    }

    /// Mostly an accepted fraction.
    fn either_fraction(&mut self) -> u64 {
        let n = self.rows.len();
        if self.rng.once_in(4) { self.rng.pick(&BAD) } else { fraction(&mut self.rng, n).to_bits() }
    }

    /// Settings whose splits are counted as too many before any is made.
    fn too_many(&mut self) {
        self.table((0..70).map(|t| (t, t)).collect());
        for (folds, tested) in [(63, 29), (63, 34), (64, 27), (64, 32), (64, 37)] {
            self.ask(format!("CW\t{folds}\t{tested}\t{}\t0", hex(0)));
            self.ask(format!("CW\t{folds}\t{tested}\t{}\t{}", hex(0), usize::MAX));
        }
    }
}

/// Tables of every kind.
impl Recorder {
    fn made_tables(&mut self) {
        for round in 0..28 {
            for kind in KINDS {
                let n = match round % 4 {
                    0 => self.rng.within(2, 6),
                    3 => self.rng.within(13, 40),
                    _ => self.rng.within(4, 12),
                };
                let mut rows = made(&mut self.rng, kind, n);
                let bad = self.rng.once_in(8);
                if bad {
                    rows = spoilt(&mut self.rng, rows);
                }
                self.table(rows);
                for _ in 0..2 {
                    self.any_settings();
                }
                self.any_lists();
            }
        }
    }

    /// Many rows to a fold and short labels: splits that keep training rows by either rule.
    fn roomy_tables(&mut self) {
        let kinds = [Kind::Apart, Kind::Sorted, Kind::Touching, Kind::Unsorted, Kind::Clock];
        for _ in 0..16 {
            for kind in kinds {
                let n = self.rng.within(14, 40);
                let rows = made(&mut self.rng, kind, n);
                self.table(rows);
                for _ in 0..3 {
                    self.roomy_settings(n);
                }
            }
        }
    }

    fn roomy_settings(&mut self, n: usize) {
        let few = self.rng.below(3) as f64 / n as f64;
        let bits = self.rng.pick(&[0.0, 0.01, few, few.next_up()]).to_bits();
        let folds = self.rng.within(4, 8);
        let tested = self.rng.within(1, 3);
        let split = self.number(choose(folds, tested) as usize);
        self.cpcv(folds, tested, bits, split);
        let split = self.number(folds);
        self.kfold(folds, bits, split);
        let first = self.rng.within(n / 3, n - 1);
        let (size, step) = (self.rng.within(1, 6), self.rng.within(1, 6));
        let split = self.number((n - first).div_ceil(step));
        self.rolling([first, size, step], bits, split);
    }

    fn larger_tables(&mut self) {
        for kind in [Kind::Sorted, Kind::Unsorted, Kind::Long, Kind::Clock] {
            let rows = made(&mut self.rng, kind, 200);
            self.table(rows);
            for folds in [2, 7, 100, 200] {
                let bits = fraction(&mut self.rng, 200).to_bits();
                let split = self.rng.below(folds);
                self.kfold(folds, bits, split);
            }
            for (folds, tested) in [(6, 2), (10, 3), (12, 4)] {
                let bits = self.rng.pick(&[0.01f64, 0.07, 0.0]).to_bits();
                let split = self.rng.below(choose(folds, tested) as usize);
                self.cpcv(folds, tested, bits, split);
            }
            let split = self.rng.below(5);
            self.forward(8, 3, 0, split);
            self.rolling([60, 30, 20], 0, split);
        }
    }

    /// Good settings on the current table, each call once.
    fn any_settings(&mut self) {
        let n = self.rows.len();
        let (any, few) = (self.rng.within(2, n), self.rng.within(2, n.min(12)));
        let folds = self.rng.pick(&[2, n, any, few]);
        let bits = fraction(&mut self.rng, n).to_bits();
        let split = self.number(folds);
        self.kfold(folds, bits, split);
        let (folds, tested) = self.few_sets(n);
        let bits = fraction(&mut self.rng, n).to_bits();
        let split = self.number(choose(folds, tested) as usize);
        self.cpcv(folds, tested, bits, split);
        let minimum = self.rng.within(1, folds - 1);
        let bits = fraction(&mut self.rng, n).to_bits();
        let split = self.number(folds - minimum);
        self.forward(folds, minimum, bits, split);
        let first = self.rng.within(1, n);
        let (size, step) = (self.rng.within(1, n), self.rng.within(1, n));
        let bits = fraction(&mut self.rng, n).to_bits();
        let split = self.number((n - first).div_ceil(step));
        self.rolling([first, size, step], bits, split);
    }

    /// A number below `end`, and at times the first that is none.
    fn number(&mut self, end: usize) -> usize {
        if end == 0 || self.rng.once_in(12) { end } else { self.rng.below(end) }
    }

    /// Folds and tested folds with few splits, so that the engine runs them all.
    fn few_sets(&mut self, n: usize) -> (usize, usize) {
        loop {
            let folds = self.rng.within(2, n.min(12));
            let tested = self.rng.within(1, folds - 1);
            if choose(folds, tested) <= SPLITS {
                return (folds, tested);
            }
        }
    }

    /// The calls on row lists and on test spans; repeats and rows that do not exist included.
    fn any_lists(&mut self) {
        let n = self.rows.len();
        for past in [0, 0, 1] {
            let end = n + past;
            let train: Vec<usize> =
                (0..self.rng.below(n + 2)).map(|_| self.rng.below(end)).collect();
            let test: Vec<usize> =
                (0..self.rng.below(n + 1)).map(|_| self.rng.below(end)).collect();
            let lists = row(&row(&format!("OC\t{}", train.len()), &train), &[test.len()]);
            self.ask(row(&lists, &test));
        }
        let count = self.rng.below(4);
        let kind = if self.rng.once_in(2) { Kind::Unsorted } else { Kind::Edges };
        let mut tests = made(&mut self.rng, kind, count);
        let of_the_table = self.rows[self.rng.below(n)];
        tests.push(of_the_table);
        if self.rng.once_in(3) {
            tests = spoilt(&mut self.rng, tests);
        }
        let times: Vec<i64> = tests.iter().flat_map(|(start, end)| [*start, *end]).collect();
        self.ask(row(&format!("TT\t{}", tests.len()), &times));
        self.ask("TT\t0".to_string());
    }
}

/// Questions on numbers alone.
impl Recorder {
    fn listings(&mut self) {
        for folds in 0..=12 {
            for tested in 0..=folds + 1 {
                self.listing(folds, tested);
                self.count_paths(folds, tested);
            }
        }
        for (folds, tested) in [(64, 1), (64, 2), (64, 63), (40, 2), (30, 28)] {
            self.listing(folds, tested);
        }
        let wide = [(62, 31), (63, 28), (64, 26), (63, 29), (63, 34), (64, 27), (64, 32), (64, 38)];
        for (folds, tested) in wide {
            self.count_paths(folds, tested);
            if [(63, 29), (63, 34), (64, 27), (64, 32)].contains(&(folds, tested)) {
                self.ask(format!("CF\t{folds}\t{tested}\t0"));
                self.ask(format!("PA\t{folds}\t{tested}\t{}", usize::MAX));
            }
        }
        for tested in [1, 2, 63, 64, usize::MAX] {
            self.count_paths(64, tested);
        }
    }

    fn listing(&mut self, folds: usize, tested: usize) {
        let whole = folds <= 6;
        let fewer = (folds.saturating_sub(1), tested.saturating_sub(1));
        for (call, end) in [("CF", choose(folds, tested)), ("PA", choose(fewer.0, fewer.1))] {
            let end = end as usize;
            let mut numbers: Vec<usize> = if whole {
                (0..end).collect()
            } else {
                vec![0, end / 3, end / 2, end.saturating_sub(1)]
            };
            if !whole && end > 4 {
                numbers.extend((0..4).map(|_| self.rng.below(end)));
            }
            numbers.extend([end, usize::MAX]);
            numbers.sort_unstable();
            numbers.dedup();
            for number in numbers {
                self.ask(format!("{call}\t{folds}\t{tested}\t{number}"));
            }
        }
    }

    fn count_paths(&mut self, folds: usize, tested: usize) {
        let question = format!("PC\t{folds}\t{tested}");
        if crate::reach::listed(folds, tested) {
            self.ask_engine(question, format!("CF\t{folds}\t{tested}\t0"));
        } else {
            self.ask(question);
        }
    }

    fn naive(&mut self) {
        for n in 0..=9usize {
            for folds in 0..=n + 1 {
                for split in [0, folds / 2, folds.saturating_sub(1), folds] {
                    self.ask(format!("NK\t{n}\t{folds}\t{split}"));
                }
            }
        }
        for _ in 0..60 {
            let n = self.rng.within(10, 80);
            let folds = self.rng.within(2, n);
            let split = self.number(folds);
            self.ask(format!("NK\t{n}\t{folds}\t{split}"));
        }
        self.ask(format!("NK\t5\t{}\t0", usize::MAX));
        self.ask(format!("NK\t5\t3\t{}", usize::MAX));
    }

    fn joins(&mut self) {
        for n in 0..=7 {
            for folds in 0..=n + 1 {
                for tested in 0..=folds {
                    self.join(n, folds, tested);
                }
            }
        }
        for (n, folds, tested) in [(12, 6, 3), (13, 5, 2), (16, 7, 4), (20, 4, 3), (40, 3, 1)] {
            self.join(n, folds, tested);
        }
    }

    /// The first, the middle, the last and no path.
    fn join(&mut self, n: usize, folds: usize, tested: usize) {
        let end = choose(folds.saturating_sub(1), tested.saturating_sub(1)) as usize;
        let mut numbers = vec![0, end / 2, end.saturating_sub(1), end];
        numbers.sort_unstable();
        numbers.dedup();
        for number in numbers {
            let seed = self.rng.below(1000);
            let question = format!("JN\t{n}\t{folds}\t{tested}\t{number}\t{seed}");
            self.ask_join(question, n, folds, tested);
        }
    }

    /// Joining is refused in the engine's order; the other module is asked on points.
    fn ask_join(&mut self, question: String, n: usize, folds: usize, tested: usize) {
        let kept = self.table.clone();
        let points: Vec<usize> = (0..n).flat_map(|t| [t, t]).collect();
        self.line(row(&format!("T\t{n}"), &points));
        self.ask_engine(question, format!("CW\t{folds}\t{tested}\t{}\t0", hex(0)));
        self.line(kept);
    }
}
