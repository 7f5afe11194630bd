//! Where the unchanged Rust differs from its own comments or from 01, each shown by a run. Inputs
//! and answers are printed in the text form, so that they can be given to `oracle ask` again.

use crate::ask::Asker;
use crate::reach::{BYTES, choose};
use crate::text::{Span, at, hex, row};
use openquant::backtesting_engine::cpcv_path_count;
use openquant::cross_validation::{CpcvSplit, PurgedKFold};
use std::panic::{catch_unwind, set_hook};
use std::process::Command;
use std::time::Instant;

/// Bits of the fraction 1, the plainest that is refused.
const ONE: u64 = 0x3FF0_0000_0000_0000;

type Rows = Vec<(i64, i64)>;

pub fn print() -> Result<(), String> {
    too_large()?;
    overlap_left();
    other_order();
    wider_count();
    whole_run_refused();
    no_ceiling();
    unpruned_walk();
    Ok(())
}

/// Asks for the splits of N points, in a process of its own: it may die of it.
pub fn probe(folds: usize, tested: usize) {
    set_hook(Box::new(|_| {}));
    let points: Vec<Span> =
        (0..folds as i64).map(|t| (at(t).expect("small"), at(t).expect("small"))).collect();
    let asked = catch_unwind(|| {
        PurgedKFold::new(folds, points, 0.0)
            .and_then(|made| made.cpcv_splits(folds, tested))
            .map(|splits| splits.len())
    });
    match asked {
        Ok(Ok(count)) => println!("{count} splits"),
        Ok(Err(error)) => println!("refused: {error}"),
        Err(panic) => {
            let message = panic.downcast_ref::<&str>().map(|text| text.to_string());
            let message = message.or_else(|| panic.downcast_ref::<String>().cloned());
            println!("panics: {}", message.unwrap_or_default());
        }
    }
}

fn outcome(folds: usize, tested: usize) -> Result<String, String> {
    let program = std::env::current_exe().map_err(|e| e.to_string())?;
    let words = ["probe".to_string(), folds.to_string(), tested.to_string()];
    let mut asked = Command::new(program);
    // A trace of the stack would cost more than the question.
    let asked = asked.args(words).env("RUST_BACKTRACE", "0");
    let done = asked.output().map_err(|e| e.to_string())?;
    let said = if done.status.success() { done.stdout } else { done.stderr };
    let said = String::from_utf8_lossy(&said).into_owned();
    let first = said.lines().next().unwrap_or("").to_string();
    Ok(if done.status.success() { first } else { format!("aborts: {first}") })
}

fn too_large() -> Result<(), String> {
    println!("(a) cpcv_splits(N rows, k) of N points, fraction 0");
    for (folds, tested) in [(62, 31), (63, 28), (63, 29), (64, 26), (64, 27)] {
        println!("  N={folds} k={tested}: {}", outcome(folds, tested)?);
    }
    let size = size_of::<CpcvSplit>() as u128;
    println!("  a split takes {size} bytes of the list; one allocation may have {BYTES} here");
    let mut pairs = Vec::new();
    for folds in 2..=64 {
        for tested in 1..folds {
            if choose(folds, tested) * size > BYTES as u128 {
                pairs.push((folds, tested, outcome(folds, tested)?));
            }
        }
    }
    println!("  asked: all {} pairs, N to 64, whose list would be larger than that", pairs.len());
    for begin in ["panics", "aborts", "refused"] {
        let such: Vec<_> = pairs.iter().filter(|(.., said)| said.starts_with(begin)).collect();
        if let Some((folds, tested, said)) = such.first() {
            println!("  {begin}: {} pairs, the first is N={folds} k={tested}: {said}", such.len());
        }
    }
    let refused = pairs.iter().filter(|(.., said)| said.starts_with("refused"));
    let refused: Vec<String> =
        refused.map(|(folds, tested, _)| format!("{folds},{tested}")).collect();
    println!("  refused: {}", refused.join(" "));
    Ok(())
}

/// A table in the asker, and questions printed with their answers.
struct Shown(Asker);

impl Shown {
    fn new(rows: &Rows) -> Self {
        let mut shown = Shown(Asker::default());
        shown.0.line(&table_line(rows)).expect("times that chrono holds");
        shown
    }

    fn ask(&mut self, question: &str) -> String {
        self.0.answer(question).expect("a question of the form")
    }

    fn print(&mut self, question: &str) {
        println!("  {question}\t=\t{}", self.ask(question));
    }
}

fn table_line(rows: &Rows) -> String {
    let times: Vec<i64> = rows.iter().flat_map(|(start, end)| [*start, *end]).collect();
    row(&format!("T\t{}", rows.len()), &times)
}

fn show(rows: &Rows, questions: &[String]) {
    println!("  {}", table_line(rows));
    let mut shown = Shown::new(rows);
    for question in questions {
        shown.print(question);
    }
}

/// All tables of `n` rows with times below `end`; `spoilt` lets ends come before starts.
fn tables(n: usize, end: i64, spoilt: bool) -> Vec<Rows> {
    let span = |start: i64| {
        let low = if spoilt { 0 } else { start };
        (low..end).map(move |stop| (start, stop))
    };
    let spans: Vec<(i64, i64)> = (0..end).flat_map(span).collect();
    (0..n).fold(vec![Vec::new()], |made: Vec<Rows>, _| {
        let longer = |rows: &Rows| {
            let rows = rows.clone();
            spans.iter().map(move |span| [rows.clone(), vec![*span]].concat()).collect::<Vec<_>>()
        };
        made.iter().flat_map(longer).collect()
    })
}

fn overlap_left() {
    println!("(b) overlap_count_after_purge (last field) is not always 0");
    let zero = hex(0);
    let known = vec![(10, 12), (0, 2), (20, 21), (1, 3)];
    show(&known, &[format!("KW\t2\t{zero}\t0"), format!("WF\t2\t1\t{zero}\t0")]);
    let smallest = (2..4).flat_map(|n| tables(n, 2, false)).find_map(|rows| {
        let question = leaking(&rows)?;
        Some((rows, question))
    });
    if let Some((rows, question)) = smallest {
        println!("  the smallest, N from 2, times from 0:");
        show(&rows, &[question]);
    }
    let in_order = |rows: &&Rows| rows.windows(2).all(|pair| pair[0].0 <= pair[1].0);
    let all = tables(4, 4, false);
    let sorted: Vec<&Rows> = all.iter().filter(in_order).collect();
    let leaks = sorted.iter().filter(|rows| leaking(rows).is_some()).count();
    println!("  of the {} tables of 4 rows over 4 times sorted by start: {leaks}", sorted.len());
}

/// A k-fold question on this table whose answer's last field is not 0.
fn leaking(rows: &Rows) -> Option<String> {
    let mut shown = Shown::new(rows);
    (2..=rows.len())
        .flat_map(|folds| (0..folds).map(move |split| format!("KW\t{folds}\t{}\t{split}", hex(0))))
        .find(|question| !shown.ask(question).ends_with("\t0"))
}

fn other_order() {
    println!("(c) the engine checks in another order; for each pair of numbers the smallest input");
    let mut seen = Vec::new();
    for rows in (1..=2).flat_map(|n| tables(n, 2, true)) {
        let mut shown = Shown::new(&rows);
        for (layout, tail) in settings(rows.len()) {
            let questions = [format!("{layout}W\t{tail}"), format!("{layout}P\t{tail}")];
            let [window, engine] = questions.each_ref().map(|q| number(&shown.ask(q)));
            let refused = window.starts_with('X') && engine.starts_with('X');
            let pair = (layout, window, engine);
            if refused && pair.1 != pair.2 && !seen.contains(&pair) {
                show(&rows, &questions);
                seen.push(pair);
            }
        }
    }
    println!("  rolling, where 01 looks at the fraction first (3):");
    show(&vec![(1, 0)], &[format!("RP\t1\t1\t1\t{}\t0", hex(ONE))]);
}

/// Settings with faults, the smallest first: k-fold and CPCV.
fn settings(n: usize) -> Vec<(char, String)> {
    let mut all = Vec::new();
    for folds in 0..=n + 1 {
        for bits in [0, ONE] {
            all.push(('K', format!("{folds}\t{}\t0", hex(bits))));
            for tested in 0..=folds {
                all.push(('C', format!("{folds}\t{tested}\t{}\t0", hex(bits))));
            }
        }
    }
    all
}

/// The refusal's number without what it carries.
fn number(answer: &str) -> String {
    answer.split('\t').take(2).collect::<Vec<_>>().join("\t")
}

fn wider_count() {
    println!("(c) the engine counts in 128 bits");
    let mut shown = Shown::new(&Vec::new());
    for (folds, tested) in [(63, 29), (64, 27), (64, 32)] {
        shown.print(&format!("CF\t{folds}\t{tested}\t0"));
        shown.print(&format!("PC\t{folds}\t{tested}"));
        println!("  C({folds},{tested}) is {}, 2^64 is {}", choose(folds, tested), 1u128 << 64);
    }
    let pairs = (2..200usize).flat_map(|folds| (1..folds).map(move |tested| (folds, tested)));
    for (folds, tested) in pairs {
        if let Err(error) = cpcv_path_count(folds, tested) {
            println!("  the first that it refuses: N={folds} k={tested}: {error}");
            shown.print(&format!("PC\t{folds}\t{tested}"));
            return;
        }
    }
}

fn whole_run_refused() {
    println!("(c) the engine refuses a run of which one split has no training row");
    println!("  the smallest where another split has some; fraction 0, then the next above:");
    for n in 2..=3 {
        for bits in [0, 1] {
            let found = tables(n, n as i64, false).into_iter().find_map(|rows| {
                let split = refused_for_another(&rows, bits)?;
                Some((rows, split))
            });
            if let Some((rows, split)) = found {
                let tail = format!("{n}\t{}\t{split}", hex(bits));
                show(&rows, &[format!("KP\t{tail}"), format!("KW\t{tail}")]);
                return;
            }
        }
    }
}

/// A split that the window rule leaves training rows, in a run that the engine refuses. On a
/// fold of one row the two rules purge alike.
fn refused_for_another(rows: &Rows, bits: u64) -> Option<usize> {
    let n = rows.len();
    let mut shown = Shown::new(rows);
    if shown.ask(&format!("KP\t{n}\t{}\t0", hex(bits))) != "E" {
        return None;
    }
    (0..n).find(|split| {
        let marks = shown.ask(&format!("KW\t{n}\t{}\t{split}", hex(bits)));
        marks.split('\t').nth(1).is_some_and(|marks| marks.contains('0'))
    })
}

fn no_ceiling() {
    println!("(d) no ceiling on the folds of CPCV, where 01 refuses N above 64 with 11");
    let mut shown = Shown::new(&Vec::new());
    for question in ["CF\t65\t1\t64", "PA\t65\t2\t63", "PC\t65\t2"] {
        shown.print(question);
    }
}

fn unpruned_walk() {
    println!("(d) the engine walks every set of at most k folds; milliseconds of one run each");
    for folds in [16, 18, 20] {
        let points: Rows = (0..folds as i64).map(|t| (t, t)).collect();
        let mut shown = Shown::new(&points);
        for rule in ["W", "P"] {
            let question = format!("C{rule}\t{folds}\t{}\t{}\t0", folds - 1, hex(0));
            let begun = Instant::now();
            shown.ask(&question);
            let took = begun.elapsed().as_secs_f64() * 1000.0;
            println!("  {question}: {folds} splits, {took:.3} ms");
        }
    }
}
