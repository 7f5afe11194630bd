//! Asks the unchanged Rust and writes down what it says. README.md has the text form.

mod ask;
mod engine;
mod findings;
mod joins;
mod reach;
mod record;
mod rng;
mod tables;
mod text;
mod window;

use std::io::{BufRead, Write};
use std::process::ExitCode;

#[global_allocator]
static CEILING: reach::Ceiling = reach::Ceiling;

fn main() -> ExitCode {
    let words: Vec<String> = std::env::args().skip(1).collect();
    let words: Vec<&str> = words.iter().map(String::as_str).collect();
    let done = match words[..] {
        ["ask"] => ask_all(),
        ["record", seed] => record(seed, false),
        ["differences", seed] => record(seed, true),
        ["findings"] => findings::print(),
        // Used by `findings` alone: it may end this process.
        ["probe", folds, tested] => probe(folds, tested),
        _ => Err("usage: oracle ask | record SEED | differences SEED | findings".to_string()),
    };
    match done {
        Ok(()) => ExitCode::SUCCESS,
        Err(trouble) => {
            eprintln!("{trouble}");
            ExitCode::FAILURE
        }
    }
}

fn ask_all() -> Result<(), String> {
    let mut asker = ask::Asker::default();
    let mut out = std::io::BufWriter::new(std::io::stdout().lock());
    for (number, line) in std::io::stdin().lock().lines().enumerate() {
        let line = line.map_err(|e| e.to_string())?;
        let answered = asker.line(&line).map_err(|e| format!("line {}: {e}", number + 1))?;
        writeln!(out, "{answered}").map_err(|e| e.to_string())?;
    }
    out.flush().map_err(|e| e.to_string())
}

fn record(seed: &str, differing: bool) -> Result<(), String> {
    let seed = seed.parse().map_err(|_| format!("no seed: {seed}"))?;
    let mut text = record::recorded(seed).lines(differing).join("\n");
    text.push('\n');
    std::io::stdout().write_all(text.as_bytes()).map_err(|e| e.to_string())
}

fn probe(folds: &str, tested: &str) -> Result<(), String> {
    let number = |word: &str| word.parse().map_err(|_| format!("no number: {word}"));
    findings::probe(number(folds)?, number(tested)?);
    Ok(())
}
