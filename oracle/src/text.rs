//! The text form: fields parted by one tab, decimals with no leading zero, doubles as 16
//! upper-case hex digits, times as signed microseconds.

use chrono::NaiveDateTime;
use std::fmt::Display;
use std::str::{FromStr, Split};

/// A label span as the judged files hold it.
pub type Span = (NaiveDateTime, NaiveDateTime);

/// What is wrong with a line that cannot be asked.
pub type Trouble = String;

/// The fields of one question, taken one after another.
pub struct Fields<'a>(Split<'a, char>);

impl<'a> Fields<'a> {
    /// The fields of `line` up to the field `=`; an answer already there is left out.
    pub fn of(line: &'a str) -> Self {
        Fields(question_of(line).split('\t'))
    }

    pub fn word(&mut self) -> Result<&'a str, Trouble> {
        self.0.next().ok_or_else(|| "a field is missing".to_string())
    }

    pub fn number(&mut self) -> Result<usize, Trouble> {
        exact(self.word()?)
    }

    pub fn numbers(&mut self) -> Result<Vec<usize>, Trouble> {
        let count = self.number()?;
        (0..count).map(|_| self.number()).collect()
    }

    pub fn fraction(&mut self) -> Result<f64, Trouble> {
        let word = self.word()?;
        let bits = u64::from_str_radix(word, 16).map_err(|_| format!("no double: {word}"))?;
        if hex(bits) == word { Ok(f64::from_bits(bits)) } else { Err(format!("no double: {word}")) }
    }

    pub fn spans(&mut self) -> Result<Vec<Span>, Trouble> {
        let count = self.number()?;
        (0..count).map(|_| Ok((self.time()?, self.time()?))).collect()
    }

    pub fn end(&mut self) -> Result<(), Trouble> {
        self.0.next().map_or(Ok(()), |word| Err(format!("one field too many: {word}")))
    }

    fn time(&mut self) -> Result<NaiveDateTime, Trouble> {
        let micros: i64 = exact(self.word()?)?;
        at(micros).ok_or_else(|| format!("outside what chrono can hold: {micros}"))
    }
}

/// The part of a line before the field `=`.
pub fn question_of(line: &str) -> &str {
    line.split_once("\t=").map_or(line, |(question, _)| question)
}

/// The time `micros` microseconds after 1970, where chrono can hold it.
pub fn at(micros: i64) -> Option<NaiveDateTime> {
    let nanos = micros.rem_euclid(1_000_000) as u32 * 1_000;
    NaiveDateTime::from_timestamp_opt(micros.div_euclid(1_000_000), nanos)
}

pub fn hex(bits: u64) -> String {
    format!("{bits:016X}")
}

/// `head` and then the numbers, a tab before each.
pub fn row<T: Display>(head: &str, numbers: &[T]) -> String {
    numbers.iter().fold(head.to_string(), |line, number| format!("{line}\t{number}"))
}

/// A decimal written in the one way that the form allows.
fn exact<T: FromStr + Display>(word: &str) -> Result<T, Trouble> {
    match word.parse::<T>() {
        Ok(value) if value.to_string() == word => Ok(value),
        _ => Err(format!("no number of this form: {word}")),
    }
}
