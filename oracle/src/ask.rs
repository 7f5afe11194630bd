//! One line in, the same line with the Rust's answer out.

use crate::joins::Joins;
use crate::text::{Fields, Span, Trouble, question_of};
use crate::{engine, window};

/// The current table and what joining has found so far.
#[derive(Default)]
pub struct Asker {
    table: Vec<Span>,
    joins: Joins,
}

impl Asker {
    /// The line as it stands in a list of answered cases.
    pub fn line(&mut self, line: &str) -> Result<String, Trouble> {
        let question = question_of(line);
        if question.split('\t').next() == Some("T") {
            self.set(question)?;
            return Ok(question.to_string());
        }
        Ok(format!("{question}\t=\t{}", self.answer(question)?))
    }

    /// The answer alone.
    pub fn answer(&mut self, question: &str) -> Result<String, Trouble> {
        let fields = &mut Fields::of(question);
        let table = &self.table;
        let answer = match fields.word()? {
            "KW" => window::kfold(table, fields),
            "CW" => window::cpcv(table, fields),
            "CF" => window::folds_of(fields),
            "WF" => window::walk_forward(table, fields),
            "KP" => engine::kfold(table, fields),
            "CP" => engine::cpcv(table, fields),
            "RP" => engine::rolling(table, fields),
            "PA" => window::path(fields),
            "PC" => engine::path_count(fields),
            "NK" => window::naive(fields),
            "OC" => window::overlaps(table, fields),
            "TT" => window::train_times(table, fields),
            "JN" => self.joins.ask(fields),
            other => Err(format!("no such question: {other}")),
        }?;
        fields.end()?;
        Ok(answer)
    }

    fn set(&mut self, line: &str) -> Result<(), Trouble> {
        let mut fields = Fields::of(line);
        fields.word()?;
        self.table = fields.spans()?;
        fields.end()
    }
}
