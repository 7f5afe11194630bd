//! A STAND-IN, not the nalgebra library, which Debian does not package.
//!
//! The judged `util/stats.rs` names `DMatrix` in one function, `covariance`, and would not
//! compile without it. The oracle reaches only `mean` and `std_dev` of that file, which work on
//! slices and never touch a matrix, so nothing here can bear on an answer.

use std::marker::PhantomData;
use std::ops::{Index, IndexMut};

/// A matrix of doubles, column after column.
pub struct DMatrix<T> {
    rows: usize,
    cells: Vec<f64>,
    kind: PhantomData<T>,
}

/// One column, lent.
pub struct Column<'a>(&'a [f64]);

impl Column<'_> {
    pub fn sum(&self) -> f64 {
        self.0.iter().sum()
    }
}

impl DMatrix<f64> {
    pub fn zeros(rows: usize, columns: usize) -> Self {
        DMatrix { rows, cells: vec![0.0; rows * columns], kind: PhantomData }
    }

    pub fn nrows(&self) -> usize {
        self.rows
    }

    pub fn ncols(&self) -> usize {
        self.cells.len().checked_div(self.rows).unwrap_or(0)
    }

    pub fn column(&self, column: usize) -> Column<'_> {
        Column(&self.cells[column * self.rows..(column + 1) * self.rows])
    }
}

impl Index<(usize, usize)> for DMatrix<f64> {
    type Output = f64;

    fn index(&self, (row, column): (usize, usize)) -> &f64 {
        &self.cells[column * self.rows + row]
    }
}

impl IndexMut<(usize, usize)> for DMatrix<f64> {
    fn index_mut(&mut self, (row, column): (usize, usize)) -> &mut f64 {
        &mut self.cells[column * self.rows + row]
    }
}
