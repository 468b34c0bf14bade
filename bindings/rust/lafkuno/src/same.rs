//! Whether two rows read the same.

use crate::calls;
use crate::{Column, Error, Lent};

impl Lent {
    /// Whether two rows of columns of numbers, or of run-end columns of numbers, read the same, each given by its source and its number: whole
    /// numbers by their value, whatever their widths, floats by their bits, a null as a null. Refused with 2 for a row that there is not, then
    /// with 10 for a column of another type.
    pub fn same_row(&self, (a, row_a): (usize, u64), (b, row_b): (usize, u64)) -> Result<bool, Error> {
        let source = |s: usize| match self.sources.get(2 * s..2 * s + 2) {
            Some(&[first, n]) => Ok((first, n)),
            _ => Err(Error::Column(format!("there is no source {s}"))),
        };
        let mut answer = [0];
        Error::check(calls::same_row(&self.tables(), source(a)?, source(b)?, row_a, row_b, &mut answer))?;
        Ok(answer == [1])
    }
}

impl Column {
    /// Whether a row reads as row `other_row` of another column. For many rows lay both once ([`Lent::lay`]) and ask [`Lent::same_row`].
    pub fn same_row(&self, row: u64, other: &Column, other_row: u64) -> Result<bool, Error> {
        Lent::lay(&[self, other])?.same_row((0, row), (1, other_row))
    }
}
