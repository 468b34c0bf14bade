//! Exact sums of whole-number columns.

use crate::calls;
use crate::{Column, Error, Lent};
use std::fmt;
use std::ops::Range;

/// A fraction in lowest terms: `under` is above zero, and zero is plus 0 over 1.
#[derive(Clone, Copy, Debug, PartialEq, Eq, Hash)]
pub struct Fraction {
    /// Whether it is below zero.
    pub minus: bool,
    /// The magnitude of the numerator.
    pub over: u64,
    /// The denominator.
    pub under: u64,
}

impl fmt::Display for Fraction {
    fn fmt(&self, f: &mut fmt::Formatter) -> fmt::Result {
        write!(f, "{}{}/{}", if self.minus { "-" } else { "" }, self.over, self.under)
    }
}

/// The rows that are not null, their sum and their mean.
#[derive(Clone, Copy, Debug, PartialEq, Eq)]
pub struct Mean {
    /// The rows that are not null.
    pub count: u64,
    /// Their exact sum.
    pub sum: i64,
    /// The sum over the count.
    pub mean: Fraction,
}

/// The rows that both columns have, the two totals, and the first over the second.
#[derive(Clone, Copy, Debug, PartialEq, Eq)]
pub struct Ratio {
    /// The rows that both columns have.
    pub count: u64,
    /// The first column's total of them.
    pub first: i64,
    /// The second one's.
    pub second: i64,
    /// The first total over the second.
    pub ratio: Fraction,
}

fn fraction(minus: u64, over: u64, under: u64) -> Fraction {
    Fraction { minus: minus == 1, over, under }
}

/// Count, exact sum and mean of rows of a whole-number column, or of a run-end column of whole-number values, which is not expanded.
pub fn mean(column: &Column, rows: Range<u64>) -> Result<Mean, Error> {
    let lent = Lent::lay(&[column])?;
    let x = lent.tables();
    let mut answer = [0; 5];
    Error::check(calls::mean(&x, x.sources[0], x.sources[1], rows.start, rows.end, &mut answer))?;
    let [count, sum, minus, over, under] = answer;
    Ok(Mean { count, sum: sum as i64, mean: fraction(minus, over, under) })
}

/// The first column's total over the second's, over the rows in which both are not null.
pub fn ratio(first: &Column, second: &Column, rows: Range<u64>) -> Result<Ratio, Error> {
    let lent = Lent::lay(&[first, second])?;
    let x = lent.tables();
    let mut answer = [0; 6];
    let columns = ((x.sources[0], x.sources[1]), (x.sources[2], x.sources[3]));
    Error::check(calls::ratio(&x, columns.0, columns.1, rows.start, rows.end, &mut answer))?;
    let [count, first, second, minus, over, under] = answer;
    Ok(Ratio { count, first: first as i64, second: second as i64, ratio: fraction(minus, over, under) })
}
