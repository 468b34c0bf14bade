//! A fixed-width column as runs, and a run-end column of fixed-width values as plain rows.

use crate::buffer::zeros;
use crate::calls::{self, Position, Tables, COUNTERS, PLAN};
use crate::{anew, Column, Error, Field, Lent, WORK_LIMIT};
use std::ops::Range;

/// The format of run ends.
#[derive(Clone, Copy, Debug, PartialEq, Eq)]
pub enum RunEnds {
    /// `s`, up to 32767 rows.
    I16,
    /// `i`, up to 2^31 - 1 rows.
    I32,
    /// `l`.
    I64,
}

impl RunEnds {
    /// The run ends of a format string.
    pub fn of(format: &str) -> Option<RunEnds> {
        [RunEnds::I16, RunEnds::I32, RunEnds::I64].into_iter().find(|ends| ends.format() == format)
    }

    /// The format string.
    pub fn format(self) -> &'static str {
        match self {
            RunEnds::I16 => "s",
            RunEnds::I32 => "i",
            RunEnds::I64 => "l",
        }
    }
}

/// The two calls of one direction.
struct Way {
    plan: fn(&Tables, calls::Range, &mut [u64], &mut [u64]) -> u8,
    write: fn(&Tables, calls::Range, &[Position], &mut [u64], &mut [u64], &mut [u8]) -> u8,
}

impl Field {
    fn named(name: &str) -> Field {
        Field { name: name.into(), ..Field::default() }
    }

    /// Whether it is of an extension type.
    fn extends(&self) -> bool {
        self.metadata.iter().any(|(key, _)| key == b"ARROW:extension:name")
    }
}

impl Column {
    /// The rows of a range as the fewest runs that read the same: neighbours are one run where they read equal, a null slot is zeros. The field is
    /// the column's; where that is an extension type, its metadata is the values'. Refused with 10 for all but a fixed-width column, 2 for a range
    /// outside it, 7 for one longer than the largest run end.
    pub fn encode(&self, rows: Range<u64>, ends: RunEnds) -> Result<Column, Error> {
        let node = |format: &str, nullable, field, children| Column { format: format.into(), nullable, field, children, ..Column::default() };
        let (mut field, mut values) = (self.field.clone(), Field::named("values"));
        if field.extends() {
            values.metadata = std::mem::take(&mut field.metadata);
        }
        let values = node(&self.format, self.nullable, values, vec![]);
        let runs = node("+r", false, field, vec![node(ends.format(), false, Field::named("run_ends"), vec![]), values]);
        let lent = Lent::lay(&[self, &runs])?;
        let target = lent.sources[2];
        let runs = written(&lent, rows, target, 3, u64::MAX, Way { plan: calls::plan_encode, write: calls::encode })?;
        Ok(Column { nullable: self.nullable, ..runs })
    }

    /// The rows of a range of a run-end column, each its run's value. The field is the column's; where the values are an extension type, their
    /// metadata stays. Refused with 10 for all but a run-end column of fixed-width values and with 2 for a range outside it; a run may stand for
    /// any number of rows, and more than [`WORK_LIMIT`] are [`Error::TooMuchWork`].
    pub fn expand(&self, rows: Range<u64>) -> Result<Column, Error> {
        let lent = Lent::lay(&[self])?;
        let way = Way { plan: calls::plan_expand, write: calls::expand };
        let plain = written(&lent, rows, lent.sources[0].saturating_add(2), 1, WORK_LIMIT, way)?;
        let metadata = if plain.field.extends() { plain.field.metadata } else { self.field.metadata.clone() };
        Ok(Column { nullable: plain.nullable || self.nullable, field: Field { name: self.field.name.clone(), metadata, ..plain.field }, ..plain })
    }
}

/// The result for the first column that is laid, of the type whose nodes begin at node `target`.
fn written(lent: &Lent, rows: Range<u64>, target: u32, nodes: u32, limit: u64, way: Way) -> Result<Column, Error> {
    let x = Tables { sources: &lent.sources[..2], ..lent.tables() };
    let asked = calls::Range { first: x.sources[0], n: x.sources[1], target, start: rows.start, end: rows.end };
    let (mut plan, mut counters) = ([0; PLAN], [0; COUNTERS]);
    Error::check((way.plan)(&x, asked, &mut plan, &mut counters))?;
    if limit < asked.end - asked.start {
        return Err(Error::TooMuchWork { node: 0, bound: asked.end - asked.start, limit });
    }
    let (parts, bytes) = anew::parts(&plan, &counters)?;
    let mut room = zeros(bytes).ok_or(Error::TooLarge { bytes })?;
    Error::check((way.write)(&x, asked, &parts, &mut plan, &mut counters, &mut room))?;
    anew::raised(lent, x, (target, nodes), &plan, &parts, &counters, room)
}
