//! Calls that write one column anew outside a join: what room they need, and the column that they leave.

use crate::buffer::zeros;
use crate::calls::{self, FinishedTables, Position, Tables, COUNTERS, MOST_BYTES, PLAN};
use crate::lent::Raise;
use crate::{explain, Buffer, Column, Error, Lent};

/// Parts begin at multiples of this.
const ALIGN: u64 = 64;

/// The parts of a result, 2 numbers each, and the bytes of its room.
pub(crate) fn parts(plan: &[u64; PLAN], counters: &[u64; COUNTERS]) -> Result<(Vec<Position>, u64), Error> {
    let mut parts = vec![];
    let mut end = 0u64;
    for p in 0..calls::part_count(plan) {
        let start = end.next_multiple_of(ALIGN);
        let size = calls::needed_bytes(plan, counters, p as u32);
        end = start.saturating_add(size);
        if MOST_BYTES < end {
            return Err(Error::TooLarge { bytes: end });
        }
        parts.extend([start, size]);
    }
    Ok((parts, end))
}

impl Column {
    /// The column with only the dictionary entries that some valid key names, in their old order, and its keys renumbered; keys under nulls
    /// become 0. Every row reads as before. Refused with 10 for a column that is no dictionary.
    pub fn reclaim(&self) -> Result<Column, Error> {
        let lent = Lent::lay(&[self])?;
        let [first, n] = lent.sources[..] else { return Err(Error::Inconsistent("one column was not laid as one".into())) };
        let ground = |x: &Tables| calls::column_ground(x, first, n);
        Error::check(ground(&lent.tables())).map_err(|e| e.ground().map_or(e, |g| explain::opening(&lent, g)))?;
        let (mut plan, mut counters) = ([0; PLAN], [0; COUNTERS]);
        Error::check(calls::plan_reclaim(&lent.tables(), first, n, &mut plan, &mut counters))?;
        let (parts, bytes) = parts(&plan, &counters)?;
        let mut room = zeros(bytes).ok_or(Error::TooLarge { bytes })?;
        Error::check(calls::reclaim(&lent.tables(), first, n, &parts, &mut plan, &mut counters, &mut room))?;
        raised(&lent, lent.tables(), (first, n), &plan, &parts, &counters, room)
    }
}

/// The tables of a finished result.
pub(crate) struct Finished {
    pub lengths: Vec<u64>,
    pub places: Vec<Position>,
    pub buffers: Vec<Position>,
}

/// The tables of a result of so many nodes, of x's one source. The room is at `base` of the body that they are about.
pub(crate) fn finished(
    x: Tables,
    nodes: usize,
    plan: &[u64],
    parts: &[Position],
    counters: &[u64],
    room: &[u8],
    base: usize,
) -> Result<Finished, Error> {
    let named = calls::buffer_total(plan, x.places, x.sources);
    let (mut lengths, mut nulls) = (vec![0; 2 * nodes], vec![0; nodes]);
    let (mut places, mut buffers) = (vec![0; 9 * nodes], vec![0; 2 * named]);
    let mut out = FinishedTables { lengths: &mut lengths, nulls: &mut nulls, places: &mut places, buffers: &mut buffers };
    match calls::finish(plan, parts, &x, counters, room, base as Position, &mut out) {
        0 => Ok(Finished { lengths, places, buffers }),
        _ => Err(Error::Inconsistent("finishing was refused".into())),
    }
}

/// The column that stands in a room, finished, of x's one source. Its type is that of so many nodes from a first one on.
pub(crate) fn raised(
    lent: &Lent,
    x: Tables,
    (first, nodes): (u32, u32),
    plan: &[u64],
    parts: &[Position],
    counters: &[u64],
    room: Vec<u8>,
) -> Result<Column, Error> {
    let base = x.body.len();
    let Finished { lengths, places, buffers } = finished(x, nodes as usize, plan, parts, counters, &room, base)?;
    let (body, room) = (&lent.body, Buffer::from(room));
    let take = |at: usize, len: usize| if at < base { body.slice(at, len) } else { room.slice(at - base, len) };
    let raise = Raise { x, first: first as usize, lengths: &lengths, places: &places, buffers: &buffers, fields: &lent.fields, take: &take };
    match raise.column(0) {
        Some((column, _)) => Ok(column),
        None => Err(Error::Inconsistent("the finished tables name bytes that are not there".into())),
    }
}
