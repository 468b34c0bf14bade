//! An upper bound of the rows that orders walk at each node, before they are walked.

use crate::explain::Source;
use crate::types::Kind;
use crate::{Error, Lent};
use std::collections::HashMap;
use std::ops::Range;

/// The limit where the caller sets none.
pub const WORK_LIMIT: u64 = 1 << 32;

/// One slot counts for at most this many rows, so that sums of them fit 128 bits. It is above every limit.
const MANY: u128 = 1 << 64;

/// How many rows of a node stand before a slot of another.
#[derive(Debug)]
enum Before {
    /// As many as slots: the node is the same.
    Same,
    Slots(Vec<u128>),
    /// Where runs end, from 0 on, and the rows before that; between them they rise evenly.
    Runs(Vec<u64>, Vec<u128>),
}

impl Before {
    fn at(&self, slot: u64) -> u128 {
        match self {
            Before::Same => slot as u128,
            Before::Slots(rows) => rows.get(slot as usize).or(rows.last()).copied().unwrap_or(0),
            Before::Runs(ends, rows) => {
                let k = ends.partition_point(|end| *end <= slot).saturating_sub(1);
                match (rows.get(k + 1), ends.get(k + 1)) {
                    (Some(next), Some(end)) => rows[k] + (next - rows[k]) / (end - ends[k]) as u128 * (slot - ends[k]) as u128,
                    _ => rows[k],
                }
            }
        }
    }
}

/// Rows of a source that are copied.
type Copied = (usize, Range<u64>);

#[derive(Debug)]
pub(crate) struct Work {
    pub limit: u64,
    /// Of each source, how many rows at each node one row of the root leads to at most.
    most: Vec<Vec<u128>>,
    /// The rows at each node for all orders so far: at most as many.
    totals: Vec<u128>,
    /// The same with the copy that is asked for.
    next: Vec<u128>,
    /// Nodes whose largest sizes say too little, so that their rows are counted: by source and node, the rows before each slot of the root.
    counted: HashMap<(usize, usize), Before>,
}

fn entry(s: &[u8], k: usize, w: usize) -> u64 {
    let mut word = [0; 8];
    if let Some(bytes) = s.get(k * w..(k + 1) * w) {
        word[..w].copy_from_slice(bytes);
    }
    u64::from_le_bytes(word)
}

/// The largest step between neighbours.
fn longest(offsets: impl Iterator<Item = u64> + Clone) -> u64 {
    offsets.clone().skip(1).zip(offsets).map(|(end, start)| end.saturating_sub(start)).max().unwrap_or(0)
}

impl Source<'_> {
    /// The largest stretch of a list's rows.
    fn longest(&self, k: usize) -> u128 {
        let (length, offset) = self.rows(k).unwrap_or_default();
        let (w, offsets) = (self.ty(k).width(), self.buffer(k, 1).unwrap_or(&[]));
        let offsets = offsets.get(w * offset as usize..w * (offset + length + 1) as usize).unwrap_or(&[]);
        let longest = match w {
            4 => longest(offsets.chunks_exact(4).map(|o| u32::from_le_bytes(*o.first_chunk().unwrap_or(&[0; 4])) as u64)),
            _ => longest(offsets.chunks_exact(8).map(|o| u64::from_le_bytes(*o.first_chunk().unwrap_or(&[0; 8])))),
        };
        longest as u128
    }

    /// The largest size of a list-view's rows.
    fn largest(&self, k: usize) -> u128 {
        let (length, offset) = self.rows(k).unwrap_or_default();
        let (w, sizes) = (self.ty(k).width(), self.buffer(k, 2).unwrap_or(&[]));
        let sizes = sizes.get(w * offset as usize..w * (offset + length) as usize).unwrap_or(&[]);
        let largest = match w {
            4 => sizes.chunks_exact(4).map(|s| u32::from_le_bytes(*s.first_chunk().unwrap_or(&[0; 4])) as u64).max(),
            _ => sizes.chunks_exact(8).map(|s| u64::from_le_bytes(*s.first_chunk().unwrap_or(&[0; 8]))).max(),
        };
        largest.unwrap_or(0) as u128
    }

    /// The rows at each node for one row of the root, at most.
    fn most(&self) -> Vec<u128> {
        let mut most = vec![1; self.nodes.len()];
        for k in 0..self.nodes.len() {
            let factor = match self.ty(k).kind() {
                Kind::List => self.longest(k),
                Kind::ListView => self.largest(k),
                // entries are walked at the opening alone
                Kind::Dictionary => 0,
                _ => 1,
            };
            for below in &self.nodes[k].below {
                most[*below] = (most[k] * factor).min(MANY);
            }
        }
        most
    }

    /// The rows of node k before each of its parent's slots, made from those before each of its own.
    fn before(&self, parent: usize, k: usize, own: Before) -> Before {
        let (length, offset) = self.rows(parent).unwrap_or_default();
        let base = self.rows(k).unwrap_or_default().1;
        let rows = |start: u64, n: u64| own.at(base.saturating_add(start).saturating_add(n)).saturating_sub(own.at(base.saturating_add(start)));
        let ty = self.ty(parent);
        if ty.kind() == Kind::Runs {
            return self.before_runs(parent, |run| rows(run, 1));
        }
        let (w, one, two) = (ty.width(), self.buffer(parent, 1).unwrap_or(&[]), self.buffer(parent, 2).unwrap_or(&[]));
        let child = self.nodes[parent].below.iter().position(|b| *b == k).unwrap_or(0);
        let id = ty.format.get(4..).and_then(|_| ty.ids().get(child).copied());
        let mut out = vec![0; (offset + length) as usize + 1];
        for slot in offset as usize..(offset + length) as usize {
            let more = match ty.kind() {
                Kind::List => rows(entry(one, slot, w), entry(one, slot + 1, w).saturating_sub(entry(one, slot, w))),
                Kind::ListView => rows(entry(one, slot, w), entry(two, slot, w)),
                Kind::Sparse => rows(slot as u64, 1),
                Kind::Dense if one.get(slot).copied() == id => rows(entry(two, slot, 4), 1),
                _ => 0,
            };
            out[slot + 1] = out[slot] + more.min(MANY);
        }
        Before::Slots(out)
    }

    /// The same of a run-end node: each row of a run counts for the run's value.
    fn before_runs(&self, parent: usize, rows: impl Fn(u64) -> u128) -> Before {
        let ends = self.nodes[parent].below[0];
        let (w, bytes, (count, first)) = (self.ty(ends).width(), self.buffer(ends, 1).unwrap_or(&[]), self.rows(ends).unwrap_or_default());
        let (mut past, mut sums, mut last) = (vec![0], vec![0], 0);
        for run in 0..count {
            let end = entry(bytes, (first + run) as usize, w);
            sums.push(sums[run as usize] + rows(run).min(MANY) * (end - last.min(end)) as u128);
            past.push(end);
            last = end;
        }
        Before::Runs(past, sums)
    }

    /// The rows of node k before each slot of the root.
    fn count(&self, k: usize) -> Before {
        let (mut node, mut own) = (k, Before::Same);
        while let Some(parent) = (0..node).rev().find(|p| self.nodes[*p].below.contains(&node)) {
            own = self.before(parent, node, own);
            node = parent;
        }
        own
    }
}

fn source(lent: &Lent, s: usize) -> Source<'_> {
    Source::new(lent.tables(), lent.sources[2 * s] as usize, lent.sources[2 * s + 1] as usize)
}

impl Work {
    /// Over sources that were accepted.
    pub fn new(lent: &Lent) -> Work {
        let most: Vec<Vec<u128>> = (0..lent.sources.len() / 2).map(|s| source(lent, s).most()).collect();
        let nodes = most.first().map_or(0, Vec::len);
        Work { limit: WORK_LIMIT, most, totals: vec![0; nodes], next: vec![0; nodes], counted: HashMap::new() }
    }

    fn counted(&mut self, lent: &Lent, s: usize, node: usize, rows: &Range<u64>) -> u128 {
        let before = self.counted.entry((s, node)).or_insert_with(|| source(lent, s).count(node));
        let offset = lent.lengths.get(2 * lent.sources[2 * s] as usize + 1).copied().unwrap_or(0);
        before.at(offset + rows.end).saturating_sub(before.at(offset + rows.start))
    }

    /// Adds a copy, or answers the node at which it is too much; `before` are the copies so far. [`Work::accept`] makes it last.
    pub fn add(&mut self, lent: &Lent, before: impl Iterator<Item = Copied> + Clone, s: usize, rows: &Range<u64>) -> Result<(), Error> {
        let n = rows.end.saturating_sub(rows.start) as u128;
        for node in 0..self.totals.len() {
            let known = !self.counted.is_empty() && self.counted.contains_key(&(s, node));
            let more = if known { self.counted(lent, s, node, rows) } else { n.saturating_mul(self.most[s][node]) };
            let mut total = self.totals[node].saturating_add(more);
            if (self.limit as u128) < total && node != 0 {
                // the largest sizes say too little: count
                let all = before.clone().chain([(s, rows.clone())]);
                total = all.map(|(s, rows)| self.counted(lent, s, node, &rows)).fold(0, u128::saturating_add);
            }
            if (self.limit as u128) < total {
                let bound = u64::try_from(total).unwrap_or(u64::MAX);
                return Err(Error::TooMuchWork { node, bound, limit: self.limit });
            }
            self.next[node] = total;
        }
        Ok(())
    }

    /// The copy that was added last is carried out.
    pub fn accept(&mut self) {
        self.totals.copy_from_slice(&self.next);
    }

    /// What was carried out so far; [`Work::back`] takes back what came after.
    pub fn so_far(&self) -> Vec<u128> {
        self.totals.clone()
    }

    /// As it was then.
    pub fn back(&mut self, then: Vec<u128>) {
        self.totals = then;
    }
}
