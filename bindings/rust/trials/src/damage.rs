//! Damaged descriptions and foreign states, with canaries round every lent slice: whatever is lent, a call ends, touches only what is
//! lent, changes nothing where it refuses, and its answer fits those of the other calls and the independent reading of rows.

use crate::compare::same;
use crate::generate::Generate;
use crate::memory::{Call, Memory, Picture};
use crate::random::Random;
use lafkuno::calls::{self, Read, COUNTERS, PLAN, TREE};
use lafkuno::{Error, Join, Lent, Reader, Type};
use std::collections::BTreeMap;

/// How often each call answered each number.
pub type Answers = BTreeMap<(&'static str, u8), u64>;

impl Memory {
    /// One call, made twice from the same memory with other canaries.
    pub(crate) fn check(&mut self, call: Call, answers: &mut Answers) -> Result<u8, String> {
        let (before, lent) = (self.picture(), self.read_only());
        self.guards().into_iter().for_each(|g| g.paint(0));
        let first = self.make(call);
        let after = self.picture();
        self.restore(&before);
        self.guards().into_iter().for_each(|g| g.paint(0xFF));
        let answer = self.make(call);
        *answers.entry((call.name(), answer)).or_default() += 1;
        if !self.guards().iter().all(|g| g.whole()) {
            return Err(format!("{call:?} wrote outside what is lent"));
        }
        if self.read_only() != lent {
            return Err(format!("{call:?} wrote what is lent for reading"));
        }
        if answer != first || self.picture() != after {
            return Err(format!("{call:?} does another thing with other numbers beside what is lent"));
        }
        if answer != 0 && after != before {
            return Err(format!("{call:?} was refused with {answer} and changed something"));
        }
        self.fits(call, answer, &before).map_err(|what| format!("{call:?}: {what}"))?;
        Ok(answer)
    }

    /// An answer beside those of the calls without room: an order is refused as it is measured, or comes to the measured counters, or
    /// meets 14 or 13.
    fn fits(&mut self, call: Call, answer: u8, before: &Picture) -> Result<(), String> {
        let asked = match call {
            Call::Copy(source, start, end) => Call::MeasureCopy(source, start, end),
            Call::Nulls(n) => Call::MeasureNulls(n),
            Call::List(words) => Call::MeasureList(words),
            Call::OpenColumn(first, n) if before.tree.len() >= TREE => Call::Ground(first, n),
            Call::Open(keep, gaps) if answer == 0 => Call::Plan(keep, gaps),
            Call::Convert(into, target) => Call::PlanConvert(into, target),
            _ => return Ok(()),
        };
        let after = self.picture();
        self.restore(before);
        let measured = self.make(asked);
        let (plan, counters) = (self.plan.get().to_vec(), self.counters.get().to_vec());
        self.restore(&after);
        match call {
            Call::Open(..) => same("the plan", plan, after.plan),
            // an order before the one that is refused may be too much for its part
            Call::List(_) if measured != 0 => same("its answer", [measured, 13, 14].contains(&answer), true),
            Call::Copy(..) | Call::Nulls(_) | Call::List(_) | Call::Convert(..) if measured == 0 => {
                same("its answer", [0, 13, 14].contains(&answer), true)?;
                same("its counters", &after.counters, if answer == 0 { &counters } else { &before.counters })
            }
            _ => same("its answer", answer, measured),
        }
    }

    /// The questions that only answer.
    fn ask(&mut self, rows: &[u64], first: u32) -> Result<(), String> {
        let (plan, counters) = (self.plan.get(), self.counters.get());
        let count = calls::part_count(plan);
        for p in 0..100 {
            same("part_at", calls::part_at(plan, p).is_some(), p < count)?;
            calls::needed_bytes(plan, counters, p as u32);
        }
        calls::buffer_total(plan, self.places.get(), self.sources.get());
        same("running_nulls", calls::running_nulls(counters), counters.get(1).copied().unwrap_or(0))?;
        for row in rows {
            let x = self.tables();
            if let Ok(row) = calls::read_row(self.tree.get(), &x, first, *row) {
                // an empty row of a buffer that was moved outside the body has no bytes
                if let Read::Bytes { at, len: len @ 1.. } = row.read {
                    same("bytes in the body", at.checked_add(len).is_some_and(|end| end <= x.body.len() as u64), true)?;
                }
            }
        }
        same("the canaries", self.guards().iter().all(|g| g.whole()), true)
    }
}

/// Some rows of each source, joined and read: damage that is accepted left columns.
fn accepted(lent: Lent, keep: bool) -> Result<(), String> {
    let tell = |e: Error| e.to_string();
    let sources = lent.sources.len() / 2;
    let mut book = vec![];
    let mut join = match Join::open_lent(lent.clone(), keep) {
        Err(e) if e.ground().is_some_and(|g| [6, 8].contains(&g.number())) => return Ok(()),
        join => join.map_err(tell)?,
    };
    for s in 0..sources {
        let column = lent.source(s).ok_or("an accepted source can't be described")?;
        let one = Lent { sources: lent.sources[2 * s..2 * s + 2].to_vec(), ..lent.clone() };
        let reader = Reader::open_lent(one).map_err(tell)?;
        let end = column.length.min(20);
        join.copy(s, 0..end).map_err(tell)?;
        for i in 0..end {
            let row = column.row(i);
            same("a row by the reader", reader.row(i).ok(), row.clone())?;
            book.push(row.ok_or("a row of an accepted source can't be read")?);
        }
    }
    same("the joined rows", join.finish().map_err(tell)?.column.rows(), Some(book))
}

/// A random join whose memory is lent, with room for some rows.
pub(crate) struct Prepared {
    pub ty: Type,
    /// The rows of each source.
    pub rows: Vec<u64>,
    pub lent: Lent,
    pub keep: bool,
    pub gaps: bool,
    pub memory: Memory,
}

pub(crate) fn prepare(r: &mut Random) -> Result<Prepared, String> {
    let mut generate = Generate::new(r);
    let ty = generate.ty();
    let mut sources = generate.sources(&ty);
    sources.truncate(3);
    let rows: Vec<u64> = sources.iter().map(|c| c.length).collect();
    let align = r.pick(&[1, 8]);
    let lent = Lent::lay_aligned(&sources.iter().collect::<Vec<_>>(), align).map_err(|e| e.to_string())?;
    let (keep, gaps) = (r.chance(50), r.chance(50));
    let mut plan = [0; PLAN];
    let mut counters = [0; COUNTERS];
    calls::plan_parts(&lent.tables(), keep, gaps, &mut plan);
    calls::measure_open(&plan, &lent.tables(), &mut counters);
    let (mut parts, mut end) = (vec![], 0);
    for p in 0..calls::part_count(&plan) as u32 {
        let size = calls::needed_bytes(&plan, &counters, p) + r.pick(&[0, 40, 400, 1000]);
        parts.extend([end, size]);
        end += size;
    }
    let room = r.bytes(end as usize);
    let nodes = lent.sources[1] as usize;
    let named = calls::buffer_total(&plan, &lent.places, &lent.sources);
    let memory = Memory::new(&lent, &parts, &room, nodes, named);
    Ok(Prepared { ty, rows, lent, keep, gaps, memory })
}

/// One damaged join by its seed.
pub fn damaged(seed: u64, answers: &mut Answers) -> Result<(), String> {
    let mut random = Random::new(seed);
    let r = &mut random;
    let Prepared { ty, rows, lent, keep, gaps, mut memory } = prepare(r)?;
    let describe = |what: String| format!("seed {seed}, type {ty}: {what}");

    // damage at the opening, or between the orders
    let early = r.chance(50);
    if early {
        memory.hurt(r, 85);
    }
    let (first, n) = (lent.sources[0], lent.sources[1]);
    let base = lent.body.len() as u64;
    let mut list = vec![Call::Ground(first, n), Call::OpenColumn(first, n), Call::Plan(keep, gaps), Call::MeasureOpen, Call::Open(keep, gaps)];
    for _ in 0..r.below(5) {
        let source = r.below(rows.len() as u64 + 1) as u32;
        let most = rows.get(source as usize).copied().unwrap_or(3);
        let a = r.below(most + 1);
        let b = a + r.below(most + 1 - a) + if r.chance(10) { r.number() } else { 0 } % (1 << r.below(40));
        let many = r.pick(&[0, 1, 3, 20, 70000, u64::MAX]);
        list.extend([Call::MeasureCopy(source, a, b), Call::Copy(source, a, b), Call::MeasureNulls(many), Call::Nulls(many)]);
        let words = [0, source as u64, a, b, 1, many % 4, 0, 0, 0, source as u64, a, b];
        list.extend([Call::MeasureList(words), Call::List(words)]);
    }
    list.push(Call::Finish(base));
    let late = 5 + r.size(list.len() - 4);
    for (k, call) in list.into_iter().enumerate() {
        if !early && k == late {
            memory.hurt(r, 50);
        }
        let before = memory.picture();
        let answer = memory.check(call, answers).map_err(describe)?;
        match call {
            Call::Plan(..) if [9, 10, 11, 12].contains(&answer) => {
                let error = Join::open_lent(memory.lent(), keep).err().ok_or_else(|| describe("opened all the same".into()))?;
                same("the ground", error.ground().map(|g| g.number()), Some(answer)).map_err(describe)?;
                let told = error.place().is_some_and(|p| !p.found.is_empty());
                same(&format!("a place for: {error}"), told, true).map_err(describe)?;
            }
            Call::Plan(..) if answer == 0 => accepted(memory.lent(), keep).map_err(|e| describe(format!("accepted: {e}")))?,
            Call::MeasureOpen | Call::MeasureCopy(..) | Call::MeasureNulls(_) | Call::MeasureList(_) => memory.restore(&before),
            _ => {}
        }
    }
    memory.ask(&[0, 1, rows[0].wrapping_sub(1), rows[0], u64::MAX], first).map_err(describe)
}
