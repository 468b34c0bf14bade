//! One join, made by the library and by the original's algorithm, byte by byte and row by row.

use crate::convert::{difference, is_kept, ordered_null, Convert};
use crate::generate::{orders, Generate, Order};
use crate::guard::{Guard, Guarded};
use crate::random::Random;
use crate::why::{self, Short};
use lafkuno::calls::{self, FinishedTables, Position, COUNTERS, PLAN};
use lafkuno::{Column, Join, Lent, Reader, Row, Type};
use original::{ArrayData, MutableArrayData};
use std::collections::BTreeMap;

/// What a run saw.
#[derive(Clone, Debug, Default)]
pub struct Seen {
    pub joins: u64,
    pub orders: u64,
    pub rows: u64,
    /// How often each number was answered, at openings and at orders.
    pub answers: BTreeMap<(&'static str, u8), u64>,
    pub joined_dictionaries: u64,
    pub kept_dictionaries: u64,
    /// Rows whose valid key names a null entry, in joined and in kept dictionaries.
    pub joined_null_entries: u64,
    pub kept_null_entries: u64,
    pub depth_8: u64,
    /// Types with a list, and those with one at depth 7, the deepest that has a child.
    pub lists: u64,
    pub deep_lists: u64,
}

/// Whether there is a list `down` levels below, or at any level.
fn has_list(ty: &Type, down: Option<usize>) -> bool {
    let here = matches!(ty.format.as_str(), "+l" | "+L");
    match down {
        Some(0) => here,
        None if here => true,
        _ => ty.children.iter().any(|c| has_list(c, down.map(|d| d - 1))),
    }
}

fn depth(ty: &Type) -> usize {
    1 + ty.children.iter().chain(ty.dictionary.as_deref()).map(depth).max().unwrap_or(0)
}

/// The original with the orders that were accepted.
fn again<'a>(arrays: &'a [ArrayData], keep: bool, accepted: &[Order]) -> MutableArrayData<'a> {
    let mut mutable = MutableArrayData::try_new(arrays.iter().collect(), keep, 0).expect("an opening that was accepted before");
    for order in accepted {
        give(&mut mutable, order).expect("an order that was accepted before");
    }
    mutable
}

fn give(mutable: &mut MutableArrayData, order: &Order) -> Result<(), original::ArrowError> {
    match *order {
        Order::Copy { source, start, end } => mutable.try_extend(source as usize, start as usize, end as usize),
        Order::Nulls(n) => mutable.try_extend_nulls(n as usize),
    }
}

/// The sizes that the parts need after all orders, as the original finds them, and whether it opens.
fn sizes(arrays: &[ArrayData], keep: bool, orders: &[Order]) -> Result<Vec<usize>, u8> {
    let mut mutable = MutableArrayData::try_new(arrays.iter().collect(), keep, 0).map_err(|e| e.ground())?;
    let mut accepted = vec![];
    for order in orders {
        match give(&mut mutable, order) {
            Ok(()) => accepted.push(*order),
            Err(_) => mutable = again(arrays, keep, &accepted),
        }
    }
    Ok(mutable.part_sizes())
}

/// A random join by its seed: what differs, with all that is needed to look at it.
pub fn join(seed: u64, seen: &mut Seen) -> Result<(), String> {
    let mut random = Random::new(seed);
    let mut generate = Generate::new(&mut random);
    let ty = generate.ty();
    let sources = generate.sources(&ty);
    let list = orders(&mut random, &ty, &sources);
    let keep = random.chance(50);
    seen.joins += 1;
    seen.depth_8 += (depth(&ty) == 8) as u64;
    seen.lists += has_list(&ty, None) as u64;
    seen.deep_lists += has_list(&ty, Some(6)) as u64;
    let mut trial = Trial { ty: &ty, sources: &sources, keep, orders: &list, seen };
    trial.run(&mut random).map_err(|what| format!("seed {seed}, type {ty}, keep {keep}, {} sources, orders {list:?}\n  {what}", sources.len()))
}

struct Trial<'a> {
    ty: &'a Type,
    sources: &'a [Column],
    keep: bool,
    orders: &'a [Order],
    seen: &'a mut Seen,
}

pub fn same<T: PartialEq + std::fmt::Debug>(what: &str, ours: T, theirs: T) -> Result<(), String> {
    if ours == theirs {
        Ok(())
    } else {
        Err(format!("{what}: {ours:?}, and {theirs:?} is due"))
    }
}

impl Trial<'_> {
    fn run(&mut self, random: &mut Random) -> Result<(), String> {
        let align = random.pick(&[1, 8, 64]);
        let lent = Lent::lay_aligned(&self.sources.iter().collect::<Vec<_>>(), align).map_err(|e| e.to_string())?;
        let mut convert = Convert::default();
        let arrays: Vec<ArrayData> = self.sources.iter().map(|c| convert.array(c)).collect();
        let opened = sizes(&arrays, self.keep, self.orders);
        let mut plan = Guard::new(&[7; PLAN]);
        let answer = calls::plan_parts(&lent.tables(), self.keep, false, plan.get_mut());
        same("plan_parts", answer, 0)?;
        let mut counters = Guard::new(&[9; COUNTERS]);
        let full = match opened {
            Ok(full) => full,
            Err(ground) => {
                let answer = calls::measure_open(plan.get(), &lent.tables(), counters.get_mut());
                *self.seen.answers.entry(("opening", answer)).or_default() += 1;
                same("counters of a refused opening", counters.get(), &[9; COUNTERS][..])?;
                return same("ground of the opening", answer, ground);
            }
        };
        same("part_count", calls::part_count(plan.get()), full.len())?;
        let (parts, room) = self.lend(random, &full);
        self.orders_in_room(random, &lent, &arrays, &parts, room)?;
        if random.chance(15) {
            self.safely(&arrays)?;
        }
        Ok(())
    }

    /// Parts for these sizes, in any order in the room and with gaps; now and then one is too small.
    fn lend(&self, random: &mut Random, full: &[usize]) -> (Vec<Position>, usize) {
        let mut order: Vec<usize> = (0..full.len()).collect();
        for k in (1..order.len()).rev() {
            order.swap(k, random.size(k + 1));
        }
        let short = if random.chance(20) { random.size(full.len().max(1)) } else { usize::MAX };
        let mut parts = vec![0; 2 * full.len()];
        let mut end = 0;
        for p in order {
            end += random.size(4);
            let size = if p == short { random.size(full[p] + 1) } else { full[p] + random.size(3) };
            parts[2 * p..2 * p + 2].copy_from_slice(&[end as Position, size as Position]);
            end += size;
        }
        (parts, end + random.size(3))
    }

    fn orders_in_room(&mut self, random: &mut Random, lent: &Lent, arrays: &[ArrayData], parts: &[Position], room: usize) -> Result<(), String> {
        let x = lent.tables();
        let holds = |sizes: &[usize]| sizes.iter().zip(parts.chunks(2)).all(|(need, part)| *need <= part[1] as usize);
        let mut mutable = again(arrays, self.keep, &[]);
        let fill = random.bytes(room);
        let mut room = Guard::new(&fill);
        let mut plan = Guard::new(&[7; PLAN]);
        let mut counters = Guard::new(&[9; COUNTERS]);
        let parts = Guard::new(parts);
        let answer = calls::open(&x, self.keep, false, parts.get(), plan.get_mut(), counters.get_mut(), room.get_mut());
        *self.seen.answers.entry(("opening", answer)).or_default() += 1;
        let due = if holds(&mutable.part_sizes()) { 0 } else { 13 };
        same("ground of the opening", answer, due)?;
        if answer != 0 {
            same("room after a refused opening", room.get(), &fill[..])?;
            same("plan after a refused opening", plan.get(), &[7; PLAN][..])?;
            return same("counters after a refused opening", counters.get(), &[9; COUNTERS][..]);
        }
        let (mut accepted, mut book): (Vec<Order>, Vec<Row>) = (vec![], vec![]);
        let mut measured = counters.get().to_vec();
        let formats = why::formats(self.ty);
        for order in self.orders {
            let mut due = give(&mut mutable, order).map_or_else(|e| e.ground(), |()| 0);
            let measure = match *order {
                Order::Copy { source, start, end } => calls::measure_copy(plan.get(), &x, &mut measured, source, start, end),
                Order::Nulls(n) => calls::measure_nulls(plan.get(), &mut measured, n),
            };
            same(&format!("measured ground of {order:?}"), measure, due)?;
            let mut short: Short = None;
            if due == 0 {
                let needs: Vec<_> = (0..parts.get().len() / 2).map(|p| calls::needed_bytes(plan.get(), &measured, p as u32) as usize).collect();
                same("bytes that are needed", &needs, &mutable.part_sizes())?;
                due = if holds(&needs) { 0 } else { 13 };
                let p = needs.iter().zip(parts.get().chunks(2)).position(|(need, part)| (part[1] as usize) < *need);
                short = p.and_then(|p| Some((calls::part_at(plan.get(), p)?.0, needs[p] as u64, parts.get()[2 * p + 1])));
            }
            let size = room.get().len() as u64;
            let stopped = match *order {
                Order::Copy { source, start, end } => calls::why_copy(plan.get(), parts.get(), &x, counters.get(), size, source, start, end),
                Order::Nulls(n) => calls::why_nulls(plan.get(), parts.get(), counters.get(), size, n),
            };
            why::judge(stopped, due, &formats, short).map_err(|what| format!("{order:?}: {what}"))?;
            let (old_counters, old_room) = (counters.get().to_vec(), room.get().to_vec());
            let answer = match *order {
                Order::Copy { source, start, end } => {
                    calls::copy(plan.get(), parts.get(), &x, counters.get_mut(), room.get_mut(), source, start, end)
                }
                Order::Nulls(n) => calls::nulls(plan.get(), parts.get(), counters.get_mut(), room.get_mut(), n),
            };
            self.seen.orders += 1;
            *self.seen.answers.entry(("order", answer)).or_default() += 1;
            same(&format!("ground of {order:?}"), answer, due)?;
            if answer != 0 {
                same("counters after a refusal", counters.get(), &old_counters[..])?;
                same("room after a refusal", room.get(), &old_room[..])?;
                measured = old_counters;
                mutable = again(arrays, self.keep, &accepted);
                continue;
            }
            same("measured counters", &measured[..], counters.get())?;
            accepted.push(*order);
            match *order {
                Order::Copy { source, start, end } => {
                    for row in start..end {
                        book.push(self.sources[source as usize].row(row).ok_or("a source row can't be read")?);
                    }
                }
                Order::Nulls(n) => book.extend((0..n).map(|_| ordered_null(self.ty))),
            }
        }
        // outside the used bytes of the parts the room is as it was lent
        let sizes = mutable.part_sizes();
        let mut free = vec![true; fill.len()];
        for (part, size) in parts.get().chunks(2).zip(&sizes) {
            free[part[0] as usize..part[0] as usize + size].fill(false);
        }
        if let Some(at) = (0..fill.len()).find(|k| free[*k] && room.get()[*k] != fill[*k]) {
            return Err(format!("byte {at} of the room was written, and no part uses it"));
        }
        same("running nulls", calls::running_nulls(counters.get()), mutable.null_count() as u64)?;
        let (column, nulls) = self.finish(lent, plan.get(), parts.get(), counters.get(), room.get())?;
        if !(plan.whole() && counters.whole() && room.whole() && parts.whole()) {
            return Err("a canary was written".into());
        }
        count_dictionaries(&column, x.body.len(), self.seen);
        if let Some(what) = difference(&column, &mutable.freeze(), &self.sources[0], x.body.len(), "root") {
            return Err(what);
        }
        self.judge(random, &column, &nulls, &book)
    }

    fn finish(&self, lent: &Lent, plan: &[u64], parts: &[Position], counters: &[u64], room: &[u8]) -> Result<(Column, Vec<u64>), String> {
        let x = lent.tables();
        let nodes = x.sources[1] as usize;
        let named = calls::buffer_total(plan, x.places, x.sources);
        let mut lengths = Guard::new(&vec![5; 2 * nodes]);
        let mut nulls = Guard::new(&vec![5; nodes]);
        let mut places = Guard::new(&vec![5; 9 * nodes]);
        let mut buffers = Guard::new(&vec![5; 2 * named]);
        let mut out = FinishedTables { lengths: lengths.get_mut(), nulls: nulls.get_mut(), places: places.get_mut(), buffers: buffers.get_mut() };
        let base = x.body.len() as Position;
        same("ground of finishing", calls::finish(plan, parts, &x, counters, room, base, &mut out), 0)?;
        if !(lengths.whole() && nulls.whole() && places.whole() && buffers.whole()) {
            return Err("a canary round the finished tables was written".into());
        }
        // lent again as it stands, with the room behind the body
        let mut body = x.body.to_vec();
        body.extend(room);
        let first = x.sources[0] as usize;
        let again = Lent {
            sources: vec![0, nodes as u32],
            formats: x.formats.to_vec(),
            schema: x.schema[5 * first..5 * (first + nodes)].to_vec(),
            lengths: lengths.get().to_vec(),
            places: places.get().to_vec(),
            buffers: buffers.get().to_vec(),
            body: body.into(),
            ..Lent::default()
        };
        let column = again.source(0).ok_or("the finished tables name bytes that are not there")?;
        // the data buffers of all sources can be more than a source may have
        let due = if most_data(&column) <= 32 { 0 } else { 9 };
        same("ground of the finished column", calls::column_ground(&again.tables(), 0, nodes as u32), due)?;
        if due != 0 {
            return Ok((column, nulls.get().to_vec()));
        }
        let reader = Reader::open_lent(again).map_err(|e| e.to_string())?;
        for i in 0..column.length.min(20) {
            same(&format!("row {i} by the reader"), reader.row(i).ok(), column.row(i))?;
        }
        Ok((column, nulls.get().to_vec()))
    }

    fn judge(&mut self, random: &mut Random, column: &Column, nulls: &[u64], book: &[Row]) -> Result<(), String> {
        let mut counted = vec![];
        count_nulls(column, &mut counted);
        same("null counts", nulls, &counted[..])?;
        same("length", column.length as usize, book.len())?;
        for (i, row) in book.iter().enumerate() {
            if 200 < book.len() && random.chance(95) {
                continue;
            }
            same(&format!("row {i}"), column.row(i as u64).as_ref(), Some(row))?;
        }
        self.seen.rows += book.len() as u64;
        Ok(())
    }

    /// The same join by the safe binding, the finished column lent again.
    fn safely(&mut self, arrays: &[ArrayData]) -> Result<(), String> {
        let lent = Lent::lay(&self.sources.iter().collect::<Vec<_>>()).map_err(|e| e.to_string())?;
        let mut join = Join::open_lent(lent, self.keep).map_err(|e| e.to_string())?;
        let mut mutable = again(arrays, self.keep, &[]);
        let mut accepted = vec![];
        for order in self.orders {
            let due = give(&mut mutable, order).map_or_else(|e| e.ground(), |()| 0);
            let answer = match *order {
                Order::Copy { source, start, end } => join.copy(source as usize, start..end),
                Order::Nulls(n) => join.nulls(n),
            };
            same(&format!("{order:?} by the binding"), answer.map_or_else(|e| e.ground().map_or(255, |g| g.number()), |()| 0), due)?;
            if due == 0 {
                accepted.push(*order);
            } else {
                mutable = again(arrays, self.keep, &accepted);
            }
        }
        same("length by the binding", join.len(), mutable.len() as u64)?;
        let joined = join.finish().map_err(|e| e.to_string())?;
        let rows = joined.column.rows().ok_or("a finished row can't be read")?;
        if 32 < most_data(&joined.column) {
            return Ok(());
        }
        let mut twice = Join::open(&[&joined.column], false).map_err(|e| format!("lent again: {e}"))?;
        twice.copy(0, 0..joined.column.length).map_err(|e| format!("copied again: {e}"))?;
        let again = twice.finish().map_err(|e| format!("finished again: {e}"))?;
        same("rows copied again", again.column.rows(), Some(rows))
    }
}

/// The most data buffers of a node.
fn most_data(column: &Column) -> usize {
    column.children.iter().map(most_data).fold(column.data.len(), usize::max)
}

fn count_nulls(column: &Column, counts: &mut Vec<u64>) {
    counts.push(column.null_count());
    column.dictionary.iter().for_each(|d| count_nulls(d, counts));
    column.children.iter().for_each(|c| count_nulls(c, counts));
}

fn count_dictionaries(column: &Column, base: usize, seen: &mut Seen) {
    if let Some(values) = &column.dictionary {
        let kept = is_kept(values, base);
        *if kept { &mut seen.kept_dictionaries } else { &mut seen.joined_dictionaries } += 1;
        let keys = Column { dictionary: None, ..column.clone() };
        let named = (0..column.length).filter(|r| keys.row(*r) != Some(Row::Null) && column.row(*r) == Some(Row::Null)).count() as u64;
        *if kept { &mut seen.kept_null_entries } else { &mut seen.joined_null_entries } += named;
    }
    column.children.iter().for_each(|c| count_dictionaries(c, base, seen));
}
