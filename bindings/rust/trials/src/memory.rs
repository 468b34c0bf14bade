//! All that a join is lent, with canaries round every slice; its calls, and damage.

use crate::guard::{Guard, Guarded};
use crate::random::Random;
use lafkuno::calls::{self, FinishedTables, Into, Position, Tables, Target, COUNTERS, PLAN, TREE};
use lafkuno::Lent;

/// All that a join is lent.
pub struct Memory {
    pub sources: Guard<u32>,
    pub formats: Guard<u8>,
    pub schema: Guard<u32>,
    pub lengths: Guard<u64>,
    pub places: Guard<Position>,
    pub buffers: Guard<Position>,
    pub body: Guard<u8>,
    pub parts: Guard<Position>,
    pub plan: Guard<u64>,
    pub counters: Guard<u64>,
    pub room: Guard<u8>,
    pub new_lengths: Guard<u64>,
    pub new_nulls: Guard<u64>,
    pub new_places: Guard<Position>,
    pub new_buffers: Guard<Position>,
    pub tree: Guard<u64>,
}

/// The slices that calls may write.
#[derive(Clone, PartialEq, Debug)]
pub struct Picture {
    pub plan: Vec<u64>,
    pub counters: Vec<u64>,
    pub room: Vec<u8>,
    pub new_lengths: Vec<u64>,
    pub new_nulls: Vec<u64>,
    pub new_places: Vec<Position>,
    pub new_buffers: Vec<Position>,
    pub tree: Vec<u64>,
}

#[derive(Clone, Copy, Debug)]
pub enum Call {
    /// Whether nulls are kept, and whether there is one run for gaps.
    Plan(bool, bool),
    Open(bool, bool),
    Copy(u32, u64, u64),
    Nulls(u64),
    List([u64; 12]),
    Finish(Position),
    MeasureOpen,
    MeasureCopy(u32, u64, u64),
    MeasureNulls(u64),
    MeasureList([u64; 12]),
    Ground(u32, u32),
    OpenColumn(u32, u32),
    PlanConvert(Into, Target),
    Convert(Into, Target),
    NameChild(u32, u32),
}

impl Call {
    pub fn name(self) -> &'static str {
        match self {
            Call::Plan(..) => "plan_parts",
            Call::Open(..) => "open",
            Call::Copy(..) => "copy",
            Call::Nulls(_) => "nulls",
            Call::List(_) => "orders",
            Call::Finish(_) => "finish",
            Call::MeasureOpen => "measure_open",
            Call::MeasureCopy(..) => "measure_copy",
            Call::MeasureNulls(_) => "measure_nulls",
            Call::MeasureList(_) => "measure_orders",
            Call::Ground(..) => "column_ground",
            Call::OpenColumn(..) => "open_column",
            Call::PlanConvert(Into::List, _) => "plan_list",
            Call::PlanConvert(Into::ListView, _) => "plan_list_view",
            Call::PlanConvert(Into::Widths, _) => "plan_convert",
            Call::Convert(Into::Widths, _) => "convert",
            Call::Convert(Into::List, _) => "list",
            Call::Convert(Into::ListView, _) => "list_view",
            Call::NameChild(..) => "list_view_child",
        }
    }
}

impl Memory {
    pub fn new(lent: &Lent, parts: &[Position], room: &[u8], nodes: usize, named: usize) -> Memory {
        Memory {
            sources: Guard::new(&lent.sources),
            formats: Guard::new(&lent.formats),
            schema: Guard::new(&lent.schema),
            lengths: Guard::new(&lent.lengths),
            places: Guard::new(&lent.places),
            buffers: Guard::new(&lent.buffers),
            body: Guard::new(&lent.body),
            parts: Guard::new(parts),
            plan: Guard::new(&[3; PLAN]),
            counters: Guard::new(&[3; COUNTERS]),
            room: Guard::new(room),
            new_lengths: Guard::new(&vec![3; 2 * nodes]),
            new_nulls: Guard::new(&vec![3; nodes]),
            new_places: Guard::new(&vec![3; 9 * nodes]),
            new_buffers: Guard::new(&vec![3; 2 * named]),
            tree: Guard::new(&[3; TREE]),
        }
    }

    pub fn tables(&self) -> Tables<'_> {
        Tables {
            sources: self.sources.get(),
            formats: self.formats.get(),
            schema: self.schema.get(),
            lengths: self.lengths.get(),
            places: self.places.get(),
            buffers: self.buffers.get(),
            body: self.body.get(),
        }
    }

    /// The tables as the binding has them.
    pub fn lent(&self) -> Lent {
        Lent {
            sources: self.sources.get().to_vec(),
            formats: self.formats.get().to_vec(),
            schema: self.schema.get().to_vec(),
            lengths: self.lengths.get().to_vec(),
            places: self.places.get().to_vec(),
            buffers: self.buffers.get().to_vec(),
            body: self.body.get().to_vec().into(),
            ..Lent::default()
        }
    }

    pub fn picture(&self) -> Picture {
        Picture {
            plan: self.plan.get().to_vec(),
            counters: self.counters.get().to_vec(),
            room: self.room.get().to_vec(),
            new_lengths: self.new_lengths.get().to_vec(),
            new_nulls: self.new_nulls.get().to_vec(),
            new_places: self.new_places.get().to_vec(),
            new_buffers: self.new_buffers.get().to_vec(),
            tree: self.tree.get().to_vec(),
        }
    }

    pub fn restore(&mut self, p: &Picture) {
        self.plan.get_mut().copy_from_slice(&p.plan);
        self.counters.get_mut().copy_from_slice(&p.counters);
        self.room.get_mut().copy_from_slice(&p.room);
        self.new_lengths.get_mut().copy_from_slice(&p.new_lengths);
        self.new_nulls.get_mut().copy_from_slice(&p.new_nulls);
        self.new_places.get_mut().copy_from_slice(&p.new_places);
        self.new_buffers.get_mut().copy_from_slice(&p.new_buffers);
        self.tree.get_mut().copy_from_slice(&p.tree);
    }

    pub fn read_only(&self) -> (Vec<u8>, Vec<u32>, Vec<u64>) {
        let words = [self.sources.get(), self.schema.get()].concat();
        let longs = [self.lengths.get(), self.places.get(), self.buffers.get(), self.parts.get()].concat();
        ([self.formats.get(), self.body.get()].concat(), words, longs)
    }

    pub fn guards(&mut self) -> [&mut dyn Guarded; 16] {
        let Memory { sources, formats, schema, lengths, places, buffers, body, parts, plan, counters, room, .. } = self;
        let Memory { new_lengths, new_nulls, new_places, new_buffers, tree, .. } = self;
        [sources, formats, schema, lengths, places, buffers, body, parts, plan, counters, room, new_lengths, new_nulls, new_places, new_buffers, tree]
    }

    /// The ground of what stops an order, which is asked before it is given.
    fn stopped(&self, call: &Call) -> Option<u8> {
        let (x, plan, parts, counters, room) = (self.tables(), self.plan.get(), self.parts.get(), self.counters.get(), self.room.get().len() as u64);
        match call {
            Call::Copy(source, start, end) => Some(calls::why_copy(plan, parts, &x, counters, room, *source, *start, *end).ground),
            Call::Nulls(n) => Some(calls::why_nulls(plan, parts, counters, room, *n).ground),
            Call::List(words) => Some(calls::why_orders(plan, parts, &x, counters, room, words).0.ground),
            _ => None,
        }
    }

    pub fn make(&mut self, call: Call) -> u8 {
        let (name, due) = (call.name(), self.stopped(&call));
        let answer = self.call(call);
        assert!(due.is_none_or(|due| due == answer), "{name} answered {answer}, and was to be stopped by {due:?}");
        answer
    }

    fn call(&mut self, call: Call) -> u8 {
        let x = Tables {
            sources: self.sources.get(),
            formats: self.formats.get(),
            schema: self.schema.get(),
            lengths: self.lengths.get(),
            places: self.places.get(),
            buffers: self.buffers.get(),
            body: self.body.get(),
        };
        let (plan, parts, counters, room) = (&mut self.plan, self.parts.get(), &mut self.counters, &mut self.room);
        match call {
            Call::Plan(keep, gaps) => calls::plan_parts(&x, keep, gaps, plan.get_mut()),
            Call::Open(keep, gaps) => calls::open(&x, keep, gaps, parts, plan.get_mut(), counters.get_mut(), room.get_mut()),
            Call::Copy(source, start, end) => calls::copy(plan.get(), parts, &x, counters.get_mut(), room.get_mut(), source, start, end),
            Call::Nulls(n) => calls::nulls(plan.get(), parts, counters.get_mut(), room.get_mut(), n),
            Call::List(words) => calls::orders(plan.get(), parts, &x, counters.get_mut(), room.get_mut(), &words).ground,
            Call::Finish(base) => {
                let mut out = FinishedTables {
                    lengths: self.new_lengths.get_mut(),
                    nulls: self.new_nulls.get_mut(),
                    places: self.new_places.get_mut(),
                    buffers: self.new_buffers.get_mut(),
                };
                calls::finish(plan.get(), parts, &x, counters.get(), room.get(), base, &mut out)
            }
            Call::NameChild(first, n) => {
                let mut out = FinishedTables {
                    lengths: self.new_lengths.get_mut(),
                    nulls: self.new_nulls.get_mut(),
                    places: self.new_places.get_mut(),
                    buffers: self.new_buffers.get_mut(),
                };
                calls::list_view_child(&x, first, n, &mut out)
            }
            Call::MeasureOpen => calls::measure_open(plan.get(), &x, counters.get_mut()),
            Call::MeasureCopy(source, start, end) => calls::measure_copy(plan.get(), &x, counters.get_mut(), source, start, end),
            Call::MeasureNulls(n) => calls::measure_nulls(plan.get(), counters.get_mut(), n),
            Call::MeasureList(words) => calls::measure_orders(plan.get(), &x, counters.get_mut(), &words).ground,
            Call::Ground(first, n) => calls::column_ground(&x, first, n),
            Call::OpenColumn(first, n) => calls::open_column(&x, first, n, self.tree.get_mut()),
            Call::PlanConvert(into, t) => calls::plan_convert(into, &x, t, plan.get_mut(), counters.get_mut()),
            Call::Convert(into, t) => calls::convert(into, &x, t, parts, plan.get_mut(), counters.get_mut(), room.get_mut()),
        }
    }
}

/// A number that is likely to hurt.
fn bad(random: &mut Random, old: u64) -> u64 {
    match random.below(8) {
        0 => old.wrapping_add(1),
        1 => old.wrapping_sub(1),
        2 => 0,
        3 => random.number(),
        4 => random.below(64),
        5 => 1 << random.below(64),
        6 => u64::MAX - random.below(3),
        _ => old ^ (1 << random.below(8)),
    }
}

macro_rules! hurt {
    ($random:expr, $guard:expr, $t:ty) => {{
        let mut numbers = $guard.get().to_vec();
        match $random.below(12) {
            0 => {
                numbers.pop();
            }
            1 => numbers.push($random.number() as $t),
            2 => numbers.truncate($random.size(numbers.len() + 1)),
            _ if !numbers.is_empty() => {
                let at = $random.size(numbers.len());
                numbers[at] = bad($random, numbers[at] as u64) as $t;
            }
            _ => {}
        }
        $guard = Guard::new(&numbers);
    }};
}

impl Memory {
    fn hurt_tables(&mut self, r: &mut Random) {
        match r.below(9) {
            0 => hurt!(r, self.sources, u32),
            1 => hurt!(r, self.formats, u8),
            2 | 3 => hurt!(r, self.schema, u32),
            4 => hurt!(r, self.lengths, u64),
            5 | 6 => hurt!(r, self.places, Position),
            7 => hurt!(r, self.buffers, Position),
            _ => hurt!(r, self.body, u8),
        }
    }

    fn hurt_state(&mut self, r: &mut Random) {
        match r.below(6) {
            0 => hurt!(r, self.parts, Position),
            1 | 2 => hurt!(r, self.plan, u64),
            3 => hurt!(r, self.counters, u64),
            4 => hurt!(r, self.room, u8),
            _ => match r.below(5) {
                0 => hurt!(r, self.new_lengths, u64),
                1 => hurt!(r, self.new_nulls, u64),
                2 => hurt!(r, self.new_places, Position),
                3 => hurt!(r, self.new_buffers, Position),
                _ => hurt!(r, self.tree, u64),
            },
        }
    }

    /// One or two changes.
    pub fn hurt(&mut self, r: &mut Random, tables: u64) {
        for _ in 0..1 + r.below(2) {
            if r.chance(tables) {
                self.hurt_tables(r)
            } else {
                self.hurt_state(r)
            }
        }
    }
}
