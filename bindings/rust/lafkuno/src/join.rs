//! A join over safe types. It never asks its user for room: orders are tried on the counters alone, and the room is lent when the
//! sizes of all parts are known.

use crate::buffer::zeros;
use crate::calls::{self, FinishedTables, Position, Read, RowAnswer, RunAnswer, COUNTERS, MOST_BYTES, MOST_ORDERS, PLAN, TREE};
use crate::lent::Raise;
use crate::work::Work;
use crate::{explain, Buffer, Column, Error, Ground, Lent, Row};
use std::collections::HashMap;
use std::ops::Range;

mod trips;
mod why;

use trips::words;

/// An order.
#[derive(Clone, Copy, Debug, PartialEq, Eq)]
pub enum Order {
    /// Rows of a source.
    Copy {
        /// The source, counted from 0.
        source: usize,
        /// Its first row that is copied.
        start: u64,
        /// One past its last.
        end: u64,
    },
    /// So many nulls.
    Nulls(u64),
}

/// A source's number as calls take it; one that is too large is none.
fn number(source: usize) -> u32 {
    u32::try_from(source).unwrap_or(u32::MAX)
}

/// What is chosen when a join is opened.
#[derive(Clone, Copy, Debug, Default, PartialEq, Eq)]
pub struct Choices {
    /// Orders of nulls are taken even where no source has a null.
    pub keep_nulls: bool,
    /// An order of nulls lengthens the last run of a run-end node if orders of nulls alone have written it; else each one adds a run.
    pub one_run_for_gaps: bool,
}

/// A join: sources, and the orders that were accepted so far. A refused order changes nothing.
#[derive(Debug)]
pub struct Join {
    lent: Lent,
    choices: Choices,
    plan: [u64; PLAN],
    counters: [u64; COUNTERS],
    orders: Vec<Order>,
    /// The orders that were given, refused ones too.
    given: usize,
    work: Work,
    room: u64,
}

/// A finished join.
#[derive(Clone, Debug)]
pub struct Joined {
    /// The joined rows; its type, names and metadata are source 0's.
    pub column: Column,
    /// The null count of each node in depth-first order, counted from the bits.
    pub null_counts: Vec<u64>,
    /// The running null count: nulls that were copied or ordered, also where no validity is held.
    pub running_nulls: u64,
}

/// Parts begin at multiples of this.
const ALIGN: u64 = 64;

impl Join {
    /// Opens a join over 1 to 16 columns of one type. With `keep_nulls` orders of nulls are taken even where no source has one.
    pub fn open(sources: &[&Column], keep_nulls: bool) -> Result<Join, Error> {
        Join::open_lent(Lent::lay(sources)?, keep_nulls)
    }

    /// The same with all choices.
    pub fn open_with(sources: &[&Column], choices: Choices) -> Result<Join, Error> {
        Join::open_lent_with(Lent::lay(sources)?, choices)
    }

    /// [`Join::open`] over a body with its tables.
    pub fn open_lent(lent: Lent, keep_nulls: bool) -> Result<Join, Error> {
        Join::open_lent_with(lent, Choices { keep_nulls, ..Choices::default() })
    }

    /// [`Join::open_with`] over a body with its tables.
    pub fn open_lent_with(lent: Lent, choices: Choices) -> Result<Join, Error> {
        let mut plan = [0; PLAN];
        let answer = calls::plan_parts(&lent.tables(), choices.keep_nulls, choices.one_run_for_gaps, &mut plan);
        // logical types are not in the tables
        if matches!(Ground::from_number(answer), None | Some(Ground::TypesDiffer | Ground::BadSource)) {
            if let Some(place) = explain::differ(&lent) {
                return Err(Error::RefusedAt(Ground::TypesDiffer, Box::new(place)));
            }
        }
        let tell = |error: Error| error.ground().map_or(error, |ground| explain::opening(&lent, ground));
        Error::check(answer).map_err(tell)?;
        let mut counters = [0; COUNTERS];
        Error::check(calls::measure_open(&plan, &lent.tables(), &mut counters)).map_err(tell)?;
        let work = Work::new(&lent);
        let mut join = Join { lent, choices, plan, counters, orders: vec![], given: 0, work, room: 0 };
        join.room = join.room_for(&join.counters)?;
        Ok(join)
    }

    /// Sets how many rows the orders may walk at a node; 2^32 where it is not set. Lists that overlap can lead to more rows than any
    /// machine could walk: an order that would pass the limit is [`Error::TooMuchWork`] before it begins.
    pub fn limit_work(&mut self, rows: u64) {
        self.work.limit = rows;
    }

    /// The parts for these counters, 2 numbers each, and the bytes of the room.
    fn parts(&self, counters: &[u64; COUNTERS]) -> Result<(Vec<Position>, u64), Error> {
        let mut parts = vec![];
        let mut end = 0u64;
        for p in 0..calls::part_count(&self.plan) {
            let start = end.next_multiple_of(ALIGN);
            let size = calls::needed_bytes(&self.plan, counters, p as u32);
            end = start.saturating_add(size);
            if MOST_BYTES < end {
                return Err(Error::TooLarge { bytes: end });
            }
            parts.extend([start, size]);
        }
        Ok((parts, end))
    }

    fn room_for(&self, counters: &[u64; COUNTERS]) -> Result<u64, Error> {
        Ok(self.parts(counters)?.1)
    }

    /// Adds an order to the work; whether it was added.
    fn bounded(&mut self, order: Order) -> Result<bool, Error> {
        let Order::Copy { source: s, start, end } = order else { return Ok(false) };
        // what is no order at all is refused by the library
        let rows = self.lent.sources.get(s.saturating_mul(2)).and_then(|first| self.lent.lengths.get(2 * *first as usize));
        if !rows.is_some_and(|rows| start <= end && end <= *rows) {
            return Ok(false);
        }
        let copies = self.orders.iter().filter_map(|o| match *o {
            Order::Copy { source, start, end } => Some((source, start..end)),
            Order::Nulls(_) => None,
        });
        self.work.add(&self.lent, copies, s, &(start..end)).map(|()| true)
    }

    /// Gives an order: it is carried out, or refused and nothing is changed.
    pub fn order(&mut self, order: Order) -> Result<(), Error> {
        self.given += 1;
        let added = self.bounded(order)?;
        let mut counters = self.counters;
        let x = self.lent.tables();
        let answer = match order {
            Order::Copy { source, start, end } => calls::measure_copy(&self.plan, &x, &mut counters, number(source), start, end),
            Order::Nulls(n) => calls::measure_nulls(&self.plan, &mut counters, n),
        };
        Error::check(answer).map_err(|e| self.told(order, None, &self.counters, e))?;
        self.room = self.room_for(&counters)?;
        self.counters = counters;
        self.orders.push(order);
        if added {
            self.work.accept();
        }
        Ok(())
    }

    /// Copies rows of a source behind the rows that are there.
    pub fn copy(&mut self, source: usize, rows: Range<u64>) -> Result<(), Error> {
        self.order(Order::Copy { source, start: rows.start, end: rows.end })
    }

    /// Adds n nulls.
    pub fn nulls(&mut self, n: u64) -> Result<(), Error> {
        self.order(Order::Nulls(n))
    }

    /// The rows so far.
    pub fn len(&self) -> u64 {
        self.counters[0]
    }

    /// Whether there are none.
    pub fn is_empty(&self) -> bool {
        self.len() == 0
    }

    /// The running null count.
    pub fn null_count(&self) -> u64 {
        calls::running_nulls(&self.counters)
    }

    /// The bytes that the joined column takes beside what it names in the sources.
    pub fn room_bytes(&self) -> u64 {
        self.room
    }

    /// Marks the column nullable where a source is, or nulls are kept; the values of runs too. The type depends on no data.
    fn mark(&self, column: &mut Column) {
        let flag = |s: &[u32]| self.lent.schema.get(5 * s[0] as usize + 2).is_some_and(|flags| flags & 2 != 0);
        column.nullable |= self.choices.keep_nulls || self.lent.sources.chunks_exact(2).any(flag);
        let mut below = column;
        while below.format == "+r" && below.children.len() == 2 {
            below = &mut below.children[1];
            below.nullable |= self.choices.keep_nulls;
        }
    }

    /// Lends the room, carries out the orders and finishes the array. View data and a kept dictionary stay where the sources were laid.
    pub fn finish(self) -> Result<Joined, Error> {
        let inconsistent = |what: &str| Err(Error::Inconsistent(what.into()));
        let (parts, bytes) = self.parts(&self.counters)?;
        let x = self.lent.tables();
        let (mut plan, mut counters) = ([0; PLAN], [0; COUNTERS]);
        let mut room = zeros(bytes).ok_or(Error::TooLarge { bytes })?;
        let Choices { keep_nulls, one_run_for_gaps } = self.choices;
        if calls::open(&x, keep_nulls, one_run_for_gaps, &parts, &mut plan, &mut counters, &mut room) != 0 {
            return inconsistent("the opening was refused after it was measured");
        }
        for list in self.orders.chunks(MOST_ORDERS) {
            if calls::orders(&plan, &parts, &x, &mut counters, &mut room, &words(list)).ground != 0 {
                return inconsistent("an order was refused after it was measured");
            }
        }
        if counters != self.counters {
            return inconsistent("the counters differ from the measured ones");
        }
        let nodes = x.sources[1] as usize;
        let named = calls::buffer_total(&plan, x.places, x.sources);
        let (mut lengths, mut nulls) = (vec![0; 2 * nodes], vec![0; nodes]);
        let (mut places, mut buffers) = (vec![0; 9 * nodes], vec![0; 2 * named]);
        let base = x.body.len();
        let mut out = FinishedTables { lengths: &mut lengths, nulls: &mut nulls, places: &mut places, buffers: &mut buffers };
        if calls::finish(&plan, &parts, &x, &counters, &room, base as Position, &mut out) != 0 {
            return inconsistent("finishing was refused");
        }
        let (body, room) = (&self.lent.body, Buffer::from(room));
        let take = |at: usize, len: usize| if at < base { body.slice(at, len) } else { room.slice(at - base, len) };
        let first = x.sources[0] as usize;
        let raise = Raise { x, first, lengths: &lengths, places: &places, buffers: &buffers, fields: &self.lent.fields, take: &take };
        match raise.column(0) {
            Some((mut column, _)) => {
                self.mark(&mut column);
                Ok(Joined { column, null_counts: nulls, running_nulls: calls::running_nulls(&counters) })
            }
            None => inconsistent("the finished tables name bytes that are not there"),
        }
    }
}

/// Reads the rows of one lent column by the library's reader.
#[derive(Debug)]
pub struct Reader {
    lent: Lent,
    /// The tree of the column and of the child of each list and list-view, which is read as a column of its own; by node from the first on.
    trees: HashMap<u32, Box<[u64; TREE]>>,
}

impl Reader {
    /// Opens a column: 9, 10 or 12 where it is malformed.
    pub fn open(column: &Column) -> Result<Reader, Error> {
        Reader::open_lent(Lent::lay(&[column])?)
    }

    /// The same over a body with its tables, of which source 0 is read.
    pub fn open_lent(lent: Lent) -> Result<Reader, Error> {
        let (Some(&first), Some(&n)) = (lent.sources.first(), lent.sources.get(1)) else {
            return Err(Error::Column("there is no source to read".into()));
        };
        let mut reader = Reader { lent, trees: HashMap::new() };
        reader.plant(0, n)?;
        for child in first + 1..first + n {
            if reader.lent.is_list(child - 1) {
                reader.plant(child - first, reader.lent.below(child) - child)?;
            }
        }
        Ok(reader)
    }

    /// Opens the n nodes from `node` on.
    fn plant(&mut self, node: u32, n: u32) -> Result<(), Error> {
        let mut tree = Box::new([0; TREE]);
        let answer = calls::open_column(&self.lent.tables(), self.lent.sources[0] + node, n, &mut tree[..]);
        Error::check(answer).map_err(|e| e.ground().map_or(e, |ground| explain::opening(&self.lent, ground)))?;
        self.trees.insert(node, tree);
        Ok(())
    }

    /// One row; ground 2 where there is no such row.
    pub fn row(&self, i: u64) -> Result<Row, Error> {
        self.read(0, i)
    }

    /// The run of a row of a run-end column, and how many rows of the column from that one on stand in it: ground 10 where it is no
    /// run-end column, 2 where there is no such row.
    pub fn run(&self, row: u64) -> Result<(u64, u64), Error> {
        let x = self.lent.tables();
        let refused = |ground| Error::check(ground).err().unwrap_or_else(|| Error::Inconsistent("a run was refused without a ground".into()));
        let answer = self.trees.get(&0).map(|tree| calls::read_run(&tree[..], &x, x.sources[0], row));
        let RunAnswer { run, left } = answer.unwrap_or(Err(0)).map_err(refused)?;
        Ok((run, left))
    }

    /// The runs of a range of rows of a run-end column, each with how many rows of the range stand in it; the reader is asked once a run.
    pub fn runs(&self, rows: Range<u64>) -> Result<Runs<'_>, Error> {
        match self.run(rows.start) {
            Err(e) if e.ground() != Some(Ground::NoSuchRows) => return Err(e),
            _ => {}
        }
        let length = self.lent.lengths.get(2 * self.lent.sources[0] as usize).copied().unwrap_or(0);
        if rows.end < rows.start || length < rows.end {
            Error::check(Ground::NoSuchRows.number())?;
        }
        Ok(Runs { reader: self, rows })
    }

    fn read(&self, column: u32, row: u64) -> Result<Row, Error> {
        let x = self.lent.tables();
        let inconsistent = |what: &str| Error::Inconsistent(what.into());
        let tree = self.trees.get(&column).ok_or_else(|| inconsistent("a list's child was not opened"))?;
        let RowAnswer { read, ids, count } = match calls::read_row(&tree[..], &x, x.sources[0] + column, row) {
            Ok(answer) => answer,
            Err(ground) => return Err(Error::check(ground).err().unwrap_or_else(|| inconsistent("a row was refused without a ground"))),
        };
        let inner = match read {
            Read::Null => Row::Null,
            Read::Signed(n) => Row::Whole(n as i128),
            Read::Unsigned(n) => Row::Whole(n as i128),
            Read::Single(bits) => Row::Single(bits),
            Read::Double(bits) => Row::Double(bits),
            Read::Bytes { at, len } => match x.body.get(at as usize..(at + len) as usize) {
                Some(bytes) => Row::Bytes(bytes.to_vec()),
                None => return Err(inconsistent("a row's bytes are not in the body")),
            },
            Read::List { node, start, len } => Row::List((start..start + len).map(|r| self.read(column + node as u32, r)).collect::<Result<_, _>>()?),
        };
        Ok(ids[..count as usize].iter().rev().fold(inner, |row, id| Row::Union(*id, Box::new(row))))
    }
}

/// The runs of a range of rows: [`Reader::runs`].
#[derive(Debug)]
pub struct Runs<'a> {
    reader: &'a Reader,
    rows: Range<u64>,
}

impl Iterator for Runs<'_> {
    type Item = (u64, u64);

    fn next(&mut self) -> Option<(u64, u64)> {
        if self.rows.is_empty() {
            return None;
        }
        let (run, left) = self.reader.run(self.rows.start).ok()?;
        let rows = left.min(self.rows.end - self.rows.start);
        self.rows.start += rows;
        Some((run, rows))
    }
}
