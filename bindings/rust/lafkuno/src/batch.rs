//! Record batches: the same orders over every column, and many joins at once.

use crate::calls::MOST_ORDERS;
use crate::types::Kind;
use crate::{Choices, Column, Error, Ground, Join, Metadata, Order, Place};
use std::sync::atomic::{AtomicUsize, Ordering};
use std::sync::Mutex;

/// The sources that a join takes.
const SOURCES: usize = 16;

/// Columns of one length, each with its name in its field.
#[derive(Clone, Debug, Default, PartialEq)]
pub struct Batch {
    /// How many rows each column has.
    pub rows: u64,
    /// The columns.
    pub columns: Vec<Column>,
    /// Keys and values that somebody attached to the schema.
    pub metadata: Metadata,
}

impl From<Column> for Batch {
    fn from(column: Column) -> Batch {
        Batch { rows: column.length, columns: vec![column], metadata: vec![] }
    }
}

/// Whether a format below the column's root is not taken, as that of a dictionary's values too: the first of them.
fn foreign(column: &Column) -> Option<&str> {
    match &column.dictionary {
        Some(values) if matches!(values.ty().kind(), Kind::Fixed | Kind::Strings) => None,
        Some(values) => Some(&values.format),
        None if column.ty().kind() == Kind::Other => Some(&column.format),
        None => column.children.iter().find_map(foreign),
    }
}

impl Batch {
    /// The columns of types that are not taken, each with the format that is not: the error of all of them.
    pub fn taken(&self) -> Result<(), Error> {
        let named = self.columns.iter().filter_map(|c| Some(format!("`{}` (format {})", c.field.name, foreign(c)?)));
        let named: Vec<String> = named.collect();
        if named.is_empty() {
            return Ok(());
        }
        let found = format!("types that are not taken, of the columns {}", named.join(", "));
        Err(Error::RefusedAt(Ground::UnknownType, Box::new(Place { found, ..Place::default() })))
    }

    /// Joins rows of batches of one schema, which is the first one's: the same orders over every column, all or none. An error names its
    /// column. There may be more sources than a join of columns takes.
    pub fn join(sources: &[&Batch], orders: &[Order], keep_nulls: bool) -> Result<Batch, Error> {
        Batch::join_limited(sources, orders, Choices { keep_nulls, ..Choices::default() }, crate::WORK_LIMIT)
    }

    /// The same with all choices. Where there are more sources than a join of columns takes, a gap may keep several runs.
    pub fn join_with(sources: &[&Batch], orders: &[Order], choices: Choices) -> Result<Batch, Error> {
        Batch::join_limited(sources, orders, choices, crate::WORK_LIMIT)
    }

    /// The same with another limit of the work (see [`Join::limit_work`]).
    pub fn join_limited(sources: &[&Batch], orders: &[Order], choices: Choices, limit: u64) -> Result<Batch, Error> {
        let Some(first) = sources.first() else { return Err(Error::Refused(Ground::CeilingPassed)) };
        first.taken()?;
        for (s, batch) in sources.iter().enumerate() {
            first.same_fields(batch).map_err(|e| e.at(|p| p.source = Some(s)))?;
        }
        given(sources, orders)?;
        let mut joined = Batch { rows: rows_of(orders), columns: vec![], metadata: first.metadata.clone() };
        for (k, head) in first.columns.iter().enumerate() {
            let columns: Vec<&Column> = sources.iter().map(|b| &b.columns[k]).collect();
            let column = join_columns(&columns, orders, choices, limit).map_err(|e| e.at(|p| p.column = Some(head.field.name.clone())))?;
            joined.columns.push(column);
        }
        Ok(joined)
    }

    /// Whether another batch has the columns of this one, by name.
    fn same_fields(&self, other: &Batch) -> Result<(), Error> {
        let names = |b: &Batch| b.columns.iter().map(|c| format!("`{}`", c.field.name)).collect::<Vec<_>>();
        if names(self) == names(other) {
            return Ok(());
        }
        let found = format!("columns {}, and source 0 has {}", names(other).join(", "), names(self).join(", "));
        Err(Error::RefusedAt(Ground::TypesDiffer, Box::new(Place { found, ..Place::default() })))
    }
}

/// Refuses what is no order of these batches, before anything is done.
fn given(sources: &[&Batch], orders: &[Order]) -> Result<(), Error> {
    for (k, order) in orders.iter().enumerate() {
        let Order::Copy { source, start, end } = *order else { continue };
        let refused =
            |ground: Ground, found: String| Err(Error::RefusedAt(ground, Box::new(Place { order: Some(k + 1), found, ..Place::default() })));
        match sources.get(source) {
            None => return refused(Ground::NoSuchSource, format!("rows {start}..{end} of source {source}, and there are {} sources", sources.len())),
            Some(batch) if end < start || batch.rows < end => {
                return refused(Ground::NoSuchRows, format!("rows {start}..{end} of source {source}, which has {}", batch.rows));
            }
            _ => {}
        }
    }
    Ok(())
}

fn rows_of(orders: &[Order]) -> u64 {
    let rows = orders.iter().map(|o| match *o {
        Order::Copy { start, end, .. } => end - start,
        Order::Nulls(n) => n,
    });
    rows.fold(0, u64::saturating_add)
}

/// One column; more sources than a join takes are joined in turns.
fn join_columns(sources: &[&Column], orders: &[Order], choices: Choices, limit: u64) -> Result<Column, Error> {
    if sources.len() <= SOURCES {
        let mut join = Join::open_with(sources, choices)?;
        join.limit_work(limit);
        for (k, list) in orders.chunks(MOST_ORDERS).enumerate() {
            join.orders(list).map_err(|e| e.at(|p| p.order = p.place.take().map(|place| k * MOST_ORDERS + place + 1)))?;
        }
        return Ok(join.finish()?.column);
    }
    // source 0 gives the type; whether nulls are kept is settled by all
    let choices = Choices { keep_nulls: choices.keep_nulls || sources.iter().any(|c| c.null_count() != 0), ..choices };
    let mut turns: Vec<(Vec<usize>, Vec<Order>)> = vec![];
    for order in orders {
        let Order::Copy { source, start, end } = *order else {
            match turns.last_mut() {
                Some((_, list)) => list.push(*order),
                None => turns.push((vec![0], vec![*order])),
            }
            continue;
        };
        if !turns.last().is_some_and(|(used, _)| used.contains(&source) || used.len() < SOURCES) {
            turns.push((vec![0], vec![]));
        }
        if let Some((used, list)) = turns.last_mut() {
            let at = used.iter().position(|s| *s == source).unwrap_or(used.len());
            if at == used.len() {
                used.push(source);
            }
            list.push(Order::Copy { source: at, start, end });
        }
    }
    let mut parts = vec![];
    for (used, list) in &turns {
        let columns: Vec<&Column> = used.iter().map(|s| sources[*s]).collect();
        parts.push(join_columns(&columns, list, choices, limit)?);
    }
    if parts.len() < 2 {
        return match parts.pop() {
            Some(part) => Ok(part),
            None => join_columns(&sources[..1], &[], choices, limit),
        };
    }
    let all: Vec<Order> = parts.iter().enumerate().map(|(source, p)| Order::Copy { source, start: 0, end: p.length }).collect();
    join_columns(&parts.iter().collect::<Vec<_>>(), &all, choices, limit)
}

/// One join of many: sources, orders and choices.
#[derive(Clone, Debug)]
pub struct Job<'a> {
    /// The batches, the first of which gives the schema.
    pub sources: Vec<&'a Batch>,
    /// The orders, over every column.
    pub orders: Vec<Order>,
    /// What is chosen at the opening.
    pub choices: Choices,
}

/// Makes many joins on so many threads; `done` is told how many are made. Each answer stands at its job's place: one that is refused
/// stops no other.
pub fn join_many(jobs: &[Job], threads: usize, done: &(dyn Fn(usize) + Sync)) -> Vec<Result<Batch, Error>> {
    run_many(jobs, threads, |job| Batch::join_with(&job.sources, &job.orders, job.choices), done)
}

/// The same for any work: `make` of each job, on so many threads.
pub fn run_many<J: Sync, T: Send>(jobs: &[J], threads: usize, make: impl Fn(&J) -> T + Sync, done: &(dyn Fn(usize) + Sync)) -> Vec<T> {
    let threads = threads.clamp(1, jobs.len().max(1));
    // small jobs are taken some at a time
    let some = (jobs.len() / (32 * threads)).clamp(1, 64);
    let (next, made) = (AtomicUsize::new(0), AtomicUsize::new(0));
    let answers: Mutex<Vec<(usize, Vec<T>)>> = Mutex::new(vec![]);
    let work = || loop {
        let k = next.fetch_add(1, Ordering::Relaxed);
        let Some(mine) = jobs.get(k * some..).filter(|rest| !rest.is_empty()) else { break };
        let make_one = |job| {
            let answer = make(job);
            done(made.fetch_add(1, Ordering::Relaxed) + 1);
            answer
        };
        let list = mine.iter().take(some).map(make_one).collect();
        // a thread that panics ends the whole
        answers.lock().unwrap_or_else(|e| e.into_inner()).push((k, list));
    };
    std::thread::scope(|scope| {
        (1..threads).for_each(|_| drop(scope.spawn(work)));
        work();
    });
    let mut answers = answers.into_inner().unwrap_or_else(|e| e.into_inner());
    answers.sort_by_key(|(k, _)| *k);
    answers.into_iter().flat_map(|(_, list)| list).collect()
}

/// Tells the GNU C library's allocator to keep the pages that are freed, for a process that makes joins all day: pages that are given back
/// and asked for again cost more than a join of a few thousand rows, and threads that ask at once wait for each other. Call it once, before
/// threads begin. With another allocator or C library it does nothing.
pub fn keep_pages() {
    #[cfg(all(target_os = "linux", target_env = "gnu"))]
    {
        extern "C" {
            fn mallopt(parameter: i32, value: i32) -> i32;
        }
        const TRIM_THRESHOLD: i32 = -1;
        const TOP_PAD: i32 = -2;
        const MMAP_THRESHOLD: i32 = -3;
        // numbers go in and a flag comes out; where a number is not taken the allocator stays as it was
        for (parameter, value) in [(TRIM_THRESHOLD, i32::MAX), (TOP_PAD, 64 << 20), (MMAP_THRESHOLD, 32 << 20), (MMAP_THRESHOLD, i32::MAX)] {
            unsafe { mallopt(parameter, value) };
        }
    }
}
