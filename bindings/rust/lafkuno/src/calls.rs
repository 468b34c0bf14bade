//! The calls of the proved library (include/lafkuno.h) over slices. This is the one module that names them.
//!
//! Every call answers 0 or the number of a ground, and changes nothing where it is not 0. Whatever the slices hold, only they are read,
//! and only those behind `&mut` are written.

mod beside;
mod codings;
mod converting;
mod measuring;
mod reclaiming;
mod trips;
mod why;

pub use beside::{frame, join_frames, mean, ratio, same_row};
pub use codings::{encode, expand, plan_encode, plan_expand, Range};
pub use converting::{convert, list_view_child, plan_convert, Into, Target};
pub use measuring::{measure_copy, measure_nulls, measure_open, needed_bytes};
pub use reclaiming::{plan_reclaim, reclaim};
pub use trips::{measure_orders, orders, Ended, MOST_ORDERS, ORDER};
pub use why::{why_copy, why_nulls, why_orders, Why, WHY};

/// A position in a body or a room, and a count of bytes there.
pub type Position = u64;
/// The bytes that a body or a room may have.
pub const MOST_BYTES: u64 = i64::MAX as u64;
/// Numbers in a plan.
pub const PLAN: usize = 872;
/// Numbers in the counters of a join.
pub const COUNTERS: usize = 96;
/// Numbers in the tree of an opened column.
pub const TREE: usize = 256;

/// The tables of docs/FORMAT.md with the body that they are about.
#[derive(Clone, Copy, Debug)]
pub struct Tables<'a> {
    /// 2 numbers a source: its first node, and how many it has.
    pub sources: &'a [u32],
    /// The format strings.
    pub formats: &'a [u8],
    /// 5 numbers a node: its format's start and bytes, flags, children, 1 where it has a dictionary.
    pub schema: &'a [u32],
    /// 2 numbers a node: length and offset.
    pub lengths: &'a [u64],
    /// 9 numbers a node: whether it has validity, start and bytes of validity and of two buffers, its first data buffer and their count.
    pub places: &'a [Position],
    /// 2 numbers a data buffer of views: start and bytes.
    pub buffers: &'a [Position],
    /// Every buffer of every source.
    pub body: &'a [u8],
}

/// The tables that finishing fills: 2 lengths, 1 null count and 9 places a node, 2 numbers a data buffer.
#[derive(Debug)]
pub struct FinishedTables<'a> {
    /// Length and offset of each node.
    pub lengths: &'a mut [u64],
    /// The null count of each node.
    pub nulls: &'a mut [u64],
    /// The places of each node.
    pub places: &'a mut [Position],
    /// Start and bytes of each data buffer.
    pub buffers: &'a mut [Position],
}

/// One row as a call answers it: bytes by their place in the body, a list by the child's node and rows.
#[derive(Clone, Copy, Debug, PartialEq, Eq)]
pub enum Read {
    /// No value.
    Null,
    /// A whole number of a signed type.
    Signed(i64),
    /// A whole number of an unsigned type.
    Unsigned(u64),
    /// An f32, by its bits.
    Single(u32),
    /// An f64, by its bits.
    Double(u64),
    /// Bytes in the body.
    Bytes {
        /// Where they begin.
        at: u64,
        /// How many.
        len: u64,
    },
    /// Rows of the child.
    List {
        /// The child's node, counted from the column's first.
        node: u64,
        /// Its first row.
        start: u64,
        /// How many rows.
        len: u64,
    },
}

/// A row that was read, with the ids of the unions on the way to it: the first `count` of `ids`.
#[derive(Clone, Copy, Debug, PartialEq, Eq)]
pub struct RowAnswer {
    /// What was read.
    pub read: Read,
    /// The ids, from the root downward.
    pub ids: [u8; 8],
    /// How many there are.
    pub count: u8,
}

// A slice passes as pointer and length.
extern "C" {
    fn lafkuno_plan_parts(
        sources: *const u32, sources_len: usize, formats: *const u8, formats_len: usize, schema: *const u32, schema_len: usize,
        lengths: *const u64, lengths_len: usize, places: *const Position, places_len: usize, buffers: *const Position, buffers_len: usize,
        body: *const u8, body_len: usize, keep: u8, gaps: u8, plan: *mut u64, plan_len: usize,
    ) -> u8;
    fn lafkuno_part_count(plan: *const u64, plan_len: usize) -> u32;
    // u64::MAX where there is no such part
    fn lafkuno_part_node(plan: *const u64, plan_len: usize, p: u32) -> u64;
    fn lafkuno_part_buffer(plan: *const u64, plan_len: usize, p: u32) -> u64;
    fn lafkuno_open(
        sources: *const u32, sources_len: usize, formats: *const u8, formats_len: usize, schema: *const u32, schema_len: usize,
        lengths: *const u64, lengths_len: usize, places: *const Position, places_len: usize, buffers: *const Position, buffers_len: usize,
        body: *const u8, body_len: usize, keep: u8, gaps: u8, parts: *const Position, parts_len: usize, plan: *mut u64, plan_len: usize,
        counters: *mut u64, counters_len: usize, room: *mut u8, room_len: usize,
    ) -> u8;
    fn lafkuno_copy(
        plan: *const u64, plan_len: usize, parts: *const Position, parts_len: usize, sources: *const u32, sources_len: usize,
        lengths: *const u64, lengths_len: usize, places: *const Position, places_len: usize, body: *const u8, body_len: usize,
        counters: *mut u64, counters_len: usize, room: *mut u8, room_len: usize, source: u32, start: u64, end: u64,
    ) -> u8;
    fn lafkuno_nulls(
        plan: *const u64, plan_len: usize, parts: *const Position, parts_len: usize, counters: *mut u64, counters_len: usize,
        room: *mut u8, room_len: usize, n: u64,
    ) -> u8;
    fn lafkuno_finish(
        plan: *const u64, plan_len: usize, parts: *const Position, parts_len: usize, sources: *const u32, sources_len: usize,
        lengths: *const u64, lengths_len: usize, places: *const Position, places_len: usize, buffers: *const Position, buffers_len: usize,
        body: *const u8, body_len: usize, counters: *const u64, counters_len: usize, room: *const u8, room_len: usize, base: Position,
        new_lengths: *mut u64, new_lengths_len: usize, new_nulls: *mut u64, new_nulls_len: usize,
        new_places: *mut Position, new_places_len: usize, new_buffers: *mut Position, new_buffers_len: usize,
    ) -> u8;
    fn lafkuno_buffer_total(
        plan: *const u64, plan_len: usize, sources: *const u32, sources_len: usize, places: *const Position, places_len: usize,
    ) -> u64;
    fn lafkuno_running_nulls(counters: *const u64, counters_len: usize) -> u64;
    fn lafkuno_column_ground(
        formats: *const u8, formats_len: usize, schema: *const u32, schema_len: usize, lengths: *const u64, lengths_len: usize,
        places: *const Position, places_len: usize, buffers: *const Position, buffers_len: usize, body: *const u8, body_len: usize,
        first: u32, n: u32,
    ) -> u8;
    fn lafkuno_open_column(
        formats: *const u8, formats_len: usize, schema: *const u32, schema_len: usize, lengths: *const u64, lengths_len: usize,
        places: *const Position, places_len: usize, buffers: *const Position, buffers_len: usize, body: *const u8, body_len: usize,
        first: u32, n: u32, tree: *mut u64, tree_len: usize,
    ) -> u8;
    // answers the kind: 0 null, 1 signed, 2 unsigned, 3 f32, 4 f64, 5 bytes, 6 list; 16 and the ground where it is refused, 14 where
    // `answer` has not 12 numbers; answer: three numbers, how many ids there are, eight ids
    fn lafkuno_read_row(
        tree: *const u64, tree_len: usize, lengths: *const u64, lengths_len: usize, places: *const Position, places_len: usize,
        buffers: *const Position, buffers_len: usize, body: *const u8, body_len: usize, first: u32, row: u64,
        answer: *mut u64, answer_len: usize,
    ) -> u8;
    // answer: the run and the rows left in it; 14 where it has not 2 numbers
    fn lafkuno_run_at(
        formats: *const u8, formats_len: usize, schema: *const u32, schema_len: usize, lengths: *const u64, lengths_len: usize,
        places: *const Position, places_len: usize, buffers: *const Position, buffers_len: usize, body: *const u8, body_len: usize,
        first: u32, n: u32, row: u64, answer: *mut u64, answer_len: usize,
    ) -> u8;
    fn lafkuno_read_run(
        tree: *const u64, tree_len: usize, lengths: *const u64, lengths_len: usize, places: *const Position, places_len: usize,
        body: *const u8, body_len: usize, first: u32, row: u64, answer: *mut u64, answer_len: usize,
    ) -> u8;
}

// ---- before any room is lent

/// 9 to 12, or 14 where `plan` has not [`PLAN`] numbers; else the plan is written. `gaps`: one run for gaps.
#[inline(always)]
pub fn plan_parts(x: &Tables, keep: bool, gaps: bool, plan: &mut [u64]) -> u8 {
    unsafe {
        lafkuno_plan_parts(
            x.sources.as_ptr(), x.sources.len(), x.formats.as_ptr(), x.formats.len(), x.schema.as_ptr(), x.schema.len(),
            x.lengths.as_ptr(), x.lengths.len(), x.places.as_ptr(), x.places.len(), x.buffers.as_ptr(), x.buffers.len(),
            x.body.as_ptr(), x.body.len(), keep as u8, gaps as u8, plan.as_mut_ptr(), plan.len(),
        )
    }
}

/// How many parts a plan has.
#[inline(always)]
pub fn part_count(plan: &[u64]) -> usize {
    unsafe { lafkuno_part_count(plan.as_ptr(), plan.len()) as usize }
}

/// The node and the buffer of part `p`; buffer 0 is the validity.
#[inline(always)]
pub fn part_at(plan: &[u64], p: usize) -> Option<(usize, usize)> {
    let p = u32::try_from(p).ok()?;
    let node = unsafe { lafkuno_part_node(plan.as_ptr(), plan.len(), p) };
    let buffer = unsafe { lafkuno_part_buffer(plan.as_ptr(), plan.len(), p) };
    (node != u64::MAX).then_some((node as usize, buffer as usize))
}

// ---- the join

/// Opens a join over lent room: the plan, the counters and the parts are written. `gaps`: one run for gaps.
#[inline(always)]
pub fn open(x: &Tables, keep: bool, gaps: bool, parts: &[Position], plan: &mut [u64], counters: &mut [u64], room: &mut [u8]) -> u8 {
    unsafe {
        lafkuno_open(
            x.sources.as_ptr(), x.sources.len(), x.formats.as_ptr(), x.formats.len(), x.schema.as_ptr(), x.schema.len(),
            x.lengths.as_ptr(), x.lengths.len(), x.places.as_ptr(), x.places.len(), x.buffers.as_ptr(), x.buffers.len(),
            x.body.as_ptr(), x.body.len(), keep as u8, gaps as u8, parts.as_ptr(), parts.len(), plan.as_mut_ptr(), plan.len(),
            counters.as_mut_ptr(), counters.len(), room.as_mut_ptr(), room.len(),
        )
    }
}

/// Copies the rows `start .. end` of a source behind the rows that are there.
#[inline(always)]
#[allow(clippy::too_many_arguments)]
pub fn copy(plan: &[u64], parts: &[Position], x: &Tables, counters: &mut [u64], room: &mut [u8], source: u32, start: u64, end: u64) -> u8 {
    unsafe {
        lafkuno_copy(
            plan.as_ptr(), plan.len(), parts.as_ptr(), parts.len(), x.sources.as_ptr(), x.sources.len(),
            x.lengths.as_ptr(), x.lengths.len(), x.places.as_ptr(), x.places.len(), x.body.as_ptr(), x.body.len(),
            counters.as_mut_ptr(), counters.len(), room.as_mut_ptr(), room.len(), source, start, end,
        )
    }
}

/// Adds n nulls.
#[inline(always)]
pub fn nulls(plan: &[u64], parts: &[Position], counters: &mut [u64], room: &mut [u8], n: u64) -> u8 {
    unsafe {
        lafkuno_nulls(
            plan.as_ptr(), plan.len(), parts.as_ptr(), parts.len(), counters.as_mut_ptr(), counters.len(),
            room.as_mut_ptr(), room.len(), n,
        )
    }
}

/// Describes the finished array. `base` is where the room begins in the body that the new tables are about.
#[inline(always)]
#[allow(clippy::too_many_arguments)]
pub fn finish(plan: &[u64], parts: &[Position], x: &Tables, counters: &[u64], room: &[u8], base: Position, out: &mut FinishedTables) -> u8 {
    unsafe {
        lafkuno_finish(
            plan.as_ptr(), plan.len(), parts.as_ptr(), parts.len(), x.sources.as_ptr(), x.sources.len(),
            x.lengths.as_ptr(), x.lengths.len(), x.places.as_ptr(), x.places.len(), x.buffers.as_ptr(), x.buffers.len(),
            x.body.as_ptr(), x.body.len(), counters.as_ptr(), counters.len(), room.as_ptr(), room.len(), base,
            out.lengths.as_mut_ptr(), out.lengths.len(), out.nulls.as_mut_ptr(), out.nulls.len(),
            out.places.as_mut_ptr(), out.places.len(), out.buffers.as_mut_ptr(), out.buffers.len(),
        )
    }
}

/// How many data buffers the finished array names.
#[inline(always)]
pub fn buffer_total(plan: &[u64], places: &[Position], sources: &[u32]) -> usize {
    unsafe { lafkuno_buffer_total(plan.as_ptr(), plan.len(), sources.as_ptr(), sources.len(), places.as_ptr(), places.len()) as usize }
}

/// The running null count.
#[inline(always)]
pub fn running_nulls(counters: &[u64]) -> u64 {
    unsafe { lafkuno_running_nulls(counters.as_ptr(), counters.len()) }
}

// ---- one column

/// 9, 10 or 12 for the column of `n` nodes from node `first` on.
#[inline(always)]
pub fn column_ground(x: &Tables, first: u32, n: u32) -> u8 {
    unsafe {
        lafkuno_column_ground(
            x.formats.as_ptr(), x.formats.len(), x.schema.as_ptr(), x.schema.len(), x.lengths.as_ptr(), x.lengths.len(),
            x.places.as_ptr(), x.places.len(), x.buffers.as_ptr(), x.buffers.len(), x.body.as_ptr(), x.body.len(), first, n,
        )
    }
}

/// The same, then 14 where `tree` has fewer than [`TREE`] numbers; else the column's tree is written to its front.
#[inline(always)]
pub fn open_column(x: &Tables, first: u32, n: u32, tree: &mut [u64]) -> u8 {
    unsafe {
        lafkuno_open_column(
            x.formats.as_ptr(), x.formats.len(), x.schema.as_ptr(), x.schema.len(), x.lengths.as_ptr(), x.lengths.len(),
            x.places.as_ptr(), x.places.len(), x.buffers.as_ptr(), x.buffers.len(), x.body.as_ptr(), x.body.len(), first, n,
            tree.as_mut_ptr(), tree.len(),
        )
    }
}

/// One row of an opened column: 2 where there is no such row.
#[inline(always)]
pub fn read_row(tree: &[u64], x: &Tables, first: u32, row: u64) -> Result<RowAnswer, u8> {
    let mut answer = [0; 12];
    let kind = unsafe {
        lafkuno_read_row(
            tree.as_ptr(), tree.len(), x.lengths.as_ptr(), x.lengths.len(), x.places.as_ptr(), x.places.len(),
            x.buffers.as_ptr(), x.buffers.len(), x.body.as_ptr(), x.body.len(), first, row, answer.as_mut_ptr(), answer.len(),
        )
    };
    let [a, b, c, count, ids @ ..] = answer;
    let read = match kind {
        0 => Read::Null,
        1 => Read::Signed(a as i64),
        2 => Read::Unsigned(a),
        3 => Read::Single(a as u32),
        4 => Read::Double(a),
        5 => Read::Bytes { at: a, len: b },
        6 => Read::List { node: a, start: b, len: c },
        _ => return Err(kind.wrapping_sub(16)),
    };
    Ok(RowAnswer { read, ids: ids.map(|id| id as u8), count: count as u8 })
}

/// The run of a row of a run-end column, and how many rows of the column from that one on stand in it: 9, 10, 12 where it is malformed, then 10
/// where it is no run-end column, then 2.
#[inline(always)]
pub fn run_at(x: &Tables, first: u32, n: u32, row: u64) -> Result<RunAnswer, u8> {
    let mut answer = [0; 2];
    let ground = unsafe {
        lafkuno_run_at(
            x.formats.as_ptr(), x.formats.len(), x.schema.as_ptr(), x.schema.len(), x.lengths.as_ptr(), x.lengths.len(),
            x.places.as_ptr(), x.places.len(), x.buffers.as_ptr(), x.buffers.len(), x.body.as_ptr(), x.body.len(), first, n,
            row, answer.as_mut_ptr(), answer.len(),
        )
    };
    RunAnswer::of(ground, answer)
}

/// The same of an opened column.
#[inline(always)]
pub fn read_run(tree: &[u64], x: &Tables, first: u32, row: u64) -> Result<RunAnswer, u8> {
    let mut answer = [0; 2];
    let ground = unsafe {
        lafkuno_read_run(
            tree.as_ptr(), tree.len(), x.lengths.as_ptr(), x.lengths.len(), x.places.as_ptr(), x.places.len(), x.body.as_ptr(),
            x.body.len(), first, row, answer.as_mut_ptr(), answer.len(),
        )
    };
    RunAnswer::of(ground, answer)
}

/// A run, counted from the first run end, and the rows left in it.
#[derive(Clone, Copy, Debug, PartialEq, Eq)]
pub struct RunAnswer {
    /// The run.
    pub run: u64,
    /// The rows of the column from the one asked for on that stand in it.
    pub left: u64,
}

impl RunAnswer {
    fn of(ground: u8, [run, left]: [u64; 2]) -> Result<RunAnswer, u8> {
        if ground == 0 { Ok(RunAnswer { run, left }) } else { Err(ground) }
    }
}
