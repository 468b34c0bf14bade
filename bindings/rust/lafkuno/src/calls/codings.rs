//! A fixed-width column into runs, and back.

use super::{Position, Tables};

extern "C" {
    // before any room is lent: `target` is the first node of the result's type; plan and counters are written
    fn lafkuno_plan_encode(
        formats: *const u8, formats_len: usize, schema: *const u32, schema_len: usize, lengths: *const u64, lengths_len: usize,
        places: *const Position, places_len: usize, buffers: *const Position, buffers_len: usize, body: *const u8, body_len: usize,
        first: u32, n: u32, target: u32, start: u64, end: u64,
        plan: *mut u64, plan_len: usize, counters: *mut u64, counters_len: usize,
    ) -> u8;
    fn lafkuno_encode(
        formats: *const u8, formats_len: usize, schema: *const u32, schema_len: usize, lengths: *const u64, lengths_len: usize,
        places: *const Position, places_len: usize, buffers: *const Position, buffers_len: usize, body: *const u8, body_len: usize,
        first: u32, n: u32, target: u32, start: u64, end: u64, parts: *const Position, parts_len: usize,
        plan: *mut u64, plan_len: usize, counters: *mut u64, counters_len: usize, room: *mut u8, room_len: usize,
    ) -> u8;
    fn lafkuno_plan_expand(
        formats: *const u8, formats_len: usize, schema: *const u32, schema_len: usize, lengths: *const u64, lengths_len: usize,
        places: *const Position, places_len: usize, buffers: *const Position, buffers_len: usize, body: *const u8, body_len: usize,
        first: u32, n: u32, target: u32, start: u64, end: u64,
        plan: *mut u64, plan_len: usize, counters: *mut u64, counters_len: usize,
    ) -> u8;
    fn lafkuno_expand(
        formats: *const u8, formats_len: usize, schema: *const u32, schema_len: usize, lengths: *const u64, lengths_len: usize,
        places: *const Position, places_len: usize, buffers: *const Position, buffers_len: usize, body: *const u8, body_len: usize,
        first: u32, n: u32, target: u32, start: u64, end: u64, parts: *const Position, parts_len: usize,
        plan: *mut u64, plan_len: usize, counters: *mut u64, counters_len: usize, room: *mut u8, room_len: usize,
    ) -> u8;
}

/// A column by its first node and its count of nodes, the first node of the result's type, and a range of rows.
#[derive(Clone, Copy, Debug)]
pub struct Range {
    /// The column's first node.
    pub first: u32,
    /// How many nodes it has.
    pub n: u32,
    /// The first node of the result's type.
    pub target: u32,
    /// The first row.
    pub start: u64,
    /// One past the last row.
    pub end: u64,
}

/// The runs of a fixed-width column's rows: the ground, or the plan and the counters of the result.
pub fn plan_encode(x: &Tables, r: Range, plan: &mut [u64], counters: &mut [u64]) -> u8 {
    unsafe {
        lafkuno_plan_encode(
            x.formats.as_ptr(), x.formats.len(), x.schema.as_ptr(), x.schema.len(), x.lengths.as_ptr(), x.lengths.len(),
            x.places.as_ptr(), x.places.len(), x.buffers.as_ptr(), x.buffers.len(), x.body.as_ptr(), x.body.len(),
            r.first, r.n, r.target, r.start, r.end, plan.as_mut_ptr(), plan.len(), counters.as_mut_ptr(), counters.len(),
        )
    }
}

/// The runs of a fixed-width column's rows into the room.
pub fn encode(x: &Tables, r: Range, parts: &[Position], plan: &mut [u64], counters: &mut [u64], room: &mut [u8]) -> u8 {
    unsafe {
        lafkuno_encode(
            x.formats.as_ptr(), x.formats.len(), x.schema.as_ptr(), x.schema.len(), x.lengths.as_ptr(), x.lengths.len(),
            x.places.as_ptr(), x.places.len(), x.buffers.as_ptr(), x.buffers.len(), x.body.as_ptr(), x.body.len(),
            r.first, r.n, r.target, r.start, r.end, parts.as_ptr(), parts.len(),
            plan.as_mut_ptr(), plan.len(), counters.as_mut_ptr(), counters.len(), room.as_mut_ptr(), room.len(),
        )
    }
}

/// The rows of a run-end column of fixed-width values: the ground, or the plan and the counters of the result.
pub fn plan_expand(x: &Tables, r: Range, plan: &mut [u64], counters: &mut [u64]) -> u8 {
    unsafe {
        lafkuno_plan_expand(
            x.formats.as_ptr(), x.formats.len(), x.schema.as_ptr(), x.schema.len(), x.lengths.as_ptr(), x.lengths.len(),
            x.places.as_ptr(), x.places.len(), x.buffers.as_ptr(), x.buffers.len(), x.body.as_ptr(), x.body.len(),
            r.first, r.n, r.target, r.start, r.end, plan.as_mut_ptr(), plan.len(), counters.as_mut_ptr(), counters.len(),
        )
    }
}

/// The rows of a run-end column of fixed-width values into the room.
pub fn expand(x: &Tables, r: Range, parts: &[Position], plan: &mut [u64], counters: &mut [u64], room: &mut [u8]) -> u8 {
    unsafe {
        lafkuno_expand(
            x.formats.as_ptr(), x.formats.len(), x.schema.as_ptr(), x.schema.len(), x.lengths.as_ptr(), x.lengths.len(),
            x.places.as_ptr(), x.places.len(), x.buffers.as_ptr(), x.buffers.len(), x.body.as_ptr(), x.body.len(),
            r.first, r.n, r.target, r.start, r.end, parts.as_ptr(), parts.len(),
            plan.as_mut_ptr(), plan.len(), counters.as_mut_ptr(), counters.len(), room.as_mut_ptr(), room.len(),
        )
    }
}
