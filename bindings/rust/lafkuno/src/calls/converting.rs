//! A column's rows in another type: a list as a list-view and back, and other widths.

use super::{FinishedTables, Position, Tables};

extern "C" {
    fn lafkuno_plan_list(
        formats: *const u8, formats_len: usize, schema: *const u32, schema_len: usize, lengths: *const u64, lengths_len: usize,
        places: *const Position, places_len: usize, buffers: *const Position, buffers_len: usize, body: *const u8, body_len: usize,
        first: u32, n: u32, target: u32, target_n: u32, plan: *mut u64, plan_len: usize, counters: *mut u64, counters_len: usize,
    ) -> u8;
    fn lafkuno_list(
        formats: *const u8, formats_len: usize, schema: *const u32, schema_len: usize, lengths: *const u64, lengths_len: usize,
        places: *const Position, places_len: usize, buffers: *const Position, buffers_len: usize, body: *const u8, body_len: usize,
        first: u32, n: u32, target: u32, target_n: u32, parts: *const Position, parts_len: usize, plan: *mut u64, plan_len: usize,
        counters: *mut u64, counters_len: usize, room: *mut u8, room_len: usize,
    ) -> u8;
    fn lafkuno_plan_list_view(
        formats: *const u8, formats_len: usize, schema: *const u32, schema_len: usize, lengths: *const u64, lengths_len: usize,
        places: *const Position, places_len: usize, buffers: *const Position, buffers_len: usize, body: *const u8, body_len: usize,
        first: u32, n: u32, target: u32, target_n: u32, plan: *mut u64, plan_len: usize, counters: *mut u64, counters_len: usize,
    ) -> u8;
    fn lafkuno_list_view(
        formats: *const u8, formats_len: usize, schema: *const u32, schema_len: usize, lengths: *const u64, lengths_len: usize,
        places: *const Position, places_len: usize, buffers: *const Position, buffers_len: usize, body: *const u8, body_len: usize,
        first: u32, n: u32, target: u32, target_n: u32, parts: *const Position, parts_len: usize, plan: *mut u64, plan_len: usize,
        counters: *mut u64, counters_len: usize, room: *mut u8, room_len: usize,
    ) -> u8;
    fn lafkuno_list_view_child(
        formats: *const u8, formats_len: usize, schema: *const u32, schema_len: usize, lengths: *const u64, lengths_len: usize,
        places: *const Position, places_len: usize, buffers: *const Position, buffers_len: usize, body: *const u8, body_len: usize,
        first: u32, n: u32, new_lengths: *mut u64, new_lengths_len: usize, new_nulls: *mut u64, new_nulls_len: usize,
        new_places: *mut Position, new_places_len: usize,
    ) -> u8;
    fn lafkuno_plan_convert(
        formats: *const u8, formats_len: usize, schema: *const u32, schema_len: usize, lengths: *const u64, lengths_len: usize,
        places: *const Position, places_len: usize, buffers: *const Position, buffers_len: usize, body: *const u8, body_len: usize,
        first: u32, n: u32, target: u32, target_n: u32, plan: *mut u64, plan_len: usize, counters: *mut u64, counters_len: usize,
    ) -> u8;
    fn lafkuno_convert(
        formats: *const u8, formats_len: usize, schema: *const u32, schema_len: usize, lengths: *const u64, lengths_len: usize,
        places: *const Position, places_len: usize, buffers: *const Position, buffers_len: usize, body: *const u8, body_len: usize,
        first: u32, n: u32, target: u32, target_n: u32, parts: *const Position, parts_len: usize, plan: *mut u64, plan_len: usize,
        counters: *mut u64, counters_len: usize, room: *mut u8, room_len: usize,
    ) -> u8;
}

type Asks = unsafe extern "C" fn(
    *const u8, usize, *const u32, usize, *const u64, usize, *const Position, usize, *const Position, usize, *const u8, usize,
    u32, u32, u32, u32, *mut u64, usize, *mut u64, usize,
) -> u8;
type Writes = unsafe extern "C" fn(
    *const u8, usize, *const u32, usize, *const u64, usize, *const Position, usize, *const Position, usize, *const u8, usize,
    u32, u32, u32, u32, *const Position, usize, *mut u64, usize, *mut u64, usize, *mut u8, usize,
) -> u8;

/// What a column becomes.
#[derive(Clone, Copy, Debug, PartialEq, Eq)]
pub enum Into {
    /// A list, of a list-view.
    List,
    /// A list-view, of a list: its root alone is written, the nodes below are the column's own.
    ListView,
    /// The same in other widths of offsets, sizes, run ends and keys.
    Widths,
}

impl Into {
    fn calls(self) -> (Asks, Writes) {
        match self {
            Into::List => (lafkuno_plan_list, lafkuno_list),
            Into::ListView => (lafkuno_plan_list_view, lafkuno_list_view),
            Into::Widths => (lafkuno_plan_convert, lafkuno_convert),
        }
    }
}

/// A column by its first node and its count of nodes, and the result's type likewise.
#[derive(Clone, Copy, Debug)]
pub struct Target {
    /// The column's first node.
    pub first: u32,
    /// How many nodes it has.
    pub n: u32,
    /// The first node of the result's type.
    pub target: u32,
    /// How many nodes that type has.
    pub target_n: u32,
}

/// The ground, but for 13 and 14 of the parts; or the plan and the counters of the result are written.
pub fn plan_convert(into: Into, x: &Tables, t: Target, plan: &mut [u64], counters: &mut [u64]) -> u8 {
    unsafe {
        into.calls().0(
            x.formats.as_ptr(), x.formats.len(), x.schema.as_ptr(), x.schema.len(), x.lengths.as_ptr(), x.lengths.len(),
            x.places.as_ptr(), x.places.len(), x.buffers.as_ptr(), x.buffers.len(), x.body.as_ptr(), x.body.len(),
            t.first, t.n, t.target, t.target_n, plan.as_mut_ptr(), plan.len(), counters.as_mut_ptr(), counters.len(),
        )
    }
}

/// Writes the result; [`super::finish`] finishes it.
#[allow(clippy::too_many_arguments)]
pub fn convert(into: Into, x: &Tables, t: Target, parts: &[Position], plan: &mut [u64], counters: &mut [u64], room: &mut [u8]) -> u8 {
    unsafe {
        into.calls().1(
            x.formats.as_ptr(), x.formats.len(), x.schema.as_ptr(), x.schema.len(), x.lengths.as_ptr(), x.lengths.len(),
            x.places.as_ptr(), x.places.len(), x.buffers.as_ptr(), x.buffers.len(), x.body.as_ptr(), x.body.len(),
            t.first, t.n, t.target, t.target_n, parts.as_ptr(), parts.len(), plan.as_mut_ptr(), plan.len(),
            counters.as_mut_ptr(), counters.len(), room.as_mut_ptr(), room.len(),
        )
    }
}

/// The nodes below the root of a list column of `n` nodes from node `first` on as those of its list-view, behind the finished root in tables of `n`
/// nodes: lengths, null counts, and places in the column's body.
pub fn list_view_child(x: &Tables, first: u32, n: u32, out: &mut FinishedTables) -> u8 {
    unsafe {
        lafkuno_list_view_child(
            x.formats.as_ptr(), x.formats.len(), x.schema.as_ptr(), x.schema.len(), x.lengths.as_ptr(), x.lengths.len(),
            x.places.as_ptr(), x.places.len(), x.buffers.as_ptr(), x.buffers.len(), x.body.as_ptr(), x.body.len(), first, n,
            out.lengths.as_mut_ptr(), out.lengths.len(), out.nulls.as_mut_ptr(), out.nulls.len(), out.places.as_mut_ptr(), out.places.len(),
        )
    }
}
