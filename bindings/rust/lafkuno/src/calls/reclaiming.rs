//! A dictionary column anew with the entries in use.

use super::{Position, Tables};

extern "C" {
    fn lafkuno_plan_reclaim(
        formats: *const u8, formats_len: usize, schema: *const u32, schema_len: usize, lengths: *const u64, lengths_len: usize,
        places: *const Position, places_len: usize, buffers: *const Position, buffers_len: usize, body: *const u8, body_len: usize,
        first: u32, n: u32, plan: *mut u64, plan_len: usize, counters: *mut u64, counters_len: usize,
    ) -> u8;
    fn lafkuno_reclaim(
        formats: *const u8, formats_len: usize, schema: *const u32, schema_len: usize, lengths: *const u64, lengths_len: usize,
        places: *const Position, places_len: usize, buffers: *const Position, buffers_len: usize, body: *const u8, body_len: usize,
        first: u32, n: u32, parts: *const Position, parts_len: usize, plan: *mut u64, plan_len: usize,
        counters: *mut u64, counters_len: usize, room: *mut u8, room_len: usize,
    ) -> u8;
}

/// 9, 10 or 12 of the column of `n` nodes from node `first` on, 10 where it is no dictionary, 14 where plan or counters have not their numbers;
/// else plan and counters of the result are written.
pub fn plan_reclaim(x: &Tables, first: u32, n: u32, plan: &mut [u64], counters: &mut [u64]) -> u8 {
    unsafe {
        lafkuno_plan_reclaim(
            x.formats.as_ptr(), x.formats.len(), x.schema.as_ptr(), x.schema.len(), x.lengths.as_ptr(), x.lengths.len(),
            x.places.as_ptr(), x.places.len(), x.buffers.as_ptr(), x.buffers.len(), x.body.as_ptr(), x.body.len(),
            first, n, plan.as_mut_ptr(), plan.len(), counters.as_mut_ptr(), counters.len(),
        )
    }
}

/// Writes the column anew with the entries in use; [`super::finish`] finishes it.
#[allow(clippy::too_many_arguments)]
pub fn reclaim(x: &Tables, first: u32, n: u32, parts: &[Position], plan: &mut [u64], counters: &mut [u64], room: &mut [u8]) -> u8 {
    unsafe {
        lafkuno_reclaim(
            x.formats.as_ptr(), x.formats.len(), x.schema.as_ptr(), x.schema.len(), x.lengths.as_ptr(), x.lengths.len(),
            x.places.as_ptr(), x.places.len(), x.buffers.as_ptr(), x.buffers.len(), x.body.as_ptr(), x.body.len(),
            first, n, parts.as_ptr(), parts.len(), plan.as_mut_ptr(), plan.len(), counters.as_mut_ptr(), counters.len(),
            room.as_mut_ptr(), room.len(),
        )
    }
}
