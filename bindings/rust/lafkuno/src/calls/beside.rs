//! Two rows, frames and exact sums.

use super::{Position, Tables};

extern "C" {
    fn lafkuno_same_row(
        formats: *const u8, formats_len: usize, schema: *const u32, schema_len: usize, lengths: *const u64, lengths_len: usize,
        places: *const Position, places_len: usize, buffers: *const Position, buffers_len: usize, body: *const u8, body_len: usize,
        first_a: u32, n_a: u32, first_b: u32, n_b: u32, row_a: u64, row_b: u64, answer: *mut u64, answer_len: usize,
    ) -> u8;
    fn lafkuno_frame(
        formats: *const u8, formats_len: usize, schema: *const u32, schema_len: usize, lengths: *const u64, lengths_len: usize,
        places: *const Position, places_len: usize, buffers: *const Position, buffers_len: usize, body: *const u8, body_len: usize,
        first_a: u32, n_a: u32, first_b: u32, n_b: u32, start: u64, end: u64, room: *mut f64, room_len: usize,
    ) -> u8;
    fn lafkuno_join_frames(
        left: *const f64, left_len: usize, right: *const f64, right_len: usize, room: *mut f64, room_len: usize,
    ) -> u8;
    fn lafkuno_mean(
        formats: *const u8, formats_len: usize, schema: *const u32, schema_len: usize, lengths: *const u64, lengths_len: usize,
        places: *const Position, places_len: usize, buffers: *const Position, buffers_len: usize, body: *const u8, body_len: usize,
        first: u32, n: u32, start: u64, end: u64, answer: *mut u64, answer_len: usize,
    ) -> u8;
    fn lafkuno_ratio(
        formats: *const u8, formats_len: usize, schema: *const u32, schema_len: usize, lengths: *const u64, lengths_len: usize,
        places: *const Position, places_len: usize, buffers: *const Position, buffers_len: usize, body: *const u8, body_len: usize,
        first_a: u32, n_a: u32, first_b: u32, n_b: u32, start: u64, end: u64, answer: *mut u64, answer_len: usize,
    ) -> u8;
}

/// 1 where row `row_a` of one column of numbers and row `row_b` of another read the same, else 0: the ground where it is refused. A column is
/// its first node and how many nodes it has.
pub fn same_row(x: &Tables, a: (u32, u32), b: (u32, u32), row_a: u64, row_b: u64, answer: &mut [u64]) -> u8 {
    unsafe {
        lafkuno_same_row(
            x.formats.as_ptr(), x.formats.len(), x.schema.as_ptr(), x.schema.len(), x.lengths.as_ptr(), x.lengths.len(),
            x.places.as_ptr(), x.places.len(), x.buffers.as_ptr(), x.buffers.len(), x.body.as_ptr(), x.body.len(),
            a.0, a.1, b.0, b.1, row_a, row_b, answer.as_mut_ptr(), answer.len(),
        )
    }
}

/// The frame of the rows `start .. end` of two columns, each by its first node and its count of nodes: smallest and largest of the first,
/// smallest and largest of the second.
pub fn frame(x: &Tables, [first_a, n_a]: [u32; 2], [first_b, n_b]: [u32; 2], start: u64, end: u64, room: &mut [f64]) -> u8 {
    unsafe {
        lafkuno_frame(
            x.formats.as_ptr(), x.formats.len(), x.schema.as_ptr(), x.schema.len(), x.lengths.as_ptr(), x.lengths.len(),
            x.places.as_ptr(), x.places.len(), x.buffers.as_ptr(), x.buffers.len(), x.body.as_ptr(), x.body.len(),
            first_a, n_a, first_b, n_b, start, end, room.as_mut_ptr(), room.len(),
        )
    }
}

/// The frame of two ranges from the frames of both, the left range's first.
pub fn join_frames(left: &[f64], right: &[f64], room: &mut [f64]) -> u8 {
    unsafe { lafkuno_join_frames(left.as_ptr(), left.len(), right.as_ptr(), right.len(), room.as_mut_ptr(), room.len()) }
}

// ---- exact sums

/// Count, sum, 1 for minus, and the two magnitudes of the mean: the ground where it is refused.
pub fn mean(x: &Tables, first: u32, n: u32, start: u64, end: u64, answer: &mut [u64]) -> u8 {
    unsafe {
        lafkuno_mean(
            x.formats.as_ptr(), x.formats.len(), x.schema.as_ptr(), x.schema.len(), x.lengths.as_ptr(), x.lengths.len(),
            x.places.as_ptr(), x.places.len(), x.buffers.as_ptr(), x.buffers.len(), x.body.as_ptr(), x.body.len(),
            first, n, start, end, answer.as_mut_ptr(), answer.len(),
        )
    }
}

/// Count, both totals, 1 for minus, and the two magnitudes of the first over the second: the ground where it is refused. A column is its
/// first node and how many nodes it has.
pub fn ratio(x: &Tables, a: (u32, u32), b: (u32, u32), start: u64, end: u64, answer: &mut [u64]) -> u8 {
    unsafe {
        lafkuno_ratio(
            x.formats.as_ptr(), x.formats.len(), x.schema.as_ptr(), x.schema.len(), x.lengths.as_ptr(), x.lengths.len(),
            x.places.as_ptr(), x.places.len(), x.buffers.as_ptr(), x.buffers.len(), x.body.as_ptr(), x.body.len(),
            a.0, a.1, b.0, b.1, start, end, answer.as_mut_ptr(), answer.len(),
        )
    }
}
