// The leaves, by slices.

// A slice passes as pointer and length.
extern "C" {
    fn lafkuno_leaf_copy_bytes(room: *mut u8, room_len: usize, at: usize, body: *const u8, body_len: usize, from: usize, n: usize) -> usize;
    fn lafkuno_leaf_fill_zeros(room: *mut u8, room_len: usize, at: usize, n: usize) -> usize;
    fn lafkuno_leaf_extend_offsets_i32(room: *mut u8, room_len: usize, at: usize, body: *const u8, body_len: usize, from: usize, n: usize, last: u32) -> usize;
    fn lafkuno_leaf_extend_offsets_i64(room: *mut u8, room_len: usize, at: usize, body: *const u8, body_len: usize, from: usize, n: usize, last: u64) -> usize;
    fn lafkuno_leaf_extend_with_offset_u8(room: *mut u8, room_len: usize, at: usize, body: *const u8, body_len: usize, from: usize, n: usize, base: u8) -> usize;
    fn lafkuno_leaf_extend_with_offset_u16(room: *mut u8, room_len: usize, at: usize, body: *const u8, body_len: usize, from: usize, n: usize, base: u16) -> usize;
    fn lafkuno_leaf_extend_with_offset_u32(room: *mut u8, room_len: usize, at: usize, body: *const u8, body_len: usize, from: usize, n: usize, base: u32) -> usize;
    fn lafkuno_leaf_extend_views(room: *mut u8, room_len: usize, at: usize, body: *const u8, body_len: usize, from: usize, n: usize, base: u32) -> usize;
    fn lafkuno_leaf_copy_bits(room: *mut u8, room_len: usize, at: usize, b: usize, body: *const u8, body_len: usize, from: usize, a: usize, n: usize) -> usize;
    fn lafkuno_leaf_count_zeros(body: *const u8, body_len: usize, from: usize, a: usize, n: usize) -> usize;
    fn lafkuno_leaf_find_runs_i32(body: *const u8, body_len: usize, from: usize, n: usize, rows: *const u64, rows_len: usize) -> usize;
}

pub fn copy_bytes(room: &mut [u8], at: usize, body: &[u8], from: usize, n: usize) -> usize {
    unsafe { lafkuno_leaf_copy_bytes(room.as_mut_ptr(), room.len(), at, body.as_ptr(), body.len(), from, n) }
}

pub fn fill_zeros(room: &mut [u8], at: usize, n: usize) -> usize {
    unsafe { lafkuno_leaf_fill_zeros(room.as_mut_ptr(), room.len(), at, n) }
}

pub fn extend_offsets_i32(room: &mut [u8], at: usize, body: &[u8], from: usize, n: usize, last: u32) -> usize {
    unsafe { lafkuno_leaf_extend_offsets_i32(room.as_mut_ptr(), room.len(), at, body.as_ptr(), body.len(), from, n, last) }
}

pub fn extend_offsets_i64(room: &mut [u8], at: usize, body: &[u8], from: usize, n: usize, last: u64) -> usize {
    unsafe { lafkuno_leaf_extend_offsets_i64(room.as_mut_ptr(), room.len(), at, body.as_ptr(), body.len(), from, n, last) }
}

pub fn extend_with_offset_u8(room: &mut [u8], at: usize, body: &[u8], from: usize, n: usize, base: u8) -> usize {
    unsafe { lafkuno_leaf_extend_with_offset_u8(room.as_mut_ptr(), room.len(), at, body.as_ptr(), body.len(), from, n, base) }
}

pub fn extend_with_offset_u16(room: &mut [u8], at: usize, body: &[u8], from: usize, n: usize, base: u16) -> usize {
    unsafe { lafkuno_leaf_extend_with_offset_u16(room.as_mut_ptr(), room.len(), at, body.as_ptr(), body.len(), from, n, base) }
}

pub fn extend_with_offset_u32(room: &mut [u8], at: usize, body: &[u8], from: usize, n: usize, base: u32) -> usize {
    unsafe { lafkuno_leaf_extend_with_offset_u32(room.as_mut_ptr(), room.len(), at, body.as_ptr(), body.len(), from, n, base) }
}

pub fn extend_views(room: &mut [u8], at: usize, body: &[u8], from: usize, n: usize, base: u32) -> usize {
    unsafe { lafkuno_leaf_extend_views(room.as_mut_ptr(), room.len(), at, body.as_ptr(), body.len(), from, n, base) }
}

// A bit position is a byte and a number of bits from there on.
pub fn copy_bits(room: &mut [u8], b: usize, body: &[u8], a: usize, n: usize) -> usize {
    unsafe { lafkuno_leaf_copy_bits(room.as_mut_ptr(), room.len(), 0, b, body.as_ptr(), body.len(), 0, a, n) }
}

pub fn count_zeros(body: &[u8], a: usize, n: usize) -> usize {
    unsafe { lafkuno_leaf_count_zeros(body.as_ptr(), body.len(), 0, a, n) }
}

pub fn find_runs_i32(body: &[u8], from: usize, n: usize, rows: &[u64]) -> usize {
    unsafe { lafkuno_leaf_find_runs_i32(body.as_ptr(), body.len(), from, n, rows.as_ptr(), rows.len()) }
}
