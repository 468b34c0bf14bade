//! A join's calls without room.

use super::{Position, Tables};

extern "C" {
    fn lafkuno_measure_open(
        plan: *const u64, plan_len: usize, sources: *const u32, sources_len: usize, lengths: *const u64, lengths_len: usize,
        places: *const Position, places_len: usize, body: *const u8, body_len: usize, counters: *mut u64, counters_len: usize,
    ) -> u8;
    fn lafkuno_measure_copy(
        plan: *const u64, plan_len: usize, sources: *const u32, sources_len: usize, lengths: *const u64, lengths_len: usize,
        places: *const Position, places_len: usize, body: *const u8, body_len: usize, counters: *mut u64, counters_len: usize,
        source: u32, start: u64, end: u64,
    ) -> u8;
    fn lafkuno_measure_nulls(plan: *const u64, plan_len: usize, counters: *mut u64, counters_len: usize, n: u64) -> u8;
    fn lafkuno_needed_bytes(plan: *const u64, plan_len: usize, counters: *const u64, counters_len: usize, p: u32) -> u64;
}

/// What an opening does to the counters.
#[inline(always)]
pub fn measure_open(plan: &[u64], x: &Tables, counters: &mut [u64]) -> u8 {
    unsafe {
        lafkuno_measure_open(
            plan.as_ptr(), plan.len(), x.sources.as_ptr(), x.sources.len(), x.lengths.as_ptr(), x.lengths.len(),
            x.places.as_ptr(), x.places.len(), x.body.as_ptr(), x.body.len(), counters.as_mut_ptr(), counters.len(),
        )
    }
}

/// What a copy does to them.
#[inline(always)]
pub fn measure_copy(plan: &[u64], x: &Tables, counters: &mut [u64], source: u32, start: u64, end: u64) -> u8 {
    unsafe {
        lafkuno_measure_copy(
            plan.as_ptr(), plan.len(), x.sources.as_ptr(), x.sources.len(), x.lengths.as_ptr(), x.lengths.len(),
            x.places.as_ptr(), x.places.len(), x.body.as_ptr(), x.body.len(), counters.as_mut_ptr(), counters.len(),
            source, start, end,
        )
    }
}

/// What an order of nulls does to them.
#[inline(always)]
pub fn measure_nulls(plan: &[u64], counters: &mut [u64], n: u64) -> u8 {
    unsafe { lafkuno_measure_nulls(plan.as_ptr(), plan.len(), counters.as_mut_ptr(), counters.len(), n) }
}

/// The bytes that part `p` must hold; 0 where there is no such part.
#[inline(always)]
pub fn needed_bytes(plan: &[u64], counters: &[u64], p: u32) -> u64 {
    unsafe { lafkuno_needed_bytes(plan.as_ptr(), plan.len(), counters.as_ptr(), counters.len(), p) }
}
