//! What stopped an order. Nothing that is lent is written.

use super::{Position, Tables};

/// The numbers of an answer; that of a list has one more.
pub const WHY: usize = 5;

extern "C" {
    fn lafkuno_why_copy(
        plan: *const u64, plan_len: usize, parts: *const Position, parts_len: usize, sources: *const u32, sources_len: usize,
        lengths: *const u64, lengths_len: usize, places: *const Position, places_len: usize, body: *const u8, body_len: usize,
        counters: *const u64, counters_len: usize, room: u64, source: u32, start: u64, end: u64, answer: *mut u64, answer_len: usize,
    ) -> u8;
    fn lafkuno_why_nulls(
        plan: *const u64, plan_len: usize, parts: *const Position, parts_len: usize, counters: *const u64, counters_len: usize,
        room: u64, n: u64, answer: *mut u64, answer_len: usize,
    ) -> u8;
    fn lafkuno_why_orders(
        plan: *const u64, plan_len: usize, parts: *const Position, parts_len: usize, sources: *const u32, sources_len: usize,
        lengths: *const u64, lengths_len: usize, places: *const Position, places_len: usize, body: *const u8, body_len: usize,
        counters: *const u64, counters_len: usize, room: u64, orders: *const u64, orders_len: usize, answer: *mut u64, answer_len: usize,
    ) -> u8;
}

/// What stopped an order; zeros where nothing did.
#[derive(Clone, Copy, Debug, Default, PartialEq, Eq)]
pub struct Why {
    /// The ground.
    pub ground: u8,
    /// The node in depth-first order, run ends and dictionary values counted; 0 where the ground names none.
    pub node: usize,
    /// The row within the range that the node was handed.
    pub row: u64,
    /// For 6, 7 and 13 the number that is needed, at most 2^64 - 1; else 0.
    pub needed: u64,
    /// The largest that is allowed.
    pub allowed: u64,
}

fn read(answer: &[u64]) -> Why {
    Why { ground: answer[0] as u8, node: answer[1] as usize, row: answer[2], needed: answer[3], allowed: answer[4] }
}

/// What stops a copy, in a room of `room` bytes.
#[allow(clippy::too_many_arguments)]
pub fn why_copy(plan: &[u64], parts: &[Position], x: &Tables, counters: &[u64], room: u64, source: u32, start: u64, end: u64) -> Why {
    let mut answer = [0; WHY];
    unsafe {
        lafkuno_why_copy(
            plan.as_ptr(), plan.len(), parts.as_ptr(), parts.len(), x.sources.as_ptr(), x.sources.len(),
            x.lengths.as_ptr(), x.lengths.len(), x.places.as_ptr(), x.places.len(), x.body.as_ptr(), x.body.len(),
            counters.as_ptr(), counters.len(), room, source, start, end, answer.as_mut_ptr(), answer.len(),
        )
    };
    read(&answer)
}

/// What stops n nulls.
pub fn why_nulls(plan: &[u64], parts: &[Position], counters: &[u64], room: u64, n: u64) -> Why {
    let mut answer = [0; WHY];
    unsafe {
        lafkuno_why_nulls(
            plan.as_ptr(), plan.len(), parts.as_ptr(), parts.len(), counters.as_ptr(), counters.len(), room, n,
            answer.as_mut_ptr(), answer.len(),
        )
    };
    read(&answer)
}

/// What stops the first failing order of a list, and its place.
pub fn why_orders(plan: &[u64], parts: &[Position], x: &Tables, counters: &[u64], room: u64, orders: &[u64]) -> (Why, usize) {
    let mut answer = [0; WHY + 1];
    unsafe {
        lafkuno_why_orders(
            plan.as_ptr(), plan.len(), parts.as_ptr(), parts.len(), x.sources.as_ptr(), x.sources.len(),
            x.lengths.as_ptr(), x.lengths.len(), x.places.as_ptr(), x.places.len(), x.body.as_ptr(), x.body.len(),
            counters.as_ptr(), counters.len(), room, orders.as_ptr(), orders.len(), answer.as_mut_ptr(), answer.len(),
        )
    };
    (read(&answer), answer[WHY] as usize)
}
