//! A list of orders as one call, all or none.

use super::{Position, Tables};

/// The numbers of an order in a list: 0, source, start and end of a copy; or 1, how many nulls, and two that are not read.
pub const ORDER: usize = 4;
/// The orders that a list may have.
pub const MOST_ORDERS: usize = 256;

// the ground and 256 times the place of the order that got it
extern "C" {
    fn lafkuno_orders(
        plan: *const u64, plan_len: usize, parts: *const Position, parts_len: usize, sources: *const u32, sources_len: usize,
        lengths: *const u64, lengths_len: usize, places: *const Position, places_len: usize, body: *const u8, body_len: usize,
        counters: *mut u64, counters_len: usize, room: *mut u8, room_len: usize, orders: *const u64, orders_len: usize,
    ) -> u32;
    fn lafkuno_measure_orders(
        plan: *const u64, plan_len: usize, sources: *const u32, sources_len: usize, lengths: *const u64, lengths_len: usize,
        places: *const Position, places_len: usize, body: *const u8, body_len: usize, counters: *mut u64, counters_len: usize,
        orders: *const u64, orders_len: usize,
    ) -> u32;
}

/// The answer to a list: the ground, 0 where there is none, and the place of the order that got it, counted from 0.
#[derive(Clone, Copy, Debug, PartialEq, Eq)]
pub struct Ended {
    /// The ground.
    pub ground: u8,
    /// The place.
    pub place: usize,
}

impl From<u32> for Ended {
    fn from(answer: u32) -> Ended {
        Ended { ground: answer as u8, place: (answer >> 8) as usize }
    }
}

/// Carries out the orders of a list, or none of them.
#[inline(always)]
pub fn orders(plan: &[u64], parts: &[Position], x: &Tables, counters: &mut [u64], room: &mut [u8], orders: &[u64]) -> Ended {
    let answer = unsafe {
        lafkuno_orders(
            plan.as_ptr(), plan.len(), parts.as_ptr(), parts.len(), x.sources.as_ptr(), x.sources.len(),
            x.lengths.as_ptr(), x.lengths.len(), x.places.as_ptr(), x.places.len(), x.body.as_ptr(), x.body.len(),
            counters.as_mut_ptr(), counters.len(), room.as_mut_ptr(), room.len(), orders.as_ptr(), orders.len(),
        )
    };
    answer.into()
}

/// What they do to the counters.
#[inline(always)]
pub fn measure_orders(plan: &[u64], x: &Tables, counters: &mut [u64], orders: &[u64]) -> Ended {
    let answer = unsafe {
        lafkuno_measure_orders(
            plan.as_ptr(), plan.len(), x.sources.as_ptr(), x.sources.len(), x.lengths.as_ptr(), x.lengths.len(),
            x.places.as_ptr(), x.places.len(), x.body.as_ptr(), x.body.len(), counters.as_mut_ptr(), counters.len(),
            orders.as_ptr(), orders.len(),
        )
    };
    answer.into()
}
