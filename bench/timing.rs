// What the drivers share: random numbers, numbers as bytes, and the comparison of two sides.
#[path = "../bindings/rust/lafkuno/tests/common/mod.rs"]
mod random;

use std::hint::black_box;
use std::time::{Duration, Instant};

// ---- bytes

pub use random::Random;

// Numbers as bytes, in place. The machine is little-endian.
pub trait Number: Copy {}
impl Number for u8 {}
impl Number for u16 {}
impl Number for u32 {}
impl Number for u64 {}
impl Number for u128 {}
impl Number for i32 {}
impl Number for i64 {}

pub fn bytes<T: Number>(s: &[T]) -> &[u8] {
    unsafe { std::slice::from_raw_parts(s.as_ptr().cast(), size_of_val(s)) }
}

#[allow(dead_code)]
pub fn bytes_mut<T: Number>(s: &mut [T]) -> &mut [u8] {
    unsafe { std::slice::from_raw_parts_mut(s.as_mut_ptr().cast(), size_of_val(s)) }
}

// ---- timing

#[allow(dead_code)]
pub const NO_GOAL: f64 = 0.0;

fn once<R>(f: &mut impl FnMut() -> R, calls: u32) -> f64 {
    let start = Instant::now();
    for _ in 0..calls {
        black_box(f());
    }
    start.elapsed().as_nanos() as f64 / calls as f64
}

// Rounds of some 50 microseconds, one side after the other; the best of each side counts.
pub fn compare<R, S>(name: &str, goal: f64, mut ours: impl FnMut() -> R, mut plain: impl FnMut() -> S) {
    let mut calls = 1;
    while once(&mut plain, calls) * (calls as f64) < 50_000.0 {
        calls *= 2;
    }
    let (mut best, mut best_plain) = (f64::MAX, f64::MAX);
    let start = Instant::now();
    let mut rounds = 0;
    while rounds < 1000 || start.elapsed() < Duration::from_millis(400) {
        best = best.min(once(&mut ours, calls));
        best_plain = best_plain.min(once(&mut plain, calls));
        rounds += 1;
    }
    let ratio = best / best_plain;
    let verdict = match goal {
        NO_GOAL => "| |".to_string(),
        _ if ratio <= goal => format!("{goal:.1} | met |"),
        _ => format!("{goal:.1} | missed |"),
    };
    println!("| {name} | {best:.1} | {best_plain:.1} | {ratio:.2} | {verdict}");
}
