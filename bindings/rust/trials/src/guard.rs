//! A lent slice with canaries round it, or in an allocation that it fills.

use std::fmt::Debug;
use std::sync::atomic::{AtomicUsize, Ordering};

static ROUND: AtomicUsize = AtomicUsize::new(32);

/// From now on slices fill their allocations, so that valgrind sees a read or a write beside them.
pub fn without_canaries() {
    ROUND.store(0, Ordering::Relaxed);
}

/// A number made of one byte.
pub trait Canary: Copy + PartialEq + Debug {
    fn of(byte: u8) -> Self;
}

impl Canary for u8 {
    fn of(byte: u8) -> u8 {
        byte
    }
}

impl Canary for u32 {
    fn of(byte: u8) -> u32 {
        u32::from_le_bytes([byte; 4])
    }
}

impl Canary for u64 {
    fn of(byte: u8) -> u64 {
        u64::from_le_bytes([byte; 8])
    }
}

pub struct Guard<T> {
    all: Box<[T]>,
    canary: T,
    round: usize,
}

impl<T: Canary> Guard<T> {
    pub fn new(slice: &[T]) -> Self {
        let (round, canary) = (ROUND.load(Ordering::Relaxed), T::of(0xA5));
        let mut all = Vec::with_capacity(slice.len() + 2 * round);
        all.resize(round, canary);
        all.extend(slice);
        all.resize(slice.len() + 2 * round, canary);
        Guard { all: all.into(), canary, round }
    }

    pub fn get(&self) -> &[T] {
        &self.all[self.round..self.all.len() - self.round]
    }

    pub fn get_mut(&mut self) -> &mut [T] {
        let end = self.all.len() - self.round;
        &mut self.all[self.round..end]
    }
}

/// What guards of any numbers have.
pub trait Guarded {
    /// Whether nothing outside the slice was written.
    fn whole(&self) -> bool;
    /// Other canaries: a call that reads none answers as before.
    fn paint(&mut self, byte: u8);
}

impl<T: Canary> Guarded for Guard<T> {
    fn whole(&self) -> bool {
        let end = self.all.len() - self.round;
        self.all[..self.round].iter().chain(&self.all[end..]).all(|x| *x == self.canary)
    }

    fn paint(&mut self, byte: u8) {
        self.canary = T::of(byte);
        let end = self.all.len() - self.round;
        self.all[..self.round].fill(self.canary);
        self.all[end..].fill(self.canary);
    }
}
