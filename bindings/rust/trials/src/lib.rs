//! Random joins and damaged descriptions, by fixed seeds.

pub mod compare;
pub mod conversions;
pub mod convert;
pub mod cut;
pub mod damage;
pub mod far;
pub mod files;
pub mod gaps;
pub mod generate;
pub mod guard;
pub mod lists;
pub mod memory;
pub mod passage;
pub mod plain;
pub mod random;
pub mod trips;
pub mod why;
pub mod wider;
pub mod widths;

/// The examples of docs/USING.md.
#[cfg(doctest)]
#[doc = include_str!("../../../../docs/USING.md")]
struct Using;
