//! Joins ranges of Arrow columns into one column.
//!
//! The work is done by the proved library of this repository (`tools/staticlib lafkuno`); this crate lays columns, lends memory and tells
//! refusals by their meaning.
//!
//! ```
//! use lafkuno::{Column, Join, Row, Type};
//!
//! let ty: Type = "i?".parse()?;
//! let batch = Column::build(&ty, &[9, 9, 1, 2, 3].map(|n| Row::Whole(n)))?;
//! let trip = batch.slice(2, 3)?; // the batch's rows from the third on
//! let mut join = Join::open(&[&trip], true)?;
//! join.copy(0, 1..3)?;
//! join.nulls(1)?;
//! assert_eq!(join.copy(0, 1..4).unwrap_err().ground().unwrap().number(), 2);
//! let joined = join.finish()?.column;
//! assert_eq!(joined.rows(), Some(vec![Row::Whole(2), Row::Whole(3), Row::Null]));
//! # Ok::<(), lafkuno::Error>(())
//! ```

#![deny(missing_docs)]

#[cfg(not(all(target_endian = "little", target_pointer_width = "64")))]
compile_error!("lafkuno is for little-endian machines with pointers of 64 bits");

mod anew;
mod batch;
mod buffer;
mod build;
pub mod c_data;
#[rustfmt::skip]
pub mod calls;
mod codings;
mod column;
mod convert;
mod explain;
mod frame;
pub mod ipc;
mod join;
mod lent;
mod orders;
mod refusal;
mod rows;
mod rules;
mod same;
mod sums;
pub mod text;
mod trim;
mod types;
mod unfit;
mod values;
mod work;

pub use batch::{join_many, keep_pages, run_many, Batch, Job};
pub use buffer::Buffer;
pub use codings::RunEnds;
pub use column::{Column, Field, Metadata};
pub use frame::{frame, Frame};
pub use join::{Choices, Join, Joined, Order, Reader, Runs};
pub use lent::Lent;
pub use refusal::{Cause, Error, Ground, Place};
pub use rows::Row;
pub use sums::{mean, ratio, Fraction, Mean, Ratio};
pub use types::{storage, Type};
pub use work::WORK_LIMIT;
