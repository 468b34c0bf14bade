// Licensed to the Apache Software Foundation (ASF) under one
// or more contributor license agreements.  See the NOTICE file
// distributed with this work for additional information
// regarding copyright ownership.  The ASF licenses this file
// to you under the Apache License, Version 2.0 (the
// "License"); you may not use this file except in compliance
// with the License.  You may obtain a copy of the License at
//
//   http://www.apache.org/licenses/LICENSE-2.0
//
// Unless required by applicable law or agreed to in writing,
// software distributed under the License is distributed on an
// "AS IS" BASIS, WITHOUT WARRANTIES OR CONDITIONS OF ANY
// KIND, either express or implied.  See the License for the
// specific language governing permissions and limitations
// under the License.

//! The algorithm of `MutableArrayData` (arrow-data 60.1.0, `src/transform`), by which the port is tested and timed.
//!
//! It is not the crate itself. What was changed:
//! - only the types that the port takes are here, and only `Capacities::Array`;
//! - `Buffer`, `MutableBuffer`, `NullBuffer`, `DataType` and `ArrowError` belong to crates that are not at hand and stand here
//!   in small (a growing `Vec<u8>`, an enum of types); `set_bits` follows what is known of `bit_mask.rs`;
//! - an error is a case of an enum with the port's number for it, not a text;
//! - a joined dictionary that overflows is an error and not a panic, as the port has it;
//! - additions that wrap in a release build are written as wrapping ones.

mod bit_mask;
mod data;
pub mod transform;

pub use data::{ArrayData, ArrowError, Buffer, DataType, Field, NullBuffer, UnionMode};
pub use transform::MutableArrayData;
