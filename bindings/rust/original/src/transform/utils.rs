// Licensed to the Apache Software Foundation (ASF) under one
// or more contributor license agreements.  See the NOTICE file
// distributed with this work for additional information
// regarding copyright ownership.  The ASF licenses this file
// to you under the Apache License, Version 2.0 (the
// "License"); you may not use this file except in compliance
// with the License.  You may obtain a copy of the License at
//
//   http://www.apache.org/licenses/LICENSE-2.0
//
// Unless required by applicable law or agreed to in writing,
// software distributed under the License is distributed on an
// "AS IS" BASIS, WITHOUT WARRANTIES OR CONDITIONS OF ANY
// KIND, either express or implied.  See the License for the
// specific language governing permissions and limitations
// under the License.

use crate::data::{ArrowError, ArrowNativeType, MutableBuffer};

/// extends the `buffer` to be able to hold `len` bits, setting all bits of the new size to zero.
#[inline]
pub(super) fn resize_for_bits(buffer: &mut MutableBuffer, len: usize) {
    let needed_bytes = len.div_ceil(8);
    if buffer.len() < needed_bytes {
        buffer.resize(needed_bytes);
    }
}

/// Extends `buffer` with the re-based offsets from `offsets`, returning an error on overflow.
pub(super) fn try_extend_offsets<T: ArrowNativeType>(buffer: &mut MutableBuffer, mut last_offset: T, offsets: &[T]) -> Result<(), ArrowError> {
    buffer.reserve(size_of_val(offsets));
    // Snapshot the length so we can roll back partial writes on overflow.
    let original_len = buffer.len();
    for window in offsets.windows(2) {
        let length = window[1].wrapping_sub(window[0]);
        match last_offset.checked_add(length) {
            Some(new_offset) => {
                last_offset = new_offset;
                buffer.push(last_offset);
            }
            None => {
                buffer.resize(original_len);
                return Err(ArrowError::OffsetOverflow);
            }
        }
    }
    Ok(())
}

#[inline]
pub(super) fn get_last_offset<T: ArrowNativeType>(offset_buffer: &MutableBuffer) -> T {
    let (_, offsets, _) = unsafe { offset_buffer.as_slice().align_to::<T>() };
    offsets[offsets.len() - 1]
}
