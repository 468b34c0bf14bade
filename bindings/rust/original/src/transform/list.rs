// Licensed to the Apache Software Foundation (ASF) under one
// or more contributor license agreements.  See the NOTICE file
// distributed with this work for additional information
// regarding copyright ownership.  The ASF licenses this file
// to you under the Apache License, Version 2.0 (the
// "License"); you may not use this file except in compliance
// with the License.  You may obtain a copy of the License at
//
//   http://www.apache.org/licenses/LICENSE-2.0
//
// Unless required by applicable law or agreed to in writing,
// software distributed under the License is distributed on an
// "AS IS" BASIS, WITHOUT WARRANTIES OR CONDITIONS OF ANY
// KIND, either express or implied.  See the License for the
// specific language governing permissions and limitations
// under the License.

use super::utils::{get_last_offset, try_extend_offsets};
use super::{_MutableArrayData, Extend};
use crate::data::{ArrayData, ArrowError, ArrowNativeType};

pub(super) fn build_extend<T: ArrowNativeType>(array: &ArrayData) -> Extend<'_> {
    let offsets = array.buffer::<T>(0);
    Box::new(move |mutable: &mut _MutableArrayData, index: usize, start: usize, len: usize| {
        let offset_buffer = &mut mutable.buffer1;
        let last_offset: T = get_last_offset(offset_buffer);

        // offsets
        try_extend_offsets::<T>(offset_buffer, last_offset, &offsets[start..start + len + 1])?;

        mutable.child_data[0].try_extend(index, offsets[start].as_usize(), offsets[start + len].as_usize())
    })
}

pub(super) fn extend_nulls<T: ArrowNativeType>(mutable: &mut _MutableArrayData, len: usize) -> Result<(), ArrowError> {
    let offset_buffer = &mut mutable.buffer1;
    let last_offset: T = get_last_offset(offset_buffer);
    (0..len).for_each(|_| offset_buffer.push(last_offset));
    Ok(())
}
