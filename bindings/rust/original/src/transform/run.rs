// Licensed to the Apache Software Foundation (ASF) under one
// or more contributor license agreements.  See the NOTICE file
// distributed with this work for additional information
// regarding copyright ownership.  The ASF licenses this file
// to you under the Apache License, Version 2.0 (the
// "License"); you may not use this file except in compliance
// with the License.  You may obtain a copy of the License at
//
//   http://www.apache.org/licenses/LICENSE-2.0
//
// Unless required by applicable law or agreed to in writing,
// software distributed under the License is distributed on an
// "AS IS" BASIS, WITHOUT WARRANTIES OR CONDITIONS OF ANY
// KIND, either express or implied.  See the License for the
// specific language governing permissions and limitations
// under the License.

use super::{_MutableArrayData, Extend};
use crate::data::{ArrayData, ArrowError, ArrowNativeType, DataType};

/// Generic helper to get the last run end value from a run ends array
fn get_last_run_end<T: ArrowNativeType>(run_ends_data: &super::MutableArrayData) -> T {
    match run_ends_data.data.len {
        0 => T::default(),
        len => run_ends_data.data.buffer1.typed_data()[len - 1],
    }
}

fn run_end_type(data_type: &DataType) -> DataType {
    match data_type {
        DataType::RunEndEncoded(run_ends_field, _) => run_ends_field.data_type.clone(),
        _ => unreachable!(),
    }
}

/// Extends the `MutableArrayData` with null values.
///
/// For RunEndEncoded, this adds nulls by extending the run_ends array
/// and values array appropriately.
pub fn extend_nulls(mutable: &mut _MutableArrayData, len: usize) -> Result<(), ArrowError> {
    if len == 0 {
        return Ok(());
    }

    // For REE, we always need to add a value entry when adding a new run
    // The values array should have one entry per run, not per logical element
    mutable.child_data[1].try_extend_nulls(1)?;

    macro_rules! extend_nulls_impl {
        ($run_end_type:ty) => {{
            let last_run_end = get_last_run_end::<$run_end_type>(&mutable.child_data[0]);
            let len = <$run_end_type as ArrowNativeType>::from_usize(len);
            let new_value = len.and_then(|len| last_run_end.checked_add(len)).ok_or(ArrowError::RunEndOverflow)?;
            mutable.child_data[0].data.buffer1.push(new_value);
        }};
    }

    match run_end_type(&mutable.data_type) {
        DataType::Int16 => extend_nulls_impl!(i16),
        DataType::Int32 => extend_nulls_impl!(i32),
        DataType::Int64 => extend_nulls_impl!(i64),
        _ => unreachable!(),
    }

    mutable.child_data[0].data.len += 1;
    Ok(())
}

/// The run ends and optional values index range returned by [`build_extend_arrays`].
type ExtendArrays<T> = (Vec<T>, Option<(usize, usize)>);

/// Build run ends and values range directly for batch processing
fn build_extend_arrays<T: ArrowNativeType>(typed_slice: &[T], start: usize, len: usize, dest_last_run_end: T) -> Result<ExtendArrays<T>, ArrowError> {
    let mut run_ends = Vec::new();
    let mut values_range: Option<(usize, usize)> = None;
    let end = start + len;
    let mut prev_end = 0;
    let mut current_run_end = dest_last_run_end;
    let add = |a: T, n: usize| a.checked_add(T::usize_as(n)).ok_or(ArrowError::RunEndOverflow);

    for (i, run_end) in typed_slice.iter().enumerate() {
        let run_end = run_end.as_usize();
        if prev_end <= start && run_end > start {
            let start_offset = start - prev_end;
            let end_offset = if run_end >= end { end - prev_end } else { run_end - prev_end };
            current_run_end = add(current_run_end, end_offset - start_offset)?;
            run_ends.push(current_run_end);
            // Start the range
            values_range = Some((i, i + 1));
        } else if prev_end >= start && run_end <= end {
            current_run_end = add(current_run_end, run_end - prev_end)?;
            run_ends.push(current_run_end);
            // Extend the range
            values_range = Some((values_range.expect("the range has begun").0, i + 1));
        } else if prev_end < end && run_end >= end {
            current_run_end = add(current_run_end, end - prev_end)?;
            run_ends.push(current_run_end);
            // Extend the range and break
            values_range = Some((values_range.expect("the range has begun").0, i + 1));
            break;
        }

        prev_end = run_end;
        if prev_end >= end {
            break;
        }
    }
    Ok((run_ends, values_range))
}

/// Process extends using batch operations
fn process_extends_batch<T: ArrowNativeType>(
    mutable: &mut _MutableArrayData,
    source_array_idx: usize,
    run_ends: Vec<T>,
    values_range: Option<(usize, usize)>,
) -> Result<(), ArrowError> {
    if run_ends.is_empty() {
        return Ok(());
    }

    // Batch extend the run_ends array with all bytes at once
    mutable.child_data[0].data.buffer1.extend_from_slice(&run_ends);
    mutable.child_data[0].data.len += run_ends.len();

    // Batch extend the values array using the range
    let (start_idx, end_idx) = values_range.expect("values_range should be Some if run_ends is not empty");
    mutable.child_data[1].try_extend(source_array_idx, start_idx, end_idx)
}

/// Returns a function that extends the run encoded array.
///
/// It finds the physical indices in the source array that correspond to the logical range to copy, and adjusts the runs to the logical indices of the array to extend. The values are copied from the source array to the destination array verbatim.
pub fn build_extend(array: &ArrayData) -> Extend<'_> {
    Box::new(move |mutable: &mut _MutableArrayData, array_idx: usize, start: usize, len: usize| {
        if len == 0 {
            return Ok(());
        }

        // We need to analyze the source array's run structure
        let source_run_ends = &array.child_data[0];
        let source_buffer_offset = source_run_ends.offset;
        let source_buffer_len = source_run_ends.len;
        let source_buffer = &source_run_ends.buffers[0];

        macro_rules! build_and_process_impl {
            ($run_end_type:ty) => {{
                let source_buffer = &source_buffer.typed_data()[source_buffer_offset..source_buffer_offset + source_buffer_len];
                let dest_last_run_end = get_last_run_end::<$run_end_type>(&mutable.child_data[0]);
                let (run_ends, values_range) = build_extend_arrays::<$run_end_type>(source_buffer, start + array.offset, len, dest_last_run_end)?;
                process_extends_batch::<$run_end_type>(mutable, array_idx, run_ends, values_range)?;
            }};
        }

        match run_end_type(&mutable.data_type) {
            DataType::Int16 => build_and_process_impl!(i16),
            DataType::Int32 => build_and_process_impl!(i32),
            DataType::Int64 => build_and_process_impl!(i64),
            _ => unreachable!(),
        }
        Ok(())
    })
}
