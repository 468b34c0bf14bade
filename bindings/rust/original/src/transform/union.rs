// Licensed to the Apache Software Foundation (ASF) under one
// or more contributor license agreements.  See the NOTICE file
// distributed with this work for additional information
// regarding copyright ownership.  The ASF licenses this file
// to you under the Apache License, Version 2.0 (the
// "License"); you may not use this file except in compliance
// with the License.  You may obtain a copy of the License at
//
//   http://www.apache.org/licenses/LICENSE-2.0
//
// Unless required by applicable law or agreed to in writing,
// software distributed under the License is distributed on an
// "AS IS" BASIS, WITHOUT WARRANTIES OR CONDITIONS OF ANY
// KIND, either express or implied.  See the License for the
// specific language governing permissions and limitations
// under the License.

use super::{_MutableArrayData, Extend};
use crate::data::{ArrayData, ArrowError, DataType, Field};

fn nullable_union_field(fields: &[(i8, Field)]) -> Result<(usize, i8), ArrowError> {
    fields.iter().enumerate().find_map(|(index, (type_id, field))| field.nullable.then_some((index, *type_id))).ok_or(if fields.is_empty() {
        ArrowError::NoUnionFields
    } else {
        ArrowError::NoNullableField
    })
}

pub(super) fn build_extend_sparse(array: &ArrayData) -> Extend<'_> {
    // `buffer` already applies the parent offset to the type ids
    let type_ids = array.buffer::<i8>(0);
    // but a sparse union's children are not sliced by the parent offset
    let offset = array.offset;

    Box::new(move |mutable: &mut _MutableArrayData, index: usize, start: usize, len: usize| {
        // extends type_ids
        mutable.buffer1.extend_from_slice(&type_ids[start..start + len]);
        let child_start = start + offset;
        for child in &mut mutable.child_data {
            child.try_extend(index, child_start, child_start + len)?;
        }
        Ok(())
    })
}

pub(super) fn build_extend_dense(array: &ArrayData) -> Extend<'_> {
    let type_ids = array.buffer::<i8>(0);
    let offsets = array.buffer::<i32>(1);
    let DataType::Union(src_fields, _) = &array.data_type else {
        unreachable!();
    };

    Box::new(move |mutable: &mut _MutableArrayData, index: usize, start: usize, len: usize| {
        // extends type_ids
        mutable.buffer1.extend_from_slice(&type_ids[start..start + len]);

        for i in start..start + len {
            let type_id = type_ids[i];
            let child_index = src_fields.iter().position(|(r, _)| *r == type_id).expect("invalid union type ID");
            let src_offset = offsets[i] as usize;
            let child_data = &mut mutable.child_data[child_index];
            let dst_offset = child_data.len();

            // Extend offsets
            mutable.buffer2.push(dst_offset as i32);
            mutable.child_data[child_index].try_extend(index, src_offset, src_offset + 1)?;
        }
        Ok(())
    })
}

pub(super) fn extend_nulls_dense(mutable: &mut _MutableArrayData, len: usize) -> Result<(), ArrowError> {
    let DataType::Union(fields, _) = &mutable.data_type else { unreachable!() };
    let (child_index, null_type_id) = nullable_union_field(fields)?;

    // Extend type_ids buffer
    mutable.buffer1.extend_from_slice(&vec![null_type_id; len]);

    // Dense: point into a nullable child and extend its values with nulls.
    let child_offset = mutable.child_data[child_index].len();
    let (start, end) = (child_offset as i32, (child_offset + len) as i32);
    mutable.buffer2.extend(start..end);
    mutable.child_data[child_index].try_extend_nulls(len)?;
    Ok(())
}

pub(super) fn extend_nulls_sparse(mutable: &mut _MutableArrayData, len: usize) -> Result<(), ArrowError> {
    let DataType::Union(fields, _) = &mutable.data_type else { unreachable!() };
    let (_, null_type_id) = nullable_union_field(fields)?;

    // Extend type_ids buffer
    mutable.buffer1.extend_from_slice(&vec![null_type_id; len]);

    // Sparse: extend nulls in ALL children
    for child in &mut mutable.child_data {
        child.try_extend_nulls(len)?;
    }
    Ok(())
}
