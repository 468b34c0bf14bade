// Licensed to the Apache Software Foundation (ASF) under one
// or more contributor license agreements.  See the NOTICE file
// distributed with this work for additional information
// regarding copyright ownership.  The ASF licenses this file
// to you under the Apache License, Version 2.0 (the
// "License"); you may not use this file except in compliance
// with the License.  You may obtain a copy of the License at
//
//   http://www.apache.org/licenses/LICENSE-2.0
//
// Unless required by applicable law or agreed to in writing,
// software distributed under the License is distributed on an
// "AS IS" BASIS, WITHOUT WARRANTIES OR CONDITIONS OF ANY
// KIND, either express or implied.  See the License for the
// specific language governing permissions and limitations
// under the License.

//! `MutableArrayData`: an array made of ranges of others.

use crate::bit_mask::{set_bit, set_bits};
use crate::data::{new_buffers, ArrayData, ArrowError, Buffer, DataType, MutableBuffer, NullBuffer, UnionMode};

mod list;
mod list_view;
mod primitive;
mod run;
mod union;
mod utils;
mod variable_size;

type ExtendNullBits<'a> = Box<dyn Fn(&mut _MutableArrayData, usize, usize) + 'a>;
// function that extends `[start..start+len]` to the mutable array.
// this is dynamic because different data_types influence how buffers and children are extended.
type Extend<'a> = Box<dyn Fn(&mut _MutableArrayData, usize, usize, usize) -> Result<(), ArrowError> + 'a>;

type ExtendNulls = Box<dyn Fn(&mut _MutableArrayData, usize) -> Result<(), ArrowError>>;

/// A mutable [ArrayData] that knows how to freeze itself into an [ArrayData].
/// This is just a data container.
struct _MutableArrayData<'a> {
    data_type: DataType,
    null_count: usize,
    len: usize,
    null_buffer: Option<MutableBuffer>,
    buffer1: MutableBuffer,
    buffer2: MutableBuffer,
    child_data: Vec<MutableArrayData<'a>>,
}

impl _MutableArrayData<'_> {
    fn null_buffer(&mut self) -> &mut MutableBuffer {
        self.null_buffer.as_mut().expect("MutableArrayData not nullable")
    }
}

fn build_extend_null_bits(array: &ArrayData, use_nulls: bool) -> ExtendNullBits<'_> {
    if let Some(nulls) = &array.nulls {
        let bytes = nulls.buffer.as_slice();
        Box::new(move |mutable, start, len| {
            let mutable_len = mutable.len;
            let out = mutable.null_buffer();
            utils::resize_for_bits(out, mutable_len + len);
            mutable.null_count += set_bits(out.as_slice_mut(), bytes, mutable_len, nulls.offset + start, len);
        })
    } else if use_nulls {
        Box::new(|mutable, _, len| {
            let mutable_len = mutable.len;
            let out = mutable.null_buffer();
            utils::resize_for_bits(out, mutable_len + len);
            let write_data = out.as_slice_mut();
            (0..len).for_each(|i| set_bit(write_data, mutable_len + i));
        })
    } else {
        Box::new(|_, _, _| {})
    }
}

/// Efficiently create an [ArrayData] from one or more existing [ArrayData]s by
/// copying chunks.
pub struct MutableArrayData<'a> {
    /// Input arrays: the data being read FROM.
    arrays: Vec<&'a ArrayData>,

    /// In progress output array: The data being written TO
    data: _MutableArrayData<'a>,

    /// The child data of the `Array` in Dictionary arrays.
    dictionary: Option<ArrayData>,

    /// Whether it is a concatenation. Not in the original.
    joined: bool,

    /// Variadic data buffers referenced by views.
    variadic_data_buffers: Vec<Buffer>,

    /// function used to extend output array with values from input arrays.
    extend_values: Vec<Extend<'a>>,

    /// function used to extend the output array with nulls from input arrays.
    extend_null_bits: Vec<ExtendNullBits<'a>>,

    /// function used to extend the output array with null elements.
    extend_nulls: ExtendNulls,
}

/// Builds an extend that adds `offset` to the source primitive
/// Additionally validates that `max` fits into the
/// the underlying primitive returning None if not
fn build_extend_dictionary(array: &ArrayData, offset: usize, max: usize) -> Option<Extend<'_>> {
    macro_rules! validate_and_build {
        ($dt: ty) => {{
            let _: $dt = max.saturating_sub(1).try_into().ok()?;
            let offset: $dt = offset.try_into().ok()?;
            Some(primitive::build_extend_with_offset(array, offset))
        }};
    }
    match &array.data_type {
        DataType::Dictionary(keys, _) => match keys.as_ref() {
            DataType::UInt8 => validate_and_build!(u8),
            DataType::UInt16 => validate_and_build!(u16),
            DataType::UInt32 => validate_and_build!(u32),
            DataType::UInt64 => validate_and_build!(u64),
            DataType::Int8 => validate_and_build!(i8),
            DataType::Int16 => validate_and_build!(i16),
            DataType::Int32 => validate_and_build!(i32),
            DataType::Int64 => validate_and_build!(i64),
            _ => unreachable!(),
        },
        _ => None,
    }
}

/// Builds an extend that adds `buffer_offset` to any buffer indices encountered
fn build_extend_view(array: &ArrayData, buffer_offset: u32) -> Extend<'_> {
    let views = array.buffer::<u128>(0);
    Box::new(move |mutable: &mut _MutableArrayData, _, start: usize, len: usize| {
        mutable.buffer1.extend(views[start..start + len].iter().map(|v| {
            let len = *v as u32;
            if len <= 12 {
                return *v; // Stored inline
            }
            let index = ((*v >> 64) as u32).wrapping_add(buffer_offset);
            *v & !((u32::MAX as u128) << 64) | (index as u128) << 64
        }));
        Ok(())
    })
}

fn build_extend(array: &ArrayData) -> Extend<'_> {
    match &array.data_type {
        DataType::UInt8 => primitive::build_extend::<u8>(array),
        DataType::UInt16 => primitive::build_extend::<u16>(array),
        DataType::UInt32 => primitive::build_extend::<u32>(array),
        DataType::UInt64 => primitive::build_extend::<u64>(array),
        DataType::Int8 => primitive::build_extend::<i8>(array),
        DataType::Int16 => primitive::build_extend::<i16>(array),
        DataType::Int32 => primitive::build_extend::<i32>(array),
        DataType::Int64 => primitive::build_extend::<i64>(array),
        // by their bits
        DataType::Float32 => primitive::build_extend::<u32>(array),
        DataType::Float64 => primitive::build_extend::<u64>(array),
        DataType::Utf8 | DataType::Binary => variable_size::build_extend::<i32>(array),
        DataType::LargeUtf8 | DataType::LargeBinary => variable_size::build_extend::<i64>(array),
        DataType::BinaryView | DataType::Utf8View => unreachable!("should use build_extend_view"),
        DataType::List(_) => list::build_extend::<i32>(array),
        DataType::LargeList(_) => list::build_extend::<i64>(array),
        DataType::ListView(_) => list_view::build_extend::<i32>(array),
        DataType::LargeListView(_) => list_view::build_extend::<i64>(array),
        DataType::Dictionary(_, _) => unreachable!("should use build_extend_dictionary"),
        DataType::Union(_, UnionMode::Sparse) => union::build_extend_sparse(array),
        DataType::Union(_, UnionMode::Dense) => union::build_extend_dense(array),
        DataType::RunEndEncoded(_, _) => run::build_extend(array),
    }
}

fn build_extend_nulls(data_type: &DataType) -> ExtendNulls {
    Box::new(match data_type {
        DataType::UInt8 | DataType::Int8 => primitive::extend_nulls::<u8>,
        DataType::UInt16 | DataType::Int16 => primitive::extend_nulls::<u16>,
        DataType::UInt32 | DataType::Int32 | DataType::Float32 => primitive::extend_nulls::<u32>,
        DataType::UInt64 | DataType::Int64 | DataType::Float64 => primitive::extend_nulls::<u64>,
        DataType::Utf8 | DataType::Binary => variable_size::extend_nulls::<i32>,
        DataType::LargeUtf8 | DataType::LargeBinary => variable_size::extend_nulls::<i64>,
        DataType::BinaryView | DataType::Utf8View => primitive::extend_nulls::<u128>,
        DataType::List(_) => list::extend_nulls::<i32>,
        DataType::LargeList(_) => list::extend_nulls::<i64>,
        DataType::ListView(_) => list_view::extend_nulls::<i32>,
        DataType::LargeListView(_) => list_view::extend_nulls::<i64>,
        DataType::Dictionary(keys, _) => return build_extend_nulls(keys),
        DataType::Union(_, UnionMode::Sparse) => union::extend_nulls_sparse,
        DataType::Union(_, UnionMode::Dense) => union::extend_nulls_dense,
        DataType::RunEndEncoded(_, _) => run::extend_nulls,
    })
}

fn children<'a>(arrays: &[&'a ArrayData], i: usize) -> Vec<&'a ArrayData> {
    arrays.iter().map(|array| &array.child_data[i]).collect()
}

impl<'a> MutableArrayData<'a> {
    /// With `Capacities::Array(capacity)`.
    pub fn try_new(arrays: Vec<&'a ArrayData>, use_nulls: bool, capacity: usize) -> Result<Self, ArrowError> {
        let data_type = &arrays[0].data_type;
        for a in arrays.iter().skip(1) {
            assert_eq!(data_type, &a.data_type, "Arrays with inconsistent types passed to MutableArrayData")
        }

        // if any of the arrays has nulls, insertions from any array requires setting bits
        // as there is at least one array with nulls.
        let use_nulls = use_nulls | arrays.iter().any(|array| array.null_count() > 0);

        let [buffer1, buffer2] = new_buffers(data_type, capacity);

        let child_data = match data_type {
            DataType::List(_) | DataType::LargeList(_) | DataType::ListView(_) | DataType::LargeListView(_) => {
                vec![MutableArrayData::try_new(children(&arrays, 0), use_nulls, capacity)?]
            }
            DataType::RunEndEncoded(_, _) => {
                vec![
                    MutableArrayData::try_new(children(&arrays, 0), false, capacity)?,
                    MutableArrayData::try_new(children(&arrays, 1), use_nulls, capacity)?,
                ]
            }
            DataType::Union(fields, _) => {
                (0..fields.len()).map(|i| MutableArrayData::try_new(children(&arrays, i), use_nulls, capacity)).collect::<Result<Vec<_>, _>>()?
            }
            // the dictionary type just appends keys and clones the values.
            _ => vec![],
        };

        // Get the dictionary if any, and if it is a concatenation of multiple
        let (dictionary, dict_concat) = match data_type {
            DataType::Dictionary(_, _) => {
                // If more than one dictionary, concatenate dictionaries together
                let dict_concat = !arrays.windows(2).all(|a| a[0].child_data[0].ptr_eq(&a[1].child_data[0]));
                match dict_concat {
                    false => (Some(arrays[0].child_data[0].clone()), false),
                    true => {
                        let dictionaries = children(&arrays, 0);
                        let lengths: Vec<_> = dictionaries.iter().map(|dictionary| dictionary.len).collect();
                        let mut mutable = MutableArrayData::try_new(dictionaries, false, lengths.iter().sum())?;
                        for (i, len) in lengths.iter().enumerate() {
                            mutable.try_extend(i, 0, *len)?;
                        }
                        (Some(mutable.freeze()), true)
                    }
                }
            }
            _ => (None, false),
        };

        let variadic_data_buffers = match data_type {
            DataType::BinaryView | DataType::Utf8View => arrays.iter().flat_map(|x| x.buffers.iter().skip(1)).cloned().collect(),
            _ => vec![],
        };

        let extend_nulls = build_extend_nulls(data_type);
        let extend_null_bits = arrays.iter().map(|array| build_extend_null_bits(array, use_nulls)).collect();
        let null_buffer = use_nulls.then(|| MutableBuffer::from_len_zeroed(capacity.div_ceil(8)));

        let extend_values = match data_type {
            DataType::Dictionary(_, _) => {
                let mut next_offset = 0;
                arrays
                    .iter()
                    .map(|array| {
                        let offset = next_offset;
                        let dict_len = array.child_data[0].len;
                        if dict_concat {
                            next_offset += dict_len;
                        }
                        build_extend_dictionary(array, offset, offset + dict_len).ok_or(ArrowError::DictionaryKeyOverflow)
                    })
                    .collect::<Result<Vec<_>, _>>()?
            }
            DataType::BinaryView | DataType::Utf8View => {
                let mut next_offset = 0u32;
                arrays
                    .iter()
                    .map(|arr| {
                        let num_data_buffers = (arr.buffers.len() - 1) as u32;
                        let offset = next_offset;
                        next_offset = next_offset.checked_add(num_data_buffers).expect("view buffer index overflow");
                        build_extend_view(arr, offset)
                    })
                    .collect()
            }
            _ => arrays.iter().map(|array| build_extend(array)).collect(),
        };

        let data = _MutableArrayData { data_type: data_type.clone(), len: 0, null_count: 0, null_buffer, buffer1, buffer2, child_data };
        Ok(Self { arrays, data, dictionary, joined: dict_concat, variadic_data_buffers, extend_values, extend_null_bits, extend_nulls })
    }

    /// Extends the in progress array with a region of the input arrays, returning an error on
    /// overflow.
    pub fn try_extend(&mut self, index: usize, start: usize, end: usize) -> Result<(), ArrowError> {
        let Some(array_len) = self.arrays.get(index).map(|array| array.len) else {
            return Err(ArrowError::SourceIndex);
        };
        if end < start || array_len < end {
            return Err(ArrowError::Range);
        }

        let len = end - start;
        (self.extend_null_bits[index])(&mut self.data, start, len);
        // Snapshot buffer lengths before attempting the extend so we can roll
        // back to a consistent state if it fails.
        let buf1_len = self.data.buffer1.len();
        let buf2_len = self.data.buffer2.len();
        if let Err(e) = (self.extend_values[index])(&mut self.data, index, start, len) {
            self.data.buffer1.truncate(buf1_len);
            self.data.buffer2.truncate(buf2_len);
            return Err(e);
        }
        self.data.len += len;
        Ok(())
    }

    /// Extends the in progress array with null elements, ignoring the input arrays, returning an
    /// error on overflow.
    pub fn try_extend_nulls(&mut self, len: usize) -> Result<(), ArrowError> {
        if self.data.null_buffer.is_none() {
            return Err(ArrowError::NotNullable);
        }
        if len == 0 {
            return Ok(());
        }
        (self.extend_nulls)(&mut self.data, len)?;
        self.data.len += len;
        let bit_len = self.data.len.div_ceil(8);
        self.data.null_buffer().resize(bit_len);
        self.data.null_count += len;
        Ok(())
    }

    /// Returns the current length
    #[inline]
    pub fn len(&self) -> usize {
        self.data.len
    }

    /// Returns true if len is 0
    #[inline]
    pub fn is_empty(&self) -> bool {
        self.data.len == 0
    }

    /// Returns the current null count
    #[inline]
    pub fn null_count(&self) -> usize {
        self.data.null_count
    }

    /// The bytes of each buffer that the port keeps in a part, in its order. Not in the original.
    pub fn part_sizes(&self) -> Vec<usize> {
        let data = &self.data;
        let mut sizes = vec![];
        let bits = data.null_buffer.as_ref().map(|_| data.len.div_ceil(8));
        match data.data_type {
            DataType::RunEndEncoded(_, _) => {}
            DataType::Union(_, UnionMode::Sparse) => sizes.push(data.buffer1.len()),
            DataType::Union(_, UnionMode::Dense) => sizes.extend([data.buffer1.len(), data.buffer2.len()]),
            DataType::Utf8 | DataType::Binary | DataType::LargeUtf8 | DataType::LargeBinary | DataType::ListView(_) | DataType::LargeListView(_) => {
                sizes.extend(bits.into_iter().chain([data.buffer1.len(), data.buffer2.len()]))
            }
            _ => sizes.extend(bits.into_iter().chain([data.buffer1.len()])),
        }
        if let (Some(dictionary), true) = (&self.dictionary, self.joined) {
            sizes.extend(dictionary.nulls.iter().map(|_| dictionary.len.div_ceil(8)));
            sizes.extend(dictionary.buffers.iter().map(|b| b.as_slice().len()));
        }
        data.child_data.iter().for_each(|child| sizes.extend(child.part_sizes()));
        sizes
    }

    /// Creates a [ArrayData] from the in progress array, consuming `self`: `into_builder` and `build_unchecked`.
    pub fn freeze(self) -> ArrayData {
        let data = self.data;

        let buffers = match data.data_type {
            DataType::RunEndEncoded(_, _) => vec![],
            DataType::BinaryView | DataType::Utf8View => {
                let mut b = self.variadic_data_buffers;
                b.insert(0, data.buffer1.into());
                b
            }
            DataType::Utf8
            | DataType::Binary
            | DataType::LargeUtf8
            | DataType::LargeBinary
            | DataType::ListView(_)
            | DataType::LargeListView(_)
            | DataType::Union(_, UnionMode::Dense) => vec![data.buffer1.into(), data.buffer2.into()],
            _ => vec![data.buffer1.into()],
        };

        let child_data = match data.data_type {
            DataType::Dictionary(_, _) => vec![self.dictionary.unwrap()],
            _ => data.child_data.into_iter().map(|x| x.freeze()).collect(),
        };

        let nulls = match data.data_type {
            // RunEndEncoded and Union arrays cannot have top-level null bitmasks
            DataType::RunEndEncoded(_, _) | DataType::Union(_, _) => None,
            _ => data
                .null_buffer
                .map(|nulls| NullBuffer { buffer: nulls.into(), offset: 0, len: data.len, null_count: data.null_count })
                .filter(|n| n.null_count > 0),
        };

        ArrayData::new(data.data_type, data.len, 0, buffers, child_data, nulls)
    }
}
