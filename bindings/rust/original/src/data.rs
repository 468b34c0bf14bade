// Licensed to the Apache Software Foundation (ASF) under one
// or more contributor license agreements.  See the NOTICE file
// distributed with this work for additional information
// regarding copyright ownership.  The ASF licenses this file
// to you under the Apache License, Version 2.0 (the
// "License"); you may not use this file except in compliance
// with the License.  You may obtain a copy of the License at
//
//   http://www.apache.org/licenses/LICENSE-2.0
//
// Unless required by applicable law or agreed to in writing,
// software distributed under the License is distributed on an
// "AS IS" BASIS, WITHOUT WARRANTIES OR CONDITIONS OF ANY
// KIND, either express or implied.  See the License for the
// specific language governing permissions and limitations
// under the License.

//! Arrays, types and buffers: what `transform` needs of arrow-data's `data.rs`, arrow-buffer and arrow-schema.

use std::sync::Arc;

#[derive(Clone, Copy, Debug, PartialEq, Eq)]
pub enum UnionMode {
    Sparse,
    Dense,
}

#[derive(Clone, Debug, PartialEq, Eq)]
pub struct Field {
    pub data_type: DataType,
    pub nullable: bool,
}

#[derive(Clone, Debug, PartialEq, Eq)]
pub enum DataType {
    Int8,
    UInt8,
    Int16,
    UInt16,
    Int32,
    UInt32,
    Int64,
    UInt64,
    Float32,
    Float64,
    Binary,
    Utf8,
    LargeBinary,
    LargeUtf8,
    BinaryView,
    Utf8View,
    List(Box<Field>),
    LargeList(Box<Field>),
    ListView(Box<Field>),
    LargeListView(Box<Field>),
    Union(Vec<(i8, Field)>, UnionMode),
    RunEndEncoded(Box<Field>, Box<Field>),
    Dictionary(Box<DataType>, Box<DataType>),
}

/// Why an opening or an order is refused.
#[derive(Clone, Copy, Debug, PartialEq, Eq)]
pub enum ArrowError {
    SourceIndex,
    Range,
    NotNullable,
    NoUnionFields,
    NoNullableField,
    OffsetOverflow,
    RunEndOverflow,
    DictionaryKeyOverflow,
}

impl ArrowError {
    /// The port's number for it.
    pub fn ground(self) -> u8 {
        self as u8 + 1
    }
}

/// A number that buffers hold.
///
/// # Safety
/// Every pattern of bits is a value, and there is no padding.
pub unsafe trait ArrowNativeType: Copy + Default + 'static {
    fn usize_as(i: usize) -> Self;
    fn as_usize(self) -> usize;
    fn from_usize(i: usize) -> Option<Self>;
    fn checked_add(self, other: Self) -> Option<Self>;
    fn wrapping_add(self, other: Self) -> Self;
    fn wrapping_sub(self, other: Self) -> Self;
}

macro_rules! native {
    ($($t:ty)*) => {$(
        unsafe impl ArrowNativeType for $t {
            fn usize_as(i: usize) -> Self { i as $t }
            fn as_usize(self) -> usize { self as usize }
            fn from_usize(i: usize) -> Option<Self> { i.try_into().ok() }
            fn checked_add(self, other: Self) -> Option<Self> { <$t>::checked_add(self, other) }
            fn wrapping_add(self, other: Self) -> Self { <$t>::wrapping_add(self, other) }
            fn wrapping_sub(self, other: Self) -> Self { <$t>::wrapping_sub(self, other) }
        }
    )*};
}
native!(i8 u8 i16 u16 i32 u32 i64 u64 u128);

/// A part of bytes that are shared.
#[derive(Clone, Debug)]
pub struct Buffer {
    data: Arc<Vec<u8>>,
    offset: usize,
    len: usize,
}

impl Buffer {
    pub fn new(data: Arc<Vec<u8>>, offset: usize, len: usize) -> Self {
        assert!(offset + len <= data.len());
        Buffer { data, offset, len }
    }

    pub fn as_slice(&self) -> &[u8] {
        &self.data[self.offset..self.offset + self.len]
    }

    pub fn as_ptr(&self) -> *const u8 {
        self.as_slice().as_ptr()
    }

    /// # Panics
    /// Where it is not aligned, or not a whole number of entries.
    pub fn typed_data<T: ArrowNativeType>(&self) -> &[T] {
        let (prefix, entries, suffix) = unsafe { self.as_slice().align_to::<T>() };
        assert!(prefix.is_empty() && suffix.is_empty());
        entries
    }
}

impl From<Vec<u8>> for Buffer {
    fn from(data: Vec<u8>) -> Self {
        let len = data.len();
        Buffer { data: Arc::new(data), offset: 0, len }
    }
}

/// Bytes that grow.
#[derive(Debug, Default)]
pub struct MutableBuffer(Vec<u8>);

impl MutableBuffer {
    pub fn new(capacity: usize) -> Self {
        MutableBuffer(Vec::with_capacity(capacity.next_multiple_of(64)))
    }

    pub fn from_len_zeroed(len: usize) -> Self {
        MutableBuffer(vec![0; len])
    }

    pub fn len(&self) -> usize {
        self.0.len()
    }

    pub fn as_slice(&self) -> &[u8] {
        &self.0
    }

    pub fn as_slice_mut(&mut self) -> &mut [u8] {
        &mut self.0
    }

    pub fn push<T: ArrowNativeType>(&mut self, value: T) {
        self.extend_from_slice(&[value]);
    }

    pub fn extend_from_slice<T: ArrowNativeType>(&mut self, items: &[T]) {
        let bytes = unsafe { std::slice::from_raw_parts(items.as_ptr().cast::<u8>(), size_of_val(items)) };
        self.0.extend_from_slice(bytes);
    }

    pub fn extend<T: ArrowNativeType>(&mut self, items: impl Iterator<Item = T>) {
        self.0.reserve(items.size_hint().0 * size_of::<T>());
        for item in items {
            self.push(item);
        }
    }

    pub fn extend_zeros(&mut self, additional: usize) {
        self.resize(self.len() + additional);
    }

    pub fn reserve(&mut self, additional: usize) {
        self.0.reserve(additional);
    }

    pub fn resize(&mut self, len: usize) {
        self.0.resize(len, 0);
    }

    pub fn truncate(&mut self, len: usize) {
        self.0.truncate(len);
    }

    pub fn typed_data<T: ArrowNativeType>(&self) -> &[T] {
        let (prefix, entries, suffix) = unsafe { self.0.align_to::<T>() };
        assert!(prefix.is_empty() && suffix.is_empty());
        entries
    }
}

impl From<MutableBuffer> for Buffer {
    fn from(buffer: MutableBuffer) -> Self {
        buffer.0.into()
    }
}

/// Validity bits from `offset` on, with how many of them are zero.
#[derive(Clone, Debug)]
pub struct NullBuffer {
    pub buffer: Buffer,
    pub offset: usize,
    pub len: usize,
    pub null_count: usize,
}

impl NullBuffer {
    pub fn new(buffer: Buffer, offset: usize, len: usize) -> Self {
        let bits = buffer.as_slice();
        let null_count = (offset..offset + len).filter(|k| bits[k / 8] >> (k % 8) & 1 == 0).count();
        NullBuffer { buffer, offset, len, null_count }
    }

    fn ptr_eq(&self, other: &Self) -> bool {
        self.buffer.as_ptr() == other.buffer.as_ptr() && self.offset == other.offset && self.len == other.len
    }
}

#[derive(Clone, Debug)]
pub struct ArrayData {
    pub data_type: DataType,
    pub len: usize,
    pub offset: usize,
    pub buffers: Vec<Buffer>,
    pub child_data: Vec<ArrayData>,
    pub nulls: Option<NullBuffer>,
}

impl ArrayData {
    /// As `ArrayDataBuilder::build_unchecked`: validity without a zero bit is dropped.
    pub fn new(data_type: DataType, len: usize, offset: usize, buffers: Vec<Buffer>, child_data: Vec<ArrayData>, nulls: Option<NullBuffer>) -> Self {
        let nulls = nulls.filter(|n| n.null_count != 0);
        ArrayData { data_type, len, offset, buffers, child_data, nulls }
    }

    /// The entries of a buffer from the array's offset on.
    pub fn buffer<T: ArrowNativeType>(&self, buffer: usize) -> &[T] {
        &self.buffers[buffer].typed_data()[self.offset..]
    }

    pub fn null_count(&self) -> usize {
        self.nulls.as_ref().map_or(0, |n| n.null_count)
    }

    /// Returns true if this `ArrayData` is equal to `other`, using pointer comparisons
    /// to determine buffer equality.
    pub fn ptr_eq(&self, other: &Self) -> bool {
        if self.offset != other.offset
            || self.len != other.len
            || self.data_type != other.data_type
            || self.buffers.len() != other.buffers.len()
            || self.child_data.len() != other.child_data.len()
        {
            return false;
        }
        match (&self.nulls, &other.nulls) {
            (Some(a), Some(b)) if !a.ptr_eq(b) => return false,
            (Some(_), None) | (None, Some(_)) => return false,
            _ => {}
        }
        if !self.buffers.iter().zip(other.buffers.iter()).all(|(a, b)| a.as_ptr() == b.as_ptr()) {
            return false;
        }
        self.child_data.iter().zip(other.child_data.iter()).all(|(a, b)| a.ptr_eq(b))
    }
}

/// The buffers of an empty array.
pub(crate) fn new_buffers(data_type: &DataType, capacity: usize) -> [MutableBuffer; 2] {
    let width = match data_type {
        DataType::Int8 | DataType::UInt8 => 1,
        DataType::Int16 | DataType::UInt16 => 2,
        DataType::Int32 | DataType::UInt32 | DataType::Float32 => 4,
        DataType::Int64 | DataType::UInt64 | DataType::Float64 => 8,
        DataType::Binary | DataType::Utf8 => {
            let mut buffer = MutableBuffer::new((1 + capacity) * size_of::<i32>());
            buffer.push(0i32);
            return [buffer, MutableBuffer::new(capacity)];
        }
        DataType::LargeBinary | DataType::LargeUtf8 => {
            let mut buffer = MutableBuffer::new((1 + capacity) * size_of::<i64>());
            buffer.push(0i64);
            return [buffer, MutableBuffer::new(capacity)];
        }
        DataType::BinaryView | DataType::Utf8View => 16,
        DataType::List(_) => {
            // offset buffer always starts with a zero
            let mut buffer = MutableBuffer::new((1 + capacity) * size_of::<i32>());
            buffer.push(0i32);
            return [buffer, MutableBuffer::new(0)];
        }
        DataType::LargeList(_) => {
            // offset buffer always starts with a zero
            let mut buffer = MutableBuffer::new((1 + capacity) * size_of::<i64>());
            buffer.push(0i64);
            return [buffer, MutableBuffer::new(0)];
        }
        DataType::ListView(_) => return [MutableBuffer::new(4 * capacity), MutableBuffer::new(4 * capacity)],
        DataType::LargeListView(_) => return [MutableBuffer::new(8 * capacity), MutableBuffer::new(8 * capacity)],
        DataType::Union(_, UnionMode::Sparse) => 1,
        DataType::Union(_, UnionMode::Dense) => return [MutableBuffer::new(capacity), MutableBuffer::new(4 * capacity)],
        DataType::RunEndEncoded(_, _) => 0,
        DataType::Dictionary(keys, _) => return new_buffers(keys, capacity),
    };
    [MutableBuffer::new(capacity * width), MutableBuffer::new(0)]
}
