//! Lists by the original's algorithm: a slice of one first, then K18, then lists in and around the other types that nest.

use original::{ArrayData, ArrowError, Buffer, DataType, Field, MutableArrayData, NullBuffer, UnionMode};

fn field(data_type: DataType) -> Box<Field> {
    Box::new(Field { data_type, nullable: true })
}

fn ints(numbers: &[i32]) -> Buffer {
    numbers.iter().flat_map(|n| n.to_le_bytes()).collect::<Vec<u8>>().into()
}

fn longs(numbers: &[i64]) -> Buffer {
    numbers.iter().flat_map(|n| n.to_le_bytes()).collect::<Vec<u8>>().into()
}

fn bytes(numbers: Vec<u8>, offset: usize) -> ArrayData {
    let len = numbers.len() - offset;
    ArrayData::new(DataType::UInt8, len, offset, vec![numbers.into()], vec![], None)
}

/// A list of 4-byte offsets; its rows begin at `offset`.
fn list(offsets: &[i32], offset: usize, child: ArrayData, nulls: Option<u8>) -> ArrayData {
    let len = offsets.len() - 1 - offset;
    let nulls = nulls.map(|bits| NullBuffer::new(vec![bits].into(), offset, len));
    ArrayData::new(DataType::List(field(child.data_type.clone())), len, offset, vec![ints(offsets)], vec![child], nulls)
}

fn offsets(array: &ArrayData) -> Vec<i32> {
    array.buffers[0].as_slice().chunks_exact(4).map(|b| i32::from_le_bytes(b.try_into().unwrap())).collect()
}

fn joined(arrays: &[&ArrayData], keep: bool, orders: &[(usize, usize, usize)]) -> ArrayData {
    let mut join = MutableArrayData::try_new(arrays.to_vec(), keep, 0).unwrap();
    orders.iter().for_each(|(source, start, end)| join.try_extend(*source, *start, *end).unwrap());
    join.freeze()
}

// Rows 1 and 2 of a list that begins at its second slot, over a child that begins at its third.
#[test]
fn a_slice() {
    let source = list(&[0, 1, 3, 3, 6], 1, bytes(vec![90, 91, 0, 1, 2, 3, 4, 5], 2), None);
    let out = joined(&[&source], false, &[(0, 1, 3), (0, 0, 1)]);
    assert_eq!(offsets(&out), [0, 0, 3, 5]);
    assert_eq!(out.child_data[0].buffers[0].as_slice(), [3, 4, 5, 1, 2]);
    assert_eq!((out.len, out.child_data[0].len), (3, 5));
}

// A null row's stretch is copied with the others; its bit goes with it.
#[test]
fn a_slice_with_nulls() {
    let source = list(&[0, 1, 3, 4, 6], 1, bytes(vec![0, 1, 2, 3, 4, 5], 0), Some(0b1011));
    let out = joined(&[&source], false, &[(0, 0, 3)]);
    assert_eq!(offsets(&out), [0, 2, 3, 5]);
    assert_eq!(out.child_data[0].buffers[0].as_slice(), [1, 2, 3, 4, 5]);
    assert_eq!((out.null_count(), out.nulls.unwrap().buffer.as_slice()[0]), (1, 0b101));
}

// K18: offsets 0 2 2 5, order 1..3, last offset 10: adds 10, 13 and child rows 2 to 4; then 2 nulls: 13, 13.
#[test]
fn k18() {
    let ahead = list(&[0, 10], 0, bytes((0..10).collect(), 0), None);
    let source = list(&[0, 2, 2, 5], 0, bytes(vec![20, 21, 22, 23, 24], 0), None);
    let arrays = [&ahead, &source];
    let mut join = MutableArrayData::try_new(arrays.to_vec(), true, 0).unwrap();
    join.try_extend(0, 0, 1).unwrap();
    join.try_extend(1, 1, 3).unwrap();
    join.try_extend_nulls(2).unwrap();
    assert_eq!(join.part_sizes(), [1, 24, 2, 13]);
    let out = join.freeze();
    assert_eq!(offsets(&out), [0, 10, 10, 13, 13, 13]);
    assert_eq!(out.child_data[0].buffers[0].as_slice()[10..], [22, 23, 24]);
    assert_eq!((out.null_count(), out.child_data[0].len), (2, 13));
}

#[test]
fn large_offsets() {
    let child = bytes((0..5).collect(), 0);
    let ty = DataType::LargeList(field(DataType::UInt8));
    let source = ArrayData::new(ty, 2, 1, vec![longs(&[0, 2, 2, 5])], vec![child], None);
    let out = joined(&[&source], true, &[(0, 0, 2), (0, 1, 2)]);
    assert_eq!(out.buffers[0].as_slice(), longs(&[0, 0, 3, 6]).as_slice());
    assert_eq!(out.child_data[0].buffers[0].as_slice(), [2, 3, 4, 2, 3, 4]);
}

// One child stretch to a copy, all offsets before it: a run-end child has as many rows as one likes.
#[test]
fn offsets_that_do_not_fit() {
    let top = i32::MAX;
    let ends = ArrayData::new(DataType::Int64, 1, 0, vec![longs(&[1 << 33])], vec![], None);
    let runs = DataType::RunEndEncoded(field(DataType::Int64), field(DataType::UInt8));
    let child = ArrayData::new(runs, 1 << 33, 0, vec![], vec![ends, bytes(vec![7], 0)], None);
    let source = list(&[0, top - 1, top], 0, child, None);
    let mut join = MutableArrayData::try_new(vec![&source], false, 0).unwrap();
    join.try_extend(0, 0, 2).unwrap();
    assert_eq!(join.try_extend(0, 1, 2), Err(ArrowError::OffsetOverflow));
    assert_eq!(ArrowError::OffsetOverflow.ground(), 6);
    let mut join = MutableArrayData::try_new(vec![&source], false, 0).unwrap();
    join.try_extend(0, 1, 2).unwrap();
    assert_eq!(join.try_extend(0, 0, 2), Err(ArrowError::OffsetOverflow));
}

// A list of run-end columns of lists in a sparse and in a dense union, and a list-view of lists.
#[test]
fn nested() {
    let inner = list(&[0, 2, 2, 5], 0, bytes(vec![20, 21, 22, 23, 24], 0), None);
    let ends = ArrayData::new(DataType::Int32, 3, 0, vec![ints(&[2, 3, 5])], vec![], None);
    let runs = DataType::RunEndEncoded(field(DataType::Int32), field(inner.data_type.clone()));
    let runs = ArrayData::new(runs, 4, 1, vec![], vec![ends, inner.clone()], None);
    let outer = list(&[0, 1, 4], 1, runs, None);
    let out = joined(&[&outer], false, &[(0, 0, 1)]);
    let (runs, inner_out) = (&out.child_data[0], &out.child_data[0].child_data[1]);
    assert_eq!((offsets(&out), offsets(&runs.child_data[0])), (vec![0, 3], vec![1, 3]));
    assert_eq!((offsets(inner_out), inner_out.child_data[0].buffers[0].as_slice()), (vec![0, 0, 3], &[22u8, 23, 24][..]));

    let union = |mode| DataType::Union(vec![(5, *field(inner.data_type.clone()))], mode);
    let sparse = ArrayData::new(union(UnionMode::Sparse), 2, 1, vec![vec![5; 3].into()], vec![inner.clone()], None);
    let out = joined(&[&sparse], true, &[(0, 1, 2), (0, 0, 1)]);
    assert_eq!(offsets(&out.child_data[0]), [0, 3, 3]);
    let dense = ArrayData::new(union(UnionMode::Dense), 2, 0, vec![vec![5; 2].into(), ints(&[2, 0])], vec![inner.clone()], None);
    let out = joined(&[&dense], true, &[(0, 0, 2)]);
    assert_eq!((offsets(&out.child_data[0]), out.child_data[0].child_data[0].buffers[0].as_slice()), (vec![0, 3, 5], &[22u8, 23, 24, 20, 21][..]));

    let views = DataType::ListView(field(inner.data_type.clone()));
    let views = ArrayData::new(views, 2, 0, vec![ints(&[1, 0]), ints(&[2, 2])], vec![inner], None);
    let out = joined(&[&list(&[0, 0, 2], 1, views, None)], false, &[(0, 0, 1)]);
    assert_eq!(offsets(&out.child_data[0].child_data[0]), [0, 0, 3, 5, 5]);
}
