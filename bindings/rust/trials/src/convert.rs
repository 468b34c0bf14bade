//! Columns as arrays of the original's algorithm, and what a finished one is compared by.

use lafkuno::{Column, Row, Type};
use original::{ArrayData, Buffer, DataType, Field, NullBuffer, UnionMode};
use std::collections::HashMap;
use std::sync::Arc;

fn ids(format: &str) -> Vec<i8> {
    format[4..].split(',').filter_map(|id| id.parse().ok()).collect()
}

fn field(ty: &Type) -> Box<Field> {
    Box::new(Field { data_type: data_type(ty), nullable: ty.nullable })
}

pub fn data_type(ty: &Type) -> DataType {
    if let Some(values) = &ty.dictionary {
        let keys = data_type(&Type { dictionary: None, ..ty.clone() });
        return DataType::Dictionary(Box::new(keys), Box::new(data_type(values)));
    }
    match ty.format.as_str() {
        "c" => DataType::Int8,
        "C" => DataType::UInt8,
        "s" => DataType::Int16,
        "S" => DataType::UInt16,
        "i" => DataType::Int32,
        "I" => DataType::UInt32,
        "l" => DataType::Int64,
        "L" => DataType::UInt64,
        "f" => DataType::Float32,
        "g" => DataType::Float64,
        "z" => DataType::Binary,
        "u" => DataType::Utf8,
        "Z" => DataType::LargeBinary,
        "U" => DataType::LargeUtf8,
        "vz" => DataType::BinaryView,
        "vu" => DataType::Utf8View,
        "+l" => DataType::List(field(&ty.children[0])),
        "+L" => DataType::LargeList(field(&ty.children[0])),
        "+vl" => DataType::ListView(field(&ty.children[0])),
        "+vL" => DataType::LargeListView(field(&ty.children[0])),
        "+r" => DataType::RunEndEncoded(field(&ty.children[0]), field(&ty.children[1])),
        f => {
            let mode = if f.starts_with("+us:") { UnionMode::Sparse } else { UnionMode::Dense };
            DataType::Union(ids(f).into_iter().zip(ty.children.iter().map(|c| *field(c))).collect(), mode)
        }
    }
}

fn width(format: &str) -> usize {
    match format {
        "s" | "S" => 2,
        "i" | "I" | "f" | "z" | "u" | "+l" | "+vl" => 4,
        "l" | "L" | "g" | "Z" | "U" | "+L" | "+vL" => 8,
        "vz" | "vu" => 16,
        _ => 1,
    }
}

/// Buffers as the original takes them: aligned, of whole entries, and one offset at least. Those that begin at the same byte stay
/// the same.
#[derive(Default)]
pub struct Convert {
    moved: HashMap<*const u8, Arc<Vec<u8>>>,
    zeros: HashMap<(*const u8, usize), Arc<Vec<u8>>>,
}

impl Convert {
    fn buffer(&mut self, buffer: &lafkuno::Buffer, w: usize) -> Buffer {
        let len = buffer.len() / w * w;
        let (bytes, start) = buffer.whole().map_or_else(Default::default, |(bytes, start)| (bytes.clone(), start));
        if (buffer.as_ptr() as usize).is_multiple_of(16) || buffer.is_empty() {
            return Buffer::new(bytes, start, len);
        }
        let moved = self.moved.entry(buffer.as_ptr()).or_insert_with(|| Arc::new(bytes[start..].to_vec())).clone();
        Buffer::new(moved, 0, len)
    }

    pub fn array(&mut self, column: &Column) -> ArrayData {
        let format = column.format.as_str();
        let (len, offset) = (column.length as usize, column.offset as usize);
        let nulls = column.validity.as_ref().map(|v| NullBuffer::new(self.buffer(v, 1), offset, len));
        let w = width(format);
        let strings = matches!(format, "z" | "u" | "Z" | "U");
        let mut buffers = vec![];
        for (k, buffer) in column.buffers.iter().enumerate() {
            let w = match k {
                0 => w,
                _ if strings => 1,
                _ if format.starts_with("+ud:") => 4,
                _ => w,
            };
            buffers.push(self.buffer(buffer, w));
        }
        if (strings || matches!(format, "+l" | "+L")) && column.buffers[0].is_empty() {
            let zeros = vec![0; (offset + 1) * w];
            let key = (column.buffers[0].as_ptr(), zeros.len());
            buffers[0] = Buffer::new(self.zeros.entry(key).or_insert_with(|| Arc::new(zeros)).clone(), 0, key.1);
        }
        buffers.extend(column.data.iter().map(|b| self.buffer(b, 1)));
        let children = column.dictionary.iter().map(|d| &**d).chain(&column.children).map(|c| self.array(c)).collect();
        ArrayData::new(data_type(&column.ty()), len, offset, buffers, children, nulls)
    }
}

/// Where a finished column differs from a finished array of the original. Its room begins at `base`; `kept` is source 0, whose
/// dictionaries may be kept.
pub fn difference(column: &Column, array: &ArrayData, kept: &Column, base: usize, path: &str) -> Option<String> {
    let differ = |what: &str, a: &dyn std::fmt::Debug, b: &dyn std::fmt::Debug| Some(format!("{path} {what}: {a:?}, and {b:?} in the original"));
    if (column.length, column.offset) != (array.len as u64, array.offset as u64) {
        return differ("length and offset", &(column.length, column.offset), &(array.len, array.offset));
    }
    if column.null_count() != array.null_count() as u64 {
        return differ("null count", &column.null_count(), &array.null_count());
    }
    if is_kept(column, base) {
        let mut due = kept.clone();
        due.validity = due.validity.filter(|_| kept.null_count() != 0);
        return (*column != due).then(|| format!("{path}: a kept dictionary differs from source 0's"));
    }
    match (&column.validity, &array.nulls) {
        (Some(a), Some(b)) if **a == *b.buffer.as_slice() => {}
        (None, None) => {}
        (a, b) => return differ("validity", a, b),
    }
    let ours: Vec<_> = column.buffers.iter().chain(&column.data).collect();
    if ours.len() != array.buffers.len() {
        return differ("buffers", &ours.len(), &array.buffers.len());
    }
    for (k, (a, b)) in ours.iter().zip(&array.buffers).enumerate() {
        if ***a != *b.as_slice() {
            return differ(&format!("buffer {}", k + 1), a, &b.as_slice());
        }
    }
    let below = |c: &Column| c.dictionary.iter().map(|d| (**d).clone()).chain(c.children.iter().cloned()).collect::<Vec<_>>();
    let (ours, theirs, kept) = (below(column), &array.child_data, below(kept));
    if ours.len() != theirs.len() {
        return differ("children", &ours.len(), &theirs.len());
    }
    (0..ours.len()).find_map(|k| difference(&ours[k], &theirs[k], &kept[k], base, &format!("{path}.{k}")))
}

/// Whether a dictionary's values stand before the room.
pub fn is_kept(values: &Column, base: usize) -> bool {
    values.buffers.first().is_some_and(|b| b.whole().is_some_and(|w| w.1 < base))
}

/// What an ordered null reads as: the first nullable field's id with its null at a union, the value's at a run-end node.
pub fn ordered_null(ty: &Type) -> Row {
    match ty.format.as_str() {
        f if f.starts_with("+u") => {
            let k = ty.children.iter().position(|c| c.nullable).expect("a union that takes nulls");
            Row::Union(ids(f)[k] as u8, Box::new(ordered_null(&ty.children[k])))
        }
        "+r" => ordered_null(&ty.children[1]),
        _ => Row::Null,
    }
}
