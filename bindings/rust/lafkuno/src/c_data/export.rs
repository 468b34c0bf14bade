//! Columns as ArrowSchema and ArrowArray.

use super::{ArrowArray, ArrowSchema, FLAG_DICTIONARY_ORDERED, FLAG_MAP_KEYS_SORTED, FLAG_NULLABLE};
use crate::types::Kind;
use crate::{Buffer, Column, Error, Field, Joined};
use std::ffi::{c_char, c_void, CString};
use std::ptr::{null, null_mut};

struct SchemaParts {
    format: CString,
    name: CString,
    metadata: Option<Vec<u8>>,
    children: Vec<*mut ArrowSchema>,
    dictionary: *mut ArrowSchema,
}

struct ArrayParts {
    /// Keep the bytes alive.
    _bytes: Vec<Buffer>,
    _sizes: Vec<i64>,
    buffers: Vec<*const c_void>,
    children: Vec<*mut ArrowArray>,
    dictionary: *mut ArrowArray,
}

unsafe extern "C" fn release_schema(schema: *mut ArrowSchema) {
    unsafe {
        let parts = Box::from_raw((*schema).private_data.cast::<SchemaParts>());
        for child in parts.children.iter().chain([&parts.dictionary]).filter(|c| !c.is_null()) {
            // a consumer may have moved a child away
            if let Some(release) = (**child).release {
                release(*child);
            }
            drop(Box::from_raw(*child));
        }
        (*schema).release = None;
    }
}

unsafe extern "C" fn release_array(array: *mut ArrowArray) {
    unsafe {
        let parts = Box::from_raw((*array).private_data.cast::<ArrayParts>());
        for child in parts.children.iter().chain([&parts.dictionary]).filter(|c| !c.is_null()) {
            if let Some(release) = (**child).release {
                release(*child);
            }
            drop(Box::from_raw(*child));
        }
        (*array).release = None;
    }
}

fn c_text(text: &str) -> Result<CString, Error> {
    CString::new(text).map_err(|_| Error::Column(format!("{text:?} has a zero byte, which the C Data Interface can't pass")))
}

/// Metadata as the interface has it.
fn encoded(field: &Field) -> Result<Option<Vec<u8>>, Error> {
    let number = |n: usize| i32::try_from(n).map(i32::to_le_bytes).map_err(|_| Error::Column("metadata beyond 2^31 bytes".into()));
    if field.metadata.is_empty() {
        return Ok(None);
    }
    let mut out = number(field.metadata.len())?.to_vec();
    for text in field.metadata.iter().flat_map(|(key, value)| [key, value]) {
        out.extend(number(text.len())?);
        out.extend(text);
    }
    Ok(Some(out))
}

/// The column's type, with its names and metadata. Whoever takes it calls `release` once.
pub fn export_schema(column: &Column) -> Result<ArrowSchema, Error> {
    let field = &column.field;
    let (format, name, metadata) = (c_text(&column.format)?, c_text(&field.name)?, encoded(field)?);
    let mut parts = Box::new(SchemaParts { format, name, metadata, children: vec![], dictionary: null_mut() });
    let mut below = column.children.iter().chain(column.dictionary.as_deref()).map(export_schema).collect::<Result<Vec<_>, _>>()?;
    if column.dictionary.is_some() {
        parts.dictionary = below.pop().map_or(null_mut(), |d| Box::into_raw(Box::new(d)));
    }
    parts.children = below.into_iter().map(|c| Box::into_raw(Box::new(c))).collect();
    let flag = |is: bool, flag: i64| if is { flag } else { 0 };
    Ok(ArrowSchema {
        format: parts.format.as_ptr(),
        name: parts.name.as_ptr(),
        metadata: parts.metadata.as_ref().map_or(null(), |m| m.as_ptr().cast::<c_char>()),
        flags: flag(column.nullable, FLAG_NULLABLE) | flag(field.ordered, FLAG_DICTIONARY_ORDERED) | flag(field.keys_sorted, FLAG_MAP_KEYS_SORTED),
        n_children: parts.children.len() as i64,
        children: parts.children.as_mut_ptr(),
        dictionary: parts.dictionary,
        release: Some(release_schema),
        private_data: Box::into_raw(parts).cast(),
    })
}

/// Where a buffer without a byte leads to.
static NOTHING: [u64; 2] = [0; 2];

/// The array of a column; `count` answers the null count of each node, asked in depth-first order.
fn array_of(column: &Column, count: &mut dyn FnMut(&Column) -> u64) -> ArrowArray {
    let kind = column.ty().kind();
    let null_count = count(column) as i64;
    let masked = !matches!(kind, Kind::Sparse | Kind::Dense | Kind::Runs);
    let leads = |b: &Buffer| if b.is_empty() { NOTHING.as_ptr().cast() } else { b.as_ptr().cast::<c_void>() };
    let mut buffers: Vec<*const c_void> = vec![];
    if masked {
        buffers.push(column.validity.as_ref().map_or(null(), leads));
    }
    buffers.extend(column.buffers.iter().chain(&column.data).map(leads));
    let sizes: Vec<i64> = column.data.iter().map(|b| b.len() as i64).collect();
    if kind == Kind::Views {
        buffers.push(sizes.as_ptr().cast());
    }
    let dictionary = column.dictionary.as_ref().map_or(null_mut(), |d| Box::into_raw(Box::new(array_of(d, count))));
    let children = column.children.iter().map(|c| Box::into_raw(Box::new(array_of(c, count)))).collect();
    let bytes = column.validity.iter().chain(&column.buffers).chain(&column.data).cloned().collect();
    let mut parts = Box::new(ArrayParts { _bytes: bytes, _sizes: sizes, buffers, children, dictionary });
    ArrowArray {
        length: column.length as i64,
        null_count: if masked { null_count } else { 0 },
        offset: column.offset as i64,
        n_buffers: parts.buffers.len() as i64,
        n_children: parts.children.len() as i64,
        buffers: parts.buffers.as_mut_ptr(),
        children: parts.children.as_mut_ptr(),
        dictionary: parts.dictionary,
        release: Some(release_array),
        private_data: Box::into_raw(parts).cast(),
    }
}

/// The column's buffers, which stay where they are until `release` is called. Whoever takes it calls `release` once.
pub fn export_array(column: &Column) -> ArrowArray {
    array_of(column, &mut Column::null_count)
}

/// Both structs, released when dropped.
#[derive(Debug)]
pub struct Exported {
    /// The type.
    pub schema: ArrowSchema,
    /// The rows.
    pub array: ArrowArray,
}

impl Exported {
    /// A column, its nulls counted.
    pub fn new(column: &Column) -> Result<Exported, Error> {
        Ok(Exported { schema: export_schema(column)?, array: export_array(column) })
    }

    /// A finished join, whose null counts are known.
    pub fn joined(joined: &Joined) -> Result<Exported, Error> {
        let mut counts = joined.null_counts.iter().copied();
        let array = array_of(&joined.column, &mut |column| counts.next().unwrap_or_else(|| column.null_count()));
        Ok(Exported { schema: export_schema(&joined.column)?, array })
    }
}

impl Drop for Exported {
    fn drop(&mut self) {
        unsafe {
            if let Some(release) = self.schema.release {
                release(&mut self.schema);
            }
            if let Some(release) = self.array.release {
                release(&mut self.array);
            }
        }
    }
}
