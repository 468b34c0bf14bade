//! Columns from ArrowSchema and ArrowArray.

use super::{ArrowArray, ArrowSchema, FLAG_DICTIONARY_ORDERED, FLAG_MAP_KEYS_SORTED, FLAG_NULLABLE};
use crate::buffer::Keep;
use crate::types::Kind;
use crate::{Buffer, Column, Error, Field, Metadata};
use std::collections::BTreeMap;
use std::ffi::{c_char, c_void, CStr};
use std::sync::Arc;

fn fail<T>(what: impl Into<String>) -> Result<T, Error> {
    Err(Error::Column(what.into()))
}

/// An array that is released when the last buffer of it is dropped.
struct Taken(ArrowArray);

// the interface lets an array be read and released by any thread
unsafe impl Send for Taken {}
unsafe impl Sync for Taken {}

impl Keep for Taken {}

impl Drop for Taken {
    fn drop(&mut self) {
        if let Some(release) = self.0.release {
            unsafe { release(&mut self.0) };
        }
    }
}

/// Takes columns in. Memory that several arrays name stays shared, so that a shared dictionary stays one and slices of one batch are laid
/// once.
#[derive(Debug, Default)]
pub struct Import {
    /// What was copied, by where it began.
    copies: BTreeMap<usize, Buffer>,
}

impl Import {
    /// Nothing is taken in yet.
    pub fn new() -> Import {
        Import::default()
    }

    /// A copy of the bytes that the rows reach. The structs are not released, and nothing keeps their pointers.
    ///
    /// # Safety
    /// The structs must be valid and not released, as the C Data Interface says: every pointer leads to as many children and as many bytes
    /// as the format, the length and the offset ask for. All arrays of one `Import` stay as they are while it is used.
    pub unsafe fn column(&mut self, schema: &ArrowSchema, array: &ArrowArray) -> Result<Column, Error> {
        let lent = unsafe { node(schema, array, &None, 0) }?;
        Ok(self.copy(lent.trimmed()))
    }

    /// The column over the array's own memory: nothing is copied before a join is opened over it. The structs are not released.
    ///
    /// # Safety
    /// As for [`Import::column`]; and the array is neither released nor changed as long as the column, its clones and slices are used. A
    /// join that is opened over it copies what it needs, and the finished column leads to nothing of it.
    pub unsafe fn lend(&mut self, schema: &ArrowSchema, array: &ArrowArray) -> Result<Column, Error> {
        unsafe { node(schema, array, &None, 0) }
    }

    /// The column over the array's own memory, which is released when the last buffer of it is dropped; at once where the answer is an
    /// error.
    ///
    /// # Safety
    /// As for [`Import::column`]; and the array was moved here, so that nobody else releases it.
    pub unsafe fn take(&mut self, schema: &ArrowSchema, array: ArrowArray) -> Result<Column, Error> {
        let taken = Arc::new(Taken(array));
        let keep: Option<Arc<dyn Keep>> = Some(taken.clone());
        unsafe { node(schema, &taken.0, &keep, 0) }
    }

    fn copy(&mut self, mut column: Column) -> Column {
        let own = column.validity.iter_mut().chain(&mut column.buffers).chain(&mut column.data);
        own.for_each(|b| *b = self.own(b));
        column.dictionary = column.dictionary.map(|d| Box::new(self.copy(*d)));
        column.children = column.children.into_iter().map(|c| self.copy(c)).collect();
        column
    }

    /// The copy of a buffer, or of one that it is a part of.
    fn own(&mut self, buffer: &Buffer) -> Buffer {
        let (start, end) = buffer.span();
        // what trimming made is this crate's already
        if buffer.is_empty() || buffer.whole().is_some() {
            return buffer.clone();
        }
        if let Some((at, copy)) = self.copies.range(..=start).next_back() {
            if let Some(part) = copy.slice(start - at, end - start) {
                return part;
            }
        }
        let copy = Buffer::from(buffer.to_vec());
        self.copies.insert(start, copy.clone());
        copy
    }
}

unsafe fn text(pointer: *const c_char, what: &str) -> Result<String, Error> {
    if pointer.is_null() {
        return Ok(String::new());
    }
    let text = unsafe { CStr::from_ptr(pointer) }.to_str();
    text.map(str::to_string).or_else(|_| fail(format!("a {what} that is not UTF-8")))
}

/// Reads metadata: the count of its pairs, then each key and value with its bytes before it; numbers have four bytes.
struct Encoded(*const u8);

impl Encoded {
    unsafe fn number(&mut self) -> Result<usize, Error> {
        let n = unsafe { self.0.cast::<i32>().read_unaligned() };
        self.0 = unsafe { self.0.add(4) };
        usize::try_from(n).or_else(|_| fail("metadata with a negative number"))
    }

    unsafe fn bytes(&mut self) -> Result<Vec<u8>, Error> {
        let n = unsafe { self.number() }?;
        let bytes = unsafe { std::slice::from_raw_parts(self.0, n) }.to_vec();
        self.0 = unsafe { self.0.add(n) };
        Ok(bytes)
    }

    unsafe fn pairs(mut self) -> Result<Metadata, Error> {
        if self.0.is_null() {
            return Ok(vec![]);
        }
        let count = unsafe { self.number() }?;
        (0..count).map(|_| Ok((unsafe { self.bytes() }?, unsafe { self.bytes() }?))).collect()
    }
}

unsafe fn node(schema: &ArrowSchema, array: &ArrowArray, keep: &Option<Arc<dyn Keep>>, depth: usize) -> Result<Column, Error> {
    if schema.release.is_none() || array.release.is_none() {
        return fail("an ArrowSchema or ArrowArray that is released");
    }
    if 16 < depth {
        return fail("nested too deep: 8 levels are taken");
    }
    if schema.format.is_null() {
        return fail("an ArrowSchema without a format");
    }
    let format = unsafe { text(schema.format, "format") }?;
    let (Ok(length), Ok(offset)) = (u64::try_from(array.length), u64::try_from(array.offset)) else {
        return fail(format!("{format}: a length of {} and an offset of {}: neither is negative", array.length, array.offset));
    };
    if schema.n_children != array.n_children || schema.dictionary.is_null() != array.dictionary.is_null() {
        return fail(format!("{format}: ArrowSchema and ArrowArray have different children or only one has a dictionary"));
    }
    // without rows there may be no buffers, whatever the offset
    let offset = if length == 0 { 0 } else { offset };
    let mut column = Column { format, nullable: schema.flags & FLAG_NULLABLE != 0, length, offset, ..Column::default() };
    column.field = Field {
        name: unsafe { text(schema.name, "name") }?,
        metadata: unsafe { Encoded(schema.metadata.cast()).pairs() }?,
        ordered: schema.flags & FLAG_DICTIONARY_ORDERED != 0,
        keys_sorted: schema.flags & FLAG_MAP_KEYS_SORTED != 0,
    };
    let kind = if array.dictionary.is_null() { column.ty().kind() } else { Kind::Dictionary };
    unsafe { buffers(&mut column, kind, array, keep) }?;
    if !array.dictionary.is_null() {
        column.dictionary = Some(Box::new(unsafe { node(&*schema.dictionary, &*array.dictionary, keep, depth + 1) }?));
    }
    if !(0..=128).contains(&schema.n_children) || schema.n_children != 0 && (schema.children.is_null() || array.children.is_null()) {
        return fail(format!("{}: {} children, or they are missing", column.format, schema.n_children));
    }
    for k in 0..schema.n_children as usize {
        let (schema, array) = unsafe { (*schema.children.add(k), *array.children.add(k)) };
        if schema.is_null() || array.is_null() {
            return fail(format!("{}: child {k} is null", column.format));
        }
        column.children.push(unsafe { node(&*schema, &*array, keep, depth + 1) }?);
    }
    Ok(column)
}

/// n bytes of a pointer.
unsafe fn lend(pointer: *const c_void, n: u64, keep: &Option<Arc<dyn Keep>>) -> Result<Buffer, Error> {
    match usize::try_from(n) {
        Ok(0) => Ok(Buffer::default()),
        Ok(n) if n <= isize::MAX as usize && !pointer.is_null() => Ok(unsafe { Buffer::foreign(pointer.cast(), n, keep.clone()) }),
        Ok(n) if pointer.is_null() => fail(format!("a buffer is null, and {n} bytes are asked of it")),
        _ => fail("a buffer beyond all memory"),
    }
}

unsafe fn buffers(column: &mut Column, kind: Kind, array: &ArrowArray, keep: &Option<Arc<dyn Keep>>) -> Result<(), Error> {
    let format = column.format.clone();
    let count = usize::try_from(array.n_buffers).unwrap_or(0);
    let pointer = |k: usize| unsafe { *array.buffers.add(k) };
    let take = |k: usize, n: u64| unsafe { lend(pointer(k), n, keep) };
    // a run may have any number of rows
    let Some(slots) = column.length.checked_add(column.offset).filter(|n| *n < 1 << 40 || kind == Kind::Runs) else {
        return fail(format!("{format}: {} rows from {} on are more than a body holds", column.length, column.offset));
    };
    let due = match kind {
        Kind::Fixed | Kind::Dictionary | Kind::List | Kind::Dense => 2..=2,
        Kind::Strings | Kind::ListView => 3..=3,
        Kind::Views => 3..=usize::MAX,
        Kind::Sparse => 1..=1,
        Kind::Runs => 0..=1,
        Kind::Other => return fail(format!("the format {format} is not taken")),
    };
    if !due.contains(&count) || count != 0 && array.buffers.is_null() {
        return fail(format!("{format}: {} buffers, and {} are due", array.n_buffers, due.start()));
    }
    let masked = !matches!(kind, Kind::Sparse | Kind::Dense | Kind::Runs);
    if masked && column.length != 0 && !pointer(0).is_null() && array.null_count != 0 {
        column.validity = Some(take(0, slots.div_ceil(8))?);
    }
    let w = column.ty().width() as u64;
    column.buffers = match kind {
        Kind::Fixed | Kind::Dictionary => vec![take(1, slots * w)?],
        // a byte string of length 0 may have no offsets
        Kind::Strings if column.length == 0 => vec![Buffer::default(), Buffer::default()],
        Kind::Strings => {
            let offsets = take(1, slots * w + w)?;
            let mut last = [0; 8];
            last[..w as usize].copy_from_slice(&offsets[offsets.len() - w as usize..]);
            let end = if w == 4 { i32::from_le_bytes(*last.first_chunk().unwrap_or(&[0; 4])) as i64 } else { i64::from_le_bytes(last) };
            let Ok(end) = u64::try_from(end) else { return fail(format!("{format}: the last offset is {end}, which is negative")) };
            vec![offsets, take(2, end)?]
        }
        Kind::Views => {
            let sizes = take(count - 1, 8 * (count as u64 - 3))?;
            for (k, size) in sizes.chunks_exact(8).enumerate() {
                let size = i64::from_le_bytes(*size.first_chunk().unwrap_or(&[0; 8]));
                let Ok(size) = u64::try_from(size) else { return fail(format!("{format}: data buffer {k} has a size of {size}, which is negative")) };
                column.data.push(take(2 + k, size)?);
            }
            vec![take(1, slots * 16)?]
        }
        // and so may a list
        Kind::List if column.length == 0 => vec![Buffer::default()],
        Kind::List => vec![take(1, slots * w + w)?],
        Kind::ListView => vec![take(1, slots * w)?, take(2, slots * w)?],
        Kind::Sparse => vec![take(0, slots)?],
        Kind::Dense => vec![take(0, slots)?, take(1, slots * 4)?],
        Kind::Runs | Kind::Other => vec![],
    };
    Ok(())
}
