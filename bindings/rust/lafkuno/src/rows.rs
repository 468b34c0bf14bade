//! How a row is read, written from the Arrow Columnar Format over owned columns.

use crate::types::{storage, Kind};
use crate::{Column, Type};

/// A row. Floats are equal when their bits are; a dictionary's row is null where its key or the entry that the key names is null, else
/// the stored bytes of that entry.
#[derive(Clone, Debug, PartialEq, Eq, Hash, PartialOrd, Ord)]
pub enum Row {
    /// No value.
    Null,
    /// A valid key of a null entry: columns are built from it, and it is read as `Null`.
    NullEntry,
    /// A whole number.
    Whole(i128),
    /// An f32, by its bits.
    Single(u32),
    /// An f64, by its bits.
    Double(u64),
    /// The bytes of a string, or of a dictionary's entry.
    Bytes(Vec<u8>),
    /// The rows of a list.
    List(Vec<Row>),
    /// The row of the union's field with this id.
    Union(u8, Box<Row>),
}

/// Entry k of w bytes, unsigned.
fn entry(s: &[u8], k: u64, w: usize) -> Option<u64> {
    let at = usize::try_from(k).ok()?.checked_mul(w)?;
    let mut word = [0; 8];
    word[..w].copy_from_slice(s.get(at..at.checked_add(w)?)?);
    Some(u64::from_le_bytes(word))
}

impl Column {
    /// Row i; None where there is no such row, or the buffers do not hold it.
    pub fn row(&self, i: u64) -> Option<Row> {
        if self.length <= i {
            return None;
        }
        let slot = self.offset.checked_add(i)?;
        if !self.valid(slot)? {
            return Some(Row::Null);
        }
        let ty = self.head();
        let w = ty.width();
        let kind = if self.dictionary.is_some() { Kind::Dictionary } else { ty.kind() };
        match kind {
            Kind::Fixed => {
                let p = entry(self.buffers.first()?, slot, w)?;
                let signed = (p << (64 - 8 * w)) as i64 >> (64 - 8 * w);
                Some(match storage(&self.format) {
                    "f" => Row::Single(p as u32),
                    "g" => Row::Double(p),
                    "C" | "S" | "I" | "L" => Row::Whole(p as i128),
                    _ => Row::Whole(signed as i128),
                })
            }
            Kind::Strings => Some(Row::Bytes(self.span(slot, w)?.to_vec())),
            Kind::Views => {
                let at = usize::try_from(slot).ok()?.checked_mul(16)?;
                let view = self.buffers.first()?.get(at..at + 16)?;
                let [len, buffer, offset] = [0, 8, 12].map(|k| u32::from_le_bytes(view[k..k + 4].try_into().unwrap()) as usize);
                let bytes = if len <= 12 { &view[4..4 + len] } else { self.data.get(buffer)?.get(offset..offset + len)? };
                Some(Row::Bytes(bytes.to_vec()))
            }
            Kind::List => {
                let (start, end) = self.ends(slot, w)?;
                let child = self.children.first()?;
                // offsets that fall hold no row
                (0..end.checked_sub(start)?).map(|r| child.row(start + r)).collect::<Option<Vec<_>>>().map(Row::List)
            }
            Kind::ListView => {
                let (start, size) = (entry(self.buffers.first()?, slot, w)?, entry(self.buffers.get(1)?, slot, w)?);
                let child = self.children.first()?;
                (start..start.checked_add(size)?).map(|r| child.row(r)).collect::<Option<Vec<_>>>().map(Row::List)
            }
            Kind::Sparse | Kind::Dense => {
                let id = entry(self.buffers.first()?, slot, 1)? as u8;
                let child = self.children.get(ty.ids().iter().position(|c| *c == id)?)?;
                let row = if kind == Kind::Sparse { slot } else { entry(self.buffers.get(1)?, slot, 4)? };
                Some(Row::Union(id, Box::new(child.row(row)?)))
            }
            Kind::Runs => {
                let (ends, values) = (self.children.first()?, self.children.get(1)?);
                let w = ends.head().width();
                let above = |k: u64| entry(ends.buffers.first()?, ends.offset.checked_add(k)?, w).map(|end| slot < end);
                // the first run whose end is above the slot
                let (mut run, mut past) = (0, ends.length);
                while run < past {
                    let middle = run + (past - run) / 2;
                    if above(middle)? {
                        past = middle;
                    } else {
                        run = middle + 1;
                    }
                }
                values.row(run)
            }
            Kind::Dictionary => {
                let values = self.dictionary.as_ref()?;
                let key = entry(self.buffers.first()?, slot, w)?;
                let slot = values.offset.checked_add(key)?;
                if !values.valid(slot)? {
                    return Some(Row::Null);
                }
                let ty = values.head();
                let w = ty.width();
                let bytes = match ty.kind() {
                    Kind::Fixed => values.buffers.first()?.get(usize::try_from(slot).ok()?.checked_mul(w)?..)?.get(..w)?,
                    Kind::Strings => values.span(slot, w)?,
                    _ => return None,
                };
                Some(Row::Bytes(bytes.to_vec()))
            }
            Kind::Other => None,
        }
    }

    /// Its own format, without what is below it.
    fn head(&self) -> Type {
        Type { format: self.format.clone(), nullable: self.nullable, children: vec![], dictionary: None }
    }

    /// The offset of a slot, and the next one.
    fn ends(&self, slot: u64, w: usize) -> Option<(u64, u64)> {
        let offsets = self.buffers.first()?;
        Some((entry(offsets, slot, w)?, entry(offsets, slot.checked_add(1)?, w)?))
    }

    /// The bytes of a byte string's slot.
    fn span(&self, slot: u64, w: usize) -> Option<&[u8]> {
        let (a, b) = self.ends(slot, w)?;
        self.buffers.get(1)?.get(usize::try_from(a).ok()?..usize::try_from(b).ok()?)
    }

    /// All rows; None where the buffers do not hold one.
    pub fn rows(&self) -> Option<Vec<Row>> {
        (0..self.length).map(|i| self.row(i)).collect()
    }
}
