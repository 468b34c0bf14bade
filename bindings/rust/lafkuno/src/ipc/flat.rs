//! Flatbuffers, as far as Arrow's messages need them: a reader that checks every step, and a writer.

/// What is wrong with the bytes.
pub type Read<T> = Result<T, String>;

fn damaged<T>(what: &str) -> Read<T> {
    Err(format!("damaged metadata: {what}"))
}

/// A table: its bytes begin at `at`, its fields are found by the table of offsets at `vtable`.
#[derive(Clone, Copy)]
pub struct Table<'a> {
    bytes: &'a [u8],
    at: usize,
    /// Its own bytes.
    size: usize,
    vtable: usize,
    fields: usize,
}

/// A vector of elements.
#[derive(Clone, Copy)]
pub struct Vector<'a> {
    bytes: &'a [u8],
    at: usize,
    pub len: usize,
}

fn take<const N: usize>(bytes: &[u8], at: usize) -> Read<[u8; N]> {
    bytes.get(at..).and_then(|b| b.first_chunk()).copied().map_or_else(|| damaged("a number outside"), Ok)
}

/// Where the offset that stands at `at` leads to.
fn follow(bytes: &[u8], at: usize) -> Read<usize> {
    let off = u32::from_le_bytes(take(bytes, at)?) as usize;
    match at.checked_add(off) {
        Some(to) if off != 0 && to < bytes.len() => Ok(to),
        _ => damaged("an offset that leads outside"),
    }
}

/// The root of a buffer.
pub fn root(bytes: &[u8]) -> Read<Table<'_>> {
    Table::at(bytes, follow(bytes, 0)?)
}

impl<'a> Table<'a> {
    fn at(bytes: &'a [u8], at: usize) -> Read<Table<'a>> {
        let back = i32::from_le_bytes(take(bytes, at)?) as i64;
        let Ok(vtable) = usize::try_from(at as i64 - back) else { return damaged("a table of offsets outside") };
        let words = u16::from_le_bytes(take(bytes, vtable)?) as usize;
        let size = u16::from_le_bytes(take(bytes, vtable.saturating_add(2))?) as usize;
        if words < 4 || words % 2 != 0 || bytes.len() < vtable + words || size < 4 || bytes.len() < at + size {
            return damaged("a table outside");
        }
        Ok(Table { bytes, at, size, vtable, fields: (words - 4) / 2 })
    }

    /// Where field k stands, if it is there.
    fn field(&self, k: usize, bytes: usize) -> Read<Option<usize>> {
        if self.fields <= k {
            return Ok(None);
        }
        match u16::from_le_bytes(take(self.bytes, self.vtable + 4 + 2 * k)?) as usize {
            0 => Ok(None),
            off if off < 4 || self.size < off + bytes => damaged("a field outside its table"),
            off => Ok(Some(self.at + off)),
        }
    }

    pub fn u8(&self, k: usize) -> Read<u8> {
        self.field(k, 1)?.map_or(Ok(0), |at| Ok(take::<1>(self.bytes, at)?[0]))
    }

    pub fn i16(&self, k: usize, default: i16) -> Read<i16> {
        self.field(k, 2)?.map_or(Ok(default), |at| Ok(i16::from_le_bytes(take(self.bytes, at)?)))
    }

    pub fn i32(&self, k: usize, default: i32) -> Read<i32> {
        self.field(k, 4)?.map_or(Ok(default), |at| Ok(i32::from_le_bytes(take(self.bytes, at)?)))
    }

    pub fn i64(&self, k: usize) -> Read<i64> {
        self.field(k, 8)?.map_or(Ok(0), |at| Ok(i64::from_le_bytes(take(self.bytes, at)?)))
    }

    pub fn table(&self, k: usize) -> Read<Option<Table<'a>>> {
        self.field(k, 4)?.map(|at| Table::at(self.bytes, follow(self.bytes, at)?)).transpose()
    }

    /// A vector of elements of so many bytes; one that is not there is empty.
    pub fn vector(&self, k: usize, bytes: usize) -> Read<Vector<'a>> {
        let Some(at) = self.field(k, 4)? else { return Ok(Vector { bytes: self.bytes, at: 0, len: 0 }) };
        let at = follow(self.bytes, at)?;
        let len = u32::from_le_bytes(take(self.bytes, at)?) as usize;
        if len.checked_mul(bytes).and_then(|n| n.checked_add(at + 4)).is_none_or(|end| self.bytes.len() < end) {
            return damaged("a vector outside");
        }
        Ok(Vector { bytes: self.bytes, at: at + 4, len })
    }

    pub fn bytes(&self, k: usize) -> Read<&'a [u8]> {
        let v = self.vector(k, 1)?;
        Ok(&self.bytes[v.at..v.at + v.len])
    }

    pub fn text(&self, k: usize) -> Read<&'a str> {
        std::str::from_utf8(self.bytes(k)?).or_else(|_| damaged("a name that is not UTF-8"))
    }

    pub fn has(&self, k: usize) -> Read<bool> {
        Ok(self.field(k, 1)?.is_some())
    }
}

impl<'a> Vector<'a> {
    /// Table k of a vector of offsets.
    pub fn table(&self, k: usize) -> Read<Table<'a>> {
        Table::at(self.bytes, follow(self.bytes, self.at + 4 * k)?)
    }

    pub fn i32(&self, k: usize) -> Read<i32> {
        Ok(i32::from_le_bytes(take(self.bytes, self.at + 4 * k)?))
    }

    /// Number j of element k, where an element is n numbers of 8 bytes.
    pub fn i64(&self, k: usize, j: usize, n: usize) -> Read<i64> {
        Ok(i64::from_le_bytes(take(self.bytes, self.at + 8 * (n * k + j))?))
    }
}

/// What a buffer holds, for writing. Offsets lead forward, so that each thing is written before what it leads to.
pub enum Flat {
    Table(Vec<Cell>),
    /// Ends with a zero byte.
    Text(Vec<u8>),
    Tables(Vec<Flat>),
    Ints(Vec<i32>),
    /// Elements of so many numbers each.
    Longs(Vec<i64>, usize),
}

/// A field of a table.
pub enum Cell {
    None,
    U8(u8),
    I16(i16),
    I32(i32),
    I64(i64),
    To(Flat),
}

impl Cell {
    fn size(&self) -> usize {
        match self {
            Cell::None => 0,
            Cell::U8(_) => 1,
            Cell::I16(_) => 2,
            Cell::I32(_) | Cell::To(_) => 4,
            Cell::I64(_) => 8,
        }
    }
}

fn pad(out: &mut Vec<u8>, align: usize, ahead: usize) {
    out.resize((out.len() + ahead).next_multiple_of(align) - ahead, 0);
}

/// Writes what stands behind the offset at `from`.
fn lead(out: &mut Vec<u8>, from: usize, flat: &Flat) {
    let at = put(out, flat);
    out[from..from + 4].copy_from_slice(&((at - from) as u32).to_le_bytes());
}

fn put(out: &mut Vec<u8>, flat: &Flat) -> usize {
    match flat {
        Flat::Table(cells) => {
            // the table begins at a multiple of 8 right behind its offsets
            let mut offsets = vec![];
            let mut size = 4usize;
            for cell in cells {
                let bytes = cell.size();
                if bytes == 0 {
                    offsets.push(0);
                } else {
                    let off = size.next_multiple_of(bytes);
                    offsets.push(off);
                    size = off + bytes;
                }
            }
            let words = 4 + 2 * offsets.len();
            pad(out, 8, words);
            let vtable = out.len();
            for n in [words, size].into_iter().chain(offsets.iter().copied()) {
                out.extend((n as u16).to_le_bytes());
            }
            let at = out.len();
            out.extend(((at - vtable) as i32).to_le_bytes());
            out.resize(at + size, 0);
            for (cell, off) in cells.iter().zip(&offsets) {
                let bytes = match cell {
                    Cell::None | Cell::To(_) => continue,
                    Cell::U8(n) => n.to_le_bytes().to_vec(),
                    Cell::I16(n) => n.to_le_bytes().to_vec(),
                    Cell::I32(n) => n.to_le_bytes().to_vec(),
                    Cell::I64(n) => n.to_le_bytes().to_vec(),
                };
                out[at + off..at + off + bytes.len()].copy_from_slice(&bytes);
            }
            for (cell, off) in cells.iter().zip(&offsets) {
                if let Cell::To(flat) = cell {
                    lead(out, at + off, flat);
                }
            }
            at
        }
        Flat::Text(text) => {
            pad(out, 4, 0);
            let at = out.len();
            out.extend((text.len() as u32).to_le_bytes());
            out.extend(text);
            out.push(0);
            at
        }
        Flat::Tables(tables) => {
            pad(out, 4, 0);
            let at = out.len();
            out.extend((tables.len() as u32).to_le_bytes());
            out.resize(at + 4 + 4 * tables.len(), 0);
            tables.iter().enumerate().for_each(|(k, table)| lead(out, at + 4 + 4 * k, table));
            at
        }
        Flat::Ints(ints) => {
            pad(out, 4, 0);
            let at = out.len();
            out.extend((ints.len() as u32).to_le_bytes());
            ints.iter().for_each(|n| out.extend(n.to_le_bytes()));
            at
        }
        Flat::Longs(longs, each) => {
            pad(out, 8, 4);
            let at = out.len();
            out.extend(((longs.len() / each) as u32).to_le_bytes());
            longs.iter().for_each(|n| out.extend(n.to_le_bytes()));
            at
        }
    }
}

/// A buffer with this root, its bytes a multiple of 8.
pub fn write(flat: &Flat) -> Vec<u8> {
    let mut out = vec![0; 4];
    lead(&mut out, 0, flat);
    pad(&mut out, 8, 0);
    out
}
