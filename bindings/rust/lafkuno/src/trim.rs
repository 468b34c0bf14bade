//! The same rows over only the bytes that they reach.

use crate::types::Kind;
use crate::{Buffer, Column};

/// Entries of w bytes, each less by `by` (modulo 2 to the power of their width).
fn less(entries: &[u8], w: usize, by: u64) -> Buffer {
    let mut out = Vec::with_capacity(entries.len());
    match w {
        4 => entries.chunks_exact(4).for_each(|e| out.extend(u32::from_le_bytes([e[0], e[1], e[2], e[3]]).wrapping_sub(by as u32).to_le_bytes())),
        _ => entries.chunks_exact(8).for_each(|e| out.extend(u64::from_le_bytes(e.try_into().unwrap_or_default()).wrapping_sub(by).to_le_bytes())),
    }
    out.into()
}

/// An entry of 4 or 8 bytes that is not negative.
fn natural(entries: &[u8], k: u64, w: usize) -> Option<u64> {
    let bytes = entries.get(k as usize * w..)?;
    if w == 4 {
        u64::try_from(i32::from_le_bytes(*bytes.first_chunk()?)).ok()
    } else {
        u64::try_from(i64::from_le_bytes(*bytes.first_chunk()?)).ok()
    }
}

fn part(buffer: &Buffer, start: u64, len: u64) -> Option<Buffer> {
    buffer.slice(usize::try_from(start).ok()?, usize::try_from(len).ok()?)
}

/// First and one past the last of what is reached.
#[derive(Clone, Copy)]
struct Reach(u64, u64);

impl Reach {
    const NONE: Reach = Reach(u64::MAX, 0);

    fn add(&mut self, start: u64, end: u64) {
        *self = Reach(self.0.min(start), self.1.max(end));
    }

    fn start(self) -> u64 {
        self.0.min(self.1)
    }
}

/// The window of a node: which slots are left out, and how many stand before and with the rows.
struct Window<'a> {
    column: &'a Column,
    cut: u64,
    offset: u64,
    length: u64,
}

impl Window<'_> {
    fn slots(&self) -> u64 {
        self.offset + self.length
    }

    /// The entries of a buffer of w bytes a slot.
    fn entries(&self, k: usize, w: usize, more: u64) -> Option<Buffer> {
        part(self.column.buffers.get(k)?, self.cut * w as u64, (self.slots() + more) * w as u64)
    }

    fn strings(&self, out: &mut Column) -> Option<()> {
        let (w, data) = (self.column.ty().width(), self.column.buffers.get(1)?);
        if self.length == 0 {
            // there may be no offsets, or all that are due
            if !self.column.buffers.first()?.is_empty() {
                self.entries(0, w, 1)?;
            }
            out.buffers = vec![Buffer::default(), Buffer::default()];
            (out.offset, out.validity) = (0, None);
            return Some(());
        }
        let offsets = self.entries(0, w, 1)?;
        let (first, last) = (natural(&offsets, self.offset, w)?, natural(&offsets, self.slots(), w)?);
        // only what saves more than the offsets take is left out at the front
        let skipped = if (offsets.len() as u64) < first { first } else { 0 };
        let bytes = part(data, skipped, last.checked_sub(first)? + (first - skipped))?;
        out.buffers = vec![if skipped == 0 { offsets } else { less(&offsets, w, skipped) }, bytes];
        Some(())
    }

    fn views(&self, out: &mut Column) -> Option<()> {
        let views = self.entries(0, 16, 0)?;
        let mut reach = vec![Reach::NONE; self.column.data.len()];
        let long = |k: u64| {
            let view = &views[16 * k as usize..][..16];
            let [len, buffer, offset] = [0, 8, 12].map(|j| u32::from_le_bytes([view[j], view[j + 1], view[j + 2], view[j + 3]]));
            (12 < len && out.valid(k) != Some(false)).then_some((len as u64, buffer as usize, offset as u64))
        };
        for (len, buffer, offset) in (self.offset..self.slots()).filter_map(long) {
            let bytes = self.column.data.get(buffer)?.len() as u64;
            if bytes < offset + len {
                return None;
            }
            reach[buffer].add(offset, offset + len);
        }
        let skipped: u64 = reach.iter().map(|r| r.start()).sum();
        let rewrite = (views.len() as u64) < skipped;
        let mut moved = if rewrite { views.to_vec() } else { vec![] };
        if rewrite {
            for k in self.offset..self.slots() {
                if let Some((_, buffer, offset)) = long(k) {
                    moved[16 * k as usize + 12..][..4].copy_from_slice(&((offset - reach[buffer].0) as u32).to_le_bytes());
                }
            }
        }
        let data = |(buffer, r): (&Buffer, &Reach)| {
            let start = if rewrite { r.start() } else { 0 };
            part(buffer, start, r.1 - start)
        };
        out.data = self.column.data.iter().zip(&reach).map(data).collect::<Option<_>>()?;
        out.buffers = vec![if rewrite { moved.into() } else { views }];
        Some(())
    }

    fn lists(&self, out: &mut Column) -> Option<()> {
        let (w, child) = (self.column.ty().width(), self.column.children.first()?);
        if self.length == 0 {
            // as byte strings without rows
            if !self.column.buffers.first()?.is_empty() {
                self.entries(0, w, 1)?;
            }
            (out.buffers, out.children) = (vec![Buffer::default()], vec![child.window(0, 0)]);
            (out.offset, out.validity) = (0, None);
            return Some(());
        }
        let offsets = self.entries(0, w, 1)?;
        let (first, last) = (natural(&offsets, self.offset, w)?, natural(&offsets, self.slots(), w)?);
        let rows = last.checked_sub(first).filter(|_| last <= child.length)?;
        let skipped = if self.slots() < first { first } else { 0 };
        out.buffers = vec![if skipped == 0 { offsets } else { less(&offsets, w, skipped) }];
        out.children = vec![child.window(skipped, rows + (first - skipped))];
        Some(())
    }

    fn list_views(&self, out: &mut Column) -> Option<()> {
        let (w, child) = (self.column.ty().width(), self.column.children.first()?);
        let (offsets, sizes) = (self.entries(0, w, 0)?, self.entries(1, w, 0)?);
        // rows of empty lists lead to no child's row, and are within it all the same
        let (mut reach, mut top) = (Reach::NONE, 0);
        for k in self.offset..self.slots() {
            let (start, size) = (natural(&offsets, k, w)?, natural(&sizes, k, w)?);
            let end = start.checked_add(size).filter(|end| *end <= child.length)?;
            top = top.max(end);
            if size != 0 {
                reach.add(start, end);
            }
        }
        if self.slots() < reach.start() {
            let mut moved = less(&offsets, w, reach.0).to_vec();
            for k in self.offset..self.slots() {
                if natural(&sizes, k, w) == Some(0) {
                    moved[k as usize * w..][..w].fill(0);
                }
            }
            out.buffers = vec![moved.into(), sizes];
            out.children = vec![child.window(reach.0, reach.1 - reach.0)];
        } else {
            out.buffers = vec![offsets, sizes];
            out.children = vec![child.window(0, top)];
        }
        Some(())
    }

    fn dense(&self, out: &mut Column) -> Option<()> {
        let (ids, positions) = (self.entries(0, 1, 0)?, self.entries(1, 4, 0)?);
        let children = &self.column.children;
        let mut by_id = [usize::MAX; 256];
        self.column.ty().ids().iter().enumerate().for_each(|(c, id)| by_id[*id as usize] = c);
        let mut reach = vec![Reach::NONE; children.len()];
        for k in self.offset..self.slots() {
            let c = by_id[*ids.get(k as usize)? as usize];
            let position = natural(&positions, k, 4).filter(|p| children.get(c).is_some_and(|child| *p < child.length))?;
            reach.get_mut(c)?.add(position, position + 1);
        }
        let skipped: u64 = reach.iter().map(|r| r.start()).sum();
        let rewrite = self.slots() < skipped;
        let mut moved = if rewrite { positions.to_vec() } else { vec![] };
        if rewrite {
            for k in self.offset..self.slots() {
                let r = reach[by_id[ids[k as usize] as usize]];
                moved[4 * k as usize..][..4].copy_from_slice(&((natural(&positions, k, 4)? - r.0) as u32).to_le_bytes());
            }
        }
        out.buffers = vec![ids, if rewrite { moved.into() } else { positions }];
        let child = |(child, r): (&Column, &Reach)| if rewrite { child.window(r.start(), r.1 - r.start()) } else { child.window(0, r.1) };
        out.children = children.iter().zip(&reach).map(child).collect();
        Some(())
    }
}

impl Column {
    /// The same rows over only the bytes that they reach, in the same memory: buffers begin at the slice's first row or at most seven
    /// before it. Offsets, positions and views are copied where that leaves more out. Run-end columns and dictionaries stay as they are,
    /// and so does whatever breaks a rule.
    pub fn trimmed(&self) -> Column {
        self.window(0, self.length)
    }

    /// Rows of it, trimmed; they are within its length.
    fn window(&self, start: u64, length: u64) -> Column {
        let slot = self.offset.saturating_add(start);
        let untouched = || Column { offset: slot, length, ..self.clone() };
        slot.checked_add(length).filter(|end| *end < 1 << 40).and_then(|_| self.cut(slot, length)).unwrap_or_else(untouched)
    }

    fn cut(&self, slot: u64, length: u64) -> Option<Column> {
        let kind = self.ty().kind();
        let cut = if kind == Kind::Sparse { slot } else { slot & !7 };
        let window = Window { column: self, cut, offset: slot - cut, length };
        let (format, nullable, field) = (self.format.clone(), self.nullable, self.field.clone());
        let mut out = Column { format, nullable, field, length, offset: window.offset, ..Column::default() };
        if let Some(bits) = &self.validity {
            out.validity = Some(part(bits, cut / 8, window.slots().div_ceil(8))?);
        }
        match kind {
            Kind::Fixed | Kind::Dictionary => {
                out.buffers = vec![window.entries(0, self.ty().width(), 0)?];
                (out.children, out.dictionary) = (self.children.clone(), self.dictionary.clone());
            }
            Kind::Strings => window.strings(&mut out)?,
            Kind::Views => window.views(&mut out)?,
            Kind::List => window.lists(&mut out)?,
            Kind::ListView => window.list_views(&mut out)?,
            Kind::Dense => window.dense(&mut out)?,
            Kind::Sparse => {
                out.buffers = vec![window.entries(0, 1, 0)?];
                let child = |c: &Column| (slot + length <= c.length).then(|| c.window(slot, length));
                out.children = self.children.iter().map(child).collect::<Option<_>>()?;
            }
            Kind::Runs | Kind::Other => return None,
        }
        // what a kind does not have, it would not have lost
        (out.buffers.len() == self.buffers.len() && out.data.len() == self.data.len() && out.children.len() == self.children.len()).then_some(out)
    }
}
