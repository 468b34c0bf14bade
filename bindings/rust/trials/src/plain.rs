//! Copies of columns by themselves, as the requests say them: what the calls that write one column anew are held against.

use lafkuno::{Buffer, Column};

/// The bytes of an entry of a format: an offset's, a run end's, a key's or a number's.
pub fn width(format: &str) -> usize {
    match format {
        "c" | "C" => 1,
        "s" | "S" => 2,
        "l" | "L" | "g" | "Z" | "U" | "+L" | "+vL" => 8,
        "vz" | "vu" => 16,
        _ => 4,
    }
}

/// One past the largest number of an offset, a size or a run end of w bytes.
pub fn half(w: usize) -> u64 {
    1 << (8 * w - 1)
}

/// Entry k of w bytes.
pub fn entry(bytes: &[u8], k: u64, w: usize) -> u64 {
    let mut word = [0; 8];
    word[..w].copy_from_slice(&bytes[k as usize * w..(k as usize + 1) * w]);
    u64::from_le_bytes(word)
}

pub fn put(out: &mut Vec<u8>, n: u64, w: usize) {
    out.extend(&n.to_le_bytes()[..w]);
}

/// Whether slot k is valid.
pub fn valid(column: &Column, k: u64) -> bool {
    column.validity.as_ref().is_none_or(|bits| bits[k as usize / 8] >> (k % 8) & 1 == 1)
}

/// Bits as a finished array has them: none where all are ones.
pub fn validity(bits: &[bool]) -> Option<Buffer> {
    let mut bytes = vec![0u8; bits.len().div_ceil(8)];
    bits.iter().enumerate().for_each(|(k, b)| bytes[k / 8] |= (*b as u8) << (k % 8));
    (!bits.iter().all(|b| *b)).then(|| bytes.into())
}

/// A column that is named and not copied: a validity without a zero bit is dropped.
pub fn kept(column: &Column) -> Column {
    Column {
        validity: column.validity.clone().filter(|_| column.null_count() != 0),
        children: column.children.iter().map(kept).collect(),
        dictionary: column.dictionary.as_deref().map(|d| Box::new(kept(d))),
        ..column.clone()
    }
}

/// The runs that the slots s .. s + n of a run-end column touch: the first and how many; none where n is 0.
pub fn runs(column: &Column, s: u64, n: u64) -> (u64, u64) {
    let (ends, w) = (&column.children[0], width(&column.children[0].format));
    let end = |k: u64| entry(&ends.buffers[0], ends.offset + k, w);
    let first = (0..ends.length).find(|k| s < end(*k)).unwrap_or(ends.length);
    let last = (first..ends.length).find(|k| s + n <= end(*k)).map_or(ends.length, |k| k + 1);
    if n == 0 {
        (0, 0)
    } else {
        (first, last - first)
    }
}

/// Where a run ends, counted from slot s and at most n.
pub fn clipped(column: &Column, run: u64, s: u64, n: u64) -> u64 {
    let (ends, w) = (&column.children[0], width(&column.children[0].format));
    entry(&ends.buffers[0], ends.offset + run, w).min(s + n) - s
}

/// A column that grows by copies of another one's rows.
pub struct Grown<'a> {
    of: &'a Column,
    rows: u64,
    bits: Vec<bool>,
    one: Vec<u8>,
    two: Vec<u8>,
    below: Vec<Grown<'a>>,
}

impl<'a> Grown<'a> {
    pub fn new(of: &'a Column) -> Grown<'a> {
        let mut one = vec![];
        if matches!(of.format.as_str(), "z" | "u" | "Z" | "U" | "+l" | "+L") {
            put(&mut one, 0, width(&of.format));
        }
        Grown { of, rows: 0, bits: vec![], one, two: vec![], below: of.children.iter().map(Grown::new).collect() }
    }

    pub fn rows(&self) -> u64 {
        self.rows
    }

    fn raw(&mut self, s: u64, n: u64, w: usize) {
        self.one.extend(&self.of.buffers[0][s as usize * w..(s + n) as usize * w]);
    }

    /// The offsets of a stretch behind the last one: the first entry and the span, or 6.
    fn offsets(&mut self, s: u64, n: u64) -> Result<(u64, u64), u8> {
        let (w, from) = (width(&self.of.format), &self.of.buffers[0]);
        let (last, first) = (entry(&self.one, self.one.len() as u64 / w as u64 - 1, w), entry(from, s, w));
        for k in 1..=n {
            let next = last + (entry(from, s + k, w) - first);
            if half(w) <= next {
                return Err(6);
            }
            put(&mut self.one, next, w);
        }
        Ok((first, entry(from, s + n, w) - first))
    }

    /// Copies the rows start .. start + n.
    pub fn copy(&mut self, start: u64, n: u64) -> Result<(), u8> {
        let (of, s) = (self.of, self.of.offset + start);
        let (format, w) = (of.format.as_str(), width(&of.format));
        self.bits.extend((s..s + n).map(|k| valid(of, k)));
        match format {
            _ if n == 0 => {}
            _ if of.dictionary.is_some() => self.raw(s, n, w),
            "z" | "u" | "Z" | "U" => {
                let (first, span) = self.offsets(s, n)?;
                self.two.extend(&of.buffers[1][first as usize..(first + span) as usize]);
            }
            "+l" | "+L" => {
                let (first, span) = self.offsets(s, n)?;
                self.below[0].copy(first, span)?;
            }
            "+vl" | "+vL" => {
                for k in s..s + n {
                    let (offset, size, rows) = (entry(&of.buffers[0], k, w), entry(&of.buffers[1], k, w), self.below[0].rows);
                    if half(w) <= rows + size {
                        return Err(6);
                    }
                    put(&mut self.one, rows, w);
                    put(&mut self.two, size, w);
                    self.below[0].copy(offset, size)?;
                }
            }
            "+r" => {
                let (ends, w) = (self.rows, width(&of.children[0].format));
                if half(w) <= ends + n {
                    return Err(7);
                }
                let (first, count) = runs(of, s, n);
                for run in first..first + count {
                    put(&mut self.below[0].one, ends + clipped(of, run, s, n), w);
                }
                self.below[0].rows += count;
                self.below[1].copy(first, count)?;
            }
            f if f.starts_with("+us:") => {
                self.raw(s, n, 1);
                self.below.iter_mut().try_for_each(|child| child.copy(s, n))?;
            }
            f if f.starts_with("+ud:") => {
                let ids: Vec<u8> = f[4..].split(',').filter_map(|id| id.parse().ok()).collect();
                for k in s..s + n {
                    let id = of.buffers[0][k as usize];
                    let child = &mut self.below[ids.iter().position(|i| *i == id).expect("a declared id")];
                    self.one.push(id);
                    put(&mut self.two, child.rows, 4);
                    child.copy(entry(&of.buffers[1], k, 4), 1)?;
                }
            }
            _ => self.raw(s, n, w),
        }
        self.rows += n;
        Ok(())
    }

    /// The finished column; dictionaries are kept.
    pub fn finish(self) -> Column {
        let of = self.of;
        let bare = of.format.starts_with("+u") || of.format == "+r";
        let two = matches!(of.format.as_str(), "z" | "u" | "Z" | "U" | "+vl" | "+vL") || of.format.starts_with("+ud:");
        let buffers = if of.format == "+r" {
            vec![]
        } else if two {
            vec![self.one.into(), self.two.into()]
        } else {
            vec![self.one.into()]
        };
        Column {
            length: self.rows,
            offset: 0,
            validity: if bare { None } else { validity(&self.bits) },
            buffers,
            children: self.below.into_iter().map(Grown::finish).collect(),
            dictionary: of.dictionary.as_deref().map(|d| Box::new(kept(d))),
            ..of.clone()
        }
    }
}
