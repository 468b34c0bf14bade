// The check of a lent column in plain Rust.

use crate::lent::Lent;

#[derive(Clone, Copy)]
pub enum Kind {
    Fixed(usize),
    Strings(usize),
    Views,
    List(usize),
    ListView(usize),
    Union { dense: bool, ids: u128 },
    Runs,
}

pub struct Node<'a> {
    pub kind: Kind,
    // Of each id: the child's node.
    pub child: [u8; 128],
    pub keys: bool,
    pub slots: std::ops::Range<usize>,
    pub valid: Option<&'a [u8]>,
}

// A signed number of a buffer.
pub trait Word: Copy + Ord + Into<i64> {
    const W: usize;
    fn numbers(s: &[u8]) -> impl Iterator<Item = Self>;
    fn read(s: &[u8]) -> Self {
        Self::numbers(&s[..Self::W]).next().unwrap()
    }
}

macro_rules! word {
    ($t:ty) => {
        impl Word for $t {
            const W: usize = size_of::<$t>();
            fn numbers(s: &[u8]) -> impl Iterator<Item = Self> {
                s.as_chunks().0.iter().map(|b| <$t>::from_le_bytes(*b))
            }
        }
    };
}

word!(i8);
word!(i16);
word!(i32);
word!(i64);

// Whether all hold. It does not stop at the first that does not, so that it can be compiled to vectors.
pub fn each(tests: impl Iterator<Item = bool>) -> bool {
    tests.fold(0, |bad, t| bad | !t as u32) == 0
}

pub fn bit(s: Option<&[u8]>, k: usize) -> bool {
    s.is_none_or(|s| s[k / 8] >> (k % 8) & 1 == 1)
}

// The format, and a union's ids in order.
pub fn parse(format: &[u8], ids: &mut Vec<u8>) -> Option<Kind> {
    ids.clear();
    Some(match format {
        b"c" | b"C" => Kind::Fixed(1),
        b"s" | b"S" => Kind::Fixed(2),
        b"i" | b"I" | b"f" => Kind::Fixed(4),
        b"l" | b"L" | b"g" => Kind::Fixed(8),
        b"z" | b"u" => Kind::Strings(4),
        b"Z" | b"U" => Kind::Strings(8),
        b"vz" | b"vu" => Kind::Views,
        b"+l" => Kind::List(4),
        b"+L" => Kind::List(8),
        b"+vl" => Kind::ListView(4),
        b"+vL" => Kind::ListView(8),
        b"+r" => Kind::Runs,
        [b'+', b'u', mode @ (b's' | b'd'), b':', list @ ..] => {
            let mut set = 0;
            for part in list.split(|b| *b == b',').take_while(|_| !list.is_empty()) {
                if !(1..=3).contains(&part.len()) || !part.iter().all(u8::is_ascii_digit) {
                    return None;
                }
                let id = part.iter().fold(0, |n, d| 10 * n + (d - b'0') as usize);
                if 127 < id || set >> id & 1 == 1 {
                    return None;
                }
                set |= 1 << id;
                ids.push(id as u8);
            }
            Kind::Union { dense: *mode == b'd', ids: set }
        }
        _ => return None,
    })
}

// A column that is checked, with where each node's subtree ends.
pub struct Check<'a> {
    pub lent: &'a Lent,
    pub ends: [usize; 33],
}

impl<'a> Check<'a> {
    pub fn below(&self, i: usize) -> u32 {
        let s = &self.lent.schema[5 * i..5 * i + 5];
        if s[4] == 1 { 1 } else { s[3] }
    }

    // Where node i's subtree ends.
    pub fn shape(&mut self, i: usize, depth: usize) -> Option<usize> {
        if 8 < depth || 32 <= i || self.lent.nodes() <= i {
            return None;
        }
        let mut end = i + 1;
        for _ in 0..self.below(i) {
            end = self.shape(end, depth + 1)?;
        }
        self.ends[i] = end;
        Some(end)
    }

    pub fn format(&self, i: usize) -> &'a [u8] {
        let s = &self.lent.schema[5 * i..5 * i + 2];
        self.lent.formats.get(s[0] as usize..(s[0] + s[1]) as usize).unwrap_or(&[])
    }

    pub fn slots(&self, i: usize) -> Option<std::ops::Range<usize>> {
        let (length, offset) = (self.lent.lengths[2 * i], self.lent.lengths[2 * i + 1]);
        let end = length.checked_add(offset).filter(|e| *e < 1 << 63)?;
        Some(offset as usize..end as usize)
    }

    pub fn place(&self, i: usize, j: usize) -> Option<&'a [u8]> {
        let p = &self.lent.places[9 * i + j..9 * i + j + 2];
        self.lent.part(p)
    }

    // The entries of w bytes up to the last slot, and one more for offsets.
    pub fn entries(&self, i: usize, j: usize, w: usize, n: usize) -> Option<&'a [u8]> {
        self.place(i, j)?.get(..n.checked_mul(w)?)
    }

    pub fn typed(&self, i: usize, ids: &mut Vec<u8>) -> Option<Node<'a>> {
        let kind = parse(self.format(i), ids)?;
        let keys = self.lent.schema[5 * i + 4] == 1;
        let fits = match kind {
            _ if keys => {
                let values = parse(self.format(i + 1), &mut vec![])?;
                let plain = matches!(values, Kind::Fixed(_) | Kind::Strings(_)) && self.below(i + 1) == 0;
                plain && matches!(kind, Kind::Fixed(_)) && !matches!(self.format(i), b"f" | b"g")
            }
            Kind::Union { .. } => self.below(i) as usize == ids.len(),
            Kind::List(_) | Kind::ListView(_) => self.below(i) == 1,
            Kind::Runs => self.below(i) == 2 && matches!(self.format(i + 1), b"s" | b"i" | b"l") && self.below(i + 1) == 0,
            _ => self.below(i) == 0,
        };
        let mut child = [0; 128];
        let mut c = i + 1;
        for id in ids.iter() {
            child[*id as usize] = c as u8;
            c = self.ends[c];
        }
        let valid = if self.lent.places[9 * i] == 0 { None } else { Some(&[][..]) };
        Some(Node { kind, child, keys, slots: self.slots(i)?, valid }).filter(|_| fits)
    }

    pub fn rows(&self, i: usize) -> usize {
        self.lent.lengths[2 * i] as usize
    }

    pub fn obeys(&self, i: usize, mut node: Node<'a>) -> Option<bool> {
        let end = node.slots.end;
        if node.valid.is_some() {
            let valid = self.place(i, 1)?.get(..end.div_ceil(8))?;
            node.valid = Some(valid);
        }
        match node.kind {
            Kind::Fixed(w) => {
                let values = self.entries(i, 3, w, end)?;
                Some(match w {
                    _ if !node.keys => true,
                    1 => self.keys::<i8>(i, values, &node),
                    2 => self.keys::<i16>(i, values, &node),
                    4 => self.keys::<i32>(i, values, &node),
                    _ => self.keys::<i64>(i, values, &node),
                })
            }
            Kind::Strings(4) => self.offsets::<i32>(i, &node, self.place(i, 5)?.len()),
            Kind::Strings(_) => self.offsets::<i64>(i, &node, self.place(i, 5)?.len()),
            Kind::Views => self.views(i, &node),
            Kind::List(4) => self.offsets::<i32>(i, &node, self.rows(i + 1)),
            Kind::List(_) => self.offsets::<i64>(i, &node, self.rows(i + 1)),
            Kind::ListView(4) => self.list_views::<i32>(i, &node),
            Kind::ListView(_) => self.list_views::<i64>(i, &node),
            Kind::Union { dense, ids } => self.unions(i, &node, dense, ids),
            Kind::Runs => match self.format(i + 1) {
                b"s" => self.runs::<i16>(i, &node),
                b"i" => self.runs::<i32>(i, &node),
                _ => self.runs::<i64>(i, &node),
            },
        }
    }

    pub fn keys<T: Word>(&self, i: usize, values: &[u8], node: &Node) -> bool {
        let size = self.rows(i + 1) as u64;
        // A negative key of 64 bits is above every length; an unsigned one below 64 bits is read modulo its width.
        let mask = if self.format(i)[0].is_ascii_lowercase() { u64::MAX } else { u64::MAX >> (64 - 8 * T::W) };
        let fits = |key: T| (key.into() as u64 & mask) < size;
        let keys = T::numbers(&values[T::W * node.slots.start..]);
        match node.valid {
            None => each(keys.map(fits)),
            Some(_) => each(keys.zip(node.slots.clone()).map(|(key, k)| fits(key) | !bit(node.valid, k))),
        }
    }

    // Offsets up to `most`: of byte strings and of lists.
    pub fn offsets<T: Word>(&self, i: usize, node: &Node, most: usize) -> Option<bool> {
        let offsets = self.place(i, 3)?;
        if node.slots.is_empty() && offsets.is_empty() {
            return Some(true);
        }
        let offsets = &offsets.get(..(node.slots.end + 1).checked_mul(T::W)?)?[T::W * node.slots.start..];
        let rising = each(T::numbers(offsets).zip(T::numbers(&offsets[T::W..])).map(|(a, b)| a <= b));
        let (first, last) = (T::read(offsets), T::read(&offsets[offsets.len() - T::W..]));
        Some(0 <= first.into() && rising && last.into() <= most as i64)
    }

    pub fn views(&self, i: usize, node: &Node) -> Option<bool> {
        let views = self.entries(i, 3, 16, node.slots.end)?;
        let (a, n) = (self.lent.places[9 * i + 7] as usize, self.lent.places[9 * i + 8] as usize);
        let places = self.lent.buffers.get(a.checked_mul(2)?..a.checked_add(n)?.checked_mul(2)?)?;
        let mut datas: [&[u8]; 32] = [&[]; 32];
        for (d, p) in datas.iter_mut().zip(places.chunks_exact(2)) {
            *d = self.lent.part(p)?;
        }
        let good = |v: &[u8]| {
            let word = |at: usize| i32::read(&v[at..]) as u32 as usize;
            let (len, buffer, at) = (word(0), word(8), word(12));
            if len <= 12 {
                return true;
            }
            let shown = datas[..n].get(buffer).and_then(|d| d.get(at..at + len));
            len < 1 << 31 && shown.is_some_and(|s| s[..4] == v[4..8])
        };
        let rows = views[16 * node.slots.start..].chunks_exact(16).zip(node.slots.clone());
        Some(rows.into_iter().all(|(v, k)| !bit(node.valid, k) || good(v)))
    }

    pub fn list_views<T: Word>(&self, i: usize, node: &Node) -> Option<bool> {
        let offsets = &self.entries(i, 3, T::W, node.slots.end)?[T::W * node.slots.start..];
        let sizes = &self.entries(i, 5, T::W, node.slots.end)?[T::W * node.slots.start..];
        let child = self.rows(i + 1) as i64;
        Some(each(T::numbers(offsets).zip(T::numbers(sizes)).map(|(o, s)| {
            let (o, s): (i64, i64) = (o.into(), s.into());
            (0 <= o) & (0 <= s) & (s <= child.wrapping_sub(o))
        })))
    }

    pub fn unions(&self, i: usize, node: &Node, dense: bool, ids: u128) -> Option<bool> {
        let types = &self.entries(i, 3, 1, node.slots.end)?[node.slots.start..];
        if node.valid.is_some() {
            return Some(false);
        }
        let declared = |id: usize| id < 128 && ids >> id & 1 == 1;
        if dense {
            let positions = &self.entries(i, 5, 4, node.slots.end)?[4 * node.slots.start..];
            let mut sizes = [0; 256];
            for id in (0..128).filter(|id| declared(*id)) {
                sizes[id] = self.rows(node.child[id] as usize).min(1 << 31) as u32;
            }
            return Some(each(types.iter().zip(i32::numbers(positions)).map(|(t, p)| (p as u32) < sizes[*t as usize])));
        }
        let mut c = i + 1;
        while c < self.ends[i] {
            if self.rows(c) < node.slots.end {
                return Some(false);
            }
            c = self.ends[c];
        }
        let known: [bool; 256] = std::array::from_fn(declared);
        Some(each(types.iter().map(|t| known[*t as usize])))
    }

    pub fn runs<T: Word>(&self, i: usize, node: &Node) -> Option<bool> {
        let slots = self.slots(i + 1)?;
        let ends = &self.entries(i + 1, 3, T::W, slots.end)?[T::W * slots.start..];
        let valid = if self.lent.places[9 * (i + 1)] == 0 { None } else { Some(self.place(i + 1, 1)?.get(..slots.end.div_ceil(8))?) };
        if node.valid.is_some() || self.rows(i + 2) != slots.len() || !slots.clone().all(|k| bit(valid, k)) {
            return Some(false);
        }
        if ends.is_empty() {
            return Some(node.slots.end == 0);
        }
        let rising = each(T::numbers(ends).zip(T::numbers(&ends[T::W..])).map(|(a, b)| a < b));
        let (first, last) = (T::read(ends), T::read(&ends[ends.len() - T::W..]));
        Some(1 <= first.into() && rising && node.slots.end as i64 <= last.into())
    }
}

#[inline(never)]
pub fn plain_ground(lent: &Lent) -> u8 {
    let n = lent.nodes();
    let mut check = Check { lent, ends: [0; 33] };
    if check.shape(0, 1) != Some(n) || (0..n).any(|i| check.slots(i).is_none()) {
        return 9;
    }
    let mut ids = Vec::with_capacity(16);
    let many = |i: usize| matches!(check.format(i), b"vz" | b"vu") && 32 < lent.places[9 * i + 8];
    if (0..n).any(many) {
        return 9;
    }
    if (0..n).any(|i| check.typed(i, &mut ids).is_none()) {
        return 10;
    }
    let obeys = |i: usize| check.typed(i, &mut ids).and_then(|node| check.obeys(i, node));
    if (0..n).map(obeys).all(|r| r == Some(true)) { 0 } else { 12 }
}
