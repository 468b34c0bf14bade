//! Random types, columns that the opening takes, and orders.

use crate::random::Random;
use lafkuno::{Buffer, Column, Type};
use std::collections::HashMap;

const NUMBERS: [&str; 10] = ["c", "C", "s", "S", "i", "I", "l", "L", "f", "g"];
const STRINGS: [&str; 4] = ["z", "u", "Z", "U"];

pub struct Generate<'a> {
    pub random: &'a mut Random,
    /// The dictionary of each node that a later source may share.
    dictionaries: HashMap<usize, Column>,
    nodes: usize,
}

fn leaf(format: &str, nullable: bool) -> Type {
    Type { format: format.into(), nullable, children: vec![], dictionary: None }
}

fn width(format: &str) -> usize {
    match format {
        "s" | "S" => 2,
        "i" | "I" | "f" | "z" | "u" | "+l" | "+vl" => 4,
        "l" | "L" | "g" | "Z" | "U" | "+L" | "+vL" => 8,
        _ => 1,
    }
}

/// Whether a column of the type can have rows: a union without fields has none.
fn has_rows(ty: &Type) -> bool {
    match ty.format.as_str() {
        f if f.starts_with("+us:") => !ty.children.is_empty() && ty.children.iter().all(has_rows),
        f if f.starts_with("+ud:") => ty.children.iter().any(has_rows),
        "+r" => has_rows(&ty.children[1]),
        _ => true,
    }
}

impl<'a> Generate<'a> {
    pub fn new(random: &'a mut Random) -> Self {
        Generate { random, dictionaries: HashMap::new(), nodes: 0 }
    }

    // ---- types

    /// A type of at most 32 nodes and depth 8; now and then a chain down to depth 8, or list-views of list-views without nulls.
    pub fn ty(&mut self) -> Type {
        if self.random.chance(8) {
            return self.list_views();
        }
        let deep = self.random.chance(10);
        let mut left = if deep { 31 } else { self.random.pick(&[0, 3, 8, 31]) };
        self.node(1, &mut left, deep)
    }

    /// One to seven list-views over numbers or byte strings; nulls, if any, at one node.
    fn list_views(&mut self) -> Type {
        let r = &mut *self.random;
        let depth = 1 + r.size(7);
        let nullable = if r.chance(20) { r.size(depth) } else { depth };
        let format = if r.chance(50) { r.pick(&NUMBERS) } else { r.pick(&STRINGS) };
        let mut ty = leaf(format, nullable == 0);
        for k in 1..=depth {
            let format = r.pick(&["+vl", "+vL"]);
            ty = Type { children: vec![ty], ..leaf(format, nullable == k && k != depth) };
        }
        ty
    }

    /// A list of this format, of at most 32 nodes and depth 8.
    pub fn list(&mut self, format: &str) -> Type {
        let deep = self.random.chance(10);
        let mut left = if deep { 30 } else { self.random.pick(&[0, 3, 8, 30]) };
        let nullable = self.random.chance(60);
        Type { children: vec![self.node(2, &mut left, deep)], ..leaf(format, nullable) }
    }

    /// `left` nodes may still be made beside this one.
    fn node(&mut self, depth: usize, left: &mut usize, deep: bool) -> Type {
        let r = &mut *self.random;
        let nullable = r.chance(60);
        let nest = if deep { 90 } else { 45 };
        if depth < 8 && 2 <= *left && r.chance(nest) {
            match r.below(5) {
                kind @ (0 | 1) => {
                    *left -= 1;
                    let format = if kind == 0 { r.pick(&["+vl", "+vL"]) } else { r.pick(&["+l", "+L"]) };
                    let children = vec![self.node(depth + 1, left, deep)];
                    return Type { children, ..leaf(format, nullable) };
                }
                2 => {
                    *left -= 2;
                    let ends = r.pick(&["s", "i", "l"]);
                    let ends = leaf(ends, false);
                    let children = vec![ends, self.node(depth + 1, left, deep)];
                    return Type { children, ..leaf("+r", nullable) };
                }
                _ => {
                    let most = (*left).min(if r.chance(5) { 16 } else { 3 });
                    let fields = if r.chance(2) { 0 } else { 1 + r.size(most) };
                    *left -= fields;
                    let mut ids: Vec<u64> = vec![];
                    while ids.len() < fields {
                        let id = r.below(128);
                        if !ids.contains(&id) {
                            ids.push(id);
                        }
                    }
                    let ids: Vec<_> = ids.iter().map(u64::to_string).collect();
                    let format = format!("{}{}", r.pick(&["+us:", "+ud:"]), ids.join(","));
                    let children = (0..fields).map(|_| self.node(depth + 1, left, deep)).collect();
                    return Type { children, ..leaf(&format, nullable) };
                }
            }
        }
        if depth < 8 && 1 <= *left && r.chance(25) {
            *left -= 1;
            let keys = r.pick(&NUMBERS[..8]);
            let values = if r.chance(50) { r.pick(&NUMBERS) } else { r.pick(&STRINGS) };
            let values = leaf(values, r.chance(50));
            return Type { dictionary: Some(Box::new(values)), ..leaf(keys, nullable) };
        }
        let format = match r.below(10) {
            0..=4 => r.pick(&NUMBERS),
            5..=7 => r.pick(&STRINGS),
            _ => r.pick(&["vz", "vu"]),
        };
        leaf(format, nullable)
    }

    // ---- columns

    /// A column of `length` rows that a later one may share dictionaries with.
    pub fn column(&mut self, ty: &Type, length: u64) -> Column {
        self.nodes = 0;
        self.make(ty, length)
    }

    /// Numbers of w bytes.
    fn put(out: &mut Vec<u8>, n: u64, w: usize) {
        out.extend(&n.to_le_bytes()[..w]);
    }

    fn validity(&mut self, offset: u64, length: u64) -> Option<Buffer> {
        let r = &mut *self.random;
        let slots = (offset + length) as usize;
        let more = r.size(2);
        let mut bits = r.bytes(slots.div_ceil(8) + more);
        match r.below(10) {
            0..=4 => return None,
            5 | 6 => (offset as usize..slots).for_each(|k| bits[k / 8] |= 1 << (k % 8)),
            7 => bits.fill(0),
            _ => {}
        }
        Some(bits.into())
    }

    fn make(&mut self, ty: &Type, length: u64) -> Column {
        let node = self.nodes;
        self.nodes += 1;
        let (length, offset) = match (has_rows(ty), self.random.chance(60)) {
            (false, _) => (0, 0),
            (_, true) => (length, 0),
            _ => (length, self.random.below(20)),
        };
        let mut column = Column { format: ty.format.clone(), nullable: ty.nullable, length, offset, ..Column::default() };
        let slots = offset + length;
        let rows = offset as usize..slots as usize;
        let extra = if self.random.chance(70) { 0 } else { self.random.below(5) };
        if !ty.format.starts_with("+u") && ty.format != "+r" {
            column.validity = self.validity(offset, length);
        }
        let valid: Vec<bool> = rows.clone().map(|k| column.validity.as_ref().is_none_or(|b| b[k / 8] >> (k % 8) & 1 == 1)).collect();
        let w = width(&ty.format);
        match ty.format.as_str() {
            _ if ty.dictionary.is_some() => self.keys(&mut column, ty, node, &valid),
            "z" | "u" | "Z" | "U" => self.strings(&mut column, w),
            "vz" | "vu" => self.views(&mut column, &valid),
            "+l" | "+L" => self.lists(&mut column, ty, w),
            "+vl" | "+vL" => {
                let rows = self.random.below(40);
                let child = self.make(&ty.children[0], rows);
                let rows = child.length;
                let (mut offsets, mut sizes) = (self.random.bytes(w * offset as usize), self.random.bytes(w * offset as usize));
                let follows = self.random.below(101);
                let mut end = 0;
                for _ in 0..length {
                    let size = self.random.below(4.min(rows + 1));
                    let start = if end + size <= rows && self.random.chance(follows) { end } else { self.random.below(rows - size + 1) };
                    end = start + size;
                    Self::put(&mut offsets, start, w);
                    Self::put(&mut sizes, size, w);
                }
                offsets.extend(self.random.bytes(extra as usize));
                column.buffers = vec![offsets.into(), sizes.into()];
                column.children = vec![child];
            }
            "+r" => self.runs(&mut column, ty),
            f if f.starts_with("+us:") => {
                let ids: Vec<u8> = f[4..].split(',').filter_map(|id| id.parse().ok()).collect();
                let ids = (0..slots + extra).map(|_| if ids.is_empty() { 0 } else { self.random.pick(&ids) }).collect::<Vec<_>>();
                column.buffers = vec![ids.into()];
                for child in &ty.children {
                    let more = self.random.below(3);
                    column.children.push(self.make(child, slots + more));
                }
            }
            f if f.starts_with("+ud:") => {
                let ids: Vec<u8> = f[4..].split(',').filter_map(|id| id.parse().ok()).collect();
                for child in &ty.children {
                    let rows = 1 + self.random.below(30);
                    column.children.push(self.make(child, rows));
                }
                let homes: Vec<usize> = (0..ids.len()).filter(|c| 0 < column.children[*c].length).collect();
                let (mut types, mut positions) = (self.random.bytes(offset as usize), self.random.bytes(4 * offset as usize));
                let follows = self.random.below(101);
                let mut ends = vec![0; ids.len()];
                for _ in 0..column.length {
                    let c = self.random.pick(&homes);
                    let rows = column.children[c].length;
                    let at = if ends[c] < rows && self.random.chance(follows) { ends[c] } else { self.random.below(rows) };
                    ends[c] = at + 1;
                    types.push(ids[c]);
                    Self::put(&mut positions, at, 4);
                }
                column.buffers = vec![types.into(), positions.into()];
            }
            _ => column.buffers = vec![self.random.bytes(w * slots as usize + extra as usize).into()],
        }
        column
    }

    fn strings(&mut self, column: &mut Column, w: usize) {
        let r = &mut *self.random;
        if column.length == 0 && r.chance(30) {
            column.buffers = vec![vec![].into(), r.bytes(3).into()];
            return;
        }
        let mut end = r.below(4);
        let mut offsets = r.bytes(w * column.offset as usize);
        Self::put(&mut offsets, end, w);
        for _ in 0..column.length {
            end += r.pick(&[0, 0, 1, 3, 8, 20]);
            Self::put(&mut offsets, end, w);
        }
        let more = r.size(3);
        let data = r.bytes(end as usize + more);
        if r.chance(20) {
            offsets.extend(r.bytes(3));
        }
        column.buffers = vec![offsets.into(), data.into()];
    }

    fn lists(&mut self, column: &mut Column, ty: &Type, w: usize) {
        let rows = self.random.below(40);
        let child = self.make(&ty.children[0], rows);
        let r = &mut *self.random;
        let mut offsets = vec![];
        if column.length != 0 || r.chance(70) {
            offsets = r.bytes(w * column.offset as usize);
            let mut ends: Vec<u64> = (0..=column.length).map(|_| r.below(child.length + 1)).collect();
            ends.sort_unstable();
            if r.chance(30) {
                // short rows, and a rest that no row reaches
                ends = (0..=column.length).map(|k| (k / 2).min(child.length)).collect();
            }
            ends.iter().for_each(|end| Self::put(&mut offsets, *end, w));
            if r.chance(20) {
                offsets.extend(r.bytes(3));
            }
        }
        column.buffers = vec![offsets.into()];
        column.children = vec![child];
    }

    fn views(&mut self, column: &mut Column, valid: &[bool]) {
        let r = &mut *self.random;
        let count = r.below(4);
        let data: Vec<Vec<u8>> = (0..count).map(|_| r.bytes(40)).collect();
        let mut views = r.bytes(16 * column.offset as usize);
        for ok in valid {
            let len = r.pick(&[0, 1, 4, 11, 12, 13, 20, 30]);
            if !ok || len <= 12 || data.is_empty() {
                let mut view = r.bytes(16);
                if *ok {
                    view[..4].copy_from_slice(&(len.min(12) as u32).to_le_bytes());
                }
                views.extend(view);
                continue;
            }
            let b = r.size(data.len());
            let at = r.size(41 - len);
            for number in [len as u32, 0, b as u32, at as u32] {
                views.extend(number.to_le_bytes());
            }
            let here = views.len() - 12;
            views[here..here + 4].copy_from_slice(&data[b][at..at + 4]);
        }
        column.buffers = vec![views.into()];
        column.data = data.into_iter().map(Buffer::from).collect();
    }

    fn runs(&mut self, column: &mut Column, ty: &Type) {
        let ends_node = self.nodes;
        self.nodes += 1;
        let format = ty.children[0].format.clone();
        let w = width(&format);
        let slots = column.offset + column.length;
        let offset = if self.random.chance(60) { 0 } else { self.random.below(5) };
        let mut bytes = self.random.bytes(w * offset as usize);
        let (mut end, mut count) = (0, 0);
        let more = if has_rows(ty) { self.random.below(2) } else { 0 };
        while end < slots || count < more {
            end += 1 + self.random.below(6);
            Self::put(&mut bytes, end, w);
            count += 1;
        }
        let mut validity = self.validity(offset, count);
        if let Some(bits) = &mut validity {
            let mut all = bits.to_vec();
            (offset..offset + count).for_each(|k| all[k as usize / 8] |= 1 << (k % 8));
            *bits = all.into();
        }
        let ends =
            Column { format, nullable: ty.children[0].nullable, length: count, offset, validity, buffers: vec![bytes.into()], ..Column::default() };
        self.nodes = ends_node + 1;
        let values = self.make(&ty.children[1], count);
        column.children = vec![ends, values];
    }

    fn keys(&mut self, column: &mut Column, ty: &Type, node: usize, valid: &[bool]) {
        self.nodes += 1;
        let values = match self.dictionaries.get(&node).cloned() {
            Some(mut shared) if self.random.chance(60) => {
                // a validity without a zero bit counts as absent: still the same dictionary
                if shared.null_count() == 0 && self.random.chance(30) {
                    shared.validity = match shared.validity {
                        None => Some(vec![255; (shared.offset + shared.length).div_ceil(8) as usize].into()),
                        Some(_) => None,
                    };
                }
                shared
            }
            _ => {
                let entries = match self.random.below(20) {
                    0 => 0,
                    1 => self.random.pick(&[100, 127, 128, 129, 200, 255, 256, 257]),
                    _ => 1 + self.random.below(12),
                };
                let nodes = self.nodes;
                let made = self.make(ty.dictionary.as_ref().unwrap(), entries);
                self.nodes = nodes;
                made
            }
        };
        self.dictionaries.insert(node, values.clone());
        let w = width(&ty.format);
        let limit = values.length.min(if w == 1 { 128 << ty.format.starts_with('C') as u32 } else { u64::MAX });
        if limit == 0 {
            // no entry: every row is null
            column.validity = Some(vec![0; (column.offset + column.length).div_ceil(8) as usize].into());
        }
        let r = &mut *self.random;
        let mut keys = r.bytes(w * column.offset as usize);
        for ok in valid {
            let key = if *ok && limit != 0 { r.below(limit) } else { r.number() };
            Self::put(&mut keys, key, w);
        }
        column.buffers = vec![keys.into()];
        column.dictionary = Some(Box::new(values));
    }

    /// Several columns of one type.
    pub fn sources(&mut self, ty: &Type) -> Vec<Column> {
        let count = self.random.pick(&[1, 1, 2, 2, 3, 5, 16]);
        self.dictionaries.clear();
        (0..count)
            .map(|_| {
                let rows = self.random.pick(&[0, 1, 7, 8, 9, 30, 65]);
                self.column(ty, rows)
            })
            .collect()
    }
}

#[derive(Clone, Copy, Debug)]
pub enum Order {
    Copy { source: u32, start: u64, end: u64 },
    Nulls(u64),
}

/// Orders, some of them refused.
pub fn orders(random: &mut Random, ty: &Type, sources: &[Column]) -> Vec<Order> {
    let count = random.below(9);
    (0..count)
        .map(|_| {
            if random.chance(25) {
                let large = ty.format == "+r" && random.chance(10);
                return Order::Nulls(if large { 20000 + random.below(20000) } else { random.pick(&[0, 1, 2, 9, 17]) });
            }
            let past = random.chance(3) as u64;
            let source = random.below(sources.len() as u64 + past) as u32;
            let rows = sources.get(source as usize).map_or(1, |c| c.length);
            let (a, b) = (random.below(rows + 1), random.below(rows + 1));
            let (start, end) = if random.chance(4) { (b.max(a), a.min(b)) } else { (a.min(b), a.max(b)) };
            Order::Copy { source, start, end: end + if random.chance(3) { rows } else { 0 } }
        })
        .collect()
}
