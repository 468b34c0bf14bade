//! Columns laid into one body and described by the tables of docs/FORMAT.md.

use crate::calls::{Position, Tables};
use crate::types::storage;
use crate::{Buffer, Column, Error, Field};
use std::collections::HashMap;

/// The tables of the sources of a join, with the body that holds every buffer.
#[derive(Clone, Debug, Default)]
pub struct Lent {
    /// 2 numbers a source: its first node, and how many it has.
    pub sources: Vec<u32>,
    /// The format strings of the nodes, as they are stored.
    pub formats: Vec<u8>,
    /// 5 numbers a node.
    pub schema: Vec<u32>,
    /// 2 numbers a node: length and offset.
    pub lengths: Vec<u64>,
    /// 9 numbers a node.
    pub places: Vec<Position>,
    /// 2 numbers a data buffer of views.
    pub buffers: Vec<Position>,
    /// Every buffer of every source.
    pub body: Buffer,
    /// What the schema says of each node beside the tables: its own format, and its field. May be shorter than the tables.
    pub fields: Vec<(String, Field)>,
}

/// Where each byte of memory that is asked for goes.
struct Layout {
    body: Buffer,
    /// Stretches of memory: first byte, one past the last, and where they begin in the body; in rising order.
    stretches: Vec<(usize, usize, usize)>,
    /// Buffers without a byte, by where they begin.
    empty: HashMap<usize, usize>,
}

fn note<'a>(column: &'a Column, all: &mut Vec<&'a Buffer>) {
    all.extend(column.validity.iter().chain(&column.buffers).chain(&column.data));
    column.dictionary.iter().for_each(|d| note(d, all));
    column.children.iter().for_each(|c| note(c, all));
}

fn buffers_of<'a>(columns: &[&'a Column]) -> Vec<&'a Buffer> {
    let mut all = vec![];
    columns.iter().for_each(|c| note(c, &mut all));
    all
}

impl Layout {
    /// The part of one owner's memory that all buffers are in.
    fn as_it_is(all: &[&Buffer]) -> Option<Layout> {
        let some = all.iter().filter(|b| !b.is_empty());
        let first = some.clone().next()?.region()?;
        let (from, to) = first.span();
        let (mut start, mut end) = (to, from);
        for buffer in some {
            let (a, b) = buffer.span();
            if a < from || to < b || buffer.region()?.span() != (from, to) {
                return None;
            }
            (start, end) = (start.min(a), end.max(b));
        }
        Some(Layout { body: first.slice(start - from, end - start)?, stretches: vec![(start, end, 0)], empty: HashMap::new() })
    }

    /// Each byte is copied once, however many buffers share it.
    fn copied(all: &[&Buffer], align: usize) -> Result<Layout, Error> {
        let mut spans: Vec<(usize, usize)> = all.iter().filter(|b| !b.is_empty()).map(|b| b.span()).collect();
        spans.sort_unstable();
        let mut stretches: Vec<(usize, usize, usize)> = vec![];
        for (a, b) in spans {
            match stretches.last_mut() {
                Some(last) if a < last.1 => last.1 = last.1.max(b),
                _ => stretches.push((a, b, 0)),
            }
        }
        let mut size = 0usize;
        for (a, b, at) in &mut stretches {
            // a stretch keeps its place between multiples of 8, so that what was aligned there is aligned here
            *at = size.next_multiple_of(align) + *a % align.min(8);
            size = *at + (*b - *a);
        }
        let mut layout = Layout { body: Buffer::default(), stretches, empty: HashMap::new() };
        // no two begin at the same place
        for buffer in all.iter().filter(|b| b.is_empty()) {
            let at = buffer.span().0;
            if layout.find(at).is_none() && !layout.empty.contains_key(&at) {
                layout.empty.insert(at, size.next_multiple_of(align));
                size = size.next_multiple_of(align) + 1;
            }
        }
        let mut body = Vec::new();
        if body.try_reserve_exact(size).is_err() {
            return Err(Error::TooLarge { bytes: size as u64 });
        }
        for (a, b, at) in &layout.stretches {
            body.resize(*at, 0);
            // each byte of a stretch is one of a buffer's
            body.extend_from_slice(unsafe { std::slice::from_raw_parts(*a as *const u8, b - a) });
        }
        body.resize(size, 0);
        layout.body = body.into();
        Ok(layout)
    }

    fn find(&self, at: usize) -> Option<usize> {
        let k = self.stretches.partition_point(|s| s.0 <= at).checked_sub(1)?;
        let (a, b, place) = self.stretches[k];
        (at < b).then_some(place + (at - a))
    }

    /// Where a buffer begins, and its bytes.
    fn place(&self, buffer: &Buffer) -> [Position; 2] {
        let at = buffer.span().0;
        let place = self.find(at).or_else(|| self.empty.get(&at).copied()).unwrap_or(0);
        [place as Position, buffer.len() as Position]
    }
}

impl Lent {
    /// Lays columns into one body. Buffers that all stand in one allocation or one mapped file are lent as they are; else the columns are
    /// trimmed, and each byte that they reach is copied once, however many share it.
    pub fn lay(columns: &[&Column]) -> Result<Lent, Error> {
        if let Some(layout) = Layout::as_it_is(&buffers_of(columns)) {
            return Lent::describe(columns, layout);
        }
        let trimmed: Vec<Column> = columns.iter().map(|c| c.trimmed()).collect();
        let columns: Vec<&Column> = trimmed.iter().collect();
        Lent::lay_aligned(&columns, 64)
    }

    /// The same with nothing trimmed: offsets, positions and children stay as they are.
    pub fn lay_whole(columns: &[&Column]) -> Result<Lent, Error> {
        match Layout::as_it_is(&buffers_of(columns)) {
            Some(layout) => Lent::describe(columns, layout),
            None => Lent::lay_aligned(columns, 64),
        }
    }

    /// All bytes of the columns copied, none trimmed, with another alignment: no buffer need be aligned.
    pub fn lay_aligned(columns: &[&Column], align: usize) -> Result<Lent, Error> {
        Lent::describe(columns, Layout::copied(&buffers_of(columns), align.max(1))?)
    }

    fn describe(columns: &[&Column], layout: Layout) -> Result<Lent, Error> {
        let mut lent = Lent::default();
        for column in columns {
            let first = lent.nodes();
            lent.node(column, &layout)?;
            lent.sources.extend([first as u32, (lent.nodes() - first) as u32]);
        }
        lent.body = layout.body;
        Ok(lent)
    }

    fn nodes(&self) -> usize {
        self.lengths.len() / 2
    }

    fn node(&mut self, column: &Column, layout: &Layout) -> Result<(), Error> {
        if 2 < column.buffers.len() {
            return Err(Error::Column(format!(
                "a column of format {} has {} buffers, and at most two are taken",
                column.format,
                column.buffers.len()
            )));
        }
        let format = if column.dictionary.is_some() { &column.format } else { storage(&column.format) };
        let (at, dictionary) = (self.formats.len() as u32, column.dictionary.is_some() as u32);
        let flags = if column.nullable { 2 } else { 0 };
        self.schema.extend([at, format.len() as u32, flags, column.children.len() as u32, dictionary]);
        self.formats.extend(format.bytes());
        self.fields.push((column.format.clone(), column.field.clone()));
        self.lengths.extend([column.length, column.offset]);
        let mut places = [0; 9];
        if let Some(validity) = &column.validity {
            places[0] = 1;
            places[1..3].copy_from_slice(&layout.place(validity));
        }
        for (k, buffer) in column.buffers.iter().enumerate() {
            places[3 + 2 * k..5 + 2 * k].copy_from_slice(&layout.place(buffer));
        }
        places[7] = (self.buffers.len() / 2) as Position;
        places[8] = column.data.len() as Position;
        column.data.iter().for_each(|b| self.buffers.extend(layout.place(b)));
        self.places.extend(places);
        column.dictionary.iter().try_for_each(|d| self.node(d, layout))?;
        column.children.iter().try_for_each(|c| self.node(c, layout))
    }

    /// The tables as calls take them.
    pub fn tables(&self) -> Tables<'_> {
        Tables {
            sources: &self.sources,
            formats: &self.formats,
            schema: &self.schema,
            lengths: &self.lengths,
            places: &self.places,
            buffers: &self.buffers,
            body: &self.body,
        }
    }
}

/// The five numbers of a node; those that the schema is too short for are zeros.
pub(crate) fn entry(schema: &[u32], i: usize) -> [u32; 5] {
    [0, 1, 2, 3, 4].map(|k| schema.get(5 * i + k).copied().unwrap_or(0))
}

/// Reads a column back out of tables that were accepted.
pub(crate) struct Raise<'a> {
    /// The type tree: that of the tables from node `first` on.
    pub x: Tables<'a>,
    pub first: usize,
    /// The tables of the column, from their node 0 on.
    pub lengths: &'a [u64],
    pub places: &'a [Position],
    pub buffers: &'a [Position],
    /// What the schema says of the type tree's nodes; may be shorter.
    pub fields: &'a [(String, Field)],
    /// The bytes of a place.
    pub take: &'a dyn Fn(usize, usize) -> Option<Buffer>,
}

impl Raise<'_> {
    /// The column whose root is node i, and where its subtree ends; None where a table does not hold it.
    pub fn column(&self, i: usize) -> Option<(Column, usize)> {
        let s = entry(self.x.schema, self.first + i);
        let format = self.x.formats.get(s[0] as usize..s[0] as usize + s[1] as usize)?;
        let format = String::from_utf8(format.to_vec()).ok()?;
        let l = self.lengths.get(2 * i..2 * i + 2)?;
        let p = self.places.get(9 * i..9 * i + 9)?;
        let buffer = |j: usize| (self.take)(p[j] as usize, p[j + 1] as usize);
        let count = match format.as_str() {
            "+r" => 0,
            "z" | "u" | "Z" | "U" | "+vl" | "+vL" => 2,
            f if f.starts_with("+ud:") => 2,
            _ => 1,
        };
        let mut column = Column { nullable: s[2] & 2 != 0, length: l[0], offset: l[1], ..Column::default() };
        column.validity = if p[0] == 0 { None } else { Some(buffer(1)?) };
        column.buffers = (0..count).map(|k| buffer(3 + 2 * k)).collect::<Option<_>>()?;
        if format.starts_with('v') {
            let named = [p[7], p[7].checked_add(p[8])?].map(|k| usize::try_from(k).ok()?.checked_mul(2));
            let named = self.buffers.get(named[0]?..named[1]?)?;
            column.data = named.chunks_exact(2).map(|b| (self.take)(b[0] as usize, b[1] as usize)).collect::<Option<_>>()?;
        }
        column.format = format;
        if let Some((format, field)) = self.fields.get(self.first + i) {
            (column.format, column.field) = (format.clone(), field.clone());
        }
        let mut end = i + 1;
        if s[4] != 0 {
            let (values, e) = self.column(end)?;
            column.dictionary = Some(Box::new(values));
            end = e;
        }
        for _ in 0..s[3] {
            let (child, e) = self.column(end)?;
            column.children.push(child);
            end = e;
        }
        Some((column, end))
    }
}

impl Lent {
    /// Where the nodes below node i end. The tables were accepted.
    pub(crate) fn below(&self, i: u32) -> u32 {
        let [.., children, dictionary] = entry(&self.schema, i as usize);
        (0..children + dictionary).fold(i + 1, |end, _| self.below(end))
    }

    /// Whether node i is a list or a list-view.
    pub(crate) fn is_list(&self, i: u32) -> bool {
        let [at, bytes, ..] = entry(&self.schema, i as usize);
        self.formats.get(at as usize..at as usize + bytes as usize).is_some_and(|f| matches!(f, b"+l" | b"+L" | b"+vl" | b"+vL"))
    }

    /// Source s as a column over the same body; None where the tables do not hold it.
    pub fn source(&self, s: usize) -> Option<Column> {
        let first = *self.sources.get(2 * s)? as usize;
        let take = |at: usize, len: usize| self.body.slice(at, len);
        let (lengths, places) = (self.lengths.get(2 * first..)?, self.places.get(9 * first..)?);
        Some(Raise { x: self.tables(), first, lengths, places, buffers: &self.buffers, fields: &self.fields, take: &take }.column(0)?.0)
    }
}
