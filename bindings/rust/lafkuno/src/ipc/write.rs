//! Record batches as a file.

use super::flat::{self, Cell, Flat};
use super::read::{BATCH, DICTIONARY, MAGIC, SCHEMA, VERSION};
use super::schema;
use crate::types::Kind;
use crate::{Batch, Buffer, Column, Error, Join};
use std::io::{self, Write};

/// Buffers of a body begin at multiples of this.
const ALIGN: usize = 64;

/// The nodes, buffers and counts of a record batch, with the bytes that they are about.
#[derive(Default)]
struct Parts {
    nodes: Vec<i64>,
    places: Vec<i64>,
    counts: Vec<i64>,
    body: Vec<Buffer>,
    size: usize,
}

impl Parts {
    fn buffer(&mut self, buffer: &Buffer) {
        self.places.extend([self.size as i64, buffer.len() as i64]);
        self.size += buffer.len().next_multiple_of(ALIGN);
        self.body.push(buffer.clone());
    }

    fn column(&mut self, column: &Column) {
        let kind = column.ty().kind();
        let bare = matches!(kind, Kind::Sparse | Kind::Dense | Kind::Runs);
        self.nodes.extend([column.length as i64, if bare { 0 } else { column.null_count() as i64 }]);
        if !bare {
            self.buffer(&column.validity.clone().unwrap_or_default());
        }
        column.buffers.iter().for_each(|b| self.buffer(b));
        if kind == Kind::Views {
            self.counts.push(column.data.len() as i64);
            column.data.iter().for_each(|b| self.buffer(b));
        }
        column.children.iter().for_each(|c| self.column(c));
    }

    fn table(&self, rows: u64) -> Flat {
        let counts = if self.counts.is_empty() { Cell::None } else { Cell::To(Flat::Longs(self.counts.clone(), 1)) };
        let (nodes, places) = (Cell::To(Flat::Longs(self.nodes.clone(), 2)), Cell::To(Flat::Longs(self.places.clone(), 2)));
        Flat::Table(vec![Cell::I64(rows as i64), nodes, places, Cell::None, counts])
    }
}

/// The column from its first row on, as a record batch has it: nothing stands before it.
fn plain(column: &Column) -> Result<Column, Error> {
    let moved = |c: &Column| c.offset != 0;
    fn any(column: &Column, is: &dyn Fn(&Column) -> bool) -> bool {
        is(column) || column.children.iter().chain(column.dictionary.as_deref()).any(|c| any(c, is))
    }
    let mut plain = column.clone();
    if any(column, &moved) {
        let mut join = Join::open(&[column], false)?;
        join.copy(0, 0..column.length)?;
        plain = join.finish()?.column;
    }
    settle(&mut plain)?;
    Ok(plain)
}

/// A dictionary that is kept may still begin in its middle.
fn settle(column: &mut Column) -> Result<(), Error> {
    if let Some(values) = column.dictionary.as_mut().filter(|v| v.offset != 0) {
        let mut join = Join::open(&[values], false)?;
        join.copy(0, 0..values.length)?;
        **values = join.finish()?.column;
    }
    column.children.iter_mut().try_for_each(settle)
}

fn dictionaries<'a>(column: &'a Column, out: &mut Vec<&'a Column>) {
    out.extend(column.dictionary.as_deref());
    column.dictionary.iter().for_each(|d| d.children.iter().for_each(|c| dictionaries(c, out)));
    column.children.iter().for_each(|c| dictionaries(c, out));
}

struct Writer<W: Write> {
    out: W,
    at: usize,
}

impl<W: Write> Writer<W> {
    fn bytes(&mut self, bytes: &[u8]) -> io::Result<()> {
        self.at += bytes.len();
        self.out.write_all(bytes)
    }

    /// A message; answers its block: where it begins, the bytes of its metadata, those of its body.
    fn message(&mut self, kind: u8, header: Flat, parts: &Parts) -> io::Result<[i64; 3]> {
        let start = self.at;
        let metadata = flat::write(&Flat::Table(vec![Cell::I16(VERSION), Cell::U8(kind), Cell::To(header), Cell::I64(parts.size as i64)]));
        self.bytes(&u32::MAX.to_le_bytes())?;
        self.bytes(&(metadata.len() as u32).to_le_bytes())?;
        self.bytes(&metadata)?;
        let body = self.at;
        for buffer in &parts.body {
            self.bytes(buffer)?;
            self.bytes(&[0; ALIGN][..buffer.len().next_multiple_of(ALIGN) - buffer.len()])?;
        }
        Ok([start as i64, (body - start) as i64, parts.size as i64])
    }
}

/// Writes batches of one schema, which is the first one's, as an Arrow file. Each dictionary is written once, the first batch's.
pub fn write(out: impl Write, batch: &Batch) -> Result<io::Result<()>, Error> {
    let columns = batch.columns.iter().map(plain).collect::<Result<Vec<_>, _>>()?;
    let fields = || schema::write(&columns, &batch.metadata).map_err(Error::Column);
    let header = fields()?;
    let footer = fields()?;
    Ok(put(Writer { out, at: 0 }, header, footer, &columns, batch.rows))
}

fn put<W: Write>(mut writer: Writer<W>, header: Flat, footer: Flat, columns: &[Column], rows: u64) -> io::Result<()> {
    writer.bytes(MAGIC)?;
    writer.bytes(&[0; 2])?;
    writer.message(SCHEMA, header, &Parts::default())?;
    let mut found = vec![];
    columns.iter().for_each(|c| dictionaries(c, &mut found));
    let mut blocks = vec![];
    for (id, values) in found.iter().enumerate() {
        let mut parts = Parts::default();
        parts.column(values);
        let table = Flat::Table(vec![Cell::I64(id as i64), Cell::To(parts.table(values.length)), Cell::U8(0)]);
        blocks.extend(writer.message(DICTIONARY, table, &parts)?);
    }
    let mut parts = Parts::default();
    columns.iter().for_each(|c| parts.column(c));
    let block = writer.message(BATCH, parts.table(rows), &parts)?;
    writer.bytes(&u32::MAX.to_le_bytes())?;
    writer.bytes(&[0; 4])?;
    let lists = [Cell::To(Flat::Longs(blocks, 3)), Cell::To(Flat::Longs(block.to_vec(), 3))];
    let [dictionaries, batches] = lists;
    let footer = flat::write(&Flat::Table(vec![Cell::I16(VERSION), Cell::To(footer), dictionaries, batches]));
    writer.bytes(&footer)?;
    writer.bytes(&(footer.len() as u32).to_le_bytes())?;
    writer.bytes(MAGIC)?;
    writer.out.flush()
}
