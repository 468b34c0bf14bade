//! Files and streams of record batches.

use super::flat::{self, Read, Table, Vector};
use super::schema::{self, Schema, Shape};
use crate::types::Kind;
use crate::{Batch, Buffer, Column};
use std::collections::HashMap;

pub const MAGIC: &[u8; 6] = b"ARROW1";
/// MetadataVersion.V5
pub const VERSION: i16 = 4;
pub const SCHEMA: u8 = 1;
pub const DICTIONARY: u8 = 2;
pub const BATCH: u8 = 3;

/// A message: its table, and where its body is.
struct Message<'a> {
    kind: u8,
    header: Table<'a>,
    body: (usize, usize),
    /// Where the next one begins.
    end: usize,
}

fn word(bytes: &[u8], at: usize) -> Option<u32> {
    bytes.get(at..).and_then(|b| b.first_chunk()).map(|w| u32::from_le_bytes(*w))
}

/// The message at a place; None where the stream ends there.
fn message(bytes: &[u8], at: usize) -> Read<Option<Message<'_>>> {
    if at == bytes.len() {
        return Ok(None);
    }
    let (Some(mark), Some(size)) = (word(bytes, at), word(bytes, at + 4)) else { return Err("the stream ends inside a message".into()) };
    if mark != u32::MAX {
        return Err("a message begins without its mark: the stream is damaged, or of the format before Arrow 0.15, which is not read".into());
    }
    if size == 0 {
        return Ok(None);
    }
    let Some(metadata) = bytes.get(at + 8..).and_then(|b| b.get(..size as usize)) else { return Err("a message is longer than the file".into()) };
    let table = flat::root(metadata)?;
    version(table.i16(0, 0)?)?;
    let Some(header) = table.table(2)? else { return Err("a message without a header".into()) };
    let (start, len) = (at + 8 + size as usize, table.i64(3)?);
    let end = usize::try_from(len).ok().and_then(|len| start.checked_add(len)).filter(|end| *end <= bytes.len());
    let Some(end) = end else { return Err(format!("a body of {len} bytes is longer than the file")) };
    Ok(Some(Message { kind: table.u8(1)?, header, body: (start, end), end }))
}

fn version(n: i16) -> Read<()> {
    if n == VERSION {
        return Ok(());
    }
    Err(format!("metadata of version {}, and version 5 is read", n as i32 + 1))
}

/// What reading has come to.
struct State {
    bytes: Buffer,
    schema: Schema,
    dictionaries: HashMap<i64, Column>,
    batches: Vec<Batch>,
}

/// Takes the nodes and buffers of one record batch, in their order.
struct Batches<'a> {
    state: &'a State,
    body: (usize, usize),
    nodes: Vector<'a>,
    buffers: Vector<'a>,
    counts: Vector<'a>,
    next: [usize; 3],
}

impl Batches<'_> {
    fn buffer(&mut self) -> Read<Buffer> {
        let k = self.next[1];
        if self.buffers.len <= k {
            return Err("a record batch has too few buffers".into());
        }
        self.next[1] += 1;
        let (offset, len) = (self.buffers.i64(k, 0, 2)?, self.buffers.i64(k, 1, 2)?);
        let place = usize::try_from(offset).ok().zip(usize::try_from(len).ok());
        let place = place.filter(|(at, len)| at.checked_add(*len).is_some_and(|end| end <= self.body.1 - self.body.0));
        let found = place.and_then(|(at, len)| self.state.bytes.slice(self.body.0 + at, len));
        found.ok_or_else(|| format!("buffer {k} is {len} bytes from {offset} on, and the body has {}", self.body.1 - self.body.0))
    }

    fn column(&mut self, shape: &Shape) -> Read<Column> {
        let name = &shape.column.field.name;
        let k = self.next[0];
        if self.nodes.len <= k {
            return Err("a record batch has too few nodes".into());
        }
        self.next[0] += 1;
        let (length, nulls) = (self.nodes.i64(k, 0, 2)?, self.nodes.i64(k, 1, 2)?);
        let mut column = shape.column.clone();
        column.length = u64::try_from(length).map_err(|_| format!("field `{name}` has {length} rows"))?;
        let kind = if shape.values.is_some() { Kind::Dictionary } else { column.ty().kind() };
        let format = column.format.as_str();
        let bare = matches!(kind, Kind::Sparse | Kind::Dense | Kind::Runs) || format == "n";
        if !bare {
            let bits = self.buffer()?;
            if nulls != 0 {
                column.validity = Some(bits);
            }
        }
        let count = match kind {
            Kind::Fixed | Kind::Dictionary | Kind::List | Kind::Sparse | Kind::Views => 1,
            Kind::Strings | Kind::ListView | Kind::Dense => 2,
            Kind::Runs => 0,
            Kind::Other if ["n", "+s"].contains(&format) || format.starts_with("+w:") => 0,
            Kind::Other => 1,
        };
        for _ in 0..count {
            column.buffers.push(self.buffer()?);
        }
        if kind == Kind::Views {
            let k = self.next[2];
            if self.counts.len <= k {
                return Err("a record batch does not say how many data buffers its views have".into());
            }
            self.next[2] += 1;
            for _ in 0..self.counts.i64(k, 0, 1)? {
                let data = self.buffer()?;
                column.data.push(data);
            }
        }
        if let Some(id) = shape.dictionary {
            let values = self.state.dictionaries.get(&id).ok_or_else(|| format!("field `{name}`: dictionary {id} is not there"))?;
            column.dictionary = Some(Box::new(values.clone()));
        }
        column.children = shape.children.iter().map(|c| self.column(c)).collect::<Read<_>>()?;
        Ok(column)
    }

    fn done(&self) -> Read<()> {
        if self.next == [self.nodes.len, self.buffers.len, self.counts.len] {
            return Ok(());
        }
        Err(format!(
            "a record batch has {} nodes and {} buffers, and the schema asks for {} and {}",
            self.nodes.len, self.buffers.len, self.next[0], self.next[1]
        ))
    }
}

impl State {
    /// The columns of a record batch.
    fn columns(&self, table: &Table, body: (usize, usize), shapes: &[&Shape]) -> Read<(u64, Vec<Column>)> {
        if table.has(3)? {
            return Err("the body is compressed, which is not read: write it without compression".into());
        }
        let (nodes, buffers, counts) = (table.vector(1, 16)?, table.vector(2, 16)?, table.vector(4, 8)?);
        let mut batch = Batches { state: self, body, nodes, buffers, counts, next: [0; 3] };
        let columns = shapes.iter().map(|s| batch.column(s)).collect::<Read<Vec<_>>>()?;
        batch.done()?;
        let length = table.i64(0)?;
        let rows = u64::try_from(length).map_err(|_| format!("a record batch of {length} rows"))?;
        match columns.iter().find(|c| c.length != rows) {
            Some(c) => Err(format!("column `{}` has {} rows in a record batch of {rows}", c.field.name, c.length)),
            None => Ok((rows, columns)),
        }
    }

    fn take(&mut self, message: &Message) -> Read<()> {
        match message.kind {
            BATCH => {
                let shapes: Vec<&Shape> = self.schema.fields.iter().collect();
                let (rows, columns) = self.columns(&message.header, message.body, &shapes)?;
                self.batches.push(Batch { rows, columns, metadata: self.schema.metadata.clone() });
            }
            DICTIONARY => {
                let id = message.header.i64(0)?;
                if message.header.u8(2)? != 0 {
                    return Err(format!("dictionary {id} grows by a delta, which is not read"));
                }
                let Some(data) = message.header.table(1)? else { return Err(format!("dictionary {id} has no data")) };
                let Some(values) = self.schema.fields.iter().find_map(|s| values_of(s, id)) else {
                    return Err(format!("dictionary {id} is none of the schema's"));
                };
                let (_, mut columns) = self.columns(&data, message.body, &[values])?;
                self.dictionaries.insert(id, columns.remove(0));
            }
            SCHEMA => return Err("a second schema".into()),
            n => return Err(format!("a message of kind {n}: only schemas, dictionaries and record batches are read")),
        }
        Ok(())
    }
}

/// The values of a dictionary by its number.
fn values_of(shape: &Shape, id: i64) -> Option<&Shape> {
    let values = shape.values.as_deref();
    if shape.dictionary == Some(id) {
        return values;
    }
    values.into_iter().chain(&shape.children).find_map(|s| values_of(s, id))
}

fn stream(bytes: Buffer) -> Read<State> {
    let first = message(&bytes, 0)?.ok_or("the stream has no schema")?;
    if first.kind != SCHEMA {
        return Err("the stream does not begin with a schema".into());
    }
    let mut at = first.end;
    let schema = schema::read(&first.header)?;
    let mut state = State { bytes: bytes.clone(), schema, dictionaries: HashMap::new(), batches: vec![] };
    while let Some(message) = message(&bytes, at)? {
        state.take(&message)?;
        at = message.end;
    }
    Ok(state)
}

/// A file: its footer names where every message is.
fn file(bytes: Buffer) -> Read<State> {
    let last = bytes.len().checked_sub(10).filter(|last| 8 <= *last && &bytes[last + 4..] == MAGIC);
    let Some(last) = last else { return Err("the file does not end as an Arrow file: it is cut off or damaged".into()) };
    let size = word(&bytes, last).unwrap_or(0) as usize;
    let Some(start) = last.checked_sub(size).filter(|start| 8 <= *start) else { return Err(format!("a footer of {size} bytes")) };
    let footer = flat::root(&bytes[start..last])?;
    version(footer.i16(0, 0)?)?;
    let Some(table) = footer.table(1)? else { return Err("a footer without a schema".into()) };
    let schema = schema::read(&table)?;
    // messages stand before the footer
    let before = &bytes[..start];
    let mut state = State { bytes: bytes.clone(), schema, dictionaries: HashMap::new(), batches: vec![] };
    for (k, kind) in [(2, DICTIONARY), (3, BATCH)] {
        let blocks = footer.vector(k, 24)?;
        let mut past = 8;
        for b in 0..blocks.len {
            let (offset, metadata, body) = (blocks.i64(b, 0, 3)?, blocks.i64(b, 1, 3)? as i32, blocks.i64(b, 2, 3)?);
            // blocks stand one behind the other
            let at = usize::try_from(offset).ok().filter(|at| past <= *at && *at < start);
            let found = at.map_or(Ok(None), |at| message(before, at))?;
            let (Some(at), Some(message)) = (at, found) else { return Err(format!("block {b} begins at {offset}, where no message is")) };
            let (from, to) = message.body;
            if message.kind != kind || from - at != metadata as usize || to - from != body as usize {
                return Err(format!("block {b} is not the message that the footer says"));
            }
            state.take(&message)?;
            past = message.end;
        }
    }
    Ok(state)
}

/// Columns without rows, for a schema whose file has no batch.
fn empty(shape: &Shape) -> Column {
    let mut column = shape.column.clone();
    column.dictionary = shape.values.as_ref().map(|v| Box::new(empty(v)));
    column.children = shape.children.iter().map(empty).collect();
    let count = match column.ty().kind() {
        Kind::Runs => 0,
        Kind::Strings | Kind::ListView | Kind::Dense => 2,
        _ => 1,
    };
    column.buffers = vec![Buffer::default(); count];
    column
}

/// The record batches of a file or stream; one without rows where it has none.
pub fn read(bytes: Buffer) -> Read<Vec<Batch>> {
    let state = if bytes.starts_with(MAGIC) { file(bytes)? } else { stream(bytes)? };
    if state.batches.is_empty() {
        let columns = state.schema.fields.iter().map(empty).collect();
        return Ok(vec![Batch { rows: 0, columns, metadata: state.schema.metadata }]);
    }
    Ok(state.batches)
}
