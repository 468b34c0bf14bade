//! Arrow IPC files and streams. The reader is small and strict: what it does not take is refused by name, and what it reads is checked by
//! the library before a row is read.

mod flat;
mod map;
mod read;
mod schema;
mod write;

use crate::{Batch, Buffer, Error};
use std::fs::File;
use std::io::BufWriter;
use std::sync::atomic::{AtomicU64, Ordering};

/// How many files were begun.
static WRITTEN: AtomicU64 = AtomicU64::new(0);

/// The record batches of each file, which is an Arrow file or stream; `-` is standard input. Files are mapped, and the batches' buffers
/// lead into the maps: a file must not be made shorter while they are used.
pub fn read_files(paths: &[&str]) -> Result<Vec<Vec<Batch>>, Error> {
    let tell = |k: usize, what: String| Error::File(format!("{}: {what}", paths[k]));
    let bytes = map::files(paths).map_err(|(k, e)| tell(k, e.to_string()))?;
    bytes.into_iter().enumerate().map(|(k, bytes)| read::read(bytes).map_err(|what| tell(k, what))).collect()
}

/// The record batches of an Arrow file or stream in memory.
pub fn read_bytes(bytes: Buffer) -> Result<Vec<Batch>, Error> {
    read::read(bytes).map_err(Error::File)
}

/// Whether bytes begin as an Arrow file or stream.
pub fn is_arrow(bytes: &[u8]) -> bool {
    bytes.starts_with(read::MAGIC) || bytes.starts_with(&[255; 4])
}

/// A batch as the bytes of an Arrow file.
pub fn to_bytes(batch: &Batch) -> Result<Vec<u8>, Error> {
    let mut out = vec![];
    write::write(&mut out, batch)?.map_err(|e| Error::File(e.to_string()))?;
    Ok(out)
}

/// Writes a batch as an Arrow file: beside its place first, so that a file that is there stays whole until the new one is; a link leads to its file.
/// What is no file, such as a pipe or `/dev/stdout`, is written to as it is.
pub fn write_file(path: &str, batch: &Batch) -> Result<(), Error> {
    let tell = |e: std::io::Error| Error::File(format!("{path}: {e}"));
    let write = |file| write::write(BufWriter::with_capacity(1 << 20, file), batch);
    if std::fs::metadata(path).is_ok_and(|there| !there.is_file()) {
        return write(File::options().write(true).open(path).map_err(tell)?)?.map_err(tell);
    }
    let place = std::fs::canonicalize(path).unwrap_or_else(|_| path.into());
    let mut beside = place.clone().into_os_string();
    // one for each file that is being written, also to the same place
    beside.push(format!(".{}.{}.part", std::process::id(), WRITTEN.fetch_add(1, Ordering::Relaxed)));
    match File::create(&beside).map(write).map_err(tell)? {
        Ok(Ok(())) => std::fs::rename(&beside, place).map_err(tell),
        failed => {
            let _ = std::fs::remove_file(&beside);
            failed?.map_err(tell)
        }
    }
}

#[cfg(test)]
mod tests {
    use super::flat::{write, Cell, Flat};
    use super::*;
    use Cell::{None, To, I16, I32, I64, U8};

    fn table(cells: Vec<Cell>) -> Cell {
        To(Flat::Table(cells))
    }

    fn message(version: i16, kind: u8, header: Cell, body: usize) -> Vec<u8> {
        let metadata = write(&Flat::Table(vec![I16(version), U8(kind), header, I64(body as i64)]));
        let mut out = u32::MAX.to_le_bytes().to_vec();
        out.extend((metadata.len() as u32).to_le_bytes());
        out.extend(metadata);
        out.resize(out.len() + body, 0);
        out
    }

    fn field(name: &str, code: u8, ty: Cell, encoding: Cell) -> Flat {
        let children = if code == 13 { vec![field("x", 2, table(vec![I32(32), U8(1)]), None)] } else { vec![] };
        Flat::Table(vec![To(Flat::Text(name.into())), U8(1), U8(code), ty, encoding, To(Flat::Tables(children))])
    }

    fn schema(endianness: i16, fields: Vec<Flat>) -> Vec<u8> {
        message(4, 1, table(vec![I16(endianness), To(Flat::Tables(fields))]), 0)
    }

    fn batch(rows: i64, nodes: usize, buffers: usize, compression: Cell) -> Cell {
        let nodes = [rows, 0].repeat(nodes);
        let buffers = [0, 8].repeat(buffers);
        table(vec![I64(rows), To(Flat::Longs(nodes, 2)), To(Flat::Longs(buffers, 2)), compression])
    }

    fn told(parts: &[Vec<u8>]) -> String {
        read_bytes(parts.concat().into()).map_or_else(|e| e.to_string(), |b| format!("{} batches", b.len()))
    }

    #[test]
    fn what_is_not_read_is_refused_by_name() {
        let int = || field("a", 2, table(vec![I32(32), U8(1)]), None);
        let good = schema(0, vec![int()]);
        assert_eq!(told(&[good.clone(), message(4, 3, batch(2, 1, 2, None), 8)]), "1 batches");
        assert_eq!(told(std::slice::from_ref(&good)), "1 batches");
        let keys = || table(vec![I64(7), None, U8(0)]);
        let coded = schema(0, vec![field("a", 5, table(vec![]), keys())]);
        let entries = |delta: u8| table(vec![I64(7), batch(0, 1, 3, None), U8(delta)]);
        for (parts, due) in [
            (vec![schema(1, vec![int()])], "big-endian"),
            (vec![good.clone(), message(4, 3, batch(2, 1, 2, table(vec![])), 8)], "compressed"),
            (vec![coded.clone(), message(4, 2, entries(1), 8)], "dictionary 7 grows by a delta"),
            (vec![coded.clone(), message(4, 3, batch(1, 1, 2, None), 8)], "dictionary 7 is not there"),
            (vec![good.clone(), message(3, 3, batch(2, 1, 2, None), 8)], "metadata of version 4"),
            (vec![good.clone(), message(4, 4, batch(2, 1, 2, None), 8)], "a message of kind 4"),
            (vec![good.clone(), message(4, 3, batch(2, 1, 1, None), 8)], "too few buffers"),
            (vec![good.clone(), message(4, 3, batch(2, 1, 3, None), 8)], "1 nodes and 3 buffers"),
            (vec![good.clone(), message(4, 3, batch(2, 1, 2, None), 7)], "buffer 0 is 8 bytes from 0 on, and the body has 7"),
            (vec![good.clone(), vec![1, 2, 3, 4, 5, 6, 7, 8]], "begins without its mark"),
            (vec![good.clone(), good.clone()], "a second schema"),
            (vec![message(4, 3, batch(2, 1, 2, None), 8)], "does not begin with a schema"),
        ] {
            let told = told(&parts);
            assert!(told.contains(due), "{told}: {due}");
        }
        assert_eq!(told(&[coded, message(4, 2, entries(0), 8), message(4, 3, batch(0, 1, 2, None), 8)]), "1 batches");
    }

    #[test]
    fn columns_of_other_types_are_named() {
        let fields = vec![field("flag", 6, table(vec![]), None), field("pair", 13, table(vec![]), None), field("n", 1, table(vec![]), None)];
        // a flag has two buffers, a struct one and its child two, a null column none
        let parts = [schema(0, fields), message(4, 3, batch(2, 4, 5, None), 8)];
        let batches = read_bytes(parts.concat().into()).unwrap();
        let told = Batch::join(&[&batches[0]], &[], true).unwrap_err().to_string();
        assert!(told.ends_with("columns `flag` (format b), `pair` (format +s), `n` (format n)"), "{told}");
    }
}
