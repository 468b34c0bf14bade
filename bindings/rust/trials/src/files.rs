//! Arrow files and streams: what is written is read again, and damaged ones are refused or join like any column.

use crate::compare::same;
use crate::generate::Generate;
use crate::random::Random;
use lafkuno::{ipc, Batch, Choices, Column, Error, Field, Order};
use std::collections::BTreeMap;

/// How often each thing came of a damaged file.
pub type Outcomes = BTreeMap<String, u64>;

fn named(column: Column, k: usize) -> Column {
    let metadata = if k.is_multiple_of(2) { vec![] } else { vec![(b"unit".to_vec(), b"ml".to_vec())] };
    let field = Field { name: format!("column {k}"), metadata, ordered: column.dictionary.is_some(), ..Field::default() };
    Column { field, ..column }
}

/// A random batch.
fn batch(r: &mut Random) -> Batch {
    let rows = r.pick(&[0, 1, 7, 8, 30]);
    let mut columns = vec![];
    for k in 0..1 + r.size(3) {
        let mut generate = Generate::new(r);
        let ty = generate.ty();
        let mut column = generate.column(&ty, rows);
        // types that are stored as numbers
        if column.dictionary.is_none() && r.chance(30) {
            column.format = match column.format.as_str() {
                "i" => r.pick(&["tdD", "tts", "i"]).into(),
                "l" => r.pick(&["tsu:UTC", "tsn:", "tDm", "ttu"]).into(),
                "S" => "e".into(),
                f => f.into(),
            };
        }
        columns.push(named(column, k));
    }
    // a union without fields has no rows
    let rows = columns.iter().map(|c| c.length).min().unwrap_or(0);
    columns.iter_mut().for_each(|c| c.length = rows);
    Batch { rows, columns, metadata: vec![(b"van".to_vec(), b"7".to_vec())] }
}

/// The stream inside a file.
fn stream(file: &[u8]) -> Vec<u8> {
    let last = file.len() - 10;
    let footer = u32::from_le_bytes([file[last], file[last + 1], file[last + 2], file[last + 3]]) as usize;
    file[8..last - footer].to_vec()
}

fn fields(column: &Column) -> (String, bool, Field, Vec<(String, bool)>) {
    let below = column.children.iter().map(|c| (c.format.clone(), c.nullable)).collect();
    (column.format.clone(), column.nullable, column.field.clone(), below)
}

/// Written and read again: the same columns and rows.
fn whole(batch: &Batch, bytes: Vec<u8>) -> Result<(), String> {
    let read = ipc::read_bytes(bytes.into()).map_err(|e| e.to_string())?;
    same("batches", read.len(), 1)?;
    same("metadata", &read[0].metadata, &batch.metadata)?;
    same("columns", read[0].columns.len(), batch.columns.len())?;
    for (ours, theirs) in batch.columns.iter().zip(&read[0].columns) {
        same("a field", fields(theirs), fields(ours))?;
        same("rows", theirs.rows(), ours.rows())?;
    }
    Ok(())
}

fn hurt(r: &mut Random, bytes: &mut Vec<u8>) {
    for _ in 0..1 + r.below(3) {
        let n = bytes.len();
        let at = r.size(n.max(1));
        match r.below(10) {
            _ if n < 16 => bytes.push(r.number() as u8),
            0 => bytes.truncate(at),
            1 => {
                let end = (at + 1 + r.size(40)).min(n);
                bytes.drain(at..end);
            }
            2 => {
                let piece = bytes[at..(at + 64).min(n)].to_vec();
                let to = r.size(n);
                bytes.splice(to..to, piece);
            }
            3..=5 => bytes[at] ^= 1 << r.below(8),
            _ => {
                // a number where numbers stand
                let w = r.pick(&[2, 4, 8]);
                let at = (at & !(w - 1)).min(n - w);
                let number =
                    r.pick(&[0, 1, 2, 3, 4, 8, 15, 16, 63, 64, 127, 255, 1 << 15, 1 << 31, 1 << 32, u32::MAX as u64, 1 << 62, 1 << 63, u64::MAX]);
                bytes[at..at + w].copy_from_slice(&number.to_le_bytes()[..w]);
            }
        }
    }
}

/// What a damaged file comes to.
fn damaged(mut bytes: Vec<u8>) -> Result<&'static str, String> {
    // valgrind sees a step past the last byte
    bytes.shrink_to_fit();
    let Ok(batches) = ipc::read_bytes(bytes.into()) else { return Ok("refused by the reader") };
    let sources: Vec<&Batch> = batches.iter().collect();
    let copies = sources.iter().enumerate().map(|(source, b)| Order::Copy { source, start: 0, end: b.rows.min(50) });
    let orders: Vec<Order> = copies.collect();
    let joined = match Batch::join_limited(&sources, &orders, Choices { keep_nulls: true, ..Choices::default() }, 1 << 20) {
        Ok(joined) => joined,
        Err(e) if e.ground().is_some() => return Ok("refused by the opening"),
        Err(Error::TooMuchWork { .. } | Error::TooLarge { .. }) => return Ok("too large"),
        Err(e) => return Err(e.to_string()),
    };
    for (k, column) in joined.columns.iter().enumerate() {
        let due = sources.iter().flat_map(|b| (0..b.rows.min(50)).map(|i| b.columns[k].row(i)));
        same("the rows", column.rows(), due.collect::<Option<Vec<_>>>())?;
    }
    whole(&joined, ipc::to_bytes(&joined).map_err(|e| e.to_string())?)?;
    Ok("joined")
}

/// One random file by its seed: whole, then damaged.
pub fn file(seed: u64, outcomes: &mut Outcomes) -> Result<(), String> {
    let mut random = Random::new(seed);
    let r = &mut random;
    let describe = |what: String| format!("seed {seed}: {what}");
    let batch = batch(r);
    let mut bytes = match ipc::to_bytes(&batch) {
        Ok(bytes) => bytes,
        // a column that begins in its middle is joined before it is written
        Err(e) if e.ground().is_some_and(|g| [6, 7, 8].contains(&g.number())) => return Ok(()),
        Err(e) => return Err(describe(e.to_string())),
    };
    if r.chance(50) {
        bytes = stream(&bytes);
    }
    whole(&batch, bytes.clone()).map_err(describe)?;
    for _ in 0..4 {
        let mut bytes = bytes.clone();
        hurt(r, &mut bytes);
        let outcome = damaged(bytes).map_err(describe)?;
        *outcomes.entry(outcome.into()).or_default() += 1;
    }
    Ok(())
}
