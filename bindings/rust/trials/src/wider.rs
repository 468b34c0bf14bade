//! The same join with offsets, sizes, keys and run ends stored wider: what was accepted is accepted, and the rows are the same.

use crate::compare::same;
use crate::generate::{orders, Generate, Order};
use crate::random::Random;
use lafkuno::{Buffer, Column, Error, Join};
use std::collections::HashMap;

/// The formats that reach as high as an integer's, the same one first.
fn reaching(format: &str) -> &'static [&'static str] {
    match format {
        "c" => &["c", "C", "s", "S", "i", "I", "l", "L"],
        "C" => &["C", "s", "S", "i", "I", "l", "L"],
        "s" => &["s", "S", "i", "I", "l", "L"],
        "S" => &["S", "i", "I", "l", "L"],
        "i" => &["i", "I", "l", "L"],
        "I" => &["I", "l", "L"],
        "l" => &["l", "L"],
        _ => &["L"],
    }
}

fn width(format: &str) -> usize {
    match format {
        "c" | "C" => 1,
        "s" | "S" => 2,
        "l" | "L" | "Z" | "U" | "+L" | "+vL" => 8,
        _ => 4,
    }
}

/// Widens columns of one type: the same format at the same node, and the same buffer where they had the same.
struct Widen {
    seed: u64,
    node: u64,
    buffers: HashMap<(*const u8, usize), Buffer>,
}

impl Widen {
    /// A format for the node that is next.
    fn format(&mut self, from: &[&str]) -> String {
        self.node += 1;
        Random::new(self.seed.wrapping_add(self.node << 32)).pick(from).into()
    }

    fn buffer(&mut self, buffer: &Buffer, from: usize, to: usize) -> Buffer {
        let widened = || {
            let entries = buffer.chunks_exact(from).flat_map(|entry| {
                let mut wide = [0; 8];
                wide[..from].copy_from_slice(entry);
                wide.into_iter().take(to)
            });
            Buffer::from(entries.collect::<Vec<u8>>())
        };
        self.buffers.entry((buffer.as_ptr(), to)).or_insert_with(widened).clone()
    }

    fn column(&mut self, column: &Column) -> Column {
        let old = column.format.as_str();
        let (format, wide) = match old {
            _ if column.dictionary.is_some() => (self.format(reaching(old)), 1),
            "z" | "u" => (self.format(&[old, if old == "z" { "Z" } else { "U" }]), 1),
            "+l" => (self.format(&["+l", "+L"]), 1),
            "+vl" => (self.format(&["+vl", "+vL"]), 2),
            _ => (old.to_string(), 0),
        };
        let mut new = Column { format, ..column.clone() };
        for k in 0..wide {
            new.buffers[k] = self.buffer(&column.buffers[k], width(old), width(&new.format));
        }
        new.dictionary = column.dictionary.as_ref().map(|d| Box::new(self.column(d)));
        new.children = column.children.iter().map(|c| self.column(c)).collect();
        if old == "+r" {
            let ends = &column.children[0];
            let formats: Vec<&str> = reaching(&ends.format).iter().filter(|f| ["s", "i", "l"].contains(f)).copied().collect();
            let format = self.format(&formats);
            new.children[0].buffers[0] = self.buffer(&ends.buffers[0], width(&ends.format), width(&format));
            new.children[0].format = format;
        }
        new
    }
}

fn number(answer: Result<(), Error>) -> Result<u8, String> {
    match answer {
        Ok(()) => Ok(0),
        Err(e) => e.ground().map(|g| g.number()).ok_or(e.to_string()),
    }
}

/// A random join by its seed, made twice; whether it was accepted.
pub fn wider(seed: u64) -> Result<bool, String> {
    let mut random = Random::new(seed);
    let mut generate = Generate::new(&mut random);
    let ty = generate.ty();
    let narrow = generate.sources(&ty);
    let list = orders(&mut random, &ty, &narrow);
    let mut widen = Widen { seed, node: 0, buffers: HashMap::new() };
    let wide: Vec<Column> = narrow
        .iter()
        .map(|c| {
            widen.node = 0;
            widen.column(c)
        })
        .collect();
    let describe = |what: String| format!("seed {seed}, type {ty}, wider {}: {what}", wide[0].ty());
    let open = |sources: &[Column]| Join::open(&sources.iter().collect::<Vec<_>>(), true);
    let Ok(mut ours) = open(&narrow) else { return Ok(false) };
    let mut theirs = open(&wide).map_err(|e| describe(e.to_string()))?;
    for order in list {
        let give = |join: &mut Join| match order {
            Order::Copy { source, start, end } => number(join.copy(source as usize, start..end)),
            Order::Nulls(n) => number(join.nulls(n)),
        };
        let answer = give(&mut ours).map_err(describe)?;
        // 6 and 7 may be gone where offsets and run ends are wider
        if ![6, 7].contains(&answer) {
            let wider = give(&mut theirs).map_err(describe)?;
            same(&format!("the answer to {order:?}"), wider, answer).map_err(describe)?;
        }
    }
    let rows = |join: Join| join.finish().map_err(|e| describe(e.to_string())).map(|joined| joined.column.rows());
    same("the rows", rows(theirs)?, rows(ours)?).map_err(describe)?;
    Ok(true)
}
