//! Random columns in other widths, held against the request read plainly: the bytes of the result, its rows, its grounds, and the way back.

use crate::compare::same;
use crate::generate::Generate;
use crate::lists::one_body;
use crate::plain::{clipped, entry, half, put, runs, valid, validity, width};
use crate::random::Random;
use lafkuno::{Column, Type};
use std::collections::BTreeMap;

const KEYS: [&str; 8] = ["c", "C", "s", "S", "i", "I", "l", "L"];

/// What a run saw.
#[derive(Default)]
pub struct Seen {
    pub columns: u64,
    /// Columns that were widened and narrowed back.
    pub back: u64,
    pub answers: BTreeMap<u8, u64>,
}

/// How many entries keys of a format name.
fn limit(key: &str) -> u128 {
    1 << (8 * width(key) - usize::from("csil".contains(key)))
}

/// The type with other widths. `choose` picks one of the formats that a node may have.
pub fn otherwise(ty: &Type, choose: &mut dyn FnMut(&[&str]) -> String) -> Type {
    let format = match ty.format.as_str() {
        _ if ty.dictionary.is_some() => choose(&KEYS),
        "z" | "Z" => choose(&["z", "Z"]),
        "u" | "U" => choose(&["u", "U"]),
        "+l" | "+L" => choose(&["+l", "+L"]),
        "+vl" | "+vL" => choose(&["+vl", "+vL"]),
        f => f.to_string(),
    };
    let mut children: Vec<Type> = vec![];
    for (k, child) in ty.children.iter().enumerate() {
        let ends = ty.format == "+r" && k == 0;
        children.push(if ends { Type { format: choose(&["s", "i", "l"]), ..child.clone() } } else { otherwise(child, choose) });
    }
    let dictionary = ty.dictionary.as_ref().map(|d| Box::new(otherwise(d, choose)));
    Type { format, children, dictionary, ..ty.clone() }
}

/// Rows a .. a + n of a column in the widths of a type, or 6, 7 or 8 at the first number in tree order that does not fit.
fn converted(c: &Column, to: &Type, a: u64, n: u64) -> Result<Column, u8> {
    let (s, w, v) = (c.offset + a, width(&c.format), width(&to.format));
    let mut new = Column { format: to.format.clone(), nullable: c.nullable || to.nullable, length: n, offset: 0, ..c.clone() };
    if !c.format.starts_with("+u") && c.format != "+r" {
        new.validity = validity(&(s..s + n).map(|k| valid(c, k)).collect::<Vec<_>>());
    }
    let fits = |n: u64, ground: u8| if n < half(v) { Ok(n) } else { Err(ground) };
    let slots = |buffer: usize, w: usize| c.buffers[buffer][s as usize * w..(s + n) as usize * w].to_vec();
    // offsets less the first of them; one zero where there are none
    let stretch = || -> Result<(u64, u64, Vec<u8>), u8> {
        let at = |k: u64| if c.buffers[0].is_empty() { 0 } else { entry(&c.buffers[0], k, w) };
        let mut offsets = vec![];
        for k in s..=s + n {
            put(&mut offsets, fits(at(k) - at(s), 6)?, v);
        }
        Ok((at(s), at(s + n) - at(s), offsets))
    };
    match c.format.as_str() {
        _ if c.dictionary.is_some() => {
            let (values, ty) = (c.dictionary.as_deref().unwrap(), to.dictionary.as_deref().unwrap());
            if limit(&to.format) <= values.length.saturating_sub(1) as u128 {
                return Err(8);
            }
            let mut keys = vec![];
            (s..s + n).for_each(|k| put(&mut keys, if valid(c, k) { entry(&c.buffers[0], k, w) } else { 0 }, v));
            new.buffers = vec![keys.into()];
            new.dictionary = Some(Box::new(converted(values, ty, 0, values.length)?));
        }
        "z" | "u" | "Z" | "U" => {
            let (first, span, offsets) = stretch()?;
            new.buffers = vec![offsets.into(), c.buffers[1][first as usize..(first + span) as usize].to_vec().into()];
        }
        "+l" | "+L" => {
            let (first, span, offsets) = stretch()?;
            new.buffers = vec![offsets.into()];
            new.children = vec![converted(&c.children[0], &to.children[0], first, span)?];
        }
        "+vl" | "+vL" => {
            let mut buffers = [vec![], vec![]];
            for (b, out) in buffers.iter_mut().enumerate() {
                (s..s + n).try_for_each(|k| fits(entry(&c.buffers[b], k, w), 6).map(|n| put(out, n, v)))?;
            }
            new.buffers = buffers.map(|b| b.into()).to_vec();
            new.children = vec![converted(&c.children[0], &to.children[0], 0, c.children[0].length)?];
        }
        "+r" => {
            let ((first, count), v) = (runs(c, s, n), width(&to.children[0].format));
            let mut ends = vec![];
            for run in first..first + count {
                let end = clipped(c, run, s, n);
                if half(v) <= end {
                    return Err(7);
                }
                put(&mut ends, end, v);
            }
            let format = to.children[0].format.clone();
            let ends = Column { format, length: count, offset: 0, validity: None, buffers: vec![ends.into()], ..c.children[0].clone() };
            new.children = vec![ends, converted(&c.children[1], &to.children[1], first, count)?];
        }
        f if f.starts_with("+us:") => {
            new.buffers = vec![slots(0, 1).into()];
            new.children = c.children.iter().zip(&to.children).map(|(c, t)| converted(c, t, s, n)).collect::<Result<_, _>>()?;
        }
        f if f.starts_with("+ud:") => {
            new.buffers = vec![slots(0, 1).into(), slots(1, 4).into()];
            new.children = c.children.iter().zip(&to.children).map(|(c, t)| converted(c, t, 0, c.length)).collect::<Result<_, _>>()?;
        }
        _ => new.buffers = vec![slots(0, w).into()],
    }
    Ok(new)
}

/// Whether each dictionary's entry count less one fits the key type.
fn keys_fit(column: &Column, ty: &Type) -> bool {
    let here = column.dictionary.as_ref().is_none_or(|d| (d.length.saturating_sub(1) as u128) < limit(&ty.format));
    here && column.children.iter().zip(&ty.children).all(|(c, t)| keys_fit(c, t))
}

/// One step, held against the plain reading; the column is laid into one body. The result, or the ground that is due too.
fn step(column: &Column, to: &Type, align: usize) -> Result<Result<Column, u8>, String> {
    let column = &one_body(column, align)?;
    match (column.convert(to), converted(column, to, 0, column.length)) {
        (Ok(new), Ok(due)) => {
            same("the result", &new, &due)?;
            same("the rows", new.rows(), column.rows())?;
            Ok(Ok(new))
        }
        (Err(e), Err(due)) => {
            same("the ground", e.ground().map(|g| g.number()), Some(due))?;
            let place = e.place().filter(|p| p.node.is_some() && p.needed > p.allowed);
            same(&format!("a place for: {e}"), place.is_some(), true)?;
            Ok(Err(due))
        }
        (answer, due) => Err(format!("answered {:?}, and {:?} is due", answer.map(|c| c.ty()).map_err(|e| e.to_string()), due.err())),
    }
}

/// A random column by its seed in random widths; then its widest form, and back.
pub fn widths(seed: u64, seen: &mut Seen) -> Result<(), String> {
    let mut random = Random::new(seed);
    let (rows, align) = (random.pick(&[0, 1, 7, 8, 9, 30, 65]), random.pick(&[1, 8, 64]));
    let mut generate = Generate::new(&mut random);
    let ty = generate.ty();
    let column = generate.column(&ty, rows);
    let to = otherwise(&ty, &mut |formats| random.pick(formats).to_string());
    let describe = |what: String| format!("seed {seed}, type {ty} to {to}, {} rows from {} on: {what}", column.length, column.offset);
    let answer = step(&column, &to, align).map_err(describe)?;
    seen.columns += 1;
    *seen.answers.entry(answer.as_ref().err().copied().unwrap_or(0)).or_default() += 1;
    // its own type is a target too, where its entries fit
    same("its own type", step(&column, &ty, align).map_err(describe)?.is_ok(), keys_fit(&column, &ty)).map_err(describe)?;
    // widened, laid in one body with its view buffers, and narrowed back
    let wide = otherwise(&ty, &mut |formats| formats.iter().max_by_key(|f| reach(f)).unwrap().to_string());
    let widened = step(&column, &wide, align).map_err(describe)?.map_err(|g| describe(format!("widening to {wide} is refused with {g}")))?;
    let narrowed = step(&widened, &ty, align).map_err(describe)?;
    same("narrowing back", narrowed.is_ok(), keys_fit(&column, &ty)).map_err(describe)?;
    if let Ok(narrowed) = narrowed {
        same("the rows behind both", narrowed.rows(), column.rows()).map_err(describe)?;
        seen.back += 1;
    }
    not_in_widths(&column, &to, &mut random).map_err(describe)
}

/// How high a format reaches.
fn reach(format: &str) -> usize {
    8 * width(format) - usize::from("csil".contains(format))
}

/// A target that differs in more: another number format, another flag below the root, a child less.
fn not_in_widths(column: &Column, to: &Type, random: &mut Random) -> Result<(), String> {
    let mut other = to.clone();
    let node = match other.children.last_mut() {
        Some(child) if random.chance(50) => {
            child.nullable = !child.nullable;
            None
        }
        Some(child) => Some(child),
        None => Some(&mut other),
    };
    if let Some(node) = node {
        match node.format.as_str() {
            "f" => node.format = "i".into(),
            f if node.children.is_empty() && node.dictionary.is_none() && !f.starts_with("+u") => node.format = "f".into(),
            _ => node.children.push(Type { format: "i".into(), nullable: false, children: vec![], dictionary: None }),
        }
    }
    let error = column.convert(&other).err();
    same(&format!("the ground of {other}"), error.as_ref().and_then(|e| e.ground()).map(|g| g.number()), Some(10))?;
    same("a place", error.and_then(|e| e.place().and_then(|p| p.node)).is_some(), true)
}
