//! Random lists as list-views and list-views as lists, held against plain copies, there and back.

use crate::compare::same;
use crate::generate::Generate;
use crate::plain::{entry, half, kept, put, valid, validity, width, Grown};
use crate::random::Random;
use lafkuno::{Column, Join, Lent, Type};

/// What a run saw.
#[derive(Default)]
pub struct Lists {
    pub columns: u64,
    pub rows: u64,
    /// Null rows over a stretch that is not empty.
    pub null_stretches: u64,
}

fn other(format: &str) -> &'static str {
    match format {
        "+l" => "+vl",
        "+L" => "+vL",
        "+vl" => "+l",
        _ => "+L",
    }
}

/// "keeps the child, .. and each row's offset and size, null rows included"
fn viewed(list: &Column) -> Column {
    let (w, slots) = (width(&list.format), list.offset..list.offset + list.length);
    let at = |k: u64| entry(&list.buffers[0], k, w);
    let (mut offsets, mut sizes) = (vec![], vec![]);
    for k in slots.clone() {
        put(&mut offsets, at(k), w);
        put(&mut sizes, at(k + 1) - at(k), w);
    }
    Column {
        format: other(&list.format).into(),
        offset: 0,
        validity: validity(&slots.map(|k| valid(list, k)).collect::<Vec<_>>()),
        buffers: vec![offsets.into(), sizes.into()],
        children: vec![kept(&list.children[0])],
        ..list.clone()
    }
}

/// "lays the child out anew by one copy for each valid row, in row order, and a null row becomes an empty stretch"
fn listed(view: &Column) -> Result<Column, u8> {
    let (w, slots) = (width(&view.format), view.offset..view.offset + view.length);
    let mut child = Grown::new(&view.children[0]);
    let mut offsets = vec![];
    put(&mut offsets, 0, w);
    for k in slots.clone() {
        if valid(view, k) {
            let (offset, size) = (entry(&view.buffers[0], k, w), entry(&view.buffers[1], k, w));
            if half(w) <= child.rows() + size {
                return Err(6);
            }
            child.copy(offset, size)?;
        }
        put(&mut offsets, child.rows(), w);
    }
    Ok(Column {
        format: other(&view.format).into(),
        offset: 0,
        validity: validity(&slots.map(|k| valid(view, k)).collect::<Vec<_>>()),
        buffers: vec![offsets.into()],
        children: vec![child.finish()],
        ..view.clone()
    })
}

/// One way, held against the plain reading; the rows read as before. The column is laid into one body, so that nothing of it is trimmed.
fn turned(column: &Column, align: usize) -> Result<Column, String> {
    let column = &one_body(column, align)?;
    let view = column.format.starts_with("+v");
    let answer = if view { column.to_list() } else { column.to_list_view() };
    let due = if view { listed(column) } else { Ok(viewed(column)) };
    let answer = match (answer, due) {
        (Ok(new), Ok(due)) => {
            same("the result", &new, &due)?;
            new
        }
        (answer, due) => {
            same("the ground", answer.err().and_then(|e| e.ground()).map(|g| g.number()), due.err())?;
            return Err("refused".into());
        }
    };
    same("the rows", answer.rows(), column.rows())?;
    Ok(answer)
}

/// A random list or list-view by its seed, turned and turned back.
pub fn lists(seed: u64, seen: &mut Lists) -> Result<(), String> {
    let mut random = Random::new(seed);
    let (rows, align) = (random.pick(&[0, 1, 7, 8, 9, 30, 65]), random.pick(&[1, 8, 64]));
    let mut generate = Generate::new(&mut random);
    let format = generate.random.pick(&["+l", "+L", "+vl", "+vL"]);
    let ty: Type = generate.list(format);
    let column = generate.column(&ty, rows);
    let describe = |what: String| format!("seed {seed}, type {ty}, {} rows from {} on: {what}", column.length, column.offset);
    let turn = |column: &Column| turned(column, align).map_err(describe);
    let there = turn(&column)?;
    let back = turn(&there)?;
    let again = turn(&back)?;
    same("the second time", again.rows(), column.rows()).map_err(describe)?;
    // trimmed, where buffers stand apart; and joined with the column that it comes from, which an opening may refuse for its entries alone
    let apart = if there.format.starts_with("+v") { there.to_list() } else { there.to_list_view() };
    same("the rows of what stands apart", apart.map_err(|e| describe(e.to_string()))?.rows(), column.rows()).map_err(describe)?;
    let refused = Join::open(&[&again, &there], false).err().and_then(|e| e.ground()).map(|g| g.number());
    same("the opening of a join with it", matches!(refused, None | Some(8)), true).map_err(describe)?;
    seen.columns += 1;
    seen.rows += column.length;
    let view = if format.starts_with("+v") { &column } else { &there };
    let w = width(format);
    let stretch = |k: &u64| !valid(view, *k) && entry(&view.buffers[1], *k, w) != 0;
    seen.null_stretches += (view.offset..view.offset + view.length).filter(stretch).count() as u64;
    Ok(())
}

/// The same column over one body.
pub fn one_body(column: &Column, align: usize) -> Result<Column, String> {
    let lent = Lent::lay_aligned(&[column], align).map_err(|e| e.to_string())?;
    lent.source(0).ok_or_else(|| "a column that is laid can't be described".to_string())
}
