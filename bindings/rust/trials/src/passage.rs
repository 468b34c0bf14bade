//! Columns that pass the C Data Interface: the same answers and the same rows as over the whole buffers, with names and metadata kept.

use crate::compare::same;
use crate::generate::{orders, Generate, Order};
use crate::random::Random;
use lafkuno::c_data::{Exported, Import};
use lafkuno::{Column, Error, Field, Join, Lent};

/// Names for all nodes.
fn named(column: &Column, name: String) -> Column {
    let metadata = vec![(name.clone().into_bytes(), vec![1, 0, 2])];
    let children = column.children.iter().enumerate().map(|(k, c)| named(c, format!("{name}.{k}"))).collect();
    let dictionary = column.dictionary.as_ref().map(|d| Box::new(named(d, format!("{name}.values"))));
    let field = Field { ordered: dictionary.is_some(), name, metadata, ..Field::default() };
    Column { field, children, dictionary, ..column.clone() }
}

fn fields(column: &Column) -> Vec<(String, Field)> {
    let below = column.dictionary.iter().map(|d| &**d).chain(&column.children).flat_map(fields);
    std::iter::once((column.format.clone(), column.field.clone())).chain(below).collect()
}

fn number<T>(answer: &Result<T, Error>) -> Result<u8, String> {
    match answer {
        Ok(_) => Ok(0),
        Err(e) => e.ground().map(|g| g.number()).ok_or(e.to_string()),
    }
}

/// A random join of slices by its seed; whether it was accepted.
pub fn passage(seed: u64) -> Result<bool, String> {
    let mut random = Random::new(seed);
    let mut generate = Generate::new(&mut random);
    let ty = generate.ty();
    let whole = generate.sources(&ty);
    let describe = |what: String| format!("seed {seed}, type {ty}: {what}");
    let mut slices = vec![];
    for column in &whole {
        let start = random.below(column.length + 1);
        let length = if random.chance(50) { (column.length - start).min(2) } else { random.below(column.length - start + 1) };
        slices.push(named(&column.slice(start, length).map_err(|e| describe(e.to_string()))?, "root".into()));
    }
    slices.truncate(16);
    if slices.len() < 16 {
        // another slice of the same batch
        let column = named(&whole[0], "root".into());
        slices.push(column.slice(column.length / 2, column.length - column.length / 2).map_err(|e| describe(e.to_string()))?);
    }
    let list = orders(&mut random, &ty, &slices);
    let untrimmed = Lent::lay_aligned(&slices.iter().collect::<Vec<_>>(), 1).and_then(|lent| Join::open_lent(lent, true));
    let mut import = Import::new();
    // the arrays are kept to the end
    let mut exported = slices.iter().map(Exported::new).collect::<Result<Vec<_>, _>>().map_err(|e| describe(e.to_string()))?;
    let way = random.below(3);
    let mut columns = vec![];
    for out in &mut exported {
        let column = match way {
            0 => unsafe { import.column(&out.schema, &out.array) },
            1 => unsafe { import.lend(&out.schema, &out.array) },
            _ => {
                let moved = unsafe { std::ptr::read(&out.array) };
                out.array.release = None;
                unsafe { import.take(&out.schema, moved) }
            }
        };
        columns.push(column.map_err(|e| describe(e.to_string()))?);
    }
    for (column, slice) in columns.iter().zip(&slices) {
        same("the rows of a slice", column.rows(), slice.rows()).map_err(describe)?;
        same("its trimmed rows", column.trimmed().rows(), slice.rows()).map_err(describe)?;
        same("its names", fields(&column.trimmed()), fields(slice)).map_err(describe)?;
    }
    let trimmed = Join::open(&columns.iter().collect::<Vec<_>>(), true);
    if way == 0 {
        exported.clear();
    }
    same("the opening", number(&trimmed).map_err(describe)?, number(&untrimmed).map_err(describe)?).map_err(describe)?;
    let (Ok(mut ours), Ok(mut theirs)) = (trimmed, untrimmed) else { return Ok(false) };
    for order in list {
        let give = |join: &mut Join| match order {
            Order::Copy { source, start, end } => number(&join.copy(source as usize, start..end)),
            Order::Nulls(n) => number(&join.nulls(n)),
        };
        same(&format!("the answer to {order:?}"), give(&mut ours), give(&mut theirs)).map_err(describe)?;
    }
    let (ours, theirs) = (ours.finish().map_err(|e| describe(e.to_string()))?, theirs.finish().map_err(|e| describe(e.to_string()))?);
    same("the rows", ours.column.rows(), theirs.column.rows()).map_err(describe)?;
    same("the names", fields(&ours.column), fields(&slices[0])).map_err(describe)?;
    drop((columns, import, exported));
    let out = Exported::joined(&ours).map_err(|e| describe(e.to_string()))?;
    let rows = ours.column.rows();
    same("the null count", out.array.null_count as u64, ours.column.null_count()).map_err(describe)?;
    drop(ours);
    let back = unsafe { Import::new().lend(&out.schema, &out.array) }.map_err(|e| describe(e.to_string()))?;
    same("the exported rows", back.rows(), rows).map_err(describe)?;
    Ok(true)
}
