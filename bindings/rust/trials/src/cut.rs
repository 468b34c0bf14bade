//! A random copy cut in two: the rows, the bytes and the runs of the halves against those of the single order.

use crate::compare::same;
use crate::generate::{orders, Generate, Order};
use crate::random::Random;
use lafkuno::{Choices, Column, Error, Join};

pub fn give(join: &mut Join, order: Order) -> Result<(), Error> {
    match order {
        Order::Copy { source, start, end } => join.copy(source as usize, start..end),
        Order::Nulls(n) => join.nulls(n),
    }
}

fn has_runs(column: &Column) -> bool {
    column.format == "+r" || column.children.iter().any(has_runs)
}

/// Each run-end node has at most one run more, but below a list or list-view that itself stands below a run-end node.
fn runs(single: &Column, halves: &Column, below_runs: bool, exempt: bool) -> Result<(), String> {
    let is_run = single.format == "+r";
    if is_run && !exempt && single.children[0].length + 1 < halves.children[0].length {
        return Err(format!("{} runs, and {} of the single order", halves.children[0].length, single.children[0].length));
    }
    let exempt = exempt || (below_runs && matches!(single.format.as_str(), "+l" | "+L" | "+vl" | "+vL"));
    let pairs = single.children.iter().zip(&halves.children);
    pairs.map(|(a, b)| runs(a, b, below_runs || is_run, exempt)).collect()
}

/// A random join by its seed whose last copy is cut at a random row; whether there was such a copy and both halves were accepted.
pub fn cut(seed: u64) -> Result<bool, String> {
    let mut random = Random::new(seed);
    let mut generate = Generate::new(&mut random);
    let ty = generate.ty();
    let sources = generate.sources(&ty);
    let list = orders(&mut random, &ty, &sources);
    let Some(last) = list.iter().rposition(|o| matches!(o, Order::Copy { start, end, .. } if start <= end)) else { return Ok(false) };
    let Order::Copy { source, start, end } = list[last] else { return Ok(false) };
    let middle = start + random.below(end - start + 1);
    let describe = |what: String| format!("seed {seed}, type {ty}, {source}: {start}..{middle}..{end} after {:?}: {what}", &list[..last]);
    let choices = Choices { keep_nulls: true, one_run_for_gaps: random.chance(50) };
    let open = || Join::open_with(&sources.iter().collect::<Vec<_>>(), choices);
    let (Ok(mut single), Ok(mut halves)) = (open(), open()) else { return Ok(false) };
    for &order in &list[..last] {
        same("an earlier answer", give(&mut single, order).is_ok(), give(&mut halves, order).is_ok()).map_err(describe)?;
    }
    for order in [Order::Copy { source, start, end: middle }, Order::Copy { source, start: middle, end }] {
        if give(&mut halves, order).is_err() {
            return Ok(false);
        }
    }
    give(&mut single, list[last]).map_err(|e| describe(format!("the single order is refused: {e}")))?;
    same("whether the single order needs more room", single.room_bytes() <= halves.room_bytes(), true).map_err(describe)?;
    let finish = |join: Join| join.finish().map_err(|e| describe(e.to_string()));
    let (single, halves) = (finish(single)?, finish(halves)?);
    same("the rows", halves.column.rows(), single.column.rows()).map_err(describe)?;
    runs(&single.column, &halves.column, false, false).map_err(describe)?;
    if !has_runs(&single.column) {
        same("the finished column", halves.column, single.column).map_err(describe)?;
        same("the null counts", halves.null_counts, single.null_counts).map_err(describe)?;
    }
    Ok(true)
}
