//! Joins with one run for gaps, against the rule as it is seen from outside: the history of each run-end node.

use crate::compare::same;
use crate::convert::ordered_null;
use crate::cut::give;
use crate::generate::{orders, Generate, Order};
use crate::random::Random;
use lafkuno::calls::{self, COUNTERS, PLAN};
use lafkuno::{Choices, Column, Join, Lent, Row, Type};

/// What a run saw.
#[derive(Clone, Copy, Debug, Default)]
pub struct Grown {
    pub joins: u64,
    /// Orders of nulls that lengthened a run, and that added one.
    pub grown: u64,
    pub added: u64,
}

/// What added the last rows of a run-end node.
#[derive(Clone, Copy, Debug, PartialEq)]
enum Last {
    Nothing,
    Copy,
    Nulls,
}

/// The run-end nodes, in depth-first order.
fn run_nodes(ty: &Type, next: &mut usize, out: &mut Vec<usize>) {
    if ty.format == "+r" {
        out.push(*next);
    }
    *next += 1;
    ty.dictionary.iter().for_each(|d| run_nodes(d, next, out));
    ty.children.iter().for_each(|c| run_nodes(c, next, out));
}

/// One order on the counters: each run-end node that gained rows by nulls has as many runs as before if nulls added its last rows, and else
/// one more. Its third counter says so too.
fn step(nodes: &[usize], last: &mut [Last], order: Order, before: &[u64], after: &[u64], seen: &mut Grown) -> Result<(), String> {
    for (&i, last) in nodes.iter().zip(last) {
        let (rows, runs) = (after[3 * i] - before[3 * i], after[3 * i + 3] - before[3 * i + 3]);
        if rows == 0 {
            same("the runs of a node without new rows", runs, 0)?;
        } else if let Order::Copy { .. } = order {
            same("whether a copy added runs", 0 < runs, true)?;
            *last = Last::Copy;
        } else {
            let grows = *last == Last::Nulls;
            same(&format!("the runs that nulls added to node {i}"), runs, !grows as u64)?;
            *if grows { &mut seen.grown } else { &mut seen.added } += 1;
            *last = Last::Nulls;
        }
        same(&format!("the third counter of node {i}"), after[3 * i + 2], 1 + (*last == Last::Nulls) as u64)?;
    }
    Ok(())
}

/// Each run-end node has at most as many runs as without the choice.
fn fewer(with: &Column, without: &Column) -> Result<(), String> {
    if with.format == "+r" && without.children[0].length < with.children[0].length {
        return Err(format!("{} runs, and {} without the choice", with.children[0].length, without.children[0].length));
    }
    with.children.iter().zip(&without.children).map(|(a, b)| fewer(a, b)).collect()
}

/// Copies and nulls, of these more, often several in turn.
fn mixed(random: &mut Random, ty: &Type, sources: &[Column]) -> Vec<Order> {
    let mut list = vec![];
    for order in orders(random, ty, sources) {
        list.push(order);
        while random.chance(40) {
            list.push(Order::Nulls(random.pick(&[0, 1, 1, 2, 60])));
        }
    }
    list
}

/// A random join by its seed, with and without the choice.
pub fn gaps(seed: u64, seen: &mut Grown) -> Result<(), String> {
    let mut random = Random::new(seed);
    let mut generate = Generate::new(&mut random);
    let ty = generate.ty();
    let sources = generate.sources(&ty);
    let list = mixed(&mut random, &ty, &sources);
    let describe = |what: String| format!("seed {seed}, type {ty}, one run for gaps, orders {list:?}\n  {what}");
    let columns: Vec<&Column> = sources.iter().collect();
    let open = |one_run_for_gaps| Join::open_with(&columns, Choices { keep_nulls: true, one_run_for_gaps });
    let (Ok(mut with), Ok(without)) = (open(true), open(false)) else { return Ok(()) };
    let mut without = Some(without);
    let lent = Lent::lay(&columns).map_err(|e| describe(e.to_string()))?;
    let (mut plan, mut counters) = ([0; PLAN], [0; COUNTERS]);
    let x = lent.tables();
    same("the plan", calls::plan_parts(&x, true, true, &mut plan), 0).map_err(describe)?;
    same("the opening", calls::measure_open(&plan, &x, &mut counters), 0).map_err(describe)?;
    let mut nodes = vec![];
    run_nodes(&ty, &mut 0, &mut nodes);
    let mut last = vec![Last::Nothing; nodes.len()];
    let mut book: Vec<Row> = vec![];
    for &order in &list {
        let before = counters;
        let answer = match order {
            Order::Copy { source, start, end } => calls::measure_copy(&plan, &x, &mut counters, source, start, end),
            Order::Nulls(n) => calls::measure_nulls(&plan, &mut counters, n),
        };
        let ground = |answer: Result<(), lafkuno::Error>| answer.map_or_else(|e| e.ground().map_or(255, |g| g.number()), |()| 0);
        same("the answer by the binding", ground(give(&mut with, order)), answer).map_err(describe)?;
        // where a run grows, its values can't stop the order
        let plainly = without.as_mut().map_or(answer, |join| ground(give(join, order)));
        same("the answer without the choice", answer == plainly || [6, 7].contains(&plainly), true).map_err(describe)?;
        if answer != 0 {
            same("the counters after a refusal", counters, before).map_err(describe)?;
            continue;
        }
        if plainly != 0 {
            without = None;
        }
        step(&nodes, &mut last, order, &before, &counters, seen).map_err(describe)?;
        match order {
            Order::Copy { source, start, end } => book.extend((start..end).filter_map(|r| sources[source as usize].row(r))),
            Order::Nulls(n) => book.extend((0..n).map(|_| ordered_null(&ty))),
        }
    }
    seen.joins += 1;
    let with = with.finish().map_err(|e| describe(e.to_string()))?;
    same("the rows", with.column.rows() == Some(book), true).map_err(describe)?;
    let Some(without) = without else { return Ok(()) };
    let without = without.finish().map_err(|e| describe(e.to_string()))?;
    same("the running null count", with.running_nulls, without.running_nulls).map_err(describe)?;
    same("the rows without the choice", with.column.rows() == without.column.rows(), true).map_err(describe)?;
    if nodes.is_empty() {
        return same("the column", with.column == without.column, true).map_err(describe);
    }
    fewer(&with.column, &without.column).map_err(describe)
}
