//! Random lists of orders, all or none, against the same orders given one after the other, in rooms that are large enough and too small.

use crate::compare::same;
use crate::generate::{orders, Generate, Order};
use crate::random::Random;
use lafkuno::calls::{self, Ended, COUNTERS, PLAN};
use lafkuno::{Choices, Join, Lent};

/// What a join changes.
#[derive(Clone, Debug, PartialEq)]
struct State {
    counters: Vec<u64>,
    room: Vec<u8>,
}

fn words(order: Order) -> [u64; 4] {
    match order {
        Order::Copy { source, start, end } => [0, source as u64, start, end],
        Order::Nulls(n) => [1, n, 0, 0],
    }
}

/// How many lists were accepted and refused.
#[derive(Clone, Copy, Debug, Default)]
pub struct Lists {
    pub accepted: u64,
    pub refused: u64,
}

/// A list, its orders one after the other: the first refused one, and what is left where none is.
fn in_turn(list: &[Order], mut give: impl FnMut(Order) -> u8) -> Ended {
    for (place, order) in list.iter().enumerate() {
        let ground = give(*order);
        if ground != 0 {
            return Ended { ground, place };
        }
    }
    Ended { ground: 0, place: 0 }
}

/// A random join by its seed whose orders are given in lists.
pub fn trips(seed: u64, seen: &mut Lists) -> Result<(), String> {
    let mut random = Random::new(seed);
    let mut generate = Generate::new(&mut random);
    let ty = generate.ty();
    let sources = generate.sources(&ty);
    let list = orders(&mut random, &ty, &sources);
    let choices = Choices { keep_nulls: true, one_run_for_gaps: random.chance(50) };
    let gaps = choices.one_run_for_gaps;
    let describe = |what: String| format!("seed {seed}, type {ty}, lists of {list:?}: {what}");
    let Ok(lent) = Lent::lay(&sources.iter().collect::<Vec<_>>()) else { return Ok(()) };
    let x = lent.tables();
    let (mut plan, mut counters) = ([0; PLAN], vec![0; COUNTERS]);
    if calls::plan_parts(&x, true, gaps, &mut plan) != 0 || calls::measure_open(&plan, &x, &mut counters) != 0 {
        return Ok(());
    }
    let measure = |counters: &mut [u64], order: Order| match order {
        Order::Copy { source, start, end } => calls::measure_copy(&plan, &x, counters, source, start, end),
        Order::Nulls(n) => calls::measure_nulls(&plan, counters, n),
    };
    // room for what is accepted, up to 64 KiB a part; in every third join one part is smaller
    for order in &list {
        measure(&mut counters, *order);
    }
    let count = calls::part_count(&plan);
    let small = random.chance(33).then(|| random.size(count.max(1)));
    let (mut parts, mut end) = (vec![], 0);
    for p in 0..count {
        let mut size = calls::needed_bytes(&plan, &counters, p as u32).min(1 << 16);
        if small == Some(p) {
            size = random.below(size + 1);
        }
        parts.extend([end, size]);
        end += size;
    }
    let mut state = State { counters: vec![0; COUNTERS], room: vec![238; end as usize] };
    let mut opened = [0; PLAN];
    if calls::open(&x, true, gaps, &parts, &mut opened, &mut state.counters, &mut state.room) != 0 {
        return Ok(());
    }
    same("the plan", opened, plan).map_err(describe)?;
    let mut join = Join::open_with(&sources.iter().collect::<Vec<_>>(), choices).map_err(|e| describe(e.to_string()))?;
    let mut rest = &list[..];
    while !rest.is_empty() {
        let (trip, behind) = rest.split_at(1 + random.size(rest.len().min(6)));
        rest = behind;
        let given: Vec<u64> = trip.iter().flat_map(|o| words(*o)).collect();
        // without room
        let mut singly = state.counters.clone();
        let due = in_turn(trip, |o| measure(&mut singly, o));
        let mut asked = state.counters.clone();
        let answer = calls::measure_orders(&plan, &x, &mut asked, &given);
        let left = if due.ground == 0 { &singly } else { &state.counters };
        same("a measured list", (answer, &asked), (due, left)).map_err(describe)?;
        // in the room
        let mut singly = state.clone();
        let State { counters, room } = &mut singly;
        let due = in_turn(trip, |o| match o {
            Order::Copy { source, start, end } => calls::copy(&plan, &parts, &x, counters, room, source, start, end),
            Order::Nulls(n) => calls::nulls(&plan, &parts, counters, room, n),
        });
        let before = state.clone();
        let (why, place) = calls::why_orders(&plan, &parts, &x, &state.counters, state.room.len() as u64, &given);
        same("what stopped a list", Ended { ground: why.ground, place }, due).map_err(describe)?;
        let answer = calls::orders(&plan, &parts, &x, &mut state.counters, &mut state.room, &given);
        same("a list", (answer, &state), (due, if due.ground == 0 { &singly } else { &before })).map_err(describe)?;
        *if due.ground == 0 { &mut seen.accepted } else { &mut seen.refused } += 1;
        // by the binding, which lends the room that is needed
        let bound: Vec<lafkuno::Order> = trip
            .iter()
            .map(|o| match *o {
                Order::Copy { source, start, end } => lafkuno::Order::Copy { source: source as usize, start, end },
                Order::Nulls(n) => lafkuno::Order::Nulls(n),
            })
            .collect();
        let rows = join.len();
        match join.orders(&bound) {
            Ok(()) => {}
            Err(_) => same("the rows after a refused list", join.len(), rows).map_err(describe)?,
        }
    }
    let rows = join.len();
    let joined = join.finish().map_err(|e| describe(e.to_string()))?;
    same("the finished rows", joined.column.length, rows).map_err(describe)
}
