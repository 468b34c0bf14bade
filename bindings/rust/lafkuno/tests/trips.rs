//! A trip's orders, all or none, through the calls and through the binding.

use lafkuno::calls::{self, Ended, Tables, COUNTERS, MOST_ORDERS, PLAN};
use lafkuno::{Column, Error, Join, Lent, Order, Row, Type};

fn column(ty: &str, rows: &[Row]) -> Column {
    Column::build(&ty.parse::<Type>().unwrap(), rows).unwrap()
}

fn numbers(count: i128) -> Column {
    column("i?", &(0..count).map(Row::Whole).collect::<Vec<_>>())
}

fn copy(start: u64, end: u64) -> [u64; 4] {
    [0, 0, start, end]
}

fn nulls(n: u64) -> [u64; 4] {
    [1, n, 9, 9]
}

/// A join over lent memory, its state compared after every call.
struct State {
    lent: Lent,
    parts: Vec<calls::Position>,
    plan: Vec<u64>,
    counters: Vec<u64>,
    room: Vec<u8>,
}

impl State {
    /// With parts of so many bytes.
    fn open(sources: &[&Column], size: u64) -> State {
        let lent = Lent::lay(sources).unwrap();
        let (mut plan, mut counters) = (vec![0; PLAN], vec![0; COUNTERS]);
        assert_eq!(calls::plan_parts(&lent.tables(), true, false, &mut plan), 0);
        let count = calls::part_count(&plan) as u64;
        let parts: Vec<calls::Position> = (0..count).flat_map(|p| [p * size, size]).collect();
        let mut room = vec![238; (count * size) as usize];
        assert_eq!(calls::open(&lent.tables(), true, false, &parts, &mut plan, &mut counters, &mut room), 0);
        State { lent, parts, plan, counters, room }
    }

    fn single(&mut self, order: [u64; 4]) -> u8 {
        let x = self.lent.tables();
        match order {
            [0, s, a, e] => calls::copy(&self.plan, &self.parts, &x, &mut self.counters, &mut self.room, u32::try_from(s).unwrap_or(u32::MAX), a, e),
            [_, n, ..] => calls::nulls(&self.plan, &self.parts, &mut self.counters, &mut self.room, n),
        }
    }

    /// The list, against its orders given one after the other.
    fn list(&mut self, orders: &[[u64; 4]]) -> Ended {
        let before = (self.counters.clone(), self.room.clone());
        let mut due = Ended { ground: 0, place: 0 };
        for (place, order) in orders.iter().enumerate() {
            let ground = self.single(*order);
            if ground != 0 {
                due = Ended { ground, place };
                break;
            }
        }
        let singly = (self.counters.clone(), self.room.clone());
        (self.counters, self.room) = before.clone();
        let x = self.lent.tables();
        let ended = calls::orders(&self.plan, &self.parts, &x, &mut self.counters, &mut self.room, orders.as_flattened());
        let left = if ended.ground == 0 { singly } else { before };
        assert_eq!((ended, (&self.counters, &self.room)), (due, (&left.0, &left.1)));
        ended
    }
}

fn ended(ground: u8, place: usize) -> Ended {
    Ended { ground, place }
}

#[test]
fn six_stops_with_the_fifth_refused() {
    let mut state = State::open(&[&numbers(40)], 400);
    let stops = [copy(0, 4), copy(6, 9), nulls(2), copy(12, 20), copy(30, 41), copy(20, 24)];
    assert_eq!(state.list(&stops), ended(2, 4));
    let stops = [copy(0, 4), copy(6, 9), nulls(2), copy(12, 20), copy(30, 40), copy(20, 24)];
    assert_eq!(state.list(&stops), ended(0, 0));
    assert_eq!(state.counters[0], 31);
    // a source that 32 bits do not hold is none
    assert_eq!(state.list(&[copy(0, 1), [0, 1 << 32, 0, 1]]), ended(1, 1));
    assert_eq!(state.list(&[[0, 1 << 32, 0, 1], copy(0, 1)]), ended(1, 0));
}

#[test]
fn as_many_as_a_list_takes() {
    let mut state = State::open(&[&numbers(4)], 4000);
    let many = vec![copy(1, 3); MOST_ORDERS];
    assert_eq!(state.list(&many), ended(0, 0));
    let (counters, room) = (state.counters.clone(), state.room.clone());
    for refused in [copy(1, 3), copy(9, 3)] {
        let longer: Vec<[u64; 4]> = [refused].into_iter().chain(many.iter().copied()).collect();
        let x = state.lent.tables();
        assert_eq!(calls::orders(&state.plan, &state.parts, &x, &mut state.counters, &mut state.room, longer.as_flattened()), ended(9, 0));
        assert_eq!(calls::measure_orders(&state.plan, &x, &mut state.counters, longer.as_flattened()), ended(9, 0));
    }
    assert_eq!((counters, room), (state.counters, state.room));
}

#[test]
fn nothing_is_lent() {
    let x = Tables { sources: &[], formats: &[], schema: &[], lengths: &[], places: &[], buffers: &[], body: &[] };
    // an empty list, also with a tail that is no order
    for words in [&[][..], &[7][..], &[1, 2, 3][..]] {
        assert_eq!(calls::orders(&[], &[], &x, &mut [], &mut [], words), ended(0, 0));
        assert_eq!(calls::measure_orders(&[], &x, &mut [], words), ended(0, 0));
    }
    assert_eq!(calls::orders(&[], &[], &x, &mut [], &mut [], &[0; 4 * 257]), ended(9, 0));
    assert_eq!(calls::measure_orders(&[], &x, &mut [], &[0; 4 * 257]), ended(9, 0));
    assert_eq!(calls::orders(&[], &[], &x, &mut [], &mut [], &[1, 0, 0, 0]), ended(14, 0));
    assert_eq!(calls::measure_orders(&[], &x, &mut [], &[1, 0, 0, 0]), ended(14, 0));
}

#[test]
fn the_room_is_asked_after_each_order() {
    let union = column("+ud:5,7(i?, u)", &[Row::Union(5, Box::new(Row::Whole(1))), Row::Union(7, Box::new(Row::Bytes(b"x".to_vec())))]);
    // the ids of 7 rows, the positions of 7 and more of the rest
    let mut state = State::open(&[&union], 28);
    let over = nulls((1 << 31) + 1);
    assert_eq!(state.list(&[copy(0, 2), copy(0, 2), copy(0, 2), copy(0, 2), over]), ended(13, 3));
    assert_eq!(state.list(&[copy(0, 2), copy(0, 2), copy(0, 2), over]), ended(6, 3));
    assert_eq!(state.list(&[copy(0, 2), copy(0, 2), copy(0, 2)]), ended(0, 0));
}

#[test]
fn more_nulls_than_any_room() {
    let mut state = State::open(&[&numbers(4)], 64);
    for n in [1 << 31, (1 << 63) - 1, 1 << 63, (1 << 63) + 1, u64::MAX] {
        assert_eq!(state.list(&[nulls(n)]), ended(13, 0));
        assert_eq!(state.list(&[copy(0, 2), nulls(3), nulls(n), copy(9, 9)]), ended(13, 2));
    }
    // measured, counters stay at the largest number
    let x = state.lent.tables();
    let words = [nulls(1 << 63), nulls(1 << 63), nulls(5)];
    let mut counters = state.counters.clone();
    assert_eq!(calls::measure_orders(&state.plan, &x, &mut counters, words.as_flattened()), ended(0, 0));
    let mut singly = state.counters.clone();
    words.iter().for_each(|w| assert_eq!(calls::measure_nulls(&state.plan, &mut singly, w[1]), 0));
    assert_eq!((counters[0], &counters), (u64::MAX, &singly));
}

#[test]
fn a_join_of_trips() {
    let (stops, start) = (numbers(10), |a| Order::Copy { source: 0, start: a, end: a + 3 });
    let mut join = Join::open(&[&stops], true).unwrap();
    let refused = join.orders(&[start(0), Order::Nulls(2), start(8), start(1)]).unwrap_err();
    let place = refused.place().unwrap();
    assert_eq!((refused.ground().unwrap().number(), place.order, place.place), (2, Some(1), Some(2)));
    assert!(place.found.contains("behind 5 rows"), "{refused}");
    join.orders(&[]).unwrap();
    join.orders(&[start(0), Order::Nulls(2), start(7)]).unwrap();
    let longer = join.orders(&vec![start(0); 257]).unwrap_err();
    assert_eq!((longer.ground().unwrap().number(), longer.place().unwrap().place), (9, Some(0)));
    join.limit_work(20);
    assert!(matches!(join.orders(&[start(0), start(0), start(0), start(0), start(0)]), Err(Error::TooMuchWork { .. })));
    assert_eq!(join.orders(&[start(9), start(0), start(0), start(0), start(0), start(0)]).unwrap_err().ground().unwrap().number(), 2);
    join.orders(&[start(0); 4]).unwrap();
    let rows = join.finish().unwrap().column.rows().unwrap();
    let whole = |n: &[i128]| n.iter().map(|n| Row::Whole(*n)).collect::<Vec<_>>();
    assert_eq!(rows[..8], [whole(&[0, 1, 2]), vec![Row::Null; 2], whole(&[7, 8, 9])].concat());
    assert_eq!(rows[8..], whole(&[0, 1, 2].repeat(4)));
}
