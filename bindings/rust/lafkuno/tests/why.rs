//! What stopped an order: node, row, and the numbers that clash, through the calls and in the errors of the binding.

use lafkuno::calls::{self, Why, COUNTERS, PLAN};
use lafkuno::{Buffer, Column, Error, Field, Join, Lent, Order, Row, Type};

fn column(ty: &str, rows: &[Row]) -> Column {
    Column::build(&ty.parse::<Type>().unwrap(), rows).unwrap()
}

fn named(name: &str, column: Column) -> Column {
    Column { field: Field { name: name.into(), ..Field::default() }, ..column }
}

/// One run of 0 of so many rows.
fn long_run(ends: &str, bytes: &[u8], rows: u64) -> Column {
    let end = Column { format: ends.into(), length: 1, buffers: vec![bytes.to_vec().into()], ..Column::default() };
    let value = column("C?", &[Row::Whole(0)]);
    Column { format: "+r".into(), length: rows, nullable: true, children: vec![end, value], ..Column::default() }
}

fn refused(answer: Result<(), Error>) -> Error {
    answer.unwrap_err()
}

/// Node, row, needed and allowed.
fn told(error: &Error) -> (u8, Option<usize>, Option<u64>, Option<u64>, Option<u64>) {
    let place = error.place().unwrap();
    (error.ground().unwrap().number(), place.node, place.row, place.needed, place.allowed)
}

#[test]
fn k4_with_two_rows() {
    let run = named("ignition", long_run("s", &32767i16.to_le_bytes(), 32767));
    let mut join = Join::open(&[&run], true).unwrap();
    join.copy(0, 0..32766).unwrap();
    let order = Order::Copy { source: 0, start: 5, end: 7 };
    assert_eq!(join.why(order), Why { ground: 7, node: 0, row: 0, needed: 32768, allowed: 32767 });
    let error = refused(join.order(order));
    assert_eq!(told(&error), (7, Some(0), Some(0), Some(32768), Some(32767)));
    let text = error.to_string();
    assert!(text.contains("node 0 (`ignition`), row 0, order 2: rows 5..7 of source 0, which has 32767, behind 32766 rows"), "{text}");
    assert!(text.ends_with("; 32768 is needed there, and 32767 is the largest allowed"), "{text}");
    // one row still fits
    assert_eq!(join.why(Order::Copy { source: 0, start: 5, end: 6 }), Why::default());
    join.copy(0, 5..6).unwrap();
}

#[test]
fn as_many_nulls_as_there_are_numbers() {
    let run = long_run("l", &1i64.to_le_bytes(), 1);
    let mut join = Join::open(&[&run], true).unwrap();
    join.copy(0, 0..1).unwrap();
    let error = refused(join.nulls(u64::MAX));
    assert_eq!(told(&error), (7, Some(0), Some(0), Some(u64::MAX), Some(i64::MAX as u64)));
    let error = refused(join.nulls(i64::MAX as u64));
    assert_eq!(told(&error), (7, Some(0), Some(0), Some(1 << 63), Some(i64::MAX as u64)));
}

#[test]
fn a_stop_at_depth_five_is_named() {
    // list > runs > list-view > dense union > runs of 16 bits: 32,768 rows of the last
    let run = named("speed", long_run("s", &1i16.to_le_bytes(), 1));
    let zeros = |n: usize| Buffer::from(vec![0u8; n]);
    let ints = |n: i32, f: fn(i32) -> i32| Buffer::from((0..n).flat_map(|k| f(k).to_le_bytes()).collect::<Vec<u8>>());
    let dense = Column { format: "+ud:0".into(), length: 300, buffers: vec![zeros(300), zeros(1200)], children: vec![run], ..Column::default() };
    let views =
        Column { format: "+vl".into(), length: 110, buffers: vec![zeros(440), ints(110, |_| 300)], children: vec![dense], ..Column::default() };
    let ends = Column { format: "i".into(), length: 110, buffers: vec![ints(110, |k| k + 1)], ..Column::default() };
    let runs = Column { format: "+r".into(), length: 110, children: vec![ends, views], ..Column::default() };
    let list = Column { format: "+l".into(), length: 1, buffers: vec![ints(2, |k| 110 * k)], children: vec![runs], ..Column::default() };
    let list = named("trips", list);
    let mut join = Join::open(&[&list], false).unwrap();
    let error = refused(join.copy(0, 0..1));
    assert_eq!(told(&error), (7, Some(5), Some(0), Some(32768), Some(32767)));
    assert_eq!(error.place().unwrap().path.as_deref(), Some("trips > item > values > item > speed"));
}

#[test]
fn the_first_row_that_clashes() {
    // behind one row of the child, the second of three rows does not fit; the third neither
    let top = i32::MAX as u64;
    let run = long_run("l", &(2 * top as i64).to_le_bytes(), 2 * top);
    let offsets = [0i32, 0, i32::MAX - 1, i32::MAX, i32::MAX].map(i32::to_le_bytes).concat();
    let list = Column { format: "+l".into(), length: 3, offset: 1, buffers: vec![offsets.into()], children: vec![run.clone()], ..Column::default() };
    let mut join = Join::open(&[&list], false).unwrap();
    join.limit_work(u64::MAX);
    join.copy(0, 1..2).unwrap();
    let error = refused(join.copy(0, 0..3));
    assert_eq!(told(&error), (6, Some(0), Some(1), Some(1 << 31), Some(top)));
    let sizes = [0i32, i32::MAX - 1, 2, 5].map(i32::to_le_bytes).concat();
    let views = Column { format: "+vl".into(), length: 4, buffers: vec![vec![0; 16].into(), sizes.into()], children: vec![run], ..Column::default() };
    let mut join = Join::open(&[&views], false).unwrap();
    join.limit_work(u64::MAX);
    let error = refused(join.copy(0, 0..4));
    assert_eq!(told(&error), (6, Some(0), Some(2), Some(1 << 31), Some(top)));
}

#[test]
fn nulls_without_a_home() {
    let events = column("+r(i, +us:4(C))", &[Row::Union(4, Box::new(Row::Whole(1)))]);
    let mut join = Join::open(&[&events], true).unwrap();
    let error = refused(join.nulls(3));
    assert_eq!(told(&error), (5, Some(2), Some(0), None, None));
    assert!(error.to_string().contains("node 2 (`column > values`), row 0, order 1: 3 nulls behind 0 rows"), "{error}");
    let dense = column("+ud:0(C?)", &[Row::Union(0, Box::new(Row::Whole(1)))]);
    let mut join = Join::open(&[&dense], true).unwrap();
    join.copy(0, 0..1).unwrap();
    let error = refused(join.nulls(1 << 31));
    assert_eq!(told(&error), (6, Some(0), Some((1 << 31) - 1), Some(1 << 31), Some(i32::MAX as u64)));
}

#[test]
fn what_names_no_node() {
    let one = column("i", &[Row::Whole(1)]);
    let mut join = Join::open(&[&one], false).unwrap();
    for (order, ground) in [(Order::Copy { source: 1, start: 0, end: 0 }, 1), (Order::Copy { source: 0, start: 0, end: 2 }, 2), (Order::Nulls(0), 3)]
    {
        assert_eq!(join.why(order), Why { ground, ..Why::default() });
        assert_eq!(told(&refused(join.order(order))), (ground, None, None, None, None));
    }
}

#[test]
fn the_fifth_order_of_a_trip() {
    let run = named("ignition", long_run("s", &32767i16.to_le_bytes(), 32767));
    let mut join = Join::open(&[&run], true).unwrap();
    let copy = |end| Order::Copy { source: 0, start: 0, end };
    let error = refused(join.orders(&[copy(32000), Order::Nulls(700), copy(0), copy(60), copy(8), copy(1)]));
    assert_eq!(told(&error), (7, Some(0), Some(0), Some(32768), Some(32767)));
    assert_eq!(error.place().unwrap().place, Some(4));
    assert!(join.is_empty());
}

/// In a room whose last part is a byte short.
#[test]
fn a_part_one_byte_short() {
    let names = column("u?", &["ab", "cd", "ef"].map(|t| Row::Bytes(t.into())));
    let lent = Lent::lay(&[&names]).unwrap();
    let x = lent.tables();
    let (mut plan, mut counters) = (vec![0; PLAN], vec![0; COUNTERS]);
    assert_eq!(calls::plan_parts(&x, true, false, &mut plan), 0);
    // validity, offsets and bytes of three rows, but one byte
    let parts = [0, 1, 8, 16, 24, 5];
    let mut room = vec![238; 29];
    assert_eq!(calls::open(&x, true, false, &parts, &mut plan, &mut counters, &mut room), 0);
    let before = (counters.clone(), room.clone());
    let why = calls::why_copy(&plan, &parts, &x, &counters, 29, 0, 0, 3);
    assert_eq!(why, Why { ground: 13, node: 0, row: 0, needed: 6, allowed: 5 });
    let orders = [[0, 0, 0, 1], [0, 0, 1, 2], [1, 0, 0, 0], [0, 0, 0, 0], [0, 0, 2, 3]].concat();
    assert_eq!(calls::why_orders(&plan, &parts, &x, &counters, 29, &orders), (why, 4));
    assert_eq!(calls::why_copy(&plan, &parts, &x, &counters, 29, 0, 1, 3), Why::default());
    // nulls beyond every room: their bits
    let why = calls::why_nulls(&plan, &parts, &counters, 29, u64::MAX);
    assert_eq!(why, Why { ground: 13, node: 0, row: 0, needed: 1 << 61, allowed: 1 });
    assert_eq!(calls::why_orders(&plan, &parts, &x, &counters, 29, &[1; 4 * 257]), (Why { ground: 9, ..Why::default() }, 0));
    assert_eq!((counters, room), before);
}
