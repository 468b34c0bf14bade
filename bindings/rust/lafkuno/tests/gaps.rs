//! One run for gaps (W14) through the binding: K3 and what follows it, grounds, batches and join files.

use lafkuno::{ipc, text, Batch, Choices, Column, Error, Join, Order, Row, Type};

fn ints(values: &[i32]) -> Column {
    let bytes: Vec<u8> = values.iter().flat_map(|v| v.to_le_bytes()).collect();
    Column { format: "i".into(), length: values.len() as u64, buffers: vec![bytes.into()], ..Column::default() }
}

/// K1's column: run ends 2, 5, 9 at offset 1.
fn k1() -> Column {
    let values = Column { nullable: true, ..ints(&[10, 20, 30]) };
    Column { format: "+r".into(), offset: 1, length: 8, children: vec![ints(&[2, 5, 9]), values], ..Column::default() }
}

fn choices(one_run_for_gaps: bool) -> Choices {
    Choices { keep_nulls: true, one_run_for_gaps }
}

fn ends(column: &Column) -> Vec<i32> {
    column.children[0].buffers[0].chunks_exact(4).map(|e| i32::from_le_bytes(e.try_into().unwrap())).collect()
}

fn ground<T>(answer: Result<T, Error>) -> u8 {
    answer.map_or_else(|e| e.ground().map_or(255, |g| g.number()), |_| 0)
}

/// The finished run ends, after orders that are accepted.
fn after(column: &Column, gaps: bool, orders: &[Order]) -> Column {
    let mut join = Join::open_with(&[column], choices(gaps)).unwrap();
    orders.iter().for_each(|o| join.order(*o).unwrap());
    join.finish().unwrap().column
}

fn copy(start: u64, end: u64) -> Order {
    Order::Copy { source: 0, start, end }
}

#[test]
fn k3_followed_by_two_nulls() {
    let orders = [copy(1, 5), copy(1, 5), Order::Nulls(5), Order::Nulls(2)];
    let (with, without) = (after(&k1(), true, &orders), after(&k1(), false, &orders));
    assert_eq!((ends(&with), ends(&without)), (vec![3, 4, 7, 8, 15], vec![3, 4, 7, 8, 13, 15]));
    assert_eq!(with.rows(), without.rows());
    // the present opening is the one without the choice
    let mut join = Join::open(&[&k1()], true).unwrap();
    orders.iter().for_each(|o| join.order(*o).unwrap());
    let joined = join.finish().unwrap();
    assert_eq!((joined.running_nulls, joined.column), (7, without));
}

#[test]
fn what_leaves_a_run_and_what_ends_it() {
    let two = [Order::Nulls(1), copy(3, 3), Order::Nulls(0), Order::Nulls(1)];
    assert_eq!(ends(&after(&k1(), true, &two)), [2]);
    assert_eq!(ends(&after(&k1(), true, &[Order::Nulls(1), copy(0, 1), Order::Nulls(1), Order::Nulls(1)])), [1, 2, 4]);
    // refused orders
    let mut join = Join::open_with(&[&k1()], choices(true)).unwrap();
    join.nulls(1).unwrap();
    assert_eq!((ground(join.copy(0, 0..9)), ground(join.copy(1, 0..1)), ground(join.nulls(1 << 31))), (2, 1, 7));
    join.nulls(1).unwrap();
    assert_eq!(ends(&join.finish().unwrap().column), [2]);
    // a null run that a copy brought does not grow
    let ty: Type = "+r(i, C?)".parse().unwrap();
    let holes = Column::build(&ty, &[Row::Whole(1), Row::Null, Row::Null]).unwrap();
    assert_eq!(ends(&after(&holes, true, &[copy(0, 3), Order::Nulls(2), Order::Nulls(2)])), [1, 3, 7]);
}

#[test]
fn nulls_are_added_up() {
    let ty: Type = "+us:1,2(+r?(i, +r(i, u?)), +ud:4,5(+r(i, C), +r?(i, C?)))".parse().unwrap();
    let row = Row::Union(1, Box::new(Row::Bytes(b"a".to_vec())));
    let column = Column::build(&ty, &[row]).unwrap();
    let orders = |last: &[u64]| [copy(0, 1)].into_iter().chain(last.iter().map(|n| Order::Nulls(*n))).collect::<Vec<_>>();
    for one in [false, true] {
        let [twice, once] = [&[3, 4][..], &[7]].map(|last| after(&column, one, &orders(last)));
        assert_eq!(twice.rows(), once.rows());
        assert_eq!(twice == once, one);
    }
}

#[test]
fn grounds_of_growing() {
    // 7 exactly at the limit
    let ty: Type = "+r(s, C?)".parse().unwrap();
    let column = Column::build(&ty, &[Row::Whole(1)]).unwrap();
    let mut join = Join::open_with(&[&column], choices(true)).unwrap();
    let answers = [32764, 4, 2, 1, 1].map(|n| ground(join.nulls(n)));
    assert_eq!((answers, join.len()), ([0, 7, 0, 0, 7], 32767));
    // inner runs that are full can't stop the outer one, which is asked alone
    let ty: Type = "+r(i, +r(s, C?))".parse().unwrap();
    let column = Column::build(&ty, &(0..32766).map(|n| Row::Whole(n % 2)).collect::<Vec<_>>()).unwrap();
    for (one, answer) in [(true, 0), (false, 7)] {
        let mut join = Join::open_with(&[&column], choices(one)).unwrap();
        assert_eq!([ground(join.copy(0, 0..32766)), ground(join.nulls(1)), ground(join.nulls(1))], [0, 0, answer]);
    }
    // values that take no null: 5 the first time, and each time
    let ty: Type = "+r(i, +ud:1(C))".parse().unwrap();
    let column = Column::build(&ty, &[Row::Union(1, Box::new(Row::Whole(1)))]).unwrap();
    let mut join = Join::open_with(&[&column], choices(true)).unwrap();
    assert_eq!([ground(join.nulls(1)), ground(join.nulls(1))], [5, 5]);
}

#[test]
fn batches_and_files() {
    let orders = [copy(1, 5), Order::Nulls(5), Order::Nulls(2)];
    let batch = Batch::from(k1());
    let joined = Batch::join_with(&[&batch], &orders, choices(true)).unwrap();
    assert_eq!(ends(&joined.columns[0]), [3, 4, 11]);
    assert_eq!(ends(&Batch::join(&[&batch], &orders, true).unwrap().columns[0]), [3, 4, 9, 11]);
    let again = ipc::read_bytes(ipc::to_bytes(&joined).unwrap().into()).unwrap();
    assert_eq!(again[0].columns[0].rows(), joined.columns[0].rows());
    let file = |line: &str| text::read(&format!("type +r(i, C?)\nkeep nulls\n{line}source a\nrows 1 1\ncopy a 0..2\nnulls 2\nnulls 1\n")).unwrap();
    for (line, one, due) in [("", false, vec![2, 4, 5]), ("one run for gaps\n", true, vec![2, 5])] {
        let described = file(line);
        assert_eq!(described.choices, choices(one));
        let orders: Vec<Order> = described.orders.iter().map(|o| o.what).collect();
        assert_eq!(ends(&after(&described.sources[0].1, one, &orders)), due);
    }
    assert_eq!(text::read("type i\none run for gap").unwrap_err().line, 2);
}

#[test]
fn arrow_files_through_the_command() {
    let place = std::path::Path::new(env!("CARGO_TARGET_TMPDIR")).join("gaps");
    std::fs::create_dir_all(&place).unwrap();
    let (file, out, orders) = (place.join("a.arrow"), place.join("b.arrow"), place.join("a.orders"));
    let [file, out, orders] = [&file, &out, &orders].map(|path| path.to_str().unwrap());
    ipc::write_file(file, &Batch::from(k1())).unwrap();
    for (line, due) in [("", vec![3, 4, 9, 11]), ("one run for gaps\n", vec![3, 4, 11])] {
        std::fs::write(orders, format!("keep nulls\n{line}copy a 1..5\nnulls 5\nnulls 2\n")).unwrap();
        let command = std::process::Command::new(env!("CARGO_BIN_EXE_lafkuno")).args(["join", file, "--orders", orders, "--out", out]).output();
        assert!(command.unwrap().status.success());
        assert_eq!(ends(&ipc::read_files(&[out]).unwrap()[0][0].columns[0]), due);
    }
}
