//! Lists as list-views and back: the cases that the request names. Random columns of every kind are turned by `trials`.

#[path = "common/build.rs"]
mod common;

use common::{build, numbers, ty};
use lafkuno::{ipc, Batch, Buffer, Column, Error, Field, Row};
use std::process::Command;

/// Rows of one run each: so many of them, with one value.
fn run(ends: &str, rows: u64) -> Column {
    let leaf = |format: &str, bytes: Buffer| Column { format: format.into(), length: 1, buffers: vec![bytes], ..Column::default() };
    let w = [2, 4, 8][["s", "i", "l"].iter().position(|e| *e == ends).unwrap()];
    let children = vec![leaf(ends, numbers(w, [rows])), leaf("C", vec![7].into())];
    Column { format: "+r".into(), length: rows, children, ..Column::default() }
}

fn nested<const N: usize>(format: &str, buffers: [Buffer; N], length: u64, child: Column) -> Column {
    Column { format: format.into(), length, buffers: buffers.to_vec(), children: vec![child], ..Column::default() }
}

/// A list-view of rows from 0 on.
fn views<const N: usize>(sizes: [u64; N], child: Column) -> Column {
    nested("+vl", [numbers(4, [0; N]), numbers(4, sizes)], N as u64, child)
}

fn ground(answer: Result<Column, Error>) -> u8 {
    answer.map_or_else(|e| e.ground().map_or(255, |g| g.number()), |_| 0)
}

/// Stops of five trips, cut behind the first: [11], null over two stops, [], [14].
fn trips(format: &str, w: usize) -> Column {
    let stops = build("C?", &[Row::Whole(10), Row::Whole(11), Row::Whole(12), Row::Null, Row::Whole(14)]);
    let mut all = nested(format, [numbers(w, [0, 1, 2, 4, 4, 5])], 5, stops);
    all.validity = Some(vec![0b11011].into());
    all.slice(1, 4).unwrap()
}

#[test]
fn a_sliced_list_with_a_null_over_stops() {
    for (list, view, w) in [("+l", "+vl", 4), ("+L", "+vL", 8)] {
        let trips = trips(list, w);
        let views = trips.to_list_view().unwrap();
        assert_eq!((views.format.as_str(), views.length, views.offset, views.null_count()), (view, 4, 0, 1));
        assert_eq!(views.validity, Some(vec![0b1101].into()));
        // each row's offset and size, null rows included, over the child as it is
        assert_eq!(views.buffers, [numbers(w, [1, 2, 4, 4]), numbers(w, [1, 2, 0, 1])]);
        assert_eq!(views.children, trips.children);
        assert_eq!(views.rows(), trips.rows());
        // a null row becomes an empty stretch, and its stops are gone
        let back = views.to_list().unwrap();
        assert_eq!((back.format.as_str(), back.length, back.offset), (list, 4, 0));
        assert_eq!(back.buffers, [numbers(w, [0, 1, 1, 1, 2])]);
        assert_eq!((back.children[0].length, &back.children[0].buffers[0][..], &back.children[0].validity), (2, &[11, 14][..], &None));
        assert_eq!(back.rows(), trips.rows());
    }
}

#[test]
fn no_rows() {
    let child = build("u", &[Row::Bytes(b"x".to_vec())]);
    for buffers in [numbers(4, []), numbers(4, [1])] {
        let none = nested("+l", [buffers], 0, child.clone());
        let views = none.to_list_view().unwrap();
        assert_eq!((views.length, &views.buffers), (0, &vec![numbers(4, []), numbers(4, [])]));
        assert_eq!(views.children, none.children);
        let back = views.to_list().unwrap();
        assert_eq!((back.length, &back.buffers, back.children[0].length), (0, &vec![numbers(4, [0])], 0));
    }
}

#[test]
fn overlapping_rows_are_copied_twice() {
    let child = build("u?", &[Row::Bytes(b"ab".to_vec()), Row::Null, Row::Bytes(b"c".to_vec())]);
    let mut views = nested("+vl", [numbers(4, [1, 0, 3, 0]), numbers(4, [2, 3, 0, 2])], 4, child);
    views.validity = Some(vec![0b1101].into());
    let list = views.to_list().unwrap();
    assert_eq!(list.buffers, [numbers(4, [0, 2, 2, 2, 4])]);
    assert_eq!((list.children[0].length, &list.children[0].buffers[1][..]), (4, &b"cab"[..]));
    assert_eq!(list.rows(), views.rows());
}

#[test]
fn sums_of_valid_rows_that_do_not_fit() {
    let half = 1 << 30;
    let mut views = views([half, half, half], run("l", half));
    let error = views.to_list().unwrap_err();
    let place = error.place().unwrap();
    assert_eq!((error.ground().unwrap().number(), place.node, place.row), (6, Some(0), Some(1)));
    assert_eq!((place.needed, place.allowed), (Some(1 << 31), Some((1 << 31) - 1)));
    // null rows add nothing
    views.validity = Some(vec![0b100].into());
    let list = views.to_list().unwrap();
    assert_eq!((list.buffers[0].clone(), list.children[0].length), (numbers(4, [0, 0, 0, half]), half));
    // a large list has the room
    let wide = nested("+vL", [numbers(8, [0; 3]), numbers(8, [half; 3])], 3, run("l", half));
    assert_eq!(wide.to_list().unwrap().children[0].length, 3 * half);
}

#[test]
fn what_the_childs_copy_meets() {
    // run ends of the child, and offsets of a list below: these stop in the second row
    assert_eq!(ground(views([20_000, 20_000], run("s", 20_000)).to_list()), 7);
    assert_eq!(ground(views([16_383, 16_384], run("s", 20_000)).to_list()), 0);
    let below = nested("+l", [numbers(4, [0, 1 << 30])], 1, run("l", 1 << 30));
    assert_eq!(ground(views([1, 1], below.clone()).to_list()), 6);
    assert_eq!(ground(views([1], below).to_list()), 0);
    // 6 of a row's own sum comes before 7 of its child, which stands in the same row
    let half = 1 << 30;
    assert_eq!(ground(views([half, half], run("i", half)).to_list()), 6);
    let wide = |sizes: [u64; 2]| nested("+vL", [numbers(8, [0; 2]), numbers(8, sizes)], 2, run("i", half));
    assert_eq!((ground(wide([half, half]).to_list()), ground(wide([half, half - 1]).to_list())), (7, 0));
}

#[test]
fn entries_that_keys_cannot_name_are_no_obstacle() {
    let entries = build("S", &(0..257).map(Row::Whole).collect::<Vec<_>>());
    let keys =
        Column { format: "C".into(), length: 3, buffers: vec![vec![255, 0, 3].into()], dictionary: Some(Box::new(entries)), ..Column::default() };
    let views = views([2, 3], keys);
    let list = views.to_list().unwrap();
    assert_eq!(list.children[0].dictionary, views.children[0].dictionary);
    assert_eq!(list.rows(), views.rows());
    assert_eq!(list.to_list_view().unwrap().rows(), views.rows());
}

#[test]
fn other_columns() {
    let (list, view) = (trips("+l", 4), trips("+l", 4).to_list_view().unwrap());
    assert_eq!((ground(list.to_list()), ground(view.to_list_view())), (10, 10));
    for text in ["i", "+r(i, +l(i))", "+us:1(+vl(i))"] {
        let column = build(text, &[]);
        assert_eq!((ground(column.to_list()), ground(column.to_list_view())), (10, 10), "{text}");
    }
    let error = list.to_list().unwrap_err();
    assert_eq!(error.place().map(|p| (p.node, p.found.as_str())), Some((Some(0), "`+l`, which does not become `+vl`")));
    // 9, 10 and 12 of the column first
    let bad = Column { offset: 9, ..list.clone() };
    assert_eq!((ground(bad.to_list()), ground(bad.to_list_view())), (12, 12));
    assert!(bad.to_list_view().unwrap_err().place().is_some_and(|p| !p.found.is_empty()));
    let deep = (0..8).fold(build("i", &[]), |child, _| nested("+vl", [numbers(4, []), numbers(4, [])], 0, child));
    assert_eq!((ground(deep.to_list()), ground(deep.children[0].to_list())), (9, 0));
}

#[test]
fn names_flags_and_logical_types_stay() {
    let field = |name: &str| Field { name: name.into(), metadata: vec![(b"unit".to_vec(), b"day".to_vec())], ..Field::default() };
    let mut list = build("+l?(tdD?)", &[Row::List(vec![Row::Whole(3)]), Row::Null]);
    (list.field, list.children[0].field) = (field("dates"), field("item"));
    let views = list.to_list_view().unwrap();
    let back = views.to_list().unwrap();
    for (column, format) in [(&views, "+vl?(tdD?)"), (&back, "+l?(tdD?)")] {
        assert_eq!(column.ty(), ty(format));
        assert_eq!((&column.field, &column.children[0].field), (&list.field, &list.children[0].field));
    }
}

#[test]
fn more_work_than_any_machine_does() {
    // eight bytes a level: 2^60 rows below
    let mut column = build("C", &[Row::Whole(1)]);
    for _ in 0..6 {
        let rows = column.length;
        column = nested("+vL", [numbers(8, [0; 2]), numbers(8, [rows; 2])], 2, column);
        let many: Vec<u8> = column.buffers[1].iter().copied().cycle().take(8 * 1024).collect();
        column.buffers = vec![vec![0; 8 * 1024].into(), many.into()];
        column.length = 1024;
    }
    assert!(matches!(column.to_list(), Err(Error::TooMuchWork { .. })));
}

#[test]
fn a_column_of_an_arrow_file() {
    let dir = std::env::temp_dir().join(format!("lafkuno-convert-{}", std::process::id()));
    std::fs::create_dir_all(&dir).unwrap();
    let [from, to] = ["a.arrow", "b.arrow"].map(|f| dir.join(f).to_str().unwrap().to_string());
    let named = |name: &str, column: Column| Column { field: Field { name: name.into(), ..Field::default() }, ..column };
    let trips = build("+vl?(u?)", &[Row::List(vec![Row::Bytes(b"Yard".to_vec())]), Row::Null, Row::List(vec![])]);
    let days = build("i", &[1, 2, 3].map(Row::Whole));
    let batch = Batch { rows: 3, columns: vec![named("days", days), named("trips", trips)], ..Batch::from(Column::default()) };
    ipc::write_file(&from, &batch).unwrap();
    let out = Command::new(env!("CARGO_BIN_EXE_lafkuno")).args(["convert", "--out", &to, &from, "trips", "+l?(u?)"]).output().unwrap();
    assert_eq!((out.status.code(), String::from_utf8(out.stderr).unwrap()), (Some(0), String::new()));
    let new = ipc::read_files(&[&to]).unwrap().remove(0).remove(0);
    assert_eq!((new.columns[1].ty(), new.columns[1].rows()), (ty("+l?(u?)"), batch.columns[1].rows()));
    assert_eq!((new.columns[0].ty(), new.columns[0].rows()), (ty("i"), batch.columns[0].rows()));
    std::fs::remove_dir_all(dir).unwrap();
}
