//! Columns in other widths of offsets, sizes, run ends and keys: the cases that the request names. Random columns of every kind are converted by
//! `trials`.

#[path = "common/build.rs"]
mod common;

use common::{build, numbers, ty};
use lafkuno::{Buffer, Column, Error, Join, Place, Row, Type};

fn column<const N: usize>(format: &str, length: u64, buffers: [Buffer; N], children: &[Column]) -> Column {
    Column { format: format.into(), length, buffers: buffers.to_vec(), children: children.to_vec(), ..Column::default() }
}

/// So many rows in one run.
fn run(ends: &str, rows: u64) -> Column {
    let w = [2, 4, 8][["s", "i", "l"].iter().position(|e| *e == ends).unwrap()];
    column("+r", rows, [], &[column(ends, 1, [numbers(w, [rows])], &[]), column("C", 1, [vec![7].into()], &[])])
}

/// Keys over so many entries.
fn keyed<const N: usize>(format: &str, w: usize, keys: [u64; N], entries: u64) -> Column {
    let values = column("s", entries, [(0..entries).flat_map(|n| (n as u16).to_le_bytes()).collect::<Vec<u8>>().into()], &[]);
    Column { dictionary: Some(Box::new(values)), ..column(format, N as u64, [numbers(w, keys)], &[]) }
}

fn ground(column: &Column, to: &str) -> u8 {
    column.convert(&ty(to)).map_or_else(|e| e.ground().map_or(255, |g| g.number()), |_| 0)
}

fn place(column: &Column, to: &str) -> (u8, Place) {
    let error = column.convert(&ty(to)).unwrap_err();
    (error.ground().unwrap().number(), error.place().unwrap().clone())
}

/// Node, row, the number needed and the largest allowed.
fn found(place: &Place) -> (usize, u64, u64, u64) {
    (place.node.unwrap(), place.row.unwrap(), place.needed.unwrap(), place.allowed.unwrap())
}

#[test]
fn byte_strings() {
    let text = build("u?", &[b"ab", b"cd", b"ef"].map(|b| Row::Bytes(b.to_vec())));
    let mut cut = text.slice(1, 2).unwrap();
    cut.validity = Some(vec![0b011].into());
    let wide = cut.convert(&ty("U?")).unwrap();
    assert_eq!((wide.offset, &wide.validity, &wide.buffers[..]), (0, &Some(vec![1].into()), &[numbers(8, [0, 2, 4]), b"cdef".to_vec().into()][..]));
    assert_eq!(wide.rows(), cut.rows());
    assert_eq!(wide.convert(&ty("u?")).unwrap().buffers, [numbers(4, [0, 2, 4]), b"cdef".to_vec().into()]);
    // no rows and no offsets: one zero
    let none = column("Z", 0, [vec![].into(), vec![9].into()], &[]);
    assert_eq!(none.convert(&ty("z")).unwrap().buffers, [numbers(4, [0]), vec![].into()]);
}

#[test]
fn a_list_view_keeps_its_child() {
    let child = build("C", &[10, 11, 12, 13].map(Row::Whole)).slice(1, 3).unwrap();
    let mut views = column("+vL", 3, [numbers(8, [9, 2, 0]), numbers(8, [9, 1, 2])], &[child]);
    (views.offset, views.length, views.validity) = (1, 2, Some(vec![0b100].into()));
    let narrow = views.convert(&ty("+vl(C)")).unwrap();
    assert_eq!(narrow.buffers, [numbers(4, [2, 0]), numbers(4, [1, 2])]);
    assert_eq!((narrow.children[0].length, narrow.children[0].offset, &narrow.children[0].buffers[0][..]), (3, 0, &[11, 12, 13][..]));
    assert_eq!(narrow.rows(), views.rows());
}

#[test]
fn spans_that_fit_though_the_last_offset_does_not() {
    let (top, child) = (1 << 31, run("l", 1 << 33));
    let list = |first: u64, last: u64| column("+L", 1, [numbers(8, [first, last])], &[child.clone()]);
    assert_eq!((ground(&list(0, top - 1), "+l(+r(l, C))"), ground(&list(0, top), "+l(+r(l, C))")), (0, 6));
    let far = list(top, 2 * top - 1);
    let narrow = far.convert(&ty("+l(+r(i, C))")).unwrap();
    assert_eq!((narrow.buffers[0].clone(), narrow.children[0].length), (numbers(4, [0, top - 1]), top - 1));
    assert_eq!(found(&place(&list(5, top + 5), "+l(+r(s, C))").1), (0, 0, top, top - 1));
    // 6 of the list stands before 7 of its runs, and 7 alone where the list fits
    assert_eq!((ground(&list(0, top), "+l(+r(s, C))"), ground(&far, "+l(+r(s, C))")), (6, 7));
}

#[test]
fn a_null_row_with_a_far_offset() {
    let views = |offset: u64, size: u64| {
        let mut views = column("+vL", 2, [numbers(8, [0, offset]), numbers(8, [1, size])], &[run("l", 1 << 32)]);
        views.validity = Some(vec![0b01].into());
        views
    };
    assert_eq!(ground(&views((1 << 31) - 1, 0), "+vl(+r(l, C))"), 0);
    assert_eq!(found(&place(&views(1 << 31, 0), "+vl(+r(s, C))").1), (0, 1, 1 << 31, (1 << 31) - 1));
    assert_eq!(found(&place(&views(0, 1 << 31), "+vl(+r(s, C))").1), (0, 1, 1 << 31, (1 << 31) - 1));
    // all rows of the child are there, so that its run ends do not fit
    assert_eq!(place(&views(0, 0), "+vl(+r(i, C))").0, 7);
}

#[test]
fn run_ends() {
    for (rows, due) in [(32_767, 0), (32_768, 7)] {
        assert_eq!((ground(&run("i", rows), "+r(s, C)"), ground(&run("i", rows), "+r(l, C)")), (due, 0));
    }
    assert_eq!(found(&place(&run("l", 32_768), "+r(s, C)").1), (0, 0, 32_768, 32_767));
    // a slice counts from its own first row, and touches its own runs alone
    let runs = build("+r(i, C)", &[1, 1, 2, 2, 2, 3].map(Row::Whole));
    let cut = runs.slice(1, 3).unwrap();
    let narrow = cut.convert(&ty("+r(s, C)")).unwrap();
    assert_eq!((&narrow.children[0].buffers[0], &narrow.children[1].buffers[0][..]), (&numbers(2, [1, 3]), &[1, 2][..]));
    assert_eq!(narrow.rows(), cut.rows());
    let long = Column { offset: 40_000, length: 10, ..run("l", 1 << 40) };
    assert_eq!(long.convert(&ty("+r(s, C)")).unwrap().children[0].buffers[0], numbers(2, [10]));
}

#[test]
fn keys_and_entries() {
    for (key, entries, due) in [("C", 256, 0), ("C", 257, 8), ("c", 128, 0), ("c", 129, 8), ("s", 129, 0), ("c", 0, 0)] {
        let keys: Column = if entries == 0 { keyed("i", 4, [], 0) } else { keyed("i", 4, [3, 0], entries) };
        assert_eq!(ground(&keys, &format!("{key}[s]")), due, "{key} {entries}");
    }
    assert_eq!(found(&place(&keyed("i", 4, [1], 300), "C[s]").1), (0, 0, 299, 255));
    // a good column over too many entries is refused in its own type too
    assert_eq!((ground(&keyed("C", 1, [1], 257), "C[s]"), ground(&keyed("C", 1, [1], 257), "s[s]")), (8, 0));
    // keys under nulls become 0, and all entries are copied
    let mut keys = keyed("I", 4, [2, 0xffff_ffff, 1], 3);
    (keys.validity, keys.nullable) = (Some(vec![0b101].into()), true);
    for (to, w) in [("c?[s]", 1), ("C?[s]", 1), ("s?[s]", 2), ("S?[s]", 2), ("i?[s]", 4), ("I?[s]", 4), ("l?[s]", 8), ("L?[s]", 8)] {
        let new = keys.convert(&ty(to)).unwrap();
        assert_eq!((new.ty(), &new.buffers[0], new.dictionary.as_ref().unwrap().length), (ty(to), &numbers(w, [2, 0, 1]), 3));
        assert_eq!(new.rows(), keys.rows());
    }
}

#[test]
fn numbers_in_tree_order() {
    // a union of keys and runs: whichever comes first
    let [keys, runs] = [keyed("i", 4, [1], 300), run("i", 40_000)];
    let union = |children: &[Column]| column("+ud:1,2", 1, [vec![1].into(), numbers(4, [0])], children);
    assert_eq!(place(&union(&[keys.clone(), runs.clone()]), "+ud:1,2(C[s], +r(s, C))").0, 8);
    assert_eq!(place(&union(&[runs, keys]), "+ud:1,2(+r(s, C), C[s])").0, 7);
    // 10 before any of them
    assert_eq!(ground(&keyed("i", 4, [1], 300), "C[i]"), 10);
}

#[test]
fn targets_that_differ_in_more() {
    for (from, to) in [
        ("i", "l"),
        ("u", "z"),
        ("u", "Z"),
        ("vu", "u"),
        ("vu", "vz"),
        ("+l(i)", "+vL(i)"),
        ("+l(i)", "+l(i?)"),
        ("+l(i)", "+l(l)"),
        ("+us:1,2(i, u)", "+us:2,1(i, u)"),
        ("+us:1,2(i, u)", "+ud:1,2(i, u)"),
        ("+us:1,2(i, u)", "+us:1(i)"),
        ("C[u]", "C"),
        ("C", "C[u]"),
        ("C[u]", "C[i]"),
        ("+r(s, i)", "+r(s, l)"),
        ("tdD", "i"),
        ("tss:UTC", "tss:"),
        ("+L(tdD)", "+l(tts)"),
    ] {
        let (ground, place) = place(&build(from, &[]), to);
        assert_eq!(ground, 10, "{from} to {to}");
        assert!(place.node.is_some() && !place.found.is_empty(), "{from} to {to}");
    }
    for (from, to) in [("u", "U?"), ("C[u]", "L?[U?]"), ("tdD", "tdD?"), ("+L(tdD)", "+l(tdD)"), ("i", "i")] {
        assert_eq!(build(from, &[]).convert(&ty(to)).map(|c| c.ty()), Ok(ty(to)));
    }
    // 12 of the column before 10 of the target
    assert_eq!(ground(&Column { length: 9, ..build("u", &[]) }, "i"), 12);
}

#[test]
fn unions_that_are_sliced() {
    let child = |text: &str, rows: [&str; 4]| build(text, &rows.map(|r| Row::Bytes(r.as_bytes().to_vec())));
    let names = child("u", ["a", "bb", "ccc", "dddd"]);
    let towns = child("U", ["A", "BB", "CCC", "DDDD"]);
    let to = ty("+us:3,4(U, u)");
    let sparse = column("+us:3,4", 4, [vec![3, 4, 4, 3].into()], &[names.clone(), towns.clone()]).slice(1, 2).unwrap();
    let new = sparse.convert(&to).unwrap();
    assert_eq!((new.rows(), new.children[0].length, &new.children[0].buffers[1][..]), (sparse.rows(), 2, &b"bbccc"[..]));
    let dense = column("+ud:3,4", 4, [vec![3, 4, 4, 3].into(), numbers(4, [3, 0, 2, 1])], &[names, towns]).slice(1, 3).unwrap();
    let new = dense.convert(&Type { format: "+ud:3,4".into(), ..to }).unwrap();
    assert_eq!((new.rows(), new.children[0].length, &new.buffers[1]), (dense.rows(), 4, &numbers(4, [0, 2, 1])));
}

#[test]
fn views_through_both_steps() {
    let long = |n: u8| Row::Bytes(vec![b'a' + n; 20]);
    let views = build("+vl?(vu?)", &[Row::List(vec![long(0), Row::Bytes(b"short".to_vec())]), Row::Null, Row::List(vec![Row::Null, long(1)])]);
    let wide = views.convert(&ty("+vL?(vu?)")).unwrap();
    assert_eq!(wide.rows(), views.rows());
    assert_eq!(wide.children[0].data, views.children[0].data);
    let back = wide.convert(&ty("+vl?(vu?)")).unwrap();
    assert_eq!((back.rows(), &back.buffers), (views.rows(), &views.buffers));
    // it is a source like any other
    let mut join = Join::open(&[&views, &back], false).unwrap();
    join.copy(1, 0..3).unwrap();
    assert_eq!(join.finish().unwrap().column.rows(), views.rows());
}

#[test]
fn depth_8() {
    let text = |widths: [&str; 7], leaf: &str| widths.iter().rev().fold(leaf.to_string(), |below, format| format!("{format}({below})"));
    let narrow = text(["+l", "+vl", "+l", "+vl", "+l", "+vl", "+l"], "u");
    let wide = text(["+L", "+vL", "+L", "+vL", "+L", "+vL", "+L"], "U");
    let row = (0..7).fold(Row::Bytes(b"deep".to_vec()), |row, _| Row::List(vec![row]));
    let column = build(&narrow, &[row.clone(), row]);
    let widened = column.convert(&ty(&wide)).unwrap();
    assert_eq!((widened.ty(), widened.rows()), (ty(&wide), column.rows()));
    assert_eq!(widened.convert(&ty(&narrow)).unwrap(), column);
    let nine = column_of(&column);
    assert!(matches!(nine.convert(&nine.ty()), Err(Error::RefusedAt(g, _)) if g.number() == 9));
}

/// One list over a column.
fn column_of(child: &Column) -> Column {
    column("+l", 1, [numbers(4, [0, 2])], std::slice::from_ref(child))
}
