//! Plain and large lists: a slice of one first, at every step between a batch and a joined column.

use lafkuno::c_data::{Exported, Import};
use lafkuno::{ipc, text, Batch, Buffer, Column, Error, Join, Lent, Reader, Row, Type};

const KINDS: [(&str, &str); 7] = [
    ("+l?(u?)", r#"["a", null], null, [], ["Mill Lane", "b"], ["c"]"#),
    ("+L?(u?)", r#"["a", null], null, [], ["Mill Lane", "b"], ["c"]"#),
    ("+l(+L?(i))", "[[1, 2], null], [[]], [], [[3], [4, 5]]"),
    ("+L(+vl?(+l(C?[u?])))", r#"[null, [["a", "b"], []]], [[]], [[[null, "b"]], null]"#),
    ("+l(+r(s, +l?(i)))", "[[1], [1], null, [2, 3]], [], [null, null], [[]]"),
    ("+ud:5,7(+l?(i?), +L(vu))", r#"5:[1, null], 7:[], 5:null, 7:["a longer text than twelve bytes"], 5:[]"#),
    ("+r(i, +us:0,9(+l?(i), u?))", r#"0:[1], 0:[1], 9:"x", 0:null, 9:null"#),
];

fn ty(text: &str) -> Type {
    text.parse().unwrap()
}

fn column(of: &str, rows: &str) -> Column {
    Column::build(&ty(of), &text::rows(&ty(of), rows).unwrap()).unwrap()
}

fn numbers<const W: usize>(values: &[i64]) -> Buffer {
    values.iter().flat_map(|v| v.to_le_bytes()[..W].to_vec()).collect::<Vec<u8>>().into()
}

fn bytes(values: &[u8]) -> Column {
    Column { format: "C".into(), length: values.len() as u64, buffers: vec![values.to_vec().into()], ..Column::default() }
}

/// A list of 4-byte offsets.
fn list(offsets: &[i64], child: Column) -> Column {
    let length = offsets.len() as u64 - 1;
    Column { format: "+l".into(), nullable: true, length, buffers: vec![numbers::<4>(offsets)], children: vec![child], ..Column::default() }
}

fn whole(row: &Row) -> Vec<i128> {
    let Row::List(rows) = row else { panic!("{row:?} is no list") };
    rows.iter().map(|r| if let Row::Whole(n) = r { *n } else { -1 }).collect()
}

fn ground<T>(answer: Result<T, Error>) -> u8 {
    answer.map_or_else(|e| e.ground().map_or(255, |g| g.number()), |_| 0)
}

/// The slice of each column's middle, then the whole column.
fn cuts() -> impl Iterator<Item = (&'static str, Column)> {
    KINDS.iter().flat_map(|(of, rows)| {
        let whole = column(of, rows);
        let slices = (0..=whole.length).rev().map(|start| (*of, whole.slice(start, whole.length - start).unwrap()));
        slices.collect::<Vec<_>>()
    })
}

// ---- without a join

#[test]
fn a_slice_is_read_by_its_offsets() {
    let lists = list(&[0, 2, 2, 5], bytes(&[90, 20, 21, 22, 23, 24]).slice(1, 5).unwrap());
    let slice = lists.slice(1, 2).unwrap();
    assert_eq!(slice.rows().unwrap().iter().map(whole).collect::<Vec<_>>(), [vec![], vec![22, 23, 24]]);
    assert_eq!(whole(&lists.row(0).unwrap()), [20, 21]);
    // under a null stands what stands there
    let nulls = Column { validity: Some(vec![0b101].into()), ..lists.clone() };
    assert_eq!(nulls.slice(1, 2).unwrap().row(0), Some(Row::Null));
    // offsets that fall, and one past the child, hold no row
    assert_eq!(list(&[3, 2], bytes(&[1, 2, 3])).row(0), None);
    assert_eq!(list(&[0, 4], bytes(&[1, 2, 3])).row(0), None);
}

#[test]
fn rows_are_shown_as_they_are_read() {
    for (of, rows) in KINDS {
        let column = column(of, rows);
        let shown: Vec<String> = column.rows().unwrap().iter().map(|r| text::show(&ty(of), r)).collect();
        assert_eq!(shown.join(", "), rows);
        assert_eq!(ty(of).to_string(), of);
    }
    for of in ["+l", "+L(i, i)", "+l[i](i)"] {
        assert!(ty(of).to_string() == of && text::rows(&ty(of), "").is_err(), "{of}");
    }
}

#[test]
fn trimmed_rows_are_the_same() {
    for (of, slice) in cuts() {
        assert_eq!(slice.trimmed().rows(), slice.rows(), "{of}");
        assert_eq!(slice.trimmed().ty(), slice.ty());
    }
}

#[test]
fn a_slice_lends_its_child_window() {
    for format in ["+l", "+L"] {
        let n = 50_000i64;
        let offsets: Vec<i64> = (0..=n).map(|k| 2 * k).collect();
        let child = Column { format: "l".into(), length: 2 * n as u64, buffers: vec![vec![7; 16 * n as usize].into()], ..Column::default() };
        let buffers = vec![if format == "+l" { numbers::<4>(&offsets) } else { numbers::<8>(&offsets) }];
        let lists = Column { format: format.into(), length: n as u64, buffers, children: vec![child], ..Column::default() };
        let slice = lists.slice(40_000, 3).unwrap();
        let lent = Lent::lay(&[&slice]).unwrap();
        assert!(lent.body.len() < 512, "{} bytes for 3 rows", lent.body.len());
        assert_eq!(lent.source(0).unwrap().rows(), slice.rows());
        // nothing stands before the first rows: their offsets are lent as they are
        let first = Lent::lay(&[&lists.slice(0, 3).unwrap(), &bytes(&[1])]).unwrap();
        assert!(first.body.len() < 512 && first.source(0).unwrap().rows() == lists.slice(0, 3).unwrap().rows());
    }
}

#[test]
fn lists_pass_out_and_in() {
    for (of, slice) in cuts() {
        let out = Exported::new(&slice).unwrap();
        let back = unsafe { Import::new().column(&out.schema, &out.array) }.unwrap();
        assert_eq!((back.ty(), back.rows()), (slice.ty(), slice.rows()), "{of}");
        if matches!(slice.format.as_str(), "+l" | "+L") {
            assert_eq!((out.array.n_buffers, out.array.n_children), (2, 1));
        }
    }
}

#[test]
fn no_rows_need_no_offsets() {
    let empty = Column { buffers: vec![Buffer::default()], ..list(&[0], bytes(&[1, 2])) };
    let mut out = Exported::new(&empty).unwrap();
    // other implementations pass no buffer at all
    unsafe { *out.array.buffers.add(1) = std::ptr::null() };
    out.array.offset = 5;
    let back = unsafe { Import::new().lend(&out.schema, &out.array) }.unwrap();
    assert_eq!((back.length, back.rows()), (0, Some(vec![])));
    assert_eq!(Lent::lay(&[&back]).unwrap().places[4], 0);
    out.array.length = 1;
    assert!(unsafe { Import::new().lend(&out.schema, &out.array) }.is_err());
}

#[test]
fn lists_are_written_and_read_again() {
    let columns: Vec<Column> = KINDS.iter().map(|(of, rows)| column(of, rows).slice(0, 3).unwrap()).collect();
    let batch = Batch { rows: 3, columns, metadata: vec![] };
    let read = ipc::read_bytes(ipc::to_bytes(&batch).unwrap().into()).unwrap();
    for (ours, theirs) in batch.columns.iter().zip(&read[0].columns) {
        assert_eq!((theirs.ty(), theirs.rows()), (ours.ty(), ours.rows()));
    }
    // a schema without a batch: a list has one buffer
    let none = Batch { rows: 0, columns: batch.columns.iter().map(|c| c.slice(0, 0).unwrap()).collect(), metadata: vec![] };
    let read = ipc::read_bytes(ipc::to_bytes(&none).unwrap().into()).unwrap();
    assert_eq!(read[0].columns[0].buffers.len(), 1);
}

// ---- joins

fn k18() -> [Column; 2] {
    let child = bytes(&[9, 20, 21, 22, 23, 24]).slice(1, 5).unwrap();
    [list(&[0, 10], bytes(&[0, 1, 2, 3, 4, 5, 6, 7, 8, 9])), list(&[0, 2, 2, 5], child)]
}

fn offsets(column: &Column) -> Vec<i32> {
    column.buffers[0].chunks(4).map(|b| i32::from_le_bytes(b.try_into().unwrap())).collect()
}

#[test]
fn a_slice_is_joined() {
    let [_, lists] = k18();
    let slice = lists.slice(1, 2).unwrap();
    let mut join = Join::open(&[&slice], false).unwrap();
    join.copy(0, 1..2).unwrap();
    join.copy(0, 0..2).unwrap();
    let joined = join.finish().unwrap().column;
    assert_eq!(offsets(&joined), [0, 3, 3, 6]);
    assert_eq!(&*joined.children[0].buffers[0], [22, 23, 24, 22, 23, 24]);
}

#[test]
fn k18_adds_offsets_and_one_stretch() {
    let [ahead, lists] = k18();
    let mut join = Join::open(&[&ahead, &lists], true).unwrap();
    join.copy(0, 0..1).unwrap();
    join.copy(1, 1..3).unwrap();
    join.nulls(2).unwrap();
    let joined = join.finish().unwrap();
    assert_eq!(offsets(&joined.column), [0, 10, 10, 13, 13, 13]);
    assert_eq!(joined.column.children[0].buffers[0][10..], [22, 23, 24]);
    assert_eq!((joined.column.null_count(), joined.null_counts, joined.running_nulls), (2, vec![2, 0], 2));
}

#[test]
fn every_cut_is_joined_and_read() {
    for (of, slice) in cuts() {
        let mut join = Join::open(&[&slice, &slice], false).unwrap();
        let n = slice.length;
        join.copy(0, n.min(1)..n).unwrap();
        join.copy(1, 0..n).unwrap();
        let mut due = slice.rows().unwrap()[n.min(1) as usize..].to_vec();
        due.extend(slice.rows().unwrap());
        let joined = join.finish().unwrap().column;
        assert_eq!(joined.rows().unwrap(), due, "{of}");
        let reader = Reader::open(&joined).unwrap();
        assert_eq!((0..joined.length).map(|r| reader.row(r).unwrap()).collect::<Vec<_>>(), due, "{of}");
        let batch = Batch::from(slice.clone());
        let read = ipc::read_bytes(ipc::to_bytes(&batch).unwrap().into()).unwrap();
        assert_eq!(read[0].columns[0].rows(), slice.rows(), "{of}");
    }
}

#[test]
fn grounds_of_lists() {
    let good = || bytes(&[1, 2, 3]);
    for (offsets, due) in [(&[0, 1, 3][..], 0), (&[0, 1, 4], 12), (&[-1, 1, 3], 12), (&[0, 2, 1], 12), (&[3, 3, 3], 0)] {
        // the first offset stands before the slice
        let lists = list(&[&[9], offsets].concat(), good()).slice(1, 2).unwrap();
        assert_eq!(ground(Join::open(&[&lists], false)), due, "{offsets:?}");
        // under a null too
        assert_eq!(ground(Join::open(&[&Column { validity: Some(vec![1].into()), ..lists }], false)), due, "{offsets:?}");
    }
    let lists = list(&[0, 1, 3], good());
    assert_eq!(ground(Join::open(&[&Column { length: 3, ..lists.clone() }], false)), 12);
    assert_eq!(ground(Join::open(&[&Column { children: vec![], ..lists.clone() }], false)), 10);
    assert_eq!(ground(Join::open(&[&Column { children: vec![good(), good()], ..lists.clone() }], false)), 10);
    let large = Column { format: "+L".into(), buffers: vec![numbers::<8>(&[0, 1, 3])], ..lists.clone() };
    assert_eq!(ground(Join::open(&[&lists, &large], false)), 11);
    assert_eq!(ground(Join::open(&[&large, &large], false)), 0);
    let told = |answer: Result<Join, Error>| answer.err().unwrap().to_string();
    let past = list(&[0, 1, 4], good());
    assert!(told(Join::open(&[&lists, &past], false)).ends_with("source 1, node 0: the last offset is 4, and the child has 3 rows"));
    let falls = list(&[9, 0, 2, 1], good()).slice(1, 2).unwrap();
    assert!(told(Join::open(&[&falls], false)).ends_with("source 0, node 0: row 1 begins at 2 and ends at 1"));
    let short = Column { length: 3, ..lists };
    assert!(told(Join::open(&[&short], false)).ends_with("source 0, node 0: buffer 1 has 12 bytes, and 3 slots need 16"));
}

// A run-end child has as many rows as one likes: the offsets meet 6 before the stretch is copied.
#[test]
fn offsets_at_their_edge() {
    let most = i32::MAX as i64;
    let ends = Column { format: "l".into(), length: 1, buffers: vec![numbers::<8>(&[most])], ..Column::default() };
    let child = Column { format: "+r".into(), nullable: true, length: most as u64, children: vec![ends, bytes(&[7])], ..Column::default() };
    let lists = list(&[5, 0, most - 1, most], child).slice(1, 2).unwrap();
    let mut join = Join::open(&[&lists], true).unwrap();
    join.copy(0, 1..2).unwrap();
    assert_eq!(ground(join.copy(0, 0..2)), 6);
    join.copy(0, 0..1).unwrap();
    assert_eq!(ground(join.copy(0, 1..2)), 6);
    join.nulls(2).unwrap();
    let joined = join.finish().unwrap().column;
    assert_eq!(offsets(&joined), [0, 1, most as i32, most as i32, most as i32]);
    assert_eq!((joined.children[0].length, joined.children[0].children[1].length), (most as u64, 2));
}

#[test]
fn work_is_bounded() {
    // list-views whose rows each span all lists: a list's stretches are walked again and again
    let n = 1000i64;
    let lists = list(&(0..=n).map(|k| 3 * k).collect::<Vec<_>>(), bytes(&[7; 3000]));
    let spans = |child: Column| {
        let buffers = vec![numbers::<4>(&vec![0; n as usize]), numbers::<4>(&vec![n; n as usize])];
        Column { format: "+vl".into(), length: n as u64, buffers, children: vec![child], ..Column::default() }
    };
    let mut join = Join::open(&[&spans(spans(spans(lists.clone())))], false).unwrap();
    assert_eq!(join.copy(0, 0..1000), Err(Error::TooMuchWork { node: 3, bound: 1_000_000_000_000, limit: 1 << 32 }));
    let mut join = Join::open(&[&spans(lists)], false).unwrap();
    join.limit_work(8000);
    join.copy(0, 0..2).unwrap();
    assert_eq!(join.copy(0, 2..3), Err(Error::TooMuchWork { node: 2, bound: 9000, limit: 8000 }));
    // one long list among short ones is counted, not multiplied
    let mut ends: Vec<i64> = (0..=n).collect();
    ends[501..].iter_mut().for_each(|e| *e += 899);
    let uneven = list(&ends, bytes(&[7; 1899]));
    let mut join = Join::open(&[&uneven], false).unwrap();
    join.limit_work(5000);
    join.copy(0, 0..1000).unwrap();
    join.copy(0, 500..505).unwrap();
    join.copy(0, 0..1000).unwrap();
    assert_eq!(join.copy(0, 0..1000), Err(Error::TooMuchWork { node: 1, bound: 6601, limit: 5000 }));
}
