//! Document 01's table of checked rows through the binding, and grounds at their edges.

use lafkuno::{Buffer, Column, Error, Join, Reader, Row};

fn numbers<T: Copy, const W: usize>(values: &[T], bytes: fn(T) -> [u8; W]) -> Buffer {
    values.iter().flat_map(|v| bytes(*v)).collect::<Vec<u8>>().into()
}

fn ints(values: &[i32]) -> Buffer {
    numbers(values, i32::to_le_bytes)
}

fn fixed(format: &str, buffer: Buffer, length: u64) -> Column {
    Column { format: format.into(), length, buffers: vec![buffer], ..Column::default() }
}

fn strings(texts: &[&str]) -> Column {
    let mut offsets = vec![0];
    texts.iter().for_each(|t| offsets.push(offsets.last().unwrap() + t.len() as i32));
    let buffers = vec![ints(&offsets), texts.concat().into_bytes().into()];
    Column { format: "u".into(), nullable: true, length: texts.len() as u64, buffers, ..Column::default() }
}

fn ground<T>(answer: Result<T, Error>) -> u8 {
    answer.map_or_else(|e| e.ground().map_or(255, |g| g.number()), |_| 0)
}

fn runs(ends: &[i16], values: &[&str], offset: u64, length: u64) -> Column {
    let ends = fixed("s", numbers(ends, i16::to_le_bytes), ends.len() as u64);
    Column { format: "+r".into(), offset, length, children: vec![ends, strings(values)], ..Column::default() }
}

fn ends_of(column: &Column) -> Vec<i16> {
    column.children[0].buffers[0].chunks(2).map(|b| i16::from_le_bytes([b[0], b[1]])).collect()
}

fn ints_of(buffer: &Buffer) -> Vec<i32> {
    buffer.chunks(4).map(|b| i32::from_le_bytes(b.try_into().unwrap())).collect()
}

#[test]
fn k1_to_k4_run_ends() {
    let column = runs(&[2, 5, 9], &["A", "B", "C"], 1, 8);
    let mut join = Join::open(&[&column], true).unwrap();
    for copies in 1..=3 {
        if copies < 3 {
            join.copy(0, 1..5).unwrap();
        } else {
            join.nulls(5).unwrap();
        }
    }
    let joined = join.finish().unwrap().column;
    assert_eq!(ends_of(&joined), [3, 4, 7, 8, 13]);
    assert_eq!(joined.children[1].length, 5);
    assert_eq!(joined.children[1].null_count(), 1);
    assert_eq!(joined.row(3), Some(Row::Bytes(b"C".to_vec())));
    let mut join = Join::open(&[&column], true).unwrap();
    join.nulls(32766).unwrap();
    assert_eq!(ground(join.copy(0, 0..2)), 7);
    join.copy(0, 0..1).unwrap();
    assert_eq!(ground(join.nulls(1)), 7);
    assert_eq!(join.len(), 32767);
    assert_eq!(ends_of(&join.finish().unwrap().column), [32766, 32767]);
}

#[test]
fn k5_and_k6_byte_strings() {
    let column = strings(&["van", "", "stop"]);
    let mut join = Join::open(&[&column, &strings(&["0123456789"])], true).unwrap();
    join.copy(1, 0..1).unwrap();
    join.copy(0, 1..3).unwrap();
    join.nulls(2).unwrap();
    let joined = join.finish().unwrap().column;
    assert_eq!(ints_of(&joined.buffers[0]), [0, 10, 10, 14, 14, 14]);
    assert_eq!(&*joined.buffers[1], b"0123456789stop");
}

fn keys(format: &str, keys: &[u8], entries: usize) -> Column {
    let values = fixed("C", (0..entries).map(|k| k as u8).collect::<Vec<_>>().into(), entries as u64);
    Column { dictionary: Some(Box::new(values)), nullable: true, ..fixed(format, keys.to_vec().into(), keys.len() as u64) }
}

#[test]
fn k7_to_k10_and_k16_dictionaries() {
    let joined = |a: &Column, b: &Column| {
        let mut join = Join::open(&[a, b], false)?;
        join.copy(1, 0..b.length)?;
        Ok::<_, Error>(join.finish()?.column)
    };
    assert_eq!(&*joined(&keys("C", &[], 200), &keys("C", &[55], 56)).unwrap().buffers[0], [255]);
    assert_eq!(ground(joined(&keys("C", &[], 200), &keys("C", &[55], 57))), 8);
    assert_eq!(ground(joined(&keys("C", &[], 256), &keys("C", &[], 0))), 8);
    assert_eq!(ground(joined(&keys("C", &[], 0), &keys("C", &[255], 256))), 0);
    let null = |column: Column| Column { validity: Some(vec![0].into()), ..column };
    assert_eq!(&*joined(&keys("C", &[], 200), &null(keys("C", &[250], 1))).unwrap().buffers[0], [194]);
    assert_eq!(&*joined(&keys("c", &[], 100), &null(keys("c", &[100], 1))).unwrap().buffers[0], [-56i8 as u8]);
    for (entries, due) in [(256, 0), (257, 8)] {
        let one = keys("C", &[], entries);
        assert_eq!(ground(joined(&one, &one.clone())), due);
    }
}

#[test]
fn k11_list_view() {
    let child = fixed("i", ints(&[0; 10]), 10);
    let lists = |offsets: &[i32], sizes: &[i32]| {
        let length = sizes.len() as u64;
        Column { format: "+vl".into(), length, buffers: vec![ints(offsets), ints(sizes)], children: vec![child.clone()], ..Column::default() }
    };
    let mut join = Join::open(&[&lists(&[0], &[10]), &lists(&[4, 0], &[2, 3])], false).unwrap();
    join.copy(0, 0..1).unwrap();
    join.copy(1, 0..2).unwrap();
    let joined = join.finish().unwrap().column;
    assert_eq!(ints_of(&joined.buffers[0]), [0, 10, 12]);
    assert_eq!(joined.children[0].length, 15);
}

#[test]
fn k12_dense_union() {
    let union = |ids: &[u8], positions: &[i32]| {
        let children = vec![fixed("i", ints(&[1, 2, 3]), 3), fixed("i", ints(&[4, 5, 6]), 3)];
        let buffers = vec![ids.to_vec().into(), ints(positions)];
        Column { format: "+ud:5,7".into(), length: ids.len() as u64, buffers, children, ..Column::default() }
    };
    let mut join = Join::open(&[&union(&[5, 5], &[0, 1]), &union(&[7, 5, 7], &[2, 0, 1])], false).unwrap();
    join.copy(0, 0..2).unwrap();
    join.copy(1, 0..3).unwrap();
    assert_eq!(ints_of(&join.finish().unwrap().column.buffers[1]), [0, 1, 0, 2, 1]);
}

#[test]
fn k14_no_nulls_kept() {
    let mut join = Join::open(&[&strings(&["a"])], false).unwrap();
    assert_eq!(ground(join.nulls(0)), 3);
    let mut join = Join::open(&[&strings(&["a"])], true).unwrap();
    join.nulls(0).unwrap();
    assert!(join.is_empty());
}

#[test]
fn k15_views() {
    let views = |text: &[u8]| {
        let mut view = (text.len() as u32).to_le_bytes().to_vec();
        view.extend(if text.len() <= 12 { text.to_vec() } else { [&text[..4], &[0; 8]].concat() });
        view.resize(16, 0);
        Column { data: vec![b"a long text, 13".to_vec().into()], ..fixed("vu", view.into(), 1) }
    };
    let mut join = Join::open(&[&views(b""), &views(b"twelve bytes"), &views(b"a long text, ")], false).unwrap();
    join.copy(1, 0..1).unwrap();
    join.copy(2, 0..1).unwrap();
    let joined = join.finish().unwrap().column;
    assert_eq!(&joined.buffers[0][..16], &*views(b"twelve bytes").buffers[0]);
    assert_eq!(&joined.buffers[0][16..], b"\x0d\0\0\0a lo\x02\0\0\0\0\0\0\0");
    assert_eq!(joined.data.len(), 3);
}

// A run-end child has as many rows as one likes.
fn long(format: &str, rows: i64) -> Column {
    let ends = fixed("l", numbers(&[rows], i64::to_le_bytes), 1);
    let child =
        Column { format: "+r".into(), nullable: true, length: rows as u64, children: vec![ends, fixed("i", ints(&[7]), 1)], ..Column::default() };
    Column { format: format.into(), children: vec![child], ..Column::default() }
}

#[test]
fn offsets_at_their_edge() {
    let most = i32::MAX;
    for (first, due) in [(most - 1, 0), (most, 0), (1, 6), (2, 6)] {
        // the sum after each row is at most 2^31 - 1
        let second = if due == 0 { most - first } else { most };
        let lists = Column { length: 2, buffers: vec![ints(&[0, 0]), ints(&[first, second])], ..long("+vl", most as i64) };
        let mut join = Join::open(&[&lists], false).unwrap();
        assert_eq!(ground(join.copy(0, 0..2)), due, "{first} and {second}");
        assert_eq!(join.len(), if due == 0 { 2 } else { 0 });
    }
}

#[test]
fn dense_nulls_at_their_edge() {
    let union = Column { buffers: vec![Buffer::default(), Buffer::default()], ..long("+ud:0", 1) };
    let mut join = Join::open(&[&union], true).unwrap();
    assert_eq!(ground(join.nulls((1 << 31) + 1)), 6);
    // the positions fit, and so do their bytes, which pass four gigabytes
    join.nulls(1 << 31).unwrap();
    assert!(u32::MAX as u64 * 2 < join.room_bytes());
    assert_eq!(join.null_count(), 1 << 31);
}

#[test]
fn what_no_machine_lends() {
    let strings = strings(&["a"]);
    let mut join = Join::open(&[&strings], true).unwrap();
    assert!(matches!(join.nulls(u64::MAX), Err(Error::TooLarge { .. })));
    // the offsets would end at 2^63
    assert!(matches!(join.nulls((1 << 61) - 1), Err(Error::TooLarge { bytes }) if i64::MAX as u64 <= bytes));
    assert!(join.is_empty());
    // a room of 2^61 bytes is none that is refused when it is ordered
    join.nulls(1 << 59).unwrap();
    assert!(matches!(join.finish(), Err(Error::TooLarge { bytes }) if 1 << 61 <= bytes));
}

#[test]
fn grounds_of_the_opening() {
    let good = strings(&["a"]);
    assert_eq!(ground(Join::open(&[], false)), 9);
    assert_eq!(ground(Join::open(&[&good; 17], false)), 9);
    assert_eq!(ground(Join::open(&[&good; 16], false)), 0);
    assert_eq!(ground(Join::open(&[&Column { format: "q".into(), ..good.clone() }], false)), 10);
    assert_eq!(ground(Join::open(&[&good, &Column { format: "z".into(), ..good.clone() }], false)), 11);
    assert_eq!(ground(Join::open(&[&Column { length: 2, ..good.clone() }], false)), 12);
    let empty = Column { format: "+us:".into(), buffers: vec![Buffer::default()], ..Column::default() };
    assert_eq!(ground(Join::open(&[&empty], true).unwrap().nulls(1)), 4);
    let union =
        Column { format: "+us:3".into(), buffers: vec![Buffer::default()], children: vec![fixed("i", Buffer::default(), 0)], ..Column::default() };
    assert_eq!(ground(Join::open(&[&union], true).unwrap().nulls(1)), 5);
    assert_eq!(ground(Join::open(&[&good], true).unwrap().copy(1, 0..0)), 1);
    assert_eq!(ground(Join::open(&[&good], true).unwrap().copy(usize::MAX, 0..0)), 1);
    #[allow(clippy::reversed_empty_ranges)]
    let backwards = 1..0;
    assert_eq!(ground(Join::open(&[&good], true).unwrap().copy(0, backwards)), 2);
}

fn told<T>(answer: Result<T, Error>) -> String {
    answer.err().map_or(String::new(), |e| e.to_string())
}

#[test]
fn refusals_say_where() {
    let good = strings(&["a"]);
    let lists = |size: i32| {
        let child = fixed("i", ints(&[0; 10]), 10);
        Column { format: "+vl".into(), length: 1, buffers: vec![ints(&[4]), ints(&[size])], children: vec![child], ..Column::default() }
    };
    for (answer, due) in [
        (Join::open(&[&lists(6), &lists(6), &lists(7)], false), "source 2, node 0: row 0 has offset 4 and size 7, and the child has 10 rows"),
        (Join::open(&[&good, &Column { length: 2, ..good.clone() }], false), "source 1, node 0: buffer 1 has 8 bytes, and 2 slots need 12"),
        (Join::open(&[&good, &Column { format: "q".into(), ..good.clone() }], false), "source 1, node 0: the format `q` is not taken"),
        (Join::open(&[&good; 17], false), "17 sources, and 1 to 16 are taken"),
        (
            Join::open(&[&good, &Column { format: "z".into(), ..good.clone() }], false),
            "source 1, node 0: `z`, nullable, and source 0 has `u`, nullable",
        ),
        (
            Join::open(&[&keys("C", &[], 200), &keys("C", &[55], 57)], false),
            "node 0: dictionaries of [200, 57] entries, and keys of format `C` name 2^8",
        ),
    ] {
        let told = told(answer);
        assert!(told.ends_with(due), "{told}");
    }
    let times = |format: &str| fixed(format, numbers(&[5i64], i64::to_le_bytes), 1);
    let answer = Join::open(&[&times("tsu:UTC"), &times("tsu:")], false);
    assert_eq!(ground(Join::open(&[&times("tsu:UTC"), &times("tsu:")], false)), 11);
    assert!(told(answer).ends_with("source 1, node 0: `tsu:`, and source 0 has `tsu:UTC`"));
    let mut join = Join::open(&[&good], true).unwrap();
    join.copy(0, 0..1).unwrap();
    assert!(told(join.copy(0, 1..5)).ends_with("order 2: rows 1..5 of source 0, which has 1, behind 1 rows"));
    assert!(told(join.copy(3, 0..0)).ends_with("order 3: rows 0..0 of source 3, and there are 1 sources"));
}

// Lists whose rows each span the whole child, nested: the rows are those times those.
fn spans(levels: usize, rows: i32) -> Column {
    let mut column = fixed("i", ints(&vec![7; rows as usize]), rows as u64);
    for _ in 0..levels {
        let (offsets, sizes) = (ints(&vec![0; rows as usize]), ints(&vec![rows; rows as usize]));
        column = Column { format: "+vl".into(), length: rows as u64, buffers: vec![offsets, sizes], children: vec![column], ..Column::default() };
    }
    column
}

#[test]
fn work_is_bounded() {
    let column = spans(5, 1000);
    let mut join = Join::open(&[&column], false).unwrap();
    let start = std::time::Instant::now();
    assert_eq!(join.copy(0, 0..1000), Err(Error::TooMuchWork { node: 3, bound: 1_000_000_000_000, limit: 1 << 32 }));
    assert_eq!(join.len(), 0);
    assert!(start.elapsed().as_secs() < 5);
    let mut join = Join::open(&[&spans(1, 1000)], false).unwrap();
    join.limit_work(5000);
    join.copy(0, 0..5).unwrap();
    assert_eq!(join.copy(0, 5..6), Err(Error::TooMuchWork { node: 1, bound: 6000, limit: 5000 }));
    // one long list among short ones is counted, not multiplied
    let mut sizes = vec![1; 1000];
    sizes[500] = 900;
    let uneven = Column { buffers: vec![ints(&[0; 1000]), ints(&sizes)], ..spans(1, 1000) };
    let mut join = Join::open(&[&uneven], false).unwrap();
    join.limit_work(5000);
    join.copy(0, 0..1000).unwrap();
    assert_eq!(join.copy(0, 500..505), Ok(()));
    assert_eq!(join.copy(0, 0..1000), Ok(()));
    assert_eq!(join.copy(0, 0..1000), Err(Error::TooMuchWork { node: 1, bound: 6601, limit: 5000 }));
}

#[test]
fn logical_types_travel_as_their_storage() {
    for (format, w) in
        [("tdD", 4), ("tdm", 8), ("tts", 4), ("ttm", 4), ("ttu", 8), ("ttn", 8), ("tsn:Europe/Berlin", 8), ("tDu", 8), ("tiD", 8), ("e", 2)]
    {
        let bytes: Vec<u8> = (0..3 * w).map(|b| b as u8).collect();
        let column = fixed(format, bytes.clone().into(), 3);
        let mut join = Join::open(&[&column], true).unwrap();
        join.copy(0, 1..3).unwrap();
        join.nulls(1).unwrap();
        let joined = join.finish().unwrap().column;
        assert_eq!(joined.format, format);
        assert_eq!(joined.buffers[0][..2 * w], bytes[w..]);
        assert_eq!(joined.null_count(), 1);
    }
}

#[test]
fn k17_null_entries() {
    // the entries and the keys stand behind another one each
    let values = strings(&["x", "Ana", "", "Bo"]);
    let values = Column { validity: Some(vec![0b1011].into()), ..values.slice(1, 3).unwrap() };
    let keyed =
        |keys: &[u8], values: &Column| Column { dictionary: Some(Box::new(values.clone())), ..fixed("C", keys.to_vec().into(), keys.len() as u64) };
    let drivers = keyed(&[2, 0, 1, 2], &values).slice(1, 3).unwrap();
    let rows = [Row::Bytes(b"Ana".to_vec()), Row::Null, Row::Bytes(b"Bo".to_vec())];
    for (first, keys) in [(keyed(&[1], &strings(&["Cy", "Di"])), [2, 3, 4]), (drivers.clone(), [0, 1, 2])] {
        let mut join = Join::open(&[&first, &drivers], false).unwrap();
        join.copy(1, 0..3).unwrap();
        let joined = join.finish().unwrap();
        assert_eq!(&*joined.column.buffers[0], &keys);
        assert_eq!(joined.column.rows().unwrap(), rows);
        assert_eq!((joined.column.null_count(), joined.column.dictionary.as_ref().unwrap().null_count()), (0, 1));
        let reader = Reader::open(&joined.column).unwrap();
        assert_eq!((0..3).map(|r| reader.row(r).unwrap()).collect::<Vec<_>>(), rows);
    }
}
