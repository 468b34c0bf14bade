// Times whole orders on lent memory against the original's algorithm (bindings/rust/original) and prints a table. Both sides are first held
// to the same bytes. Run by bench/run; built by cargo with bindings/rust.
#[allow(dead_code)]
mod timing;

use lafkuno::calls::{self, COUNTERS, PLAN};
use lafkuno::{Column, Join, Lent, Row, Type};
use original::{ArrayData, MutableArrayData};
use std::cell::RefCell;
use std::hint::black_box;
use std::time::{Duration, Instant};
use timing::Random;
use trials::convert::{difference, Convert};

const ROWS: u64 = 4096;
const OFFSET: u64 = 8;

// ---- columns

fn text(random: &mut Random, most: u64) -> Row {
    Row::Bytes((0..random.below(most)).map(|_| b'a' + random.below(26) as u8).collect())
}

// A row of each type that is measured.
fn row(random: &mut Random, ty: &Type) -> Row {
    if ty.nullable && random.below(2) == 0 {
        return Row::Null;
    }
    match ty.format.as_str() {
        "i" | "l" => Row::Whole(random.below(1 << 31) as i128),
        "g" => Row::Double(random.next() >> 12),
        "u" => text(random, 20),
        "vu" => text(random, 25),
        "+l" | "+L" | "+vl" => Row::List((0..random.below(4)).map(|_| row(random, &ty.children[0])).collect()),
        "+r" => row(random, &ty.children[1]),
        "C" | "S" => Row::Bytes(format!("entry {}", random.below(200)).into_bytes()),
        _ => {
            let c = random.below(ty.children.len() as u64) as usize;
            Row::Union(c as u8, Box::new(row(random, &ty.children[c])))
        }
    }
}

fn column(random: &mut Random, ty: &Type) -> Column {
    let mut rows: Vec<Row> = vec![];
    while rows.len() < (ROWS + OFFSET) as usize {
        let n = if ty.format == "+r" { 1 + random.below(15) } else { 1 };
        let next = row(random, ty);
        rows.extend((0..n).map(|_| next.clone()));
    }
    rows.truncate((ROWS + OFFSET) as usize);
    Column::build(ty, &rows).unwrap().slice(OFFSET, ROWS).unwrap()
}

// The rows of a list-view or a dense union in another order, their children's as they are.
fn shuffled(random: &mut Random, mut column: Column) -> Column {
    let n = (ROWS + OFFSET) as usize;
    let mut order: Vec<usize> = (0..n).collect();
    for i in (1..n).rev() {
        order.swap(i, random.below(i as u64 + 1) as usize);
    }
    for buffer in &mut column.buffers {
        let (bytes, w) = (buffer.to_vec(), buffer.len() / n);
        *buffer = order.iter().flat_map(|r| bytes[r * w..(r + 1) * w].to_vec()).collect::<Vec<u8>>().into();
    }
    column
}

// ---- the two sides

// All orders of one join: pieces of ROWS / n rows.
fn pieces(n: u64) -> Vec<(u64, u64)> {
    (0..n).map(|k| (k * ROWS / n, (k + 1) * ROWS / n)).collect()
}

struct Ours {
    keep: bool,
    lent: Lent,
    plan: [u64; PLAN],
    opened: [u64; COUNTERS],
    parts: Vec<calls::Position>,
    room: Vec<u8>,
}

impl Ours {
    fn new(sources: &[&Column]) -> Ours {
        Ours::keeping(sources, false)
    }

    // .. opened so that null orders are taken, or not
    fn keeping(sources: &[&Column], keep: bool) -> Ours {
        let lent = Lent::lay(sources).unwrap();
        let (mut plan, mut counters) = ([0; PLAN], [0; COUNTERS]);
        assert_eq!(calls::plan_parts(&lent.tables(), keep, false, &mut plan), 0);
        assert_eq!(calls::measure_open(&plan, &lent.tables(), &mut counters), 0);
        // orders that cut runs make more of them
        for (start, end) in pieces(64) {
            assert_eq!(calls::measure_copy(&plan, &lent.tables(), &mut counters, sources.len() as u32 - 1, start, end), 0);
        }
        // null orders go to one child of a union
        let mut nulls = [0; COUNTERS];
        assert_eq!(calls::measure_open(&plan, &lent.tables(), &mut nulls), 0);
        for (start, end) in pieces(64) {
            calls::measure_nulls(&plan, &mut nulls, end - start);
        }
        let (mut parts, mut end) = (vec![], 0);
        for p in 0..calls::part_count(&plan) as u32 {
            let size = calls::needed_bytes(&plan, &counters, p).max(calls::needed_bytes(&plan, &nulls, p));
            parts.extend([end, size]);
            end = (end + size).next_multiple_of(64);
        }
        let mut ours = Ours { keep, lent, plan, opened: [0; COUNTERS], parts, room: vec![0; end as usize] };
        ours.opened = ours.open();
        ours
    }

    fn open(&mut self) -> [u64; COUNTERS] {
        let mut counters = [0; COUNTERS];
        let answer = calls::open(&self.lent.tables(), self.keep, false, &self.parts, &mut self.plan, &mut counters, &mut self.room);
        assert_eq!(answer, 0);
        counters
    }

    fn check(&self) -> u8 {
        let mut plan = [0; PLAN];
        calls::plan_parts(&self.lent.tables(), false, false, &mut plan)
    }

    fn orders(&mut self, list: &[(u64, u64)]) -> u64 {
        let mut counters = self.opened;
        let x = self.lent.tables();
        let last = x.sources.len() as u32 / 2 - 1;
        for (start, end) in list {
            let answer = calls::copy(&self.plan, &self.parts, &x, &mut counters, &mut self.room, last, *start, *end);
            assert_eq!(answer, 0);
        }
        counters[0]
    }

    // as many nulls in n orders
    fn nulls(&mut self, n: u64) -> u64 {
        let mut counters = self.opened;
        for _ in 0..n {
            assert_eq!(calls::nulls(&self.plan, &self.parts, &mut counters, &mut self.room, ROWS / n), 0);
        }
        counters[0]
    }

    // the same orders as one list
    fn list(&mut self, words: &[u64]) -> u64 {
        let mut counters = self.opened;
        let answer = calls::orders(&self.plan, &self.parts, &self.lent.tables(), &mut counters, &mut self.room, words);
        assert_eq!(answer.ground, 0);
        counters[0]
    }
}

fn open(arrays: &[ArrayData]) -> MutableArrayData<'_> {
    MutableArrayData::try_new(arrays.iter().collect(), false, 0).unwrap()
}

fn orders<'a>(arrays: &'a [ArrayData], list: &[(u64, u64)]) -> MutableArrayData<'a> {
    let mut mutable = open(arrays);
    for (start, end) in list {
        mutable.try_extend(arrays.len() - 1, *start as usize, *end as usize).unwrap();
    }
    mutable
}

fn open_keeping(arrays: &[ArrayData]) -> MutableArrayData<'_> {
    MutableArrayData::try_new(arrays.iter().collect(), true, 0).unwrap()
}

fn nulls(arrays: &[ArrayData], n: u64) -> MutableArrayData<'_> {
    let mut mutable = open_keeping(arrays);
    for _ in 0..n {
        mutable.try_extend_nulls((ROWS / n) as usize).unwrap();
    }
    mutable
}

// ---- timing

// The best time of each, in rounds that alternate.
fn best<const N: usize>(mut sides: [&mut dyn FnMut(); N]) -> [f64; N] {
    let mut once = |side: usize, calls: u32| {
        let start = Instant::now();
        (0..calls).for_each(|_| sides[side]());
        start.elapsed().as_nanos() as f64 / calls as f64
    };
    let mut calls = [1; N];
    for (side, calls) in calls.iter_mut().enumerate() {
        while once(side, *calls) * (*calls as f64) < 50_000.0 {
            *calls *= 2;
        }
    }
    let mut times = [f64::MAX; N];
    let start = Instant::now();
    let mut rounds = 0;
    while rounds < 200 || start.elapsed() < Duration::from_millis(400) {
        for side in 0..N {
            times[side] = times[side].min(once(side, calls[side]));
        }
        rounds += 1;
    }
    times
}

// A row of the table; a goal where one is set.
fn tell(name: &str, ours: f64, plain: f64, goal: Option<f64>) {
    let ratio = ours / plain;
    let verdict = match goal {
        Some(goal) if ratio <= goal => format!("{goal:.1} | met |"),
        Some(goal) => format!("{goal:.1} | missed |"),
        None => " | |".to_string(),
    };
    println!("| {name} | {ours:.0} | {plain:.0} | {ratio:.2} | {verdict}");
}

// Rows of a list-view or a dense union that follow one another are to be copied as one.
fn goal_of_one(name: &str) -> f64 {
    match name {
        _ if name.contains("shuffled") => 1.3,
        _ if name.starts_with("list-view") || name.starts_with("dense") => 0.4,
        _ => 0.9,
    }
}

fn measure(random: &mut Random, name: &str, ty: &str) {
    let ty: Type = ty.parse().unwrap();
    // two sources, of which the last is copied, so that dictionaries are joined; else one
    let mut columns: Vec<Column> = (0..if name.contains("joined") { 2 } else { 1 }).map(|_| column(random, &ty)).collect();
    if name.contains("shuffled") {
        columns = columns.into_iter().map(|c| shuffled(random, c)).collect();
    }
    let sources: Vec<&Column> = columns.iter().collect();
    let mut convert = Convert::default();
    let arrays: Vec<ArrayData> = sources.iter().map(|c| convert.array(c)).collect();
    same(&sources, &arrays);
    let (one, many) = (pieces(1), pieces(64));
    let words: Vec<u64> = many.iter().flat_map(|(start, end)| [0, sources.len() as u64 - 1, *start, *end]).collect();
    let (mut ours, mut again, mut third, mut fourth) = (Ours::new(&sources), Ours::new(&sources), Ours::new(&sources), Ours::new(&sources));
    assert_eq!((again.orders(&many), &again.room), (fourth.list(&words), &fourth.room));
    let checked = Ours::new(&sources);
    let [ours_one, ours_many, ours_list, ours_open, check, plain_one, plain_many, plain_open] = best([
        &mut || {
            black_box(ours.orders(black_box(&one)));
        },
        &mut || {
            black_box(again.orders(black_box(&many)));
        },
        &mut || {
            black_box(fourth.list(black_box(&words)));
        },
        &mut || {
            black_box(third.open());
        },
        &mut || {
            black_box(checked.check());
        },
        &mut || {
            black_box(orders(black_box(&arrays), &one));
        },
        &mut || {
            black_box(orders(black_box(&arrays), &many));
        },
        &mut || {
            black_box(open(black_box(&arrays)));
        },
    ]);
    let plain_many = plain_many - plain_open;
    tell(&format!("{name}, one order"), ours_one, plain_one - plain_open, Some(goal_of_one(name)));
    tell(&format!("{name}, 64 orders"), ours_many, plain_many, Some(1.3));
    tell(&format!("{name}, 64 orders as one list"), ours_list, plain_many, None);
    // the check varies by some ns, so that less than nothing may be left of an opening
    tell(&format!("{name}, opening without its check of {check:.0}"), (ours_open - check).max(0.0), plain_open, Some(1.0));
}

fn measure_nulls(random: &mut Random, name: &str, ty: &str) {
    let column = column(random, &ty.parse().unwrap());
    let arrays = [Convert::default().array(&column)];
    let (mut ours, mut again) = (Ours::keeping(&[&column], true), Ours::keeping(&[&column], true));
    let [ours_one, ours_many, plain_one, plain_many, plain_open] = best([
        &mut || {
            black_box(ours.nulls(black_box(1)));
        },
        &mut || {
            black_box(again.nulls(black_box(64)));
        },
        &mut || {
            black_box(nulls(black_box(&arrays), 1));
        },
        &mut || {
            black_box(nulls(black_box(&arrays), 64));
        },
        &mut || {
            black_box(open_keeping(black_box(&arrays)));
        },
    ]);
    tell(&format!("{name}, one null order"), ours_one, plain_one - plain_open, Some(1.0));
    tell(&format!("{name}, 64 null orders"), ours_many, plain_many - plain_open, Some(1.0));
}

// The finished columns are the same. A kept dictionary stays in the body: then the rows are compared.
fn same(sources: &[&Column], arrays: &[ArrayData]) {
    let last = sources.len() - 1;
    let mut join = Join::open(sources, false).unwrap();
    join.copy(last, 0..ROWS).unwrap();
    let joined = join.finish().unwrap().column;
    assert_eq!(joined.rows(), sources[last].rows());
    if last != 0 || joined.dictionary.is_none() {
        let theirs = orders(arrays, &pieces(1)).freeze();
        assert_eq!(difference(&joined, &theirs, sources[0], 0, "root"), None);
    }
}

// A copy of numbers against the copy of their bytes, from and to the same places.
fn against_memcpy(random: &mut Random) {
    let column = column(random, &"i".parse().unwrap());
    let ours = RefCell::new(Ours::new(&[&column]));
    let from = (ours.borrow().lent.places[3] as u64 + 4 * OFFSET) as usize;
    let to = ours.borrow().parts[0] as usize;
    let n = 4 * ROWS as usize;
    let one = pieces(1);
    let [a, b] = best([
        &mut || {
            black_box(ours.borrow_mut().orders(black_box(&one)));
        },
        &mut || {
            let Ours { lent, room, .. } = &mut *ours.borrow_mut();
            black_box(&mut room[to..to + n]).copy_from_slice(black_box(&lent.body[from..from + n]));
        },
    ]);
    tell(&format!("i32, one order against memcpy of {n} bytes"), a, b, Some(1.1));
}

fn main() {
    let mut random = Random(88172645463325252);
    let random = &mut random;
    println!("| {ROWS} rows, offset {OFFSET} | port, ns | original's algorithm, ns | ratio | goal | |");
    println!("|---|---|---|---|---|---|");
    against_memcpy(random);
    for (name, ty) in [
        ("i32", "i"),
        ("i32 with validity", "i?"),
        ("byte strings", "u"),
        ("views", "vu"),
        ("list of i32", "+l(i)"),
        ("large list of i32", "+L(i)"),
        ("list-view of i32", "+vl(i)"),
        ("list-view of i32, rows shuffled", "+vl(i)"),
        ("sparse union of i32 and i64", "+us:0,1(i, l)"),
        ("dense union of i32 and i64", "+ud:0,1(i, l)"),
        ("dense union of i32 and i64, rows shuffled", "+ud:0,1(i, l)"),
        ("run ends over i32", "+r(i, i)"),
        ("dictionary, joined", "S[u]"),
        ("dictionary, shared", "C[u]"),
        ("list of byte strings", "+l(u)"),
        ("list-view of byte strings", "+vl(u)"),
        ("list-view of byte strings, rows shuffled", "+vl(u)"),
        ("list-view of list-views of i32", "+vl(+vl(i))"),
        ("dense union of three", "+ud:0,1,2(i, u, g)"),
        ("dense union of three, rows shuffled", "+ud:0,1,2(i, u, g)"),
        ("run ends over a dictionary, joined", "+r(i, S[u])"),
    ] {
        measure(random, name, ty);
    }
    for (name, ty) in [
        ("i32", "i?"),
        ("byte strings", "u?"),
        ("views", "vu?"),
        ("dictionary", "C?[u]"),
        ("list of i32", "+l?(i)"),
        ("list-view of i32", "+vl?(i)"),
        ("sparse union of i32 and i64", "+us:0,1(i?, l?)"),
        ("dense union of i32 and i64", "+ud:0,1(i?, l?)"),
        ("run ends over i32", "+r(i, i?)"),
    ] {
        measure_nulls(random, name, ty);
    }
}
