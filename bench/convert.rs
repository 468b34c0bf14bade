// Times columns of 4,096 rows that are written in another type, wider and narrower, and a list as a list-view and back, against plain loops in Rust
// on the same body, and prints a table. Both sides are first held to the same bytes. Run by bench/run.
mod timing;

use std::hint::black_box;
use timing::{bytes, compare, Random, NO_GOAL};

type Asks = unsafe extern "C" fn(
    *const u8, usize, *const u32, usize, *const u64, usize, *const u64, usize, *const u64, usize, *const u8, usize,
    u32, u32, u32, u32, *mut u64, usize, *mut u64, usize,
) -> u8;
type Writes = unsafe extern "C" fn(
    *const u8, usize, *const u32, usize, *const u64, usize, *const u64, usize, *const u64, usize, *const u8, usize,
    u32, u32, u32, u32, *const u64, usize, *mut u64, usize, *mut u64, usize, *mut u8, usize,
) -> u8;

// A slice passes as pointer and length.
macro_rules! calls {
    ($($ask:ident $write:ident)*) => {
        extern "C" {
            $(fn $ask(
                formats: *const u8, formats_len: usize, schema: *const u32, schema_len: usize, lengths: *const u64, lengths_len: usize,
                places: *const u64, places_len: usize, buffers: *const u64, buffers_len: usize, body: *const u8, body_len: usize,
                first: u32, n: u32, target: u32, target_n: u32, plan: *mut u64, plan_len: usize, counters: *mut u64, counters_len: usize,
            ) -> u8;
            fn $write(
                formats: *const u8, formats_len: usize, schema: *const u32, schema_len: usize, lengths: *const u64, lengths_len: usize,
                places: *const u64, places_len: usize, buffers: *const u64, buffers_len: usize, body: *const u8, body_len: usize,
                first: u32, n: u32, target: u32, target_n: u32, parts: *const u64, parts_len: usize, plan: *mut u64, plan_len: usize,
                counters: *mut u64, counters_len: usize, room: *mut u8, room_len: usize,
            ) -> u8;)*
            fn lafkuno_part_count(plan: *const u64, plan_len: usize) -> u32;
            fn lafkuno_needed_bytes(plan: *const u64, plan_len: usize, counters: *const u64, counters_len: usize, p: u32) -> u64;
        }
    };
}

calls! {
    lafkuno_plan_convert lafkuno_convert
    lafkuno_plan_list lafkuno_list
    lafkuno_plan_list_view lafkuno_list_view
}

const ROWS: usize = 4096;
const OFFSET: usize = 8;
const SLOTS: usize = OFFSET + ROWS;

// A column and the type that it becomes: the nodes of the column, then those of the type.
#[derive(Default, Clone)]
struct Column {
    formats: Vec<u8>,
    schema: Vec<u32>,
    lengths: Vec<u64>,
    places: Vec<u64>,
    body: Vec<u8>,
    nodes: u32,
    parts: Vec<u64>,
    plan: Vec<u64>,
    counters: Vec<u64>,
    room: Vec<u8>,
}

impl Column {
    // A node of so many rows, with its validity (empty: none) and buffers.
    fn node(&mut self, format: &str, below: [u32; 2], rows: usize, offset: usize, bits: &[u8], buffers: &[&[u8]]) {
        self.schema.extend([self.formats.len() as u32, format.len() as u32, 2, below[0], below[1]]);
        self.formats.extend(format.bytes());
        self.lengths.extend([rows as u64, offset as u64]);
        let mut places = [0; 9];
        places[0] = !bits.is_empty() as u64;
        for (k, buffer) in [bits].iter().chain(buffers).enumerate() {
            self.body.resize(self.body.len().next_multiple_of(64), 0);
            (places[1 + 2 * k], places[2 + 2 * k]) = (self.body.len() as u64, buffer.len() as u64);
            self.body.extend_from_slice(buffer);
        }
        self.places.extend(places);
        self.nodes = self.nodes.max(self.lengths.len() as u32 / 2);
    }

    // The nodes so far are the column; these are the type.
    fn becomes(&mut self, formats: &[&str], ask: Asks) {
        let n = self.nodes;
        for (k, format) in formats.iter().enumerate() {
            let [children, dictionary] = [3, 4].map(|j| self.schema[5 * k + j]);
            self.node(format, [children, dictionary], 0, 0, &[], &[]);
        }
        self.nodes = n;
        (self.plan, self.counters) = (vec![0; 872], vec![0; 96]);
        let answer = unsafe {
            ask(
                self.formats.as_ptr(), self.formats.len(), self.schema.as_ptr(), self.schema.len(), self.lengths.as_ptr(), self.lengths.len(),
                self.places.as_ptr(), self.places.len(), [0u64; 0].as_ptr(), 0, self.body.as_ptr(), self.body.len(),
                0, n, n, n, self.plan.as_mut_ptr(), 872, self.counters.as_mut_ptr(), 96,
            )
        };
        assert_eq!(answer, 0);
        let mut end = 0;
        for p in 0..unsafe { lafkuno_part_count(self.plan.as_ptr(), 872) } {
            let size = unsafe { lafkuno_needed_bytes(self.plan.as_ptr(), 872, self.counters.as_ptr(), 96, p) };
            self.parts.extend([end, size]);
            end += size.next_multiple_of(64);
        }
        self.room = vec![0; end as usize];
    }

    fn write(&mut self, write: Writes) -> u8 {
        let n = self.nodes;
        unsafe {
            write(
                self.formats.as_ptr(), self.formats.len(), self.schema.as_ptr(), self.schema.len(), self.lengths.as_ptr(), self.lengths.len(),
                self.places.as_ptr(), self.places.len(), [0u64; 0].as_ptr(), 0, self.body.as_ptr(), self.body.len(),
                0, n, n, n, self.parts.as_ptr(), self.parts.len(), self.plan.as_mut_ptr(), 872, self.counters.as_mut_ptr(), 96,
                self.room.as_mut_ptr(), self.room.len(),
            )
        }
    }

    fn part(&self, p: usize) -> &[u8] {
        &self.room[self.parts[2 * p] as usize..(self.parts[2 * p] + self.parts[2 * p + 1]) as usize]
    }

    // Buffer j of node k, 0 being the validity.
    fn buffer(&self, k: usize, j: usize) -> &[u8] {
        let [at, len] = [1, 2].map(|i| self.places[9 * k + 2 * j + i] as usize);
        &black_box(&self.body[..])[at..at + len]
    }
}

// ---- plain Rust: what a column's rows become, with the checks that keep it from reading outside

macro_rules! entry {
    ($s:expr, $k:expr, $t:ty) => {
        <$t>::from_le_bytes($s[$k * size_of::<$t>()..($k + 1) * size_of::<$t>()].try_into().unwrap())
    };
}

// So many entries from a slot on.
macro_rules! entries {
    ($s:expr, $k:expr, $n:expr, $t:ty) => {
        $s[$k * size_of::<$t>()..($k + $n) * size_of::<$t>()].chunks_exact(size_of::<$t>()).map(|e| <$t>::from_le_bytes(e.try_into().unwrap()))
    };
}

// Offsets less the first of them in another width, and the bytes between.
macro_rules! text {
    ($c:expr, $from:ty, $to:ty) => {{
        let (offsets, data) = ($c.buffer(0, 1), $c.buffer(0, 2));
        let (first, last) = (entry!(offsets, OFFSET, $from), entry!(offsets, SLOTS, $from));
        let rise = entries!(offsets, OFFSET, ROWS, $from).zip(entries!(offsets, OFFSET + 1, ROWS, $from)).fold(true, |r, (a, b)| r & (a <= b));
        let fits = rise && (last as usize) <= data.len() && (last - first) as u64 <= <$to>::MAX as u64 / 2;
        fits.then(|| {
            let out: Vec<$to> = entries!(offsets, OFFSET, ROWS + 1, $from).map(|o| (o - first) as $to).collect();
            (out, data[first as usize..last as usize].to_vec())
        })
    }};
}

// Keys in another width, 0 under nulls; the bits and the entries copied.
macro_rules! keys {
    ($c:expr, $from:ty, $to:ty) => {{
        let (bits, keys, values) = ($c.buffer(0, 0), $c.buffer(0, 1), $c.buffer(1, 1));
        let keys = entries!(keys, OFFSET, ROWS, $from);
        let valid = |k: usize| bits[(OFFSET + k) / 8] >> ((OFFSET + k) % 8) & 1 == 1;
        let out: Vec<$from> = if bits.is_empty() { keys.collect() } else { keys.enumerate().map(|(k, v)| if valid(k) { v } else { 0 }).collect() };
        let good = ENTRIES - 1 <= <$to>::MAX as usize && out.iter().fold(true, |g, v| g & ((*v as usize) < ENTRIES));
        let bits = if bits.is_empty() { vec![] } else { bits[OFFSET / 8..SLOTS.div_ceil(8)].to_vec() };
        good.then(|| (bits, out.into_iter().map(|v| v as $to).collect::<Vec<$to>>(), values.to_vec()))
    }};
}

const ENTRIES: usize = 200;

fn strings<T: timing::Number + TryFrom<u64>>(random: &mut Random, format: &str, to: &str) -> Column
where
    T::Error: std::fmt::Debug,
{
    let mut end = 3u64;
    let offsets: Vec<T> = (0..=SLOTS).map(|_| (end, end += random.below(16)).0.try_into().unwrap()).collect();
    let data: Vec<u8> = (0..end).map(|_| random.next() as u8).collect();
    let mut column = Column::default();
    column.node(format, [0, 0], ROWS, OFFSET, &[], &[bytes(&offsets), &data]);
    column.becomes(&[to], lafkuno_plan_convert);
    column
}

fn dictionary<T: timing::Number + TryFrom<u64>>(random: &mut Random, format: &str, to: &str, nulls: u64) -> Column
where
    T::Error: std::fmt::Debug,
{
    let keys: Vec<T> = (0..SLOTS).map(|_| random.below(ENTRIES as u64).try_into().ok().unwrap()).collect();
    let mut bits = vec![0u8; if nulls == 0 { 0 } else { SLOTS.div_ceil(8) }];
    (0..SLOTS).filter(|_| nulls != 0 && random.below(nulls) != 0).for_each(|i| bits[i / 8] |= 1 << (i % 8));
    let mut column = Column::default();
    column.node(format, [0, 1], ROWS, OFFSET, &bits, &[bytes(&keys)]);
    column.node("L", [0, 0], ENTRIES, 0, &[], &[bytes(&(0..ENTRIES as u64).collect::<Vec<_>>())]);
    column.becomes(&[to, "L"], lafkuno_plan_convert);
    column
}

// Lists of four numbers of four bytes, each row behind the one before.
fn lists(random: &mut Random, format: &str, to: &str, views: bool, ask: Asks) -> Column {
    let offsets: Vec<u32> = (0..=SLOTS as u32).map(|k| 4 * k).collect();
    let sizes = vec![4u32; SLOTS];
    let child: Vec<u32> = (0..4 * SLOTS).map(|_| random.below(1 << 32) as u32).collect();
    let mut column = Column::default();
    let buffers: &[&[u8]] = if views { &[&bytes(&offsets)[..4 * SLOTS], bytes(&sizes)] } else { &[bytes(&offsets)] };
    column.node(format, [1, 0], ROWS, OFFSET, &[], buffers);
    column.node("I", [0, 0], 4 * SLOTS, 0, &[], &[bytes(&child)]);
    column.becomes(&[to, "I"], ask);
    column
}

// Each row's offset and size; the offsets rise and stay within the child.
fn plain_view(c: &Column) -> Option<(Vec<u32>, Vec<u32>)> {
    let (offsets, rows) = (c.buffer(0, 1), c.buffer(1, 1).len() / 4);
    let both = || entries!(offsets, OFFSET, ROWS, u32).zip(entries!(offsets, OFFSET + 1, ROWS, u32));
    let good = both().fold(true, |g, (a, b)| g & (a <= b)) && entry!(offsets, SLOTS, u32) as usize <= rows;
    good.then(|| (both().map(|(a, _)| a).collect(), both().map(|(a, b)| b - a).collect()))
}

// One copy of the child for each row, and the offset behind it.
fn plain_list(c: &Column) -> Option<(Vec<u32>, Vec<u8>)> {
    let (offsets, sizes, child) = (c.buffer(0, 1), c.buffer(0, 2), c.buffer(1, 1));
    let (mut ends, mut out) = (Vec::with_capacity(ROWS + 1), vec![]);
    ends.push(0u32);
    for k in OFFSET..SLOTS {
        let (start, size) = (entry!(offsets, k, u32) as usize, entry!(sizes, k, u32) as usize);
        out.extend_from_slice(child.get(4 * start..4 * (start + size))?);
        ends.push(u32::try_from(out.len() / 4).ok()?);
    }
    Some((ends, out))
}

// Offsets and sizes in another width, and the whole child.
macro_rules! stretches {
    ($c:expr, $from:ty, $to:ty) => {{
        let (offsets, sizes, child) = ($c.buffer(0, 1), $c.buffer(0, 2), $c.buffer(1, 1));
        let both = || entries!(offsets, OFFSET, ROWS, $from).zip(entries!(sizes, OFFSET, ROWS, $from));
        let most = (child.len() as u64).min(<$to>::MAX as u64 / 2);
        let good = both().fold(true, |g, (a, b)| g & ((a as u64).saturating_add(b as u64) <= most));
        good.then(|| (both().map(|(a, _)| a as $to).collect::<Vec<$to>>(), both().map(|(_, b)| b as $to).collect::<Vec<$to>>(), child.to_vec()))
    }};
}

fn views<T: timing::Number + TryFrom<u64>>(format: &str, to: &str) -> Column
where
    T::Error: std::fmt::Debug,
{
    let offsets: Vec<T> = (0..SLOTS as u64).map(|k| (k / 2).try_into().unwrap()).collect();
    let sizes: Vec<T> = (0..SLOTS as u64).map(|k| (k % 5).try_into().unwrap()).collect();
    let mut column = Column::default();
    column.node(format, [1, 0], ROWS, OFFSET, &[], &[bytes(&offsets), bytes(&sizes)]);
    column.node("C", [0, 0], SLOTS, 0, &[], &[&vec![7u8; SLOTS]]);
    column.becomes(&[to, "C"], lafkuno_plan_convert);
    column
}

// The same bytes on both sides, then their times.
macro_rules! row {
    ($name:expr, $goal:expr, $column:expr, $write:expr, $plain:expr, $($part:tt => $p:expr),*) => {{
        let mut column = $column;
        assert_eq!(column.write($write), 0);
        let other = column.clone();
        let plain = $plain;
        let due = plain(&other).unwrap();
        $(assert_eq!(column.part($p), bytes(&due.$part));)*
        compare($name, $goal, || column.write($write), || plain(&other));
    }};
}

fn main() {
    let mut r = Random(88172645463325252);
    println!("| {ROWS} rows, offset {OFFSET} | port, ns | plain Rust, ns | ratio | goal | |");
    println!("|---|---|---|---|---|---|");
    row!("byte strings, 32 to 64 bits", 1.2, strings::<u32>(&mut r, "u", "U"), lafkuno_convert, |c: &Column| text!(c, u32, u64), 0 => 0, 1 => 1);
    row!("byte strings, 64 to 32 bits", 1.2, strings::<u64>(&mut r, "U", "u"), lafkuno_convert, |c: &Column| text!(c, u64, u32), 0 => 0, 1 => 1);
    row!("keys, 8 to 32 bits", 1.2, dictionary::<u8>(&mut r, "C", "I", 0), lafkuno_convert, |c: &Column| keys!(c, u8, u32), 1 => 0, 2 => 1);
    row!("keys, 32 to 8 bits", 1.2, dictionary::<u32>(&mut r, "I", "C", 0), lafkuno_convert, |c: &Column| keys!(c, u32, u8), 1 => 0, 2 => 1);
    row!("keys, 64 to 16 bits", 1.2, dictionary::<u64>(&mut r, "L", "S", 0), lafkuno_convert, |c: &Column| keys!(c, u64, u16), 1 => 0, 2 => 1);
    row!("keys, 64 to 16 bits, one in eight null", 1.2, dictionary::<u64>(&mut r, "L", "S", 8), lafkuno_convert, |c: &Column| keys!(c, u64, u16), 0 => 0, 1 => 1, 2 => 2);
    row!("list-views, 32 to 64 bits", 1.2, views::<u32>("+vl", "+vL"), lafkuno_convert, |c: &Column| stretches!(c, u32, u64), 0 => 0, 1 => 1, 2 => 2);
    row!("list-views, 64 to 32 bits", 1.2, views::<u64>("+vL", "+vl"), lafkuno_convert, |c: &Column| stretches!(c, u64, u32), 0 => 0, 1 => 1, 2 => 2);
    row!("list to list-view", NO_GOAL, lists(&mut r, "+l", "+vl", false, lafkuno_plan_list_view), lafkuno_list_view, plain_view, 0 => 0, 1 => 1);
    row!("list-view to list, four numbers a row", NO_GOAL, lists(&mut r, "+vl", "+l", true, lafkuno_plan_list), lafkuno_list, plain_list, 0 => 0, 1 => 1);
}
