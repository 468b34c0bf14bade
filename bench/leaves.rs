// Times the leaves against plain Rust on the same bytes, interleaved in one run, and prints a table.
// Both sides are first held to the same results. Run by bench/run.
#[path = "leaves/calls.rs"]
mod calls;
#[path = "leaves/plain.rs"]
mod plain;
mod timing;

use calls::*;
use plain::*;
use std::hint::black_box;
use timing::{bytes, bytes_mut, compare, Random, NO_GOAL};

const REFUSED: usize = usize::MAX;
const ROWS: usize = 4096;

// ---- the same results

fn check_bits(random: &mut Random) {
    let body: Vec<u8> = (0..200).map(|_| random.next() as u8).collect();
    for _ in 0..20_000 {
        let (a, b, n) = (random.below(100) as usize, random.below(100) as usize, random.below(700) as usize);
        let old: Vec<u8> = (0..120).map(|_| random.next() as u8).collect();
        let mut want = old.clone();
        if 0 < n {
            want[b / 8] &= ((1u16 << (b % 8)) - 1) as u8;
            want[b / 8 + 1..(b + n).div_ceil(8).max(b / 8 + 1)].fill(0);
        }
        let (mut words, mut room) = (want.clone(), old.clone());
        let zeros = plain_set_bits(&mut want, b, &body, a, n);
        assert_eq!(zeros, plain_word_bits(&mut words, b, &body, a, n));
        assert_eq!(zeros, copy_bits(&mut room, b, &body, a, n));
        assert_eq!(zeros, plain_count_zeros(&body, a, n));
        assert_eq!(zeros, count_zeros(&body, a, n));
        assert!(words == want && room == want, "bits {a} {b} {n}");
    }
}

fn check_copies(random: &mut Random) {
    let body: Vec<u8> = (0..5000).map(|_| random.next() as u8).collect();
    for _ in 0..5_000 {
        let (at, from, n) = (random.below(200) as usize, random.below(200) as usize, random.below(4500) as usize);
        let (mut room, mut want) = (vec![7; 5000], vec![7; 5000]);
        plain_copy(&mut want, at, &body, from, n);
        assert_eq!(copy_bytes(&mut room, at, &body, from, n), 0);
        assert!(room == want, "copy {at} {from} {n}");
        plain_zeros(&mut want, from, n);
        assert_eq!(fill_zeros(&mut room, from, n), 0);
        assert!(room == want, "zeros {from} {n}");
    }
}

// Ranges that do not fit are refused, and nothing is written.
fn check_refusals() {
    let body = vec![1; 64];
    let mut room = vec![7; 64];
    for (at, n) in [(0, 65), (1, 64), (65, 0), (usize::MAX, 1), (1, usize::MAX), (usize::MAX, usize::MAX)] {
        assert_eq!(copy_bytes(&mut room, at, &body, 0, n), REFUSED);
        assert_eq!(copy_bytes(&mut room, 0, &body, at, n), REFUSED);
        assert_eq!(fill_zeros(&mut room, at, n), REFUSED);
        assert_eq!(extend_with_offset_u8(&mut room, at, &body, 0, n, 1), REFUSED);
        assert_eq!(count_zeros(&body, at.saturating_mul(8), n.saturating_mul(8)), REFUSED);
        assert_eq!(copy_bits(&mut room, at.saturating_mul(8), &body, 0, n.saturating_mul(8)), REFUSED);
    }
    for n in [17, usize::MAX / 4 + 1, usize::MAX] {
        assert_eq!(extend_offsets_i32(&mut room, 0, &body, 0, n, 0), REFUSED);
        assert_eq!(extend_offsets_i64(&mut room, 0, &body, 0, n, 0), REFUSED);
        assert_eq!(extend_with_offset_u16(&mut room, 0, &body, 0, n.saturating_add(16), 0), REFUSED);
        assert_eq!(extend_with_offset_u32(&mut room, 0, &body, 0, n, 0), REFUSED);
        assert_eq!(extend_views(&mut room, 0, &body, 0, n, 0), REFUSED);
        assert_eq!(find_runs_i32(&body, 0, n, &[0]), REFUSED);
    }
    assert_eq!(extend_offsets_i32(&mut room, 0, &body, 0, 16, 0), REFUSED);
    assert!(room.iter().all(|b| *b == 7));
}

// ---- the rows of the table

fn copies(random: &mut Random) {
    // The aligned places are multiples of 64, as where Arrow's buffers begin.
    let words = vec![0u128; (32768 + 256) / 16];
    let mut target = words.clone();
    let mut source = words;
    bytes_mut(&mut source).iter_mut().for_each(|b| *b = random.next() as u8);
    let body = bytes(&source);
    let room = bytes_mut(&mut target);
    let (at, from) = (room.as_ptr().align_offset(64), body.as_ptr().align_offset(64));
    for (n, name, goal) in [(32768, "32 KiB", 1.1), (4096, "4 KiB", 1.1), (64, "64 B", 1.3)] {
        for (at, from, place) in [(at, from, "aligned"), (at + 3, from + 5, "odd places")] {
            let (start, len) = (room.as_mut_ptr(), room.len());
            let room = || unsafe { std::slice::from_raw_parts_mut(black_box(start), len) };
            compare(
                &format!("copy of {name}, {place}"),
                goal,
                || copy_bytes(room(), at, black_box(body), from, black_box(n)),
                || plain_copy(room(), at, black_box(body), from, black_box(n)),
            );
        }
    }
    let (start, len) = (room.as_mut_ptr(), room.len());
    let room = || unsafe { std::slice::from_raw_parts_mut(black_box(start), len) };
    compare(
        "copy of 0 B: the call alone",
        NO_GOAL,
        || copy_bytes(room(), at, black_box(body), from, black_box(0)),
        || plain_copy(room(), at, black_box(body), from, black_box(0)),
    );
    compare(
        "zeros, 32 KiB",
        1.1,
        || fill_zeros(room(), at, black_box(32768)),
        || plain_zeros(room(), at, black_box(32768)),
    );
}

macro_rules! offsets {
    ($random:expr, $name:expr, $t:ty, $u:ty, $leaf:ident, $checked:ident, $wrapping:ident) => {{
        let mut o: $t = 100;
        let source: Vec<$t> = (0..=ROWS).map(|_| { o += $random.below(20) as $t; o }).collect();
        let mut room = vec![0 as $t; ROWS];
        let mut want = Vec::new();
        let mut plain = vec![0 as $t; ROWS];
        assert!($checked(&mut want, 7, &source));
        $wrapping(&mut plain, 7, &source);
        assert_eq!($leaf(bytes_mut(&mut room), 0, bytes(&source), 0, ROWS, 7 as $u), 0);
        assert!(room == want && plain == want);
        compare(
            &format!("offsets {}, sums tested", $name),
            1.1,
            || $leaf(bytes_mut(black_box(&mut room)), 0, bytes(black_box(&source)), 0, black_box(ROWS), 7 as $u),
            || $checked(black_box(&mut want), 7, black_box(&source)),
        );
        compare(
            &format!("offsets {}, not tested", $name),
            1.1,
            || $leaf(bytes_mut(black_box(&mut room)), 0, bytes(black_box(&source)), 0, black_box(ROWS), 7 as $u),
            || $wrapping(black_box(&mut plain), 7, black_box(&source)),
        );
    }};
}

macro_rules! keys {
    ($random:expr, $name:expr, $t:ty, $leaf:ident, $plain:ident) => {{
        let source: Vec<$t> = (0..ROWS).map(|_| $random.next() as $t).collect();
        let mut room = vec![0 as $t; ROWS];
        let mut want = vec![0 as $t; ROWS];
        $plain(&mut want, &source, 200);
        assert_eq!($leaf(bytes_mut(&mut room), 0, bytes(&source), 0, ROWS, 200), 0);
        assert!(room == want);
        compare(
            $name,
            1.1,
            || $leaf(bytes_mut(black_box(&mut room)), 0, bytes(black_box(&source)), 0, black_box(ROWS), 200),
            || $plain(black_box(&mut want), black_box(&source), 200),
        );
    }};
}

fn views(random: &mut Random) {
    // Every other view is inline, in no order.
    let view = |r: u64, s: u64| (r as u128) << 64 | (s as u128) << 32 | (s >> 40 & 31) as u128;
    let source: Vec<u128> = (0..ROWS).map(|_| view(random.next(), random.next())).collect();
    let (mut room, mut want) = (vec![0; ROWS], vec![0; ROWS]);
    plain_views(&mut want, &source, 5);
    assert_eq!(extend_views(bytes_mut(&mut room), 0, bytes(&source), 0, ROWS, 5), 0);
    assert!(room == want);
    compare(
        "views",
        1.1,
        || extend_views(bytes_mut(black_box(&mut room)), 0, bytes(black_box(&source)), 0, black_box(ROWS), 5),
        || plain_views(black_box(&mut want), black_box(&source), 5),
    );
}

fn validity(random: &mut Random) {
    let body: Vec<u8> = (0..ROWS / 8 + 16).map(|_| random.next() as u8).collect();
    let (mut room, mut want) = (vec![0; ROWS / 8 + 16], vec![0; ROWS / 8 + 16]);
    for (a, b, place) in [(3, 5, "bit 3 to bit 5"), (3, 0, "bit 3 to bit 0"), (0, 0, "bit 0 to bit 0")] {
        compare(
            &format!("validity with count, {place}, as set_bits"),
            1.1,
            || copy_bits(black_box(&mut room), b, black_box(&body), a, black_box(ROWS)),
            || plain_set_bits(black_box(&mut want), b, black_box(&body), a, black_box(ROWS)),
        );
        compare(
            &format!("validity with count, {place}, by words"),
            1.1,
            || copy_bits(black_box(&mut room), b, black_box(&body), a, black_box(ROWS)),
            || plain_word_bits(black_box(&mut want), b, black_box(&body), a, black_box(ROWS)),
        );
    }
    compare(
        "count of zeros, from bit 3",
        1.1,
        || count_zeros(black_box(&body), 3, black_box(ROWS)),
        || plain_count_zeros(black_box(&body), 3, black_box(ROWS)),
    );
}

fn runs(random: &mut Random) {
    // Runs of 1 to 15 rows that reach over all rows.
    let mut ends: Vec<i32> = vec![];
    let mut end = 0;
    while end < ROWS as i32 {
        end += 1 + random.below(15) as i32;
        ends.push(end);
    }
    let in_order: Vec<u64> = (0..ROWS as u64).collect();
    let mut shuffled = in_order.clone();
    for i in (1..ROWS).rev() {
        shuffled.swap(i, random.below(i as u64 + 1) as usize);
    }
    for (rows, order) in [(&in_order, "rows in order"), (&shuffled, "rows shuffled")] {
        assert_eq!(plain_find_runs(&ends, rows), find_runs_i32(bytes(&ends), 0, ends.len(), rows));
        compare(
            &format!("runs of {ROWS} rows, {} runs, {order}", ends.len()),
            1.1,
            || find_runs_i32(bytes(black_box(&ends)), 0, ends.len(), black_box(rows)),
            || plain_find_runs(black_box(&ends), black_box(rows)),
        );
    }
}

fn main() {
    let mut random = Random(88172645463325252);
    check_copies(&mut random);
    check_bits(&mut random);
    check_refusals();
    println!("| {ROWS} rows where not said otherwise | leaf, ns | plain Rust, ns | ratio | goal | |");
    println!("|---|---|---|---|---|---|");
    copies(&mut random);
    offsets!(random, "i32", i32, u32, extend_offsets_i32, plain_checked_i32, plain_wrapping_i32);
    offsets!(random, "i64", i64, u64, extend_offsets_i64, plain_checked_i64, plain_wrapping_i64);
    keys!(random, "keys u8", u8, extend_with_offset_u8, plain_keys_u8);
    keys!(random, "keys u16", u16, extend_with_offset_u16, plain_keys_u16);
    keys!(random, "keys u32", u32, extend_with_offset_u32, plain_keys_u32);
    views(&mut random);
    validity(&mut random);
    runs(&mut random);
}
