//! Exact sums against sums of the rows in plain Rust, over random columns and at the edges.

mod common;

use common::Random;
use lafkuno::{mean, ratio, Column, Error, Fraction, Row, Type};

const FORMATS: [(&str, i128, i128); 8] = [
    ("c", i8::MIN as i128, i8::MAX as i128),
    ("C", 0, u8::MAX as i128),
    ("s", i16::MIN as i128, i16::MAX as i128),
    ("S", 0, u16::MAX as i128),
    ("i", i32::MIN as i128, i32::MAX as i128),
    ("I", 0, u32::MAX as i128),
    ("l", i64::MIN as i128, i64::MAX as i128),
    ("L", 0, u64::MAX as i128),
];

fn column(ty: &str, rows: &[Row]) -> Column {
    Column::build(&ty.parse::<Type>().unwrap(), rows).unwrap()
}

fn whole(n: i128) -> Row {
    Row::Whole(n)
}

/// A column with its rows: plain or of runs, with nulls, sliced in its middle.
fn random_column(r: &mut Random, length: u64) -> (Column, Vec<Option<i128>>) {
    let (format, low, high) = FORMATS[r.below(8) as usize];
    let before = r.below(12);
    let mut values: Vec<Option<i128>> = vec![];
    while (values.len() as u64) < before + length + 3 {
        let value = match r.below(6) {
            0 => None,
            1 => Some(low),
            2 => Some(high),
            3 => Some((r.next() as i64 as i128).clamp(low, high)),
            _ => Some((r.below(200) as i128 - 100).clamp(low, high)),
        };
        let times = if r.below(2) == 0 { 1 } else { 1 + r.below(9) };
        values.extend((0..times).map(|_| value));
    }
    let rows: Vec<Row> = values.iter().map(|v| v.map_or(Row::Null, Row::Whole)).collect();
    let ends = ["s", "i", "l"][r.below(3) as usize];
    let ty = if r.below(2) == 0 { format!("{format}?") } else { format!("+r({ends}, {format}?)") };
    let built = column(&ty, &rows).slice(before, length).unwrap();
    (built, values[before as usize..(before + length) as usize].to_vec())
}

fn fraction(n: i128, d: i128) -> Fraction {
    let (mut a, mut b) = (n.unsigned_abs(), d.unsigned_abs());
    while b != 0 {
        (a, b) = (b, a % b);
    }
    Fraction { minus: n != 0 && (n < 0) != (d < 0), over: (n.unsigned_abs() / a) as u64, under: (d.unsigned_abs() / a) as u64 }
}

fn holds(n: i128) -> bool {
    i64::try_from(n).is_ok()
}

fn ground<T>(answer: Result<T, Error>) -> u8 {
    answer.err().unwrap().ground().unwrap().number()
}

#[test]
fn random_columns_agree_with_plain_sums() {
    let mut r = Random(0x9e37_79b9_7f4a_7c15);
    let (mut answered, mut refused) = (0, 0);
    for _ in 0..3000 {
        let length = r.below(40);
        let (a, rows) = random_column(&mut r, length);
        let (b, others) = random_column(&mut r, length);
        let start = r.below(length + 1);
        let end = start + r.below(length - start + 1);
        let part = || (start as usize)..(end as usize);
        let present: Vec<i128> = rows[part()].iter().flatten().copied().collect();
        let sum: i128 = present.iter().sum();
        match mean(&a, start..end) {
            Ok(m) => {
                answered += 1;
                assert_eq!((m.count, m.sum as i128), (present.len() as u64, sum));
                assert_eq!(m.mean, fraction(sum, present.len() as i128));
            }
            Err(e) => {
                refused += 1;
                let due = if !holds(sum) { 15 } else { 16 };
                assert!(due == 15 || present.is_empty());
                assert_eq!(e.ground().unwrap().number(), due);
            }
        }
        let both: Vec<(i128, i128)> = rows[part()].iter().zip(&others[part()]).filter_map(|(x, y)| Some(((*x)?, (*y)?))).collect();
        let (first, second) = (both.iter().map(|p| p.0).sum::<i128>(), both.iter().map(|p| p.1).sum::<i128>());
        match ratio(&a, &b, start..end) {
            Ok(q) => {
                assert_eq!((q.count, q.first as i128, q.second as i128), (both.len() as u64, first, second));
                assert_eq!(q.ratio, fraction(first, second));
            }
            Err(e) => {
                let due = if !holds(first) || !holds(second) { 15 } else { 16 };
                assert!(due == 15 || second == 0);
                assert_eq!(e.ground().unwrap().number(), due);
            }
        }
        assert_eq!(ground(mean(&a, start..length + 1)), 2);
        assert_eq!(ground(ratio(&a, &b, 1..0)), 2);
    }
    assert!(answered > 500 && refused > 100, "{answered} {refused}");
}

#[test]
fn edges() {
    let top = i64::MAX as i128;
    // prefixes pass 2^63 and come back
    let m = mean(&column("l", &[whole(top), whole(top), whole(-top), whole(-top), whole(7)]), 0..5).unwrap();
    assert_eq!((m.count, m.sum, m.mean.to_string().as_str()), (5, 7, "7/5"));
    // -2^63 exactly, and one less
    let m = mean(&column("l", &[whole(-top), whole(-1)]), 0..2).unwrap();
    assert_eq!((m.sum, m.mean), (i64::MIN, Fraction { minus: true, over: 1 << 62, under: 1 }));
    assert_eq!(ground(mean(&column("l", &[whole(-top), whole(-2)]), 0..2)), 15);
    assert_eq!(ground(mean(&column("L", &[whole(top + 1)]), 0..1)), 15);
    // no row counts; 15 stands before 16, 2 before 10
    assert_eq!(ground(mean(&column("i?", &[Row::Null, Row::Null]), 0..2)), 16);
    assert_eq!(ground(mean(&column("i", &[whole(1)]), 1..1)), 16);
    assert_eq!(ground(mean(&column("f", &[Row::Single(0)]), 0..1)), 10);
    assert_eq!(ground(mean(&column("f", &[Row::Single(0)]), 0..2)), 2);
    assert_eq!(ground(mean(&column("C[i]", &[whole(1)]), 0..1)), 10);
    assert_eq!(ground(mean(&column("+r(i, u)", &[Row::Bytes(vec![1])]), 0..1)), 10);
    let far = column("l", &[whole(top), whole(1)]);
    assert_eq!(ground(ratio(&far, &column("i", &[whole(0), whole(0)]), 0..2)), 15);
    // distance 0; the sign moves; a row with one side counts on neither
    assert_eq!(ground(ratio(&column("i", &[whole(3)]), &column("i", &[whole(0)]), 0..1)), 16);
    let q = ratio(&column("i?", &[whole(3), Row::Null, whole(3)]), &column("s?", &[whole(-14), whole(5), Row::Null]), 0..3).unwrap();
    assert_eq!((q.count, q.first, q.second, q.ratio.to_string().as_str()), (1, 3, -14, "-3/14"));
    // runs that cross
    let a = column("+r(i, l)", &[1, 1, 1, 5, 5].map(whole));
    let b = column("+r(s, C)", &[2, 2, 3, 3, 3].map(whole));
    let q = ratio(&a, &b, 1..5).unwrap();
    assert_eq!((q.count, q.first, q.second, q.ratio.to_string().as_str()), (4, 12, 11, "12/11"));
    assert_eq!(mean(&column("i", &[whole(-1), whole(1)]), 0..2).unwrap().mean.to_string(), "0/1");
}

/// A run of 2^62 rows is answered at once: it is described, not stored.
#[test]
fn a_run_of_two_to_the_62_rows() {
    use lafkuno::calls::{self, Tables};
    let rows = 1u64 << 62;
    let tables = |ends: &[u64], values: &[i64]| -> (Vec<u64>, Vec<u64>, Vec<u8>) {
        let runs = ends.len() as u64;
        let body: Vec<u8> = ends.iter().flat_map(|e| e.to_le_bytes()).chain(values.iter().flat_map(|v| v.to_le_bytes())).collect();
        let size = 8 * runs as u64;
        let mut places = vec![0; 27];
        places[9 + 3..9 + 5].copy_from_slice(&[0, size]);
        places[18 + 3..18 + 5].copy_from_slice(&[size, size]);
        (vec![*ends.last().unwrap(), 0, runs, 0, runs, 0], places, body)
    };
    let ask = |ends: &[u64], values: &[i64]| {
        let (lengths, places, body) = tables(ends, values);
        let formats = b"+rl";
        let schema = [0, 2, 0, 2, 0, 2, 1, 0, 0, 0, 2, 1, 0, 0, 0];
        let x = Tables { sources: &[], formats, schema: &schema, lengths: &lengths, places: &places, buffers: &[], body: &body };
        let mut answer = [0; 5];
        let ground = calls::mean(&x, 0, 3, 0, *ends.last().unwrap(), &mut answer);
        (ground, answer)
    };
    assert_eq!(ask(&[rows], &[2]).0, 15);
    assert_eq!(ask(&[rows, rows + 1], &[2, -1]), (0, [rows + 1, i64::MAX as u64, 0, i64::MAX as u64, rows + 1]));
    assert_eq!(ask(&[rows], &[-2]), (0, [rows, i64::MIN as u64, 1, 2, 1]));
    // sizes of the answer are asked first
    let (lengths, places, body) = tables(&[1], &[1]);
    let x = Tables { sources: &[], formats: b"+rl", schema: &[0, 2, 0, 2, 0, 2, 1, 0, 0, 0, 2, 1, 0, 0, 0], lengths: &lengths, places: &places, buffers: &[], body: &body };
    let mut answer = [9; 4];
    assert_eq!((calls::mean(&x, 0, 3, 0, 1, &mut answer), answer), (14, [9; 4]));
    assert_eq!((calls::ratio(&x, (0, 3), (0, 3), 0, 1, &mut answer), answer), (14, [9; 4]));
}
