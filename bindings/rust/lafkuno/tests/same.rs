//! Whether two rows read the same, against the rows as they are read in plain Rust, over random columns and at the edges.

mod common;

use common::Random;
use lafkuno::{calls, Column, Error, Lent, Row, Type};

const FORMATS: [&str; 10] = ["c", "C", "s", "S", "i", "I", "l", "L", "f", "g"];
/// Zeros of both signs, one, infinity, and NaNs of other bits and sign.
const SINGLES: [u32; 7] = [0, 0x8000_0000, 0x3f80_0000, 0x7f80_0000, 0x7fc0_0000, 0x7fc0_0001, 0xffc0_0000];
const DOUBLES: [u64; 7] = [0, 1 << 63, 0x3ff0 << 48, 0x7ff0 << 48, 0x7ff8 << 48, (0x7ff8 << 48) + 1, 0xfff8 << 48];

fn column(ty: &str, rows: &[Row]) -> Column {
    Column::build(&ty.parse::<Type>().unwrap(), rows).unwrap()
}

fn ground<T: std::fmt::Debug>(answer: Result<T, Error>) -> u8 {
    answer.unwrap_err().ground().unwrap().number()
}

fn random_row(r: &mut Random, format: &str) -> Row {
    if r.below(4) == 0 {
        return Row::Null;
    }
    match format {
        "f" => Row::Single(SINGLES[r.below(7) as usize]),
        "g" => Row::Double(DOUBLES[r.below(7) as usize]),
        "C" | "S" | "I" | "L" => Row::Whole(r.below(4) as i128),
        _ => Row::Whole(r.below(7) as i128 - 3),
    }
}

/// A column of few values, plain or as runs, sliced in its middle. Null slots hold any bytes.
fn random_column(r: &mut Random) -> Column {
    let format = FORMATS[r.below(10) as usize];
    let (before, length) = (r.below(12), 1 + r.below(9));
    let rows: Vec<Row> = (0..before + length + 2).map(|_| random_row(r, format)).collect();
    let plain = r.below(2) == 0;
    let ty = if plain { format!("{format}?") } else { format!("+r({}, {format}?)", ["s", "i", "l"][r.below(3) as usize]) };
    let mut built = column(&ty, &rows);
    if plain {
        let w = built.buffers[0].len() / rows.len();
        let mut bytes = built.buffers[0].to_vec();
        for (k, _) in rows.iter().enumerate().filter(|(_, row)| **row == Row::Null) {
            bytes[w * k..w * (k + 1)].fill(r.below(256) as u8);
        }
        built.buffers[0] = bytes.into();
    }
    built.slice(before, length).unwrap()
}

#[test]
fn rows_of_random_columns() {
    let mut r = Random(20);
    let (mut same, mut others) = (0, 0);
    for _ in 0..3000 {
        let (a, b) = (random_column(&mut r), random_column(&mut r));
        let lent = Lent::lay(&[&a, &b]).unwrap();
        for (i, j) in (0..a.length).flat_map(|i| (0..b.length).map(move |j| (i, j))) {
            let told = lent.same_row((0, i), (1, j)).unwrap();
            assert_eq!(told, a.row(i).unwrap() == b.row(j).unwrap(), "{:?} and {:?}", a.row(i), b.row(j));
            assert_eq!(lent.same_row((1, j), (0, i)).unwrap(), told);
            *if told { &mut same } else { &mut others } += 1;
        }
        for i in 1..a.length {
            assert_eq!(lent.same_row((0, i - 1), (0, i)).unwrap(), a.row(i - 1) == a.row(i));
        }
        assert_eq!(ground(lent.same_row((0, a.length), (1, 0))), 2);
        assert_eq!(ground(lent.same_row((0, 0), (1, u64::MAX))), 2);
    }
    assert!(5_000 < same && 5_000 < others, "{same} and {others}");
}

#[test]
fn values_widths_and_nulls() {
    let whole = |ty: &str, n: i128| column(ty, &[Row::Whole(n)]);
    for (a, b, told) in [
        (whole("c", -1), whole("l", -1), true),
        (whole("i", 5), whole("L", 5), true),
        (whole("c", -1), whole("C", 255), false),
        (whole("l", -1), whole("L", u64::MAX as i128), false),
        (column("f", &[Row::Single(0)]), whole("i", 0), false),
        (column("f", &[Row::Single(0x3f80_0000)]), column("g", &[Row::Double(0x3ff0 << 48)]), false),
        (column("g?", &[Row::Null]), column("c?", &[Row::Null]), true),
        (column("g?", &[Row::Null]), column("g", &[Row::Double(0)]), false),
        (column("+r(s, i?)", &[Row::Null]), column("L?", &[Row::Null]), true),
    ] {
        assert_eq!(a.same_row(0, &b, 0).unwrap(), told, "{a:?} {b:?}");
    }
}

#[test]
fn other_columns_and_the_order_of_grounds() {
    let numbers = column("i", &[Row::Whole(7)]);
    for ty in ["u", "vu", "+vl(i)", "+l(i)", "+us:0(i)", "+ud:0(i)", "+r(s, u)", "+r(s, +r(s, i))"] {
        let rows: [Row; 1] = [match ty {
            "u" | "vu" | "+r(s, u)" => Row::Bytes(b"7".to_vec()),
            "+vl(i)" | "+l(i)" => Row::List(vec![Row::Whole(7)]),
            "+us:0(i)" | "+ud:0(i)" => Row::Union(0, Box::new(Row::Whole(7))),
            _ => Row::Whole(7),
        }];
        let other = column(ty, &rows);
        assert_eq!((ground(other.same_row(0, &numbers, 0)), ground(numbers.same_row(0, &other, 0))), (10, 10), "{ty}");
        assert_eq!((ground(other.same_row(1, &numbers, 0)), ground(other.same_row(0, &numbers, 1))), (2, 2), "{ty}");
    }
    let text = column("u", &[Row::Bytes(b"7".to_vec())]);
    let keys = column("C[i]", &[Row::Whole(7)]);
    assert_eq!(ground(keys.same_row(0, &numbers, 0)), 10);
    let broken = Column { length: 2, ..numbers.clone() };
    assert_eq!(ground(text.same_row(5, &broken, 0)), 12);
    let lent = Lent::lay(&[&numbers]).unwrap();
    assert!(lent.same_row((0, 0), (1, 0)).is_err());
    let mut answer = [9; 2];
    assert_eq!((calls::same_row(&lent.tables(), (0, 1), (0, 1), 0, 0, &mut answer), answer), (14, [9; 2]));
    assert_eq!((calls::same_row(&lent.tables(), (0, 1), (0, 1), 0, 1, &mut answer), answer), (2, [9; 2]));
    assert_eq!((calls::same_row(&lent.tables(), (0, 1), (0, 1), 0, 0, &mut answer[..1]), answer), (0, [1, 9]));
}
