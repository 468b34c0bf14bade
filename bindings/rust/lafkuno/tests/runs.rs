//! The run reader through the binding: the run of a row, the rows left in it, the runs of a range, and the order of grounds.

use lafkuno::calls::{self, RunAnswer};
use lafkuno::{Buffer, Column, Error, Lent, Reader};

fn ints(values: &[i32]) -> Column {
    let buffer: Buffer = values.iter().flat_map(|v| v.to_le_bytes()).collect::<Vec<u8>>().into();
    Column { format: "i".into(), length: values.len() as u64, buffers: vec![buffer], ..Column::default() }
}

/// K1's column: run ends 2, 5, 9 at offset 1.
fn runs(length: u64) -> Column {
    Column { format: "+r".into(), offset: 1, length, children: vec![ints(&[2, 5, 9]), ints(&[10, 20, 30])], ..Column::default() }
}

fn ground<T>(answer: Result<T, Error>) -> u8 {
    answer.map_or_else(|e| e.ground().map_or(255, |g| g.number()), |_| 0)
}

#[test]
fn rows_left_in_k1() {
    for (length, expected) in [(8, vec![1, 3, 2, 1, 4, 3, 2, 1]), (6, vec![1, 3, 2, 1, 2, 1])] {
        let reader = Reader::open(&runs(length)).unwrap();
        let left: Vec<u64> = (0..length).map(|row| reader.run(row).unwrap().1).collect();
        assert_eq!(left, expected);
        assert_eq!(ground(reader.run(length)), 2);
    }
}

#[test]
fn once_a_run() {
    let reader = Reader::open(&runs(8)).unwrap();
    let cut = |rows| reader.runs(rows).unwrap().collect::<Vec<_>>();
    assert_eq!(cut(0..8), [(0, 1), (1, 3), (2, 4)]);
    assert_eq!(cut(2..6), [(1, 2), (2, 2)]);
    assert_eq!(cut(1..3), [(1, 2)]);
    assert_eq!(cut(8..8), []);
    assert_eq!((ground(reader.runs(7..9)), ground(reader.runs(9..9))), (2, 2));
    assert_eq!(ground(Reader::open(&ints(&[1, 2])).unwrap().runs(0..0)), 10);
}

#[test]
fn grounds_of_a_malformed_column_come_first() {
    let at = |column: &Column, row| {
        let lent = Lent::lay(&[column]).unwrap();
        calls::run_at(&lent.tables(), 0, lent.sources[1], row)
    };
    assert_eq!(at(&runs(8), 4), Ok(RunAnswer { run: 2, left: 4 }));
    assert_eq!(at(&runs(8), 8), Err(2));
    // rows past the last run end: 12, also where there is no such row
    assert_eq!((at(&runs(9), 0), at(&runs(9), 99)), (Err(12), Err(12)));
    assert_eq!(at(&Column { children: vec![ints(&[2, 5, 5]), ints(&[1, 2, 3])], ..runs(4) }, 99), Err(12));
    // no format, and a column of another kind, which is whole or not
    assert_eq!(at(&Column { format: "q".into(), ..ints(&[1]) }, 99), Err(10));
    assert_eq!(at(&ints(&[1]), 99), Err(10));
    assert_eq!(at(&Column { length: 2, ..ints(&[1]) }, 99), Err(12));
    assert_eq!(at(&Column { length: 1 << 63, ..runs(8) }, 99), Err(9));
}
