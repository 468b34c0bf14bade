//! Reclaiming unused dictionary entries, held against a plain reading of the request over random columns.

mod common;

use common::Random;
use lafkuno::{Column, Row, Type};
use std::collections::BTreeSet;

fn width(format: &str) -> usize {
    match format {
        "c" | "C" => 1,
        "s" | "S" => 2,
        "i" | "I" => 4,
        _ => 8,
    }
}

/// The key of row i without a sign.
fn key(column: &Column, i: u64) -> u64 {
    let (w, at) = (width(&column.format), (column.offset + i) as usize);
    let mut bytes = [0; 8];
    bytes[..w].copy_from_slice(&column.buffers[0][w * at..w * (at + 1)]);
    u64::from_le_bytes(bytes)
}

fn is_valid(column: &Column, i: u64) -> bool {
    let at = column.offset + i;
    column.validity.as_ref().is_none_or(|bits| bits[(at / 8) as usize] >> (at % 8) & 1 == 1)
}

/// A column of keys over a dictionary; under nulls stand keys of any size.
fn keyed(format: &str, keys: &[Option<u64>], dictionary: Column, wild: &mut Random) -> Column {
    let w = width(format);
    let mut bytes = vec![];
    let mut bits = vec![0u8; keys.len().div_ceil(8)];
    for (i, k) in keys.iter().enumerate() {
        bytes.extend(&k.unwrap_or_else(|| wild.below(u64::MAX)).to_le_bytes()[..w]);
        bits[i / 8] |= (k.is_some() as u8) << (i % 8);
    }
    let validity = keys.iter().any(Option::is_none).then(|| bits.into());
    Column {
        format: format.into(),
        nullable: validity.is_some(),
        length: keys.len() as u64,
        validity,
        buffers: vec![bytes.into()],
        dictionary: Some(Box::new(dictionary)),
        ..Column::default()
    }
}

fn dictionary(random: &mut Random) -> Column {
    let (ty, strings) = [("i", false), ("i?", false), ("u", true), ("U?", true), ("g", false)][random.below(5) as usize];
    let ty: Type = ty.parse().unwrap();
    let rows: Vec<Row> = (0..1 + random.below(40))
        .map(|_| match (ty.nullable && random.below(5) == 0, strings) {
            (true, _) => Row::Null,
            (_, true) => Row::Bytes((0..random.below(6)).map(|_| b'a' + random.below(26) as u8).collect()),
            _ if ty.format == "g" => Row::Double(random.below(9)),
            _ => Row::Whole(random.below(99) as i128),
        })
        .collect();
    let whole = Column::build(&ty, &rows).unwrap();
    let start = random.below(rows.len() as u64);
    whole.slice(start, 1 + random.below(rows.len() as u64 - start)).unwrap()
}

/// A column of random keys over a sliced dictionary, itself sliced.
fn column(random: &mut Random) -> Column {
    let format = ["c", "C", "s", "S", "i", "I", "l", "L"][random.below(8) as usize];
    let (entries, nulls) = (dictionary(random), random.below(2) == 0);
    let some = 1 + random.below(entries.length);
    let keys: Vec<Option<u64>> = (0..random.below(40)).map(|_| (!nulls || random.below(4) != 0).then(|| random.below(some))).collect();
    let whole = keyed(format, &keys, entries, random);
    let start = random.below(keys.len() as u64 / 2 + 1);
    let left = keys.len() as u64 - start;
    whole.slice(start, left - random.below(left / 2 + 1)).unwrap()
}

/// What the request says of a column and what became of it.
fn check(old: &Column, new: &Column) {
    let used: Vec<u64> = (0..old.length).filter(|i| is_valid(old, *i)).map(|i| key(old, i)).collect::<BTreeSet<_>>().into_iter().collect();
    let entries = new.dictionary.as_ref().unwrap();
    assert_eq!(new.rows(), old.rows());
    assert_eq!(entries.length, used.len() as u64);
    assert_eq!((new.offset, entries.offset), (0, 0));
    for (rank, e) in used.iter().enumerate() {
        assert_eq!(entries.row(rank as u64), old.dictionary.as_ref().unwrap().row(*e));
    }
    for i in 0..new.length {
        assert_eq!(is_valid(new, i), is_valid(old, i));
        let due = if is_valid(old, i) { used.binary_search(&key(old, i)).unwrap() as u64 } else { 0 };
        assert_eq!(key(new, i), due);
    }
}

#[test]
fn random_columns() {
    let mut random = Random(0x9e37_79b9_7f4a_7c15);
    let mut gone = 0;
    for _ in 0..20_000 {
        let old = column(&mut random);
        let new = old.reclaim().unwrap();
        check(&old, &new);
        let twice = new.reclaim().unwrap();
        check(&new, &twice);
        assert_eq!(twice, new);
        gone += old.dictionary.unwrap().length - new.dictionary.unwrap().length;
    }
    assert!(50_000 < gone, "{gone}");
}

fn numbers(n: u64) -> Column {
    Column::build(&"i".parse().unwrap(), &(0..n).map(|k| Row::Whole(7 * k as i128)).collect::<Vec<_>>()).unwrap()
}

#[test]
fn more_entries_than_keys_can_name() {
    // a good column of format C over 300 entries, which an opening refuses with 8
    let mut random = Random(5);
    let old = keyed("C", &[Some(255), None, Some(3), Some(255), Some(17)], numbers(300), &mut random);
    let new = old.reclaim().unwrap();
    check(&old, &new);
    assert_eq!(new.dictionary.unwrap().length, 3);
}

#[test]
fn many_blocks_of_entries() {
    let mut random = Random(11);
    for format in ["S", "i", "L"] {
        let keys: Vec<Option<u64>> = (0..4_000).map(|i| (i % 7 != 0).then(|| 5 * random.below(1_000))).collect();
        let old = keyed(format, &keys, numbers(5_000), &mut random);
        check(&old, &old.reclaim().unwrap());
        // the first and the last entry of each block
        let edges: Vec<Option<u64>> = (0..5_000).filter(|k| matches!(k % 512, 0 | 511) || *k == 4_999).rev().map(Some).collect();
        let old = keyed(format, &edges, numbers(5_000), &mut random);
        check(&old, &old.reclaim().unwrap());
    }
    let none = keyed("s", &[None, None], numbers(5_000), &mut random);
    check(&none, &none.reclaim().unwrap());
}

#[test]
fn refused() {
    let ground = |c: &Column| c.reclaim().map_err(|e| e.ground().unwrap().number());
    let plain = numbers(4);
    assert_eq!(ground(&plain), Err(10));
    assert_eq!(ground(&Column { offset: 9, ..plain.clone() }), Err(12));
    assert_eq!(ground(&Column { format: "q".into(), ..plain }), Err(10));
    let runs = Column::build(&"+r(i, C[u])".parse().unwrap(), &[Row::Bytes(b"a".to_vec())]).unwrap();
    assert_eq!(ground(&runs), Err(10));
    let mut random = Random(3);
    assert_eq!(ground(&keyed("C", &[Some(4)], numbers(4), &mut random)), Err(12));
    assert!(ground(&keyed("c", &[None, Some(3)], numbers(4), &mut random)).is_ok());
}
