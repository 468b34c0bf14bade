//! Some random joins; `cargo run --release --bin differential` makes a hundred thousand.

use lafkuno::{Column, Join};
use original::MutableArrayData;
use trials::compare::{join, Seen};
use trials::convert::Convert;

#[test]
fn random_joins_are_the_originals() {
    let mut seen = Seen::default();
    for seed in 1..=500 {
        join(seed, &mut seen).unwrap();
    }
    assert_eq!(seen.joins, 500);
    assert!(0 < seen.joined_null_entries && 0 < seen.kept_null_entries);
    assert!(50 < seen.lists && 0 < seen.deep_lists);
}

// Validity without a zero bit counts as absent: u8 keys over one dictionary of 200 entries, which the second source has with such a
// validity.
fn idle_pair() -> [Column; 2] {
    let values = Column { format: "C".into(), length: 200, buffers: vec![vec![7; 200].into()], ..Column::default() };
    let keys =
        |values| Column { format: "C".into(), length: 1, buffers: vec![vec![3].into()], dictionary: Some(Box::new(values)), ..Column::default() };
    [keys(values.clone()), keys(Column { validity: Some(vec![255; 25].into()), ..values })]
}

#[test]
fn dictionaries_with_idle_validity_are_shared() {
    let [a, b] = idle_pair();
    let mut convert = Convert::default();
    let arrays = [convert.array(&a), convert.array(&b)];
    assert!(MutableArrayData::try_new(arrays.iter().collect(), false, 0).is_ok());
    Join::open(&[&a, &b], false).unwrap();
}

#[test]
fn a_kept_dictionary_drops_idle_validity() {
    let [_, b] = idle_pair();
    let mut join = Join::open(&[&b], false).unwrap();
    join.copy(0, 0..1).unwrap();
    let array = Convert::default().array(&b);
    let mut theirs = MutableArrayData::try_new(vec![&array], false, 0).unwrap();
    theirs.try_extend(0, 0, 1).unwrap();
    assert!(theirs.freeze().child_data[0].nulls.is_none());
    assert!(join.finish().unwrap().column.dictionary.unwrap().validity.is_none());
}

#[test]
fn gaps_are_one_run() {
    let mut grown = trials::gaps::Grown::default();
    for seed in 1..=500 {
        trials::gaps::gaps(seed, &mut grown).unwrap();
    }
    assert!(450 < grown.joins && 30 < grown.grown && 30 < grown.added);
}

#[test]
fn stored_wider_the_rows_are_the_same() {
    let accepted = (1..=500).filter(|seed| trials::wider::wider(*seed).unwrap()).count();
    assert!(400 < accepted);
}

#[test]
fn slices_pass_the_c_data_interface() {
    let accepted = (1..=500).filter(|seed| trials::passage::passage(*seed).unwrap()).count();
    assert!(400 < accepted);
}

#[test]
fn damage_stays_inside() {
    let mut answers = trials::damage::Answers::new();
    for seed in 1..=500 {
        trials::damage::damaged(seed, &mut answers).unwrap();
    }
}

// A run-end child has as many rows as one likes: the sums of list-view sizes meet 6 at the same row on both sides.
#[test]
fn list_view_sums_are_the_originals() {
    let most = i32::MAX as u32;
    for sizes in [[most, 0, 0], [most - 1, 1, 0], [most, 1, 0], [most - 1, 1, 1], [1, most, 0], [most, 0, 1], [0, 0, most]] {
        let bytes = |numbers: &[u32]| lafkuno::Buffer::from(numbers.iter().flat_map(|n| n.to_le_bytes()).collect::<Vec<u8>>());
        let leaf = |format: &str, buffer| Column { format: format.into(), length: 1, buffers: vec![buffer], ..Column::default() };
        let ends = leaf("l", (most as u64).to_le_bytes().to_vec().into());
        let child = Column { format: "+r".into(), length: most as u64, children: vec![ends, leaf("i", bytes(&[7]))], ..Column::default() };
        let lists =
            Column { format: "+vl".into(), length: 3, buffers: vec![bytes(&[0; 3]), bytes(&sizes)], children: vec![child], ..Column::default() };
        let array = Convert::default().array(&lists);
        for rows in 0..=3 {
            let theirs =
                MutableArrayData::try_new(vec![&array], false, 0).unwrap().try_extend(0, 0, rows as usize).map_or_else(|e| e.ground(), |()| 0);
            let ours = Join::open(&[&lists], false).unwrap().copy(0, 0..rows).map_or_else(|e| e.ground().unwrap().number(), |()| 0);
            assert_eq!(ours, theirs, "{rows} rows of {sizes:?}");
        }
    }
}

// The same of a list's offsets: all of them before the stretch of the child. The first row stands before the slice.
#[test]
fn list_offsets_are_the_originals() {
    let most = i32::MAX as u32;
    for (format, ends) in [("+l", [0, most - 1, most, most]), ("+l", [0, 0, 1, most]), ("+L", [0, 1, most - 1, most]), ("+l", [1, 1, most, most])] {
        let offsets: Vec<u8> =
            [&[5], &ends[..]].concat().iter().flat_map(|n| (*n as u64).to_le_bytes()[..if format == "+l" { 4 } else { 8 }].to_vec()).collect();
        let leaf = |format: &str, bytes: Vec<u8>| Column { format: format.into(), length: 1, buffers: vec![bytes.into()], ..Column::default() };
        let runs = vec![leaf("l", (most as u64).to_le_bytes().to_vec()), leaf("C", vec![7])];
        let child = Column { format: "+r".into(), length: most as u64, children: runs, ..Column::default() };
        let lists = Column { format: format.into(), length: 4, buffers: vec![offsets.into()], children: vec![child], ..Column::default() };
        let lists = lists.slice(1, 3).unwrap();
        let array = Convert::default().array(&lists);
        for (start, end) in [(0, 3), (1, 3), (2, 3), (0, 1), (0, 0), (3, 3)] {
            let mut theirs = MutableArrayData::try_new(vec![&array], false, 0).unwrap();
            let mut ours = Join::open(&[&lists], false).unwrap();
            ours.limit_work(1 << 40);
            for (a, b) in [(1, 2), (start, end), (0, 1), (start, end)] {
                let due = theirs.try_extend(0, a, b).map_or_else(|e| e.ground(), |()| 0);
                let answer = ours.copy(0, a as u64..b as u64).map_or_else(|e| e.ground().unwrap().number(), |()| 0);
                assert_eq!(answer, due, "{a}..{b} of {format} {ends:?}");
                if due != 0 {
                    break;
                }
            }
        }
    }
}
