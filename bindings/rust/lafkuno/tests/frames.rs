//! The box around rows, held against a plain reading of the request over random columns.

mod common;

use common::Random;
use lafkuno::{frame, Column, Frame, Ground, Row, Type};

/// Values that meet: zeros of both signs, infinities, NaNs of several payloads, and a few others.
const BITS: [u64; 14] = [
    0,
    1 << 63,
    0x7ff0_0000_0000_0000,
    0xfff0_0000_0000_0000,
    0x7ff0_0000_0000_0001,
    0x7ff8_0000_0000_0000,
    0xffff_ffff_ffff_ffff,
    1,
    0x8000_0000_0000_0001,
    0x3ff0_0000_0000_0000,
    0xbff0_0000_0000_0000,
    0x404a_0000_0000_0000,
    0x7fef_ffff_ffff_ffff,
    0xc008_0000_0000_0000,
];

fn column(random: &mut Random, nulls: bool) -> Column {
    let ty: Type = if nulls { "g?" } else { "g" }.parse().unwrap();
    let rows: Vec<Row> =
        (0..random.below(24)).map(|_| if nulls && random.below(4) == 0 { Row::Null } else { Row::Double(BITS[random.below(14) as usize]) }).collect();
    let whole = Column::build(&ty, &rows).unwrap();
    let start = random.below(rows.len() as u64 / 2 + 1);
    let left = rows.len() as u64 - start;
    whole.slice(start, left - random.below(left / 2 + 1)).unwrap()
}

/// The bits of a side: the first value that no other counted value is beyond.
fn side(values: &[f64], beyond: fn(f64, f64) -> bool) -> u64 {
    values.iter().copied().find(|v| !values.iter().any(|w| beyond(*w, *v))).unwrap().to_bits()
}

fn plain(latitudes: &Column, longitudes: &Column, start: u64, end: u64) -> Result<[u64; 4], u8> {
    if end < start || latitudes.length < end || longitudes.length < end {
        return Err(2);
    }
    let number = |row: Option<Row>| match row {
        Some(Row::Double(bits)) if !f64::from_bits(bits).is_nan() => Some(f64::from_bits(bits)),
        _ => None,
    };
    let counted: Vec<(f64, f64)> = (start..end).filter_map(|i| Some((number(latitudes.row(i))?, number(longitudes.row(i))?))).collect();
    if counted.is_empty() {
        return Err(17);
    }
    let (lat, lon): (Vec<f64>, Vec<f64>) = counted.into_iter().unzip();
    Ok([side(&lat, |w, v| w < v), side(&lat, |w, v| v < w), side(&lon, |w, v| w < v), side(&lon, |w, v| v < w)])
}

fn bits(f: Frame) -> [u64; 4] {
    [f.south, f.north, f.west, f.east].map(f64::to_bits)
}

fn answer(latitudes: &Column, longitudes: &Column, start: u64, end: u64) -> Result<[u64; 4], u8> {
    frame(latitudes, longitudes, start..end).map(bits).map_err(|e| e.ground().unwrap().number())
}

#[test]
fn random_boxes() {
    let mut random = Random(0x9e37_79b9_7f4a_7c15);
    let (mut frames, mut refused) = (0, 0);
    for _ in 0..20_000 {
        let [nulls, nulls2] = [random.below(2), random.below(2)].map(|n| n == 0);
        let (latitudes, longitudes) = (column(&mut random, nulls), column(&mut random, nulls2));
        let end = random.below(latitudes.length.min(longitudes.length) + 2);
        let start = random.below(end + 2);
        let want = plain(&latitudes, &longitudes, start, end);
        assert_eq!(answer(&latitudes, &longitudes, start, end), want, "{latitudes:?} {longitudes:?} {start}..{end}");
        if want.is_ok() {
            frames += 1
        } else {
            refused += 1
        }
        let middle = start + random.below(end.saturating_sub(start) + 1);
        if let (Ok(left), Ok(right), Ok(both)) = (frame(&latitudes, &longitudes, start..middle), frame(&latitudes, &longitudes, middle..end), want) {
            assert_eq!(bits(left.join(right)), both);
        }
    }
    assert!(2_000 < frames && 2_000 < refused, "{frames} frames, {refused} refused");
}

#[test]
fn grounds_in_order() {
    let g = Column::build(&"g".parse().unwrap(), &[Row::Double(0), Row::Double(0)]).unwrap();
    let l = Column::build(&"l".parse().unwrap(), &[Row::Whole(0)]).unwrap();
    let runs = Column::build(&"+r(i, g?)".parse().unwrap(), &[Row::Double(0), Row::Double(0)]).unwrap();
    assert_eq!(answer(&g, &l, 0, 2), Err(2));
    assert_eq!(answer(&g, &l, 0, 1), Err(10));
    assert_eq!(answer(&l, &g, 0, 1), Err(10));
    assert_eq!(answer(&g, &runs, 0, 2), Err(10));
    assert_eq!(answer(&g, &g, 1, 1), Err(17));
    let bad = Column { offset: 9, ..g.clone() };
    assert_eq!(answer(&bad, &l, 0, 9), Err(12));
    let unknown = Column { format: "q".into(), ..g.clone() };
    assert_eq!(answer(&bad, &unknown, 0, 9), Err(10));
    assert_eq!(Ground::from_number(17), Some(Ground::NothingCounted));
}
