//! A column into runs and back, held against a plain reading of the request over random columns.

mod common;

use common::Random;
use lafkuno::{ipc, text, Batch, Column, Error, Field, Row, RunEnds, Type};
use std::process::Command;

const FORMATS: [&str; 10] = ["c", "C", "s", "S", "i", "I", "l", "L", "f", "g"];

/// A row of a format; few values, so that neighbours are often equal.
fn row(random: &mut Random, format: &str) -> Row {
    let v = random.below(3);
    match format {
        "f" => Row::Single([0, 0x8000_0000, 0x7fc0_0001][v as usize]),
        "g" => Row::Double([0, 1 << 63, 0x7ff8_0000_0000_0001][v as usize]),
        "C" | "S" | "I" | "L" => Row::Whole(v as i128),
        _ => Row::Whole(v as i128 - 1),
    }
}

/// A slice of a column in runs of a few rows.
fn column(random: &mut Random, format: &str, nulls: bool) -> Column {
    let ty: Type = if nulls { format!("{format}?") } else { format.to_string() }.parse().unwrap();
    let mut rows = vec![];
    for _ in 0..random.below(12) {
        let next = if nulls && random.below(4) == 0 { Row::Null } else { row(random, format) };
        rows.extend(vec![next; 1 + random.below(4) as usize]);
    }
    let whole = Column::build(&ty, &rows).unwrap();
    let start = random.below(rows.len() as u64 / 2 + 1);
    let left = rows.len() as u64 - start;
    whole.slice(start, left - random.below(left / 2 + 1)).unwrap()
}

fn ground(answer: Result<Column, Error>) -> u8 {
    answer.map_or_else(|e| e.ground().map_or(255, |g| g.number()), |_| 0)
}

#[test]
fn random_columns() {
    let mut random = Random(0x9e37_79b9_7f4a_7c15);
    for turn in 0..4_000 {
        let (format, nulls) = (FORMATS[turn % 10], random.below(2) == 0);
        let plain = column(&mut random, format, nulls);
        let end = random.below(plain.length + 1);
        let start = random.below(end + 1);
        let rows = plain.rows().unwrap()[start as usize..end as usize].to_vec();
        let ends = [RunEnds::I16, RunEnds::I32, RunEnds::I64][random.below(3) as usize];
        let runs = plain.encode(start..end, ends).unwrap();
        assert_eq!(runs.rows().unwrap(), rows, "{plain:?} {start}..{end}");
        let changes = rows.windows(2).filter(|w| w[0] != w[1]).count() as u64;
        assert_eq!(runs.children[1].length, if rows.is_empty() { 0 } else { changes + 1 });
        assert_eq!((runs.offset, runs.length), (0, end - start));
        let values = &runs.children[1];
        let width = values.buffers[0].len() as u64 / values.length.max(1);
        for k in (0..values.length).filter(|k| values.row(*k) == Some(Row::Null)) {
            assert!(values.buffers[0][(k * width) as usize..((k + 1) * width) as usize].iter().all(|b| *b == 0));
        }
        let back = runs.expand(0..runs.length).unwrap();
        assert_eq!(back.rows().unwrap(), rows);
        let cut = random.below(runs.length + 1);
        assert_eq!(runs.expand(cut..runs.length).unwrap().rows().unwrap(), rows[cut as usize..]);
        assert_eq!(runs.slice(cut, runs.length - cut).unwrap().expand(0..runs.length - cut).unwrap().rows().unwrap(), rows[cut as usize..]);
    }
}

#[test]
fn grounds() {
    let plain = Column::build(&"i".parse().unwrap(), &[Row::Whole(1), Row::Whole(1)]).unwrap();
    let text = Column::build(&"u".parse().unwrap(), &[Row::Bytes(b"x".to_vec())]).unwrap();
    let runs = plain.encode(0..2, RunEnds::I16).unwrap();
    assert_eq!((ground(text.encode(0..1, RunEnds::I16)), ground(text.encode(0..9, RunEnds::I16))), (10, 10));
    assert_eq!((ground(runs.encode(0..2, RunEnds::I16)), ground(plain.expand(0..2)), ground(plain.expand(0..9))), (10, 10, 10));
    assert_eq!((ground(plain.encode(0..3, RunEnds::I16)), ground(runs.expand(1..3))), (2, 2));
    let long = Column::build(&"C".parse().unwrap(), &vec![Row::Whole(1); 32_768]).unwrap();
    assert_eq!((ground(long.encode(0..32_767, RunEnds::I16)), ground(long.encode(0..32_768, RunEnds::I16))), (0, 7));
    assert_eq!(long.encode(0..32_768, RunEnds::I32).unwrap().children[1].length, 1);
}

#[test]
fn names_and_metadata() {
    let field = |key: &[u8]| Field { name: "fuel".into(), metadata: vec![(key.to_vec(), b"x".to_vec())], ..Field::default() };
    for (key, extension) in [(&b"unit"[..], false), (b"ARROW:extension:name", true)] {
        let plain = Column { field: field(key), ..Column::build(&"tsu:UTC?".parse().unwrap(), &[Row::Whole(5), Row::Whole(5), Row::Null]).unwrap() };
        let runs = plain.encode(0..3, RunEnds::I32).unwrap();
        let names: Vec<&str> = [&runs, &runs.children[0], &runs.children[1]].iter().map(|c| c.field.name.as_str()).collect();
        assert_eq!((names, runs.ty().to_string()), (vec!["fuel", "run_ends", "values"], "+r?(i, tsu:UTC?)".into()));
        assert_eq!((runs.field.metadata.is_empty(), runs.children[1].field.metadata.is_empty()), (extension, !extension));
        let back = runs.expand(0..3).unwrap();
        assert_eq!((back.field, back.nullable, back.format), (plain.field, true, plain.format));
    }
}

#[test]
fn a_run_of_more_rows_than_are_taken() {
    let ends =
        Column { buffers: vec![(1i64 << 60).to_le_bytes().to_vec().into()], ..Column::build(&"l".parse().unwrap(), &[Row::Whole(1)]).unwrap() };
    let values = Column::build(&"C".parse().unwrap(), &[Row::Whole(7)]).unwrap();
    let run = Column { format: "+r".into(), length: 1 << 60, children: vec![ends, values], ..Column::default() };
    assert_eq!(run.expand(1 << 40..(1 << 40) + 2).unwrap().rows().unwrap(), vec![Row::Whole(7); 2]);
    assert_eq!(run.expand(0..1 << 60).unwrap_err(), Error::TooMuchWork { node: 0, bound: 1 << 60, limit: lafkuno::WORK_LIMIT });
}

#[test]
fn columns_of_an_arrow_file() {
    let dir = std::env::temp_dir().join(format!("lafkuno-codings-{}", std::process::id()));
    std::fs::create_dir_all(&dir).unwrap();
    let [a, b, c, d] = ["a", "b", "c", "d"].map(|f| dir.join(f).to_str().unwrap().to_string());
    let named = |name: &str, column: Column| Column { field: Field { name: name.into(), ..Field::default() }, ..column };
    let column = |ty: &str, rows: &str| Column::build(&ty.parse().unwrap(), &text::rows(&ty.parse().unwrap(), rows).unwrap()).unwrap();
    let towns = column("C?[u]", r#""Leith" "Yard" "Mill" "Mill" null"#).slice(2, 3).unwrap();
    let columns = vec![named("fuel", column("i?", "5 5 null")), named("town", towns)];
    let batch = Batch { rows: 3, columns, metadata: vec![] };
    ipc::write_file(&a, &batch).unwrap();
    let run = |words: &[&str]| Command::new(env!("CARGO_BIN_EXE_lafkuno")).args(words).output().unwrap();
    let read = |file: &str| ipc::read_files(&[file]).unwrap().remove(0).remove(0);
    assert!(run(&["encode", "--ends", "s", "--out", &b, &a, "fuel"]).status.success());
    assert!(run(&["reclaim", "--out", &c, &b, "town"]).status.success());
    let coded = read(&c);
    assert_eq!((coded.columns[0].ty().to_string(), coded.columns[1].ty().to_string()), ("+r?(s, i?)".into(), "C?[u?]".into()));
    assert_eq!(coded.columns[1].dictionary.as_ref().unwrap().length, 1);
    assert!(run(&["expand", "--out", &d, &c, "fuel"]).status.success());
    for (new, old) in read(&d).columns.iter().zip(&read(&a).columns) {
        assert_eq!((new.rows(), new.ty(), &new.field.name), (old.rows(), old.ty(), &old.field.name));
    }
    let told = run(&["expand", "--out", &d, &c, "town"]);
    assert_eq!(told.status.code(), Some(1));
    assert!(String::from_utf8_lossy(&told.stderr).contains("ground 10"));
    assert_eq!(run(&["reclaim", "--out", &d, &c, "van"]).status.code(), Some(2));
    assert_eq!(run(&["encode", "--out", &d, &c]).status.code(), Some(2));
    std::fs::remove_dir_all(dir).unwrap();
}
