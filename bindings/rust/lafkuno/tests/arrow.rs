//! Arrow files by the command: joined over every column, shown, and refused as a whole.

use lafkuno::{ipc, join_many, text, Batch, Choices, Column, Field, Job, Order, Row, Type};
use std::path::PathBuf;
use std::process::{Command, Output};

fn column(name: &str, ty: &str, rows: &str) -> Column {
    let ty: Type = ty.parse().unwrap();
    let column = Column::build(&ty, &text::rows(&ty, rows).unwrap()).unwrap();
    Column { field: Field { name: name.into(), metadata: vec![(b"unit".to_vec(), b"ml".to_vec())], ..Field::default() }, ..column }
}

fn van(rows: [&str; 3]) -> Batch {
    let columns = vec![column("fuel", "i?", rows[0]), column("town", "C?[u]", rows[1]), column("at", "tsu:UTC", rows[2])];
    Batch { rows: columns[0].length, columns, metadata: vec![(b"van".to_vec(), b"7".to_vec())] }
}

fn vans() -> [Batch; 2] {
    let one = van(["310 305 95 102", r#""Leith" "Leith" null "Granton""#, "1 2 3 4"]);
    [one, van(["12 null 61", r#""Yard" "Leith" "Leith""#, "5 6 7"])]
}

/// A directory of a test's own.
fn place(test: &str) -> PathBuf {
    let place = PathBuf::from(env!("CARGO_TARGET_TMPDIR")).join(test);
    let _ = std::fs::remove_dir_all(&place);
    std::fs::create_dir_all(&place).unwrap();
    for (name, batch) in ["a.arrow", "b.arrow"].iter().zip(vans()) {
        ipc::write_file(place.join(name).to_str().unwrap(), &batch).unwrap();
    }
    place
}

fn run(place: &PathBuf, arguments: &[&str]) -> Output {
    Command::new(env!("CARGO_BIN_EXE_lafkuno")).current_dir(place).args(arguments).output().unwrap()
}

fn text_of(bytes: &[u8]) -> &str {
    std::str::from_utf8(bytes).unwrap()
}

#[test]
fn files_are_joined_over_every_column() {
    let place = place("joined");
    std::fs::write(place.join("trip.orders"), "keep nulls\ncopy a 2..4 # the trip\nnulls 1\ncopy b.arrow 0..2\n").unwrap();
    let output = run(&place, &["join", "a.arrow", "b.arrow", "--orders", "trip.orders", "--out", "c.arrow"]);
    assert_eq!(text_of(&output.stderr), "c.arrow: 3 columns, 3 orders, 5 rows\n");
    assert_eq!(output.status.code(), Some(0));
    let output = run(&place, &["show", "c.arrow"]);
    let due = "# van=7\n# fuel: i?, unit=ml\n# town: C?[u?], unit=ml\n# at: tsu:UTC?, unit=ml\n95\tnull\t3\n102\t\"Granton\"\t4\nnull\tnull\tnull\n12\t\"Yard\"\t5\nnull\t\"Leith\"\t6\n";
    assert_eq!(text_of(&output.stdout), due);
    let output = run(&place, &["show", "--rows", "1..2", "c.arrow"]);
    assert!(text_of(&output.stdout).ends_with("unit=ml\n102\t\"Granton\"\t4\n"));
    // what was joined is a source again
    std::fs::write(place.join("again.orders"), "copy c 4..5\ncopy 0 0..1\n").unwrap();
    run(&place, &["join", "a.arrow", "c.arrow", "--orders", "again.orders", "--out", "d.arrow"]);
    assert!(text_of(&run(&place, &["show", "d.arrow"]).stdout).ends_with("null\t\"Leith\"\t6\n310\t\"Leith\"\t1\n"));
}

#[test]
fn one_bad_trip_stops_no_other() {
    let place = place("trips");
    let orders = "out one.arrow\ncopy a 0..2\nout two.arrow\ncopy b 2..9\nout three.arrow\ncopy b 2..3\nnulls 1\n";
    std::fs::write(place.join("trips.orders"), orders).unwrap();
    let output = run(&place, &["join", "--jobs", "2", "a.arrow", "b.arrow", "--orders", "trips.orders"]);
    let told = text_of(&output.stderr);
    assert!(told.contains("trips.orders: line 4 (`copy b 2..9`): refused, ground 2"), "{told}");
    assert!(told.contains("one.arrow: 3 columns, 1 orders, 2 rows\n"), "{told}");
    // only the second column of b keeps no nulls
    assert!(told.contains("three.arrow (line 5 of trips.orders): refused, ground 3") && told.contains("column `at`"), "{told}");
    assert_eq!(output.status.code(), Some(1));
    assert!(place.join("one.arrow").exists() && !place.join("two.arrow").exists() && !place.join("three.arrow").exists());
}

#[test]
fn what_is_not_taken_is_named_before_anything_is_done() {
    let place = place("named");
    let mut batch = vans()[0].clone();
    batch.columns[0].format = "b".into();
    assert!(ipc::to_bytes(&batch).is_err());
    assert!(batch.taken().unwrap_err().to_string().ends_with("types that are not taken, of the columns `fuel` (format b)"));
    let views = Column::build(&"vu".parse().unwrap(), &[Row::Bytes(b"x".to_vec())]).unwrap();
    batch.columns[0] = Column { format: "C".into(), dictionary: Some(Box::new(views)), ..batch.columns[0].clone() };
    assert!(batch.taken().unwrap_err().to_string().ends_with("types that are not taken, of the columns `fuel` (format vu)"));
    std::fs::write(place.join("o"), "copy 0 0..1").unwrap();
    std::fs::write(place.join("cut.arrow"), &std::fs::read(place.join("a.arrow")).unwrap()[..600]).unwrap();
    for (arguments, due) in [
        (&["join", "a.arrow", "--orders", "o"][..], "where the rows of line 1 go is due"),
        (&["join", "cut.arrow", "--orders", "o", "--out", "x"], "cut.arrow: the file does not end as an Arrow file"),
        (&["join", "a.arrow", "--orders", "none", "--out", "x"], "none: "),
        (&["join", "a.arrow"], "this is an Arrow file"),
        (&["join", "--jobs", "0", "a.arrow", "--orders", "o", "--out", "x"], "--jobs takes"),
        (&["show", "none.arrow"], "none.arrow: "),
        (&["show", "o"], "o: "),
    ] {
        let output = run(&place, arguments);
        assert_eq!(output.status.code(), Some(2));
        assert!(text_of(&output.stderr).contains(due) && text_of(&output.stderr).lines().count() == 1, "{}", text_of(&output.stderr));
    }
    assert!(!place.join("x").exists());
}

#[test]
fn mapped_files_are_lent_as_they_are() {
    let place = place("lent");
    let paths = ["a.arrow", "b.arrow"].map(|n| place.join(n).to_str().unwrap().to_string());
    let batches = ipc::read_files(&[&paths[0], &paths[1]]).unwrap();
    let fuel = [&batches[0][0].columns[0], &batches[1][0].columns[0]];
    let lent = lafkuno::Lent::lay(&fuel).unwrap();
    assert_eq!(lent.body.as_ptr_range().end, fuel[1].buffers[0].as_ptr_range().end);
    assert!(lent.body.as_ptr_range().contains(&fuel[0].buffers[0].as_ptr()));
}

#[test]
fn many_batches_are_joined_in_turns() {
    let batches: Vec<Batch> = (0..40).map(|k| van([&format!("{k} {}", k + 100), r#""a" "b""#, "1 2"])).collect();
    let sources: Vec<&Batch> = batches.iter().collect();
    let copies = (0..80).map(|k| Order::Copy { source: (7 * k) % 40, start: k as u64 % 2, end: 2 });
    let orders: Vec<Order> = copies.chain([Order::Nulls(2)]).collect();
    let joined = Batch::join(&sources, &orders, true).unwrap();
    let due = orders.iter().flat_map(|o| match *o {
        Order::Copy { source, start, end } => (start..end).map(|i| batches[source].columns[0].row(i)).collect::<Vec<_>>(),
        Order::Nulls(n) => vec![Some(lafkuno::Row::Null); n as usize],
    });
    assert_eq!(joined.columns[0].rows(), due.collect());
    assert_eq!(joined.rows, joined.columns[2].length);
}

#[test]
fn many_joins_answer_in_their_places() {
    let [a, b] = vans();
    let jobs: Vec<Job> = (0..50)
        .map(|k| Job { sources: vec![&a, &b], orders: vec![Order::Copy { source: 1, start: k % 5, end: 3 }], choices: Choices::default() })
        .collect();
    let told = std::sync::Mutex::new(vec![]);
    let answers = join_many(&jobs, 3, &|n| told.lock().unwrap().push(n));
    for (k, answer) in answers.iter().enumerate() {
        match (k % 5, answer) {
            (4, Err(e)) => assert_eq!(e.place().unwrap().order, Some(1)),
            (start, Ok(batch)) => assert_eq!(batch.rows, 3 - start as u64),
            _ => panic!("{answer:?}"),
        }
    }
    let mut told = told.into_inner().unwrap();
    told.sort();
    assert_eq!(told, (1..=50).collect::<Vec<_>>());
}

#[test]
fn what_is_no_file_is_not_replaced() {
    let place = place("links");
    let batch = vans()[0].clone();
    let at = |name: &str| place.join(name).to_str().unwrap().to_string();
    std::os::unix::fs::symlink(place.join("a.arrow"), place.join("link.arrow")).unwrap();
    ipc::write_file(&at("link.arrow"), &vans()[1]).unwrap();
    assert!(place.join("link.arrow").is_symlink());
    assert_eq!(ipc::read_files(&[&at("a.arrow")]).unwrap()[0][0].rows, 3);
    // rt allows no link in the repository
    std::fs::remove_file(place.join("link.arrow")).unwrap();
    // a pipe is written to, a full disk is told, and a directory stays one
    std::fs::write(place.join("o"), "copy 0 0..2").unwrap();
    let shown = run(&place, &["join", "b.arrow", "--orders", "o", "--out", "/dev/stdout"]);
    assert_eq!((shown.status.code(), ipc::read_bytes(shown.stdout.into()).unwrap()[0].rows), (Some(0), 2));
    let full = || std::fs::metadata("/dev/full").is_ok_and(|m| !m.is_file());
    if full() {
        let told = ipc::write_file("/dev/full", &batch).unwrap_err().to_string();
        assert!(told.starts_with("/dev/full: ") && full(), "{told}");
    }
    assert!(ipc::write_file(place.to_str().unwrap(), &batch).is_err() && place.is_dir());
}
