//! The examples of the repository, run by the command.

use std::path::PathBuf;
use std::process::{Command, Output};

/// The command, which stands beside the directory of this test's program.
fn command() -> PathBuf {
    let here = std::env::current_exe().unwrap();
    here.parent().unwrap().parent().unwrap().join("lafkuno")
}

fn run(arguments: &[&str]) -> Output {
    let examples = concat!(env!("CARGO_MANIFEST_DIR"), "/../../../examples");
    Command::new(command()).current_dir(examples).args(arguments).output().unwrap()
}

fn text(bytes: &[u8]) -> &str {
    std::str::from_utf8(bytes).unwrap()
}

#[test]
fn examples_give_their_rows() {
    for (file, rows) in [
        ("van.join", vec!["95", "102", "12", "null", "61"]),
        ("runs.join", [vec!["\"B\""; 3], vec!["\"C\""], vec!["\"B\""; 3], vec!["\"C\""], vec!["null"; 5]].concat()),
        ("stops.join", vec![r#"["Depot", null, "Harbour"]"#, r#"["Depot", "Mill Lane"]"#, "[]", "null", r#"["Yard"]"#, "null"]),
        ("routes.join", vec![r#"["Depot", null, "Harbour"]"#, r#"["Yard", "Granton"]"#, r#"["Depot", "Mill Lane"]"#, "[]", "null", "null"]),
        ("towns.join", vec!["\"Granton\"", "\"Newhaven\"", "\"Leith\"", "null", "\"Granton\""]),
        ("drivers.join", vec!["\"Ana\"", "null", "\"Bo\"", "null", "\"Di\""]),
        ("events.join", vec!["7:\"engine on, doors shut\"", "7:\"engine on, doors shut\"", "5:null", "7:null", "5:null", "5:null"]),
    ] {
        let output = run(&["join", file]);
        assert_eq!(text(&output.stderr).lines().count(), 1, "{file}: {}", text(&output.stderr));
        assert_eq!(text(&output.stdout).lines().collect::<Vec<_>>(), rows, "{file}");
        assert!(output.status.success());
    }
}

#[test]
fn buffers_are_those_of_the_checked_rows() {
    let output = run(&["join", "--buffers", "runs.join"]);
    let ends: Vec<String> = [3i16, 4, 7, 8, 13].iter().map(|n| n.to_le_bytes().map(|b| format!("{b:02x}")).concat()).collect();
    let ends = ends.concat();
    let buffer = text(&output.stdout).lines().skip_while(|l| !l.starts_with("node 1")).nth(1).unwrap();
    assert_eq!(buffer.replace("buffer 1", "").replace(' ', ""), ends);
}

#[test]
fn a_refusal_is_told() {
    let output = run(&["join", "refused.join"]);
    assert_eq!(output.status.code(), Some(1));
    assert_eq!(text(&output.stdout), "");
    let told = text(&output.stderr);
    assert!(told.contains("order 2, line 8 (`copy speeds 2..4`): refused, ground 2") && told.contains("whoever gives orders"), "{told}");
    let output = run(&["join", "--go-on", "refused.join"]);
    assert_eq!(output.status.code(), Some(1));
    assert_eq!(text(&output.stdout), "41.5\n38.25\n0.0\n");
}

#[test]
fn a_trip_is_all_or_none() {
    let output = run(&["join", "trip.join"]);
    assert_eq!((output.status.code(), text(&output.stdout)), (Some(1), ""));
    let told = text(&output.stderr);
    assert!(told.contains("the trip of line 14: order 5, line 16 (`copy stops 4..7`): refused, ground 2"), "{told}");
    assert!(told.contains("place 1: rows 4..7 of source 0, which has 6, behind 5 rows"), "{told}");
    let output = run(&["join", "--go-on", "trip.join"]);
    assert_eq!(output.status.code(), Some(1));
    assert_eq!(text(&output.stdout), "\"Depot\"\n\"Harbour\"\nnull\n\"Yard\"\n\"Leith\"\n");
    assert!(text(&output.stderr).contains("7 orders, 1 refused; 5 rows, 1 nulls"), "{}", text(&output.stderr));
}

#[test]
fn the_nulls_of_the_summary_are_those_printed() {
    for file in ["van.join", "runs.join", "stops.join", "routes.join", "towns.join", "events.join"] {
        let output = run(&["join", file]);
        let printed = text(&output.stdout).lines().filter(|l| l.rsplit(':').next() == Some("null")).count();
        assert!(text(&output.stderr).contains(&format!("{printed} nulls\n")), "{file}: {}", text(&output.stderr));
    }
}

// docs/USING.md ends its C with lines of the example on lent memory.
#[test]
fn the_documented_c_is_the_example() {
    let using = include_str!("../../../../docs/USING.md");
    let example = include_str!("../../../../examples/van.c");
    let shown = using.split("```c\n").last().unwrap().split("```").next().unwrap();
    for line in shown.lines() {
        assert!(example.contains(line), "{line}");
    }
}

#[test]
fn runs_and_plain_rows() {
    for (words, status, rows) in [
        (["encode", "ignition.columns", "old", "0..7"], 0, "2 1\n3 0\n5 null\n6 0\n7 1\n"),
        (["expand", "ignition.columns", "new", "0..6"], 0, "1\n0\n0\n0\nnull\nnull\n"),
        (["encode", "ignition.columns", "old", "0..8"], 1, ""),
    ] {
        let output = run(&words);
        assert_eq!((output.status.code(), text(&output.stdout)), (Some(status), rows));
    }
}

#[test]
fn rows_that_differ() {
    let same = |a: &str, b: &str, rows: &str| run(&["same", "ignition.columns", a, b, rows]);
    assert_eq!(text(&same("old", "new", "0..6").stdout), "1: 1, 0\n3: null, 0\n5: 0, null\nsame 3 of 6\n");
    assert_eq!(text(&same("new", "new", "0..6").stdout), "same 6 of 6\n");
    let output = same("old", "new", "0..7");
    assert_eq!(output.status.code(), Some(1));
    assert!(text(&output.stderr).contains("ground 2"));
    assert_eq!(same("old", "new", "4..3").status.code(), Some(1));
    assert_eq!(same("old", "newer", "0..6").status.code(), Some(2));
}

#[test]
fn a_box() {
    let boxed = |rows: &str| run(&["box", "trip.box", "latitudes", "longitudes", rows]);
    assert_eq!(text(&boxed("0..4").stdout), "latitude 55.94 to 55.97, longitude -3.2 to -3.17\n");
    let output = boxed("2..3");
    assert_eq!(output.status.code(), Some(1));
    assert!(text(&output.stderr).contains("ground 17"));
    assert_eq!(boxed("3..").status.code(), Some(2));
}

#[test]
fn unused_entries() {
    let reclaimed = |name: &str| run(&["reclaim", "drivers.column", name]);
    assert_eq!(text(&reclaimed("drivers").stdout), "entries 2 of 4\n\"Rory\"\n\"Ailsa\"\n\n\"Rory\"\nnull\n\"Ailsa\"\n\"Rory\"\n");
    let output = reclaimed("stops");
    assert_eq!(output.status.code(), Some(1));
    assert!(text(&output.stderr).contains("ground 10"));
    assert_eq!(reclaimed("vans").status.code(), Some(2));
}

#[test]
fn lists_in_another_type() {
    let converted = |words: &[&str]| {
        let output = run(&[&["convert"], words].concat());
        (output.status.code(), text(&output.stdout).to_string(), text(&output.stderr).to_string())
    };
    let rows = "[\"Yard\", \"Granton\"]\n[]\nnull\n[\"Harbour\", null]\n";
    for (name, ty, offsets) in
        [("lists", "+vl?(u?)", "0100000003000000 0300000003000000"), ("views", "+l?(u?)", "0000000002000000 0200000002000000 04000000")]
    {
        let (status, out, _) = converted(&["--buffers", "stops.columns", name, ty]);
        assert_eq!(status, Some(0));
        assert!(out.starts_with(&format!("# {ty}\n{rows}\nnode 0 ")) && out.contains(&format!("  buffer 1 {offsets}\n")), "{out}");
    }
    let (status, out, _) = converted(&["stops.columns", "lists", "+L?(U?)"]);
    assert_eq!((status, out), (Some(0), format!("# +L?(U?)\n{rows}")));
    let (status, out, told) = converted(&["stops.columns", "lists", "+vL?(u?)"]);
    assert_eq!((status, out.as_str()), (Some(1), ""));
    assert!(told.contains("ground 10") && told.contains("node 0"), "{told}");
    for words in [&["stops.columns", "lists"][..], &["stops.columns", "trips", "+l(u)"], &["stops.columns", "lists", "+q"]] {
        assert_eq!(converted(words).0, Some(2));
    }
}
