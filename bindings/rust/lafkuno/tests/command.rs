//! The command: mistakes, statuses and lines.

use std::io::Write;
use std::process::{Command, Output, Stdio};

fn run(arguments: &[&str]) -> Output {
    Command::new(env!("CARGO_BIN_EXE_lafkuno")).args(arguments).output().unwrap()
}

fn text(bytes: &[u8]) -> &str {
    std::str::from_utf8(bytes).unwrap()
}

#[test]
fn mistakes_are_told() {
    for (arguments, told) in [
        (&["join"][..], "a FILE is due"),
        (&["join", "no-such-file"], "no-such-file: "),
        (&["join", "--bufers", "van.join"], "unknown option --bufers"),
        (&["van.c"], "there is no command van.c"),
        (&["demo", "now"], "now is not asked for"),
    ] {
        let output = run(arguments);
        assert_eq!(output.status.code(), Some(2));
        assert!(output.stdout.is_empty());
        assert!(text(&output.stderr).contains(told) && text(&output.stderr).lines().count() == 1, "{}", text(&output.stderr));
    }
    assert_eq!(text(&run(&["--version"]).stdout), concat!("lafkuno ", env!("CARGO_PKG_VERSION"), "\n"));
}

/// The command over a text on its standard input.
fn told(arguments: &[&str], input: &[u8]) -> Output {
    let mut command = Command::new(env!("CARGO_BIN_EXE_lafkuno"));
    let pipes = command.args(arguments).stdin(Stdio::piped()).stdout(Stdio::piped()).stderr(Stdio::piped());
    let mut child = pipes.spawn().unwrap();
    child.stdin.take().unwrap().write_all(input).unwrap();
    child.wait_with_output().unwrap()
}

#[test]
fn the_line_of_a_mistake_is_told() {
    let output = told(&["join", "-"], b"type i\nsource a\nrows 1\nsource b\n\n# more\nrows 2 null\ncopy a 0..1\n");
    assert!(text(&output.stderr).contains("line 7: "), "{}", text(&output.stderr));
    let output = told(&["join", "-"], b"type u\nsource a\nrows \"\xff\"\n");
    assert!(text(&output.stderr).contains("line 3: ") && output.status.code() == Some(2));
}

#[test]
fn the_status_is_the_same_with_and_without_go_on() {
    // too many when they are ordered, and when the room is lent
    let large = [5_000_000_000_000_000_000u64, 1 << 60].map(|n| format!("type i?\nkeep nulls\nsource a\nrows 1\nnulls {n}\ncopy a 0..1\n"));
    for (file, due) in [
        (large[0].as_bytes(), 1),
        (large[1].as_bytes(), 1),
        (b"type i\nsource a\nrows 1\ncopy a 0..2\n", 1),
        (b"type i\nsource a\nrows 1\ncopy a 0..1\n", 0),
    ] {
        for flags in [&["join", "-"][..], &["join", "--go-on", "-"]] {
            assert_eq!(told(flags, file).status.code(), Some(due));
        }
    }
}

#[test]
fn what_stopped_an_order_is_told() {
    let output = told(&["join", "-"], b"type +r(s, C?)\nkeep nulls\nsource a\nrows 1 1\nnulls 32766\ncopy a 0..2\n");
    let due = "order 2, line 6 (`copy a 0..2`): refused, ground 7: ";
    let numbers = "node 0 (`column`), row 0, order 2: rows 0..2 of source 0, which has 2, behind 32766 rows; 32768 is needed there, and 32767 is the largest allowed\n";
    let text = text(&output.stderr);
    assert!(text.starts_with(due) && text.ends_with(numbers) && output.status.code() == Some(1), "{text}");
}

#[test]
fn the_demo_books_two_kilometres() {
    let output = run(&["demo"]);
    assert!(text(&output.stdout).contains("Booked on the trip: 2000 m, 270 ml."));
    assert!(text(&output.stdout).ends_with("  joined      1 1 1 null null 0 0 0 1 1 1 0, in 6 runs\n"));
    assert!(output.status.success());
}

#[test]
fn gaps_are_one_run_where_the_file_says_so() {
    let file = |line: &str| format!("type +r(i, C?)\nkeep nulls\n{line}source a\nrows 1 1\ncopy a 0..2\nnulls 2\nnulls 1\n");
    for (line, ends) in [("", "0200000004000000 05000000"), ("one run for gaps\n", "0200000005000000")] {
        let output = told(&["join", "--buffers", "-"], file(line).as_bytes());
        assert!(text(&output.stdout).contains(&format!("  buffer 1 {ends}\n")), "{}", text(&output.stdout));
        assert!(text(&output.stdout).starts_with("1\n1\nnull\nnull\nnull\n\n") && output.status.success());
    }
}
