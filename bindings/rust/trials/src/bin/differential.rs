//! Random joins against the original's algorithm. Arguments: how many (100000), the first seed (1).

use std::fmt::Write;
use std::process::ExitCode;
use std::time::Instant;
use trials::compare::{join, Seen};
use trials::cut::cut;
use trials::gaps::{gaps, Grown};
use trials::lists::{lists, Lists as Turned};
use trials::passage::passage;
use trials::trips::{trips, Lists};
use trials::wider::wider;
use trials::widths::{self, widths};

fn main() -> ExitCode {
    let mut arguments = std::env::args().skip(1).map(|a| a.parse::<u64>().expect("a number"));
    let (count, first) = (arguments.next().unwrap_or(100_000), arguments.next().unwrap_or(1));
    let start = Instant::now();
    let mut out = String::new();
    let mut seen = Seen::default();
    eprintln!("{count} random joins, seeds {first} to {}", first + count - 1);
    let (mut widened, mut passed, mut cuts) = (0, 0, 0);
    let mut trips_given = Lists::default();
    let mut grown = Grown::default();
    let mut turned = Turned::default();
    let mut converted = widths::Seen::default();
    for seed in first..first + count {
        // a tenth is made with wider offsets, keys and run ends too, one of slices that pass the C Data Interface, one with its last copy cut in two,
        // two with its orders in lists, one with one run for gaps; two turn a list into a list-view and back, two store a column
        // in other widths
        let answer = join(seed, &mut seen).and_then(|()| match seed % 10 {
            0 => wider(seed).map(|accepted| widened += accepted as u64),
            5 => passage(seed).map(|accepted| passed += accepted as u64),
            7 => cut(seed).map(|accepted| cuts += accepted as u64),
            3 | 9 => trips(seed, &mut trips_given),
            2 => gaps(seed, &mut grown),
            1 | 6 => lists(seed, &mut turned),
            4 | 8 => widths(seed, &mut converted),
            _ => Ok(()),
        });
        match answer {
            Ok(()) => {}
            Err(what) => {
                println!("{what}");
                return ExitCode::FAILURE;
            }
        }
    }
    let Seen { joins, orders, rows, answers, joined_dictionaries, kept_dictionaries, joined_null_entries, kept_null_entries, .. } = seen;
    let Seen { depth_8, lists, deep_lists, .. } = seen;
    writeln!(out, "{joins} joins, {orders} orders, {rows} rows: no difference").unwrap();
    writeln!(out, "{depth_8} types of depth 8; dictionaries: {joined_dictionaries} joined, {kept_dictionaries} kept").unwrap();
    writeln!(out, "{lists} types with lists, {deep_lists} with one at depth 7").unwrap();
    writeln!(out, "rows of null entries: {joined_null_entries} in joined dictionaries, {kept_null_entries} in kept ones").unwrap();
    writeln!(out, "{widened} of them stored wider: the same rows").unwrap();
    writeln!(out, "{cuts} copies cut in two: the same rows, and bytes where no run is").unwrap();
    writeln!(out, "lists of orders: {} carried out, {} refused: as their orders one after the other", trips_given.accepted, trips_given.refused)
        .unwrap();
    writeln!(out, "{} with one run for gaps: the same rows, {} runs grew by an order of nulls, {} were added", grown.joins, grown.grown, grown.added)
        .unwrap();
    let Turned { columns, rows, null_stretches } = turned;
    writeln!(out, "{columns} lists and list-views turned and turned back, {rows} rows, {null_stretches} null ones over a stretch: as plain copies")
        .unwrap();
    let widths::Seen { columns, back, answers: grounds } = converted;
    writeln!(out, "{columns} columns in other widths, {back} of them widened and narrowed back: as the request is read plainly").unwrap();
    for (ground, count) in grounds {
        writeln!(out, "other widths answered {ground}: {count}").unwrap();
    }
    writeln!(out, "{passed} of slices through the C Data Interface: the same rows and names").unwrap();
    for ((what, answer), count) in answers {
        writeln!(out, "{what} answered {answer}: {count}").unwrap();
    }
    // a reader that went away is no failure
    let _ = std::io::Write::write_all(&mut std::io::stdout(), out.as_bytes());
    eprintln!("{:.1} s", start.elapsed().as_secs_f64());
    ExitCode::SUCCESS
}
