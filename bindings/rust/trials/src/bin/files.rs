//! Arrow files and streams, whole and damaged, four damaged ones a file. Arguments: how many damaged ones (4000), the first seed (1).

use std::process::ExitCode;
use std::time::Instant;
use trials::files::{file, Outcomes};

fn main() -> ExitCode {
    let mut arguments = std::env::args().skip(1).map(|a| a.parse::<u64>().expect("a number"));
    let (count, first) = (arguments.next().unwrap_or(4000) / 4, arguments.next().unwrap_or(1));
    let start = Instant::now();
    let mut outcomes = Outcomes::new();
    eprintln!("{count} files, {} damaged ones, seeds {first} to {}", 4 * count, first + count - 1);
    for seed in first..first + count {
        if let Err(what) = file(seed, &mut outcomes) {
            println!("{what}");
            return ExitCode::FAILURE;
        }
    }
    println!("{count} files are read as they were written; damaged ones:");
    outcomes.iter().for_each(|(what, count)| println!("{what}: {count}"));
    eprintln!("{:.1} s", start.elapsed().as_secs_f64());
    ExitCode::SUCCESS
}
