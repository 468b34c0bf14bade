//! Damaged descriptions and foreign states, as many damaged columns that are written in another type, then five times as many with one number near 2^64. Arguments: how many (20000), the first seed (1); `--bare` before them lends slices without
//! canaries, each in an allocation of its own size, for valgrind.

use std::fmt::Write;
use std::process::ExitCode;
use std::time::Instant;
use trials::conversions::damaged_conversion;
use trials::damage::{damaged, Answers};
use trials::far::far_numbers;

fn main() -> ExitCode {
    let mut words = std::env::args().skip(1).peekable();
    if words.next_if_eq("--bare").is_some() {
        trials::guard::without_canaries();
    }
    let mut arguments = words.map(|a| a.parse::<u64>().expect("a number"));
    let (count, first) = (arguments.next().unwrap_or(20_000), arguments.next().unwrap_or(1));
    let start = Instant::now();
    let mut out = String::new();
    let mut answers = Answers::new();
    eprintln!("{count} damaged joins, seeds {first} to {}", first + count - 1);
    for seed in first..first + count {
        if let Err(what) = damaged(seed, &mut answers).and_then(|()| damaged_conversion(seed, &mut answers)) {
            println!("{what}");
            return ExitCode::FAILURE;
        }
    }
    let (mut far, mut seed) = (0, first);
    while far < 5 * count {
        match far_numbers(seed, &mut answers) {
            Ok(n) => (far, seed) = (far + n, seed + 1),
            Err(what) => {
                println!("{what}");
                return ExitCode::FAILURE;
            }
        }
    }
    writeln!(out, "{count} damaged joins, {count} damaged columns written in another type: no difference, nothing written outside").unwrap();
    writeln!(out, "{far} numbers near 2^64 or 2^63: as they are due").unwrap();
    for ((call, answer), count) in answers {
        writeln!(out, "{call} answered {answer}: {count}").unwrap();
    }
    // a reader that went away is no failure
    let _ = std::io::Write::write_all(&mut std::io::stdout(), out.as_bytes());
    eprintln!("{:.1} s", start.elapsed().as_secs_f64());
    ExitCode::SUCCESS
}
