//! The command `lafkuno`: finds the word among [`command::ALL`].

mod command;

use command::{mistake, print, Command, ALL};
use std::process::ExitCode;

const LAST: &str = "\
lafkuno --help, --version
docs/USING.md says more, with the format of FILE; examples stand in examples/.
Exit status: 0, or 1 where an order or the opening was refused, or 2 where the command or a file has a mistake.";

fn usage() -> String {
    let lines: String = ALL.iter().map(|c| format!("{}\n", c.usage)).collect();
    format!("{lines}{LAST}\n")
}

fn main() -> ExitCode {
    let mut arguments = vec![];
    for word in std::env::args_os().skip(1) {
        match word.into_string() {
            Ok(word) => arguments.push(word),
            Err(word) => return ExitCode::from(mistake(format_args!("{} is not UTF-8", word.to_string_lossy()))),
        }
    }
    let words: Vec<&str> = arguments.iter().map(String::as_str).collect();
    ExitCode::from(match words[..] {
        [] => {
            eprint!("{}", usage());
            command::MISTAKE
        }
        ["--help" | "-h" | "help", ..] | [_, "--help" | "-h"] => print(&usage()),
        ["--version" | "-V"] => print(concat!("lafkuno ", env!("CARGO_PKG_VERSION"), "\n")),
        [word, ref rest @ ..] => match ALL.iter().find(|c| c.word == word) {
            Some(Command { run, .. }) => run(rest),
            None => mistake(format_args!("there is no command {word}; lafkuno --help lists them")),
        },
    })
}
