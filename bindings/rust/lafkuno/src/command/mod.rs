//! The commands, one file each, and what they share. A new command is a file with a `COMMAND` and a line in [`ALL`].

use lafkuno::Error;
use std::io::{IsTerminal, Write};
use std::sync::Mutex;
use std::time::{Duration, Instant};

mod arrow;
mod beside;
mod convert;
mod demo;
mod grounds;
mod join;
mod show;

/// A command by its word.
pub struct Command {
    pub word: &'static str,
    /// Lines of the help: how it is called, and its options.
    pub usage: &'static str,
    /// Takes the words behind it, answers the exit status.
    pub run: fn(&[&str]) -> u8,
}

pub const ALL: &[Command] = &[
    join::COMMAND,
    show::COMMAND,
    beside::BOX,
    beside::MEAN,
    beside::FUEL,
    beside::SAME,
    beside::ENCODE,
    beside::EXPAND,
    beside::RECLAIM,
    convert::COMMAND,
    demo::COMMAND,
    grounds::COMMAND,
];

/// Exit statuses: an order or the opening was refused; the command or a file has a mistake.
pub const REFUSED: u8 = 1;
pub const MISTAKE: u8 = 2;

/// Prints to standard output. A reader that went away is no mistake.
pub fn print(text: &str) -> u8 {
    match std::io::stdout().write_all(text.as_bytes()).and_then(|()| std::io::stdout().flush()) {
        Err(e) if e.kind() != std::io::ErrorKind::BrokenPipe => {
            eprintln!("can't write: {e}");
            MISTAKE
        }
        _ => 0,
    }
}

/// The exit status of an error: a refusal, or a mistake.
pub fn status(error: &Error) -> u8 {
    match error {
        Error::Column(_) | Error::File(_) | Error::Inconsistent(_) => MISTAKE,
        _ => REFUSED,
    }
}

/// How far long work is, on standard error where that is a terminal, and nothing where it is none.
pub struct Progress {
    all: usize,
    what: &'static str,
    start: Instant,
    last: Mutex<Option<Instant>>,
}

impl Progress {
    pub fn new(all: usize, what: &'static str) -> Progress {
        Progress { all, what, start: Instant::now(), last: Mutex::new(None) }
    }

    /// So many are made.
    pub fn show(&self, done: usize) {
        let Ok(mut last) = self.last.try_lock() else { return };
        let due = last.map_or(self.start + Duration::from_millis(500), |at| at + Duration::from_millis(100));
        if due <= Instant::now() && std::io::stderr().is_terminal() {
            *last = Some(Instant::now());
            eprint!("\r{done} of {} {}", self.all, self.what);
        }
    }
}

impl Drop for Progress {
    fn drop(&mut self) {
        if self.last.lock().is_ok_and(|last| last.is_some()) {
            eprint!("\r{:40}\r", "");
        }
    }
}

/// Tells a mistake in one line.
pub fn mistake(what: impl std::fmt::Display) -> u8 {
    eprintln!("lafkuno: {what}");
    MISTAKE
}

/// The words of a command: options with their values, and the rest.
pub struct Words<'a> {
    options: Vec<(&'a str, Option<&'a str>)>,
    pub files: Vec<&'a str>,
}

impl<'a> Words<'a> {
    /// Takes the words apart. `valued` are the options that a value follows, `plain` those without one; behind `--` all are files.
    pub fn parse(words: &[&'a str], plain: &[&str], valued: &[&str]) -> Result<Words<'a>, String> {
        let mut parsed = Words { options: vec![], files: vec![] };
        let mut rest = words.iter().copied();
        while let Some(word) = rest.next() {
            if word == "--" {
                parsed.files.extend(rest.by_ref());
            } else if plain.contains(&word) {
                parsed.options.push((word, None));
            } else if valued.contains(&word) {
                let value = rest.next().ok_or_else(|| format!("a value is due behind {word}"))?;
                parsed.options.push((word, Some(value)));
            } else if word.starts_with('-') && word != "-" {
                return Err(format!("unknown option {word}"));
            } else {
                parsed.files.push(word);
            }
        }
        Ok(parsed)
    }

    /// Whether an option is given.
    pub fn has(&self, option: &str) -> bool {
        self.options.iter().any(|(o, _)| *o == option)
    }

    /// The value of an option; the last where it is given twice.
    pub fn value(&self, option: &str) -> Option<&'a str> {
        self.options.iter().rev().find(|(o, _)| *o == option)?.1
    }
}
