//! Calls on columns of a file, beside the join: `lafkuno box`, `lafkuno mean`, `lafkuno fuel`, `lafkuno same`, `lafkuno encode`, `lafkuno expand`, `lafkuno reclaim`.

use super::{convert, join, mistake, print, status, Command, Words};
use lafkuno::{mean, ratio, text, Column, Error, Ground, Lent, RunEnds, Type};
use std::ops::Range;

pub const BOX: Command = Command {
    word: "box",
    usage: "\
lafkuno box FILE LATITUDE LONGITUDE START..END
                                          the box around rows of two columns of FILE, both of type g: smallest and largest latitude and longitude",
    run: |words| {
        asked("box", "LATITUDE LONGITUDE", words, |columns: [&Column; 2], rows| {
            lafkuno::frame(columns[0], columns[1], rows).map(|frame| frame.to_string())
        })
    },
};

pub const MEAN: Command = Command {
    word: "mean",
    usage: "lafkuno mean FILE COLUMN START..END       count, exact sum and mean of rows of a column that FILE describes",
    run: |words| {
        asked("mean", "COLUMN", words, |[column]: [&Column; 1], rows| {
            mean(column, rows).map(|m| format!("count {}\nsum {}\nmean {}", m.count, m.sum, m.mean))
        })
    },
};

pub const FUEL: Command = Command {
    word: "fuel",
    usage: "\
lafkuno fuel FILE FUEL DISTANCE START..END
                                          total fuel over total distance, of the rows that have both",
    run: |words| {
        let names = [1, 2].map(|k| words.get(k).copied().unwrap_or_default());
        asked("fuel", "FUEL DISTANCE", words, |[fuel, distance]: [&Column; 2], rows| {
            ratio(fuel, distance, rows).map(|r| format!("count {}\n{} {}\n{} {}\nratio {}", r.count, names[0], r.first, names[1], r.second, r.ratio))
        })
    },
};

pub const SAME: Command = Command {
    word: "same",
    usage: "\
lafkuno same FILE A B START..END          the rows that don't read the same in two columns of numbers, plain or as runs, a line each;
                                          and how many do",
    run: |words| asked("same", "A B", words, compared),
};

/// The rows in which two columns differ, with what each has there.
fn compared(columns: [&Column; 2], rows: Range<u64>) -> Result<String, Error> {
    if rows.end < rows.start {
        return Err(Error::Refused(Ground::NoSuchRows));
    }
    let (lent, types) = (Lent::lay(&columns)?, columns.map(Column::ty));
    let (mut lines, mut same) = (vec![], 0);
    for row in rows.clone() {
        if lent.same_row((0, row), (1, row))? {
            same += 1;
        } else {
            let [a, b] = [0, 1].map(|k| row_of(columns[k], &types[k], row));
            lines.push(format!("{row}: {a}, {b}"));
        }
    }
    lines.push(format!("same {same} of {}", rows.end - rows.start));
    Ok(lines.join("\n"))
}

pub const ENCODE: Command = Command {
    word: "encode",
    usage: "\
lafkuno encode [--ends s|i|l] FILE COLUMN START..END
                                          the runs of rows of a fixed-width column, a line each: where it ends, and its value; run ends are l where
                                          nothing else is said
lafkuno encode [--ends s|i|l] --out OUT FILE COLUMN
                                          all rows of a column of an Arrow file as runs; its other columns stay as they are, here and below",
    run: |words| {
        let words = match Words::parse(words, &[], &["--ends", "--out"]) {
            Ok(words) => words,
            Err(what) => return mistake(format_args!("encode: {what}")),
        };
        let Some(ends) = words.value("--ends").map_or(Some(RunEnds::I64), RunEnds::of) else { return mistake("encode: --ends takes s, i or l") };
        if let Some(out) = words.value("--out") {
            return in_file("encode", &words, out, |column| column.encode(0..column.length, ends));
        }
        asked_of("encode", "COLUMN", &words, |[column]: [&Column; 1], rows| {
            let runs = column.encode(rows, ends)?;
            let (ends, values) = (rows_of(&runs.children[0]), rows_of(&runs.children[1]));
            Ok(ends.iter().zip(values).map(|(end, value)| format!("{end} {value}")).collect::<Vec<_>>().join("\n"))
        })
    },
};

pub const EXPAND: Command = Command {
    word: "expand",
    usage: "\
lafkuno expand FILE COLUMN START..END     rows of a run-end column of fixed-width values, a line each
lafkuno expand --out OUT FILE COLUMN      all rows of such a column of an Arrow file",
    run: |words| {
        let words = match Words::parse(words, &[], &["--out"]) {
            Ok(words) => words,
            Err(what) => return mistake(format_args!("expand: {what}")),
        };
        if let Some(out) = words.value("--out") {
            return in_file("expand", &words, out, |column| column.expand(0..column.length));
        }
        asked_of("expand", "COLUMN", &words, |[column]: [&Column; 1], rows| column.expand(rows).map(|plain| rows_of(&plain).join("\n")))
    },
};

/// `FILE COLUMN` of an Arrow file, with the column written anew, into another one.
fn in_file(word: &str, words: &Words, out: &str, anew: impl Fn(&Column) -> Result<Column, Error>) -> u8 {
    let [file, name] = words.files[..] else { return mistake(format_args!("{word}: FILE COLUMN are due")) };
    match convert::arrow(file, name, out, anew) {
        Ok(()) => 0,
        Err(error) => {
            eprintln!("{word} of {name}: {error}");
            status(&error)
        }
    }
}

/// The rows of a column as text.
fn rows_of(column: &Column) -> Vec<String> {
    let ty = column.ty();
    (0..column.length).map(|i| row_of(column, &ty, i)).collect()
}

fn row_of(column: &Column, ty: &Type, i: u64) -> String {
    column.row(i).map_or("(can't be read)".into(), |row| text::show(ty, &row))
}

pub const RECLAIM: Command = Command {
    word: "reclaim",
    usage: "\
lafkuno reclaim FILE COLUMN               a dictionary column of FILE without the entries that no row names: how many are left, the entries, the rows
lafkuno reclaim --out OUT FILE COLUMN     the same of an Arrow file",
    run: reclaim,
};

/// The rows of a column, a line each.
pub fn lines(column: &Column) -> String {
    rows_of(column).into_iter().map(|row| row + "\n").collect()
}

fn reclaim(words: &[&str]) -> u8 {
    let words = match Words::parse(words, &[], &["--out"]) {
        Ok(words) => words,
        Err(what) => return mistake(format_args!("reclaim: {what}")),
    };
    if let Some(out) = words.value("--out") {
        return in_file("reclaim", &words, out, Column::reclaim);
    }
    let [file, name] = words.files[..] else {
        return mistake("reclaim: FILE COLUMN are due");
    };
    let columns = match columns(file) {
        Ok(columns) => columns,
        Err(what) => return mistake(format_args!("{file}: {what}")),
    };
    let Some((_, column)) = columns.iter().find(|(n, _)| n == name) else {
        return mistake(format_args!("{file}: there is no column `{name}`"));
    };
    match column.reclaim() {
        Ok(left) => {
            let (Some(old), Some(new)) = (&column.dictionary, &left.dictionary) else { return mistake("reclaim: a dictionary was lost") };
            print(&format!("entries {} of {}\n{}\n{}", new.length, old.length, lines(new), lines(&left)))
        }
        Err(error) => {
            eprintln!("reclaim of {name}: {error}");
            status(&error)
        }
    }
}

/// The columns of a file: `column NAME TYPE` with rows, or the sources of a join.
pub fn columns(file: &str) -> Result<Vec<(String, Column)>, String> {
    let bytes = join::bytes(file)?;
    match std::str::from_utf8(&bytes) {
        Ok(text) if text::has_columns(text) => text::columns(text).map_err(|e| e.to_string()),
        _ => join::described(&bytes).map(|description| description.sources),
    }
}

/// [`asked_of`] of words without options.
fn asked<const N: usize>(word: &str, names: &str, words: &[&str], answer: impl Fn([&Column; N], Range<u64>) -> Result<String, Error>) -> u8 {
    match Words::parse(words, &[], &[]) {
        Ok(words) => asked_of(word, names, &words, answer),
        Err(what) => mistake(format_args!("{word}: {what}")),
    }
}

/// Takes `FILE NAME .. START..END`, finds the columns by their names and prints what `answer` makes of their rows.
fn asked_of<const N: usize>(word: &str, names: &str, words: &Words, answer: impl Fn([&Column; N], Range<u64>) -> Result<String, Error>) -> u8 {
    if words.files.len() != N + 2 {
        return mistake(format_args!("{word}: FILE {names} START..END are due"));
    }
    let (file, rows) = (words.files[0], words.files[N + 1]);
    let Some((start, end)) = text::range(rows) else {
        return mistake(format_args!("{word}: {rows} is no START..END"));
    };
    let columns = match columns(file) {
        Ok(columns) => columns,
        Err(what) => return mistake(format_args!("{file}: {what}")),
    };
    let mut named = vec![];
    for name in &words.files[1..=N] {
        match columns.iter().find(|(n, _)| n == name) {
            Some((_, column)) => named.push(column),
            None => return mistake(format_args!("{file}: there is no column `{name}`")),
        }
    }
    let Ok(columns) = named.try_into() else { return mistake(format_args!("{word}: FILE {names} START..END are due")) };
    match answer(columns, start..end) {
        Ok(text) => print(&format!("{text}\n")),
        Err(error) => {
            eprintln!("{word} of rows {start}..{end}: {error}");
            status(&error)
        }
    }
}
