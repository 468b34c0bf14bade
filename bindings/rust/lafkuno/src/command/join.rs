//! `lafkuno join FILE`: columns and orders as text.

use super::{arrow, mistake, print, status, Command, Progress, Words, MISTAKE, REFUSED};
use lafkuno::{ipc, run_many, text, Column, Error, Join, Row, Type};
use std::io::Read;

pub const COMMAND: Command = Command {
    word: "join",
    usage: "\
lafkuno join [--buffers] [--go-on] FILE   joins the columns that FILE describes (- is standard input) and prints the rows
        --buffers   prints the finished column's buffers too
        --go-on     goes on after a refused order or trip, which changes nothing
        --jobs N    several FILEs on N threads, each a join of its own
lafkuno join --orders ORDERS --out OUT FILE ..
                                          joins rows of Arrow files, every column, into one; --jobs N where ORDERS names several",
    run,
};

fn run(words: &[&str]) -> u8 {
    let words = match Words::parse(words, &["--buffers", "--go-on"], &["--orders", "--out", "--jobs"]) {
        Ok(words) => words,
        Err(what) => return mistake(format_args!("join: {what}")),
    };
    lafkuno::keep_pages();
    if let Some(orders) = words.value("--orders") {
        return match ["--buffers", "--go-on"].iter().find(|o| words.has(o)) {
            Some(option) => mistake(format_args!("join: {option} does not go with --orders")),
            None => arrow::run(&words, orders),
        };
    }
    if words.has("--out") {
        return mistake("join: --out goes with --orders");
    }
    let jobs = match words.value("--jobs").map_or(Ok(1), str::parse::<usize>) {
        Ok(jobs) if jobs != 0 => jobs,
        _ => return mistake("join: --jobs takes a count of threads"),
    };
    if words.files.is_empty() {
        return mistake("join: a FILE is due");
    }
    let progress = Progress::new(words.files.len(), "files");
    let answers = run_many(&words.files, jobs, |file| one(file, words.has("--buffers"), words.has("--go-on")), &|n| progress.show(n));
    drop(progress);
    let mut worst = 0;
    for (file, (out, told, status)) in words.files.iter().zip(answers) {
        if words.files.len() != 1 && !out.is_empty() {
            worst = print(&format!("# {file}\n")).max(worst);
        }
        worst = worst.max(status).max(print(&out));
        eprint!("{told}");
    }
    worst
}

/// The bytes of a file, or why it can't be read.
pub fn bytes(file: &str) -> Result<Vec<u8>, String> {
    let mut input = vec![];
    match file {
        "-" => std::io::stdin().read_to_end(&mut input).map(|_| ()),
        _ => std::fs::read(file).map(|bytes| input = bytes),
    }
    .map_err(|e| e.to_string())?;
    Ok(input)
}

/// What they describe, or their mistake.
pub fn described(input: &[u8]) -> Result<text::Description, String> {
    if ipc::is_arrow(input) {
        return Err("this is an Arrow file: --orders says what is joined of it".into());
    }
    text::read_bytes(input).map_err(|e| e.to_string())
}

/// The join of one file: what is printed, what is told on standard error, and the exit status.
fn one(file: &str, buffers: bool, go_on: bool) -> (String, String, u8) {
    let mistake = |what: String| (String::new(), format!("lafkuno: {file}: {what}\n"), MISTAKE);
    let description = match bytes(file).and_then(|input| described(&input)) {
        Ok(description) => description,
        Err(what) => return mistake(what),
    };
    let mut told = String::new();
    match join(&description, go_on, &mut told) {
        Ok((column, refused)) => {
            let mut out = rows_text(&description.ty, &column);
            if buffers {
                out.push('\n');
                buffers_text(&column, &mut 0, &mut out);
            }
            (out, told, if refused { REFUSED } else { 0 })
        }
        Err(status) => (String::new(), told, status),
    }
}

/// Whether a row prints as a null, also behind a union's id.
fn is_null(row: &Row) -> bool {
    match row {
        Row::Union(_, row) => is_null(row),
        row => *row == Row::Null,
    }
}

/// Makes the join; errors are told.
fn join(description: &text::Description, go_on: bool, told: &mut String) -> Result<(Column, bool), u8> {
    let sources: Vec<&Column> = description.sources.iter().map(|(_, c)| c).collect();
    let mut fail = |what: &str, error: Error| {
        told.push_str(&format!("{what}: {error}\n"));
        status(&error)
    };
    let mut join = Join::open_with(&sources, description.choices).map_err(|e| fail("the opening", e))?;
    let (mut given, mut refused) = (0, 0);
    for list in description.orders.chunk_by(|a, b| a.trip.is_some() && a.trip == b.trip) {
        let answer = match list[0].trip {
            None => join.order(list[0].what),
            Some(_) => join.orders(&list.iter().map(|o| o.what).collect::<Vec<_>>()),
        };
        if let Err(error) = answer {
            let place = error.place().and_then(|p| p.place).unwrap_or(0);
            let trip = list[0].trip.map_or(String::new(), |line| format!("the trip of line {line}: "));
            let status = fail(&format!("{trip}order {}, line {} (`{}`)", given + place + 1, list[place].line, list[place].text), error);
            refused += 1;
            if !go_on || status == MISTAKE {
                return Err(status);
            }
        }
        given += list.len();
    }
    let joined = join.finish().map_err(|e| fail("finishing", e))?;
    let (orders, rows) = (description.orders.len(), joined.column.length);
    let nulls = (0..rows).filter(|i| joined.column.row(*i).is_some_and(|r| is_null(&r))).count();
    told.push_str(&format!("{}: {} sources, {orders} orders, {refused} refused; {rows} rows, {nulls} nulls\n", description.ty, sources.len()));
    Ok((joined.column, refused != 0))
}

fn rows_text(ty: &Type, column: &Column) -> String {
    let line = |i: u64| column.row(i).map_or("(can't be read)\n".into(), |row| text::show(ty, &row) + "\n");
    (0..column.length).map(line).collect()
}

fn hex(bytes: &[u8]) -> String {
    bytes.chunks(8).map(|c| c.iter().map(|b| format!("{b:02x}")).collect::<String>()).collect::<Vec<_>>().join(" ")
}

/// The nodes of a column with their buffers, a line each.
pub fn buffers_text(column: &Column, node: &mut usize, out: &mut String) {
    *out += &format!("node {node} {}: length {}, offset {}, nulls {}\n", column.format, column.length, column.offset, column.null_count());
    *node += 1;
    if let Some(bits) = &column.validity {
        *out += &format!("  validity {}\n", hex(bits));
    }
    for (k, buffer) in column.buffers.iter().enumerate() {
        *out += &format!("  buffer {} {}\n", k + 1, hex(buffer));
    }
    for (k, buffer) in column.data.iter().enumerate() {
        *out += &format!("  data {k} {}\n", hex(buffer));
    }
    column.dictionary.iter().for_each(|d| buffers_text(d, node, out));
    column.children.iter().for_each(|c| buffers_text(c, node, out));
}
