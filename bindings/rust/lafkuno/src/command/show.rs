//! `lafkuno show FILE`: the schema and the rows of an Arrow file.

use super::{mistake, print, status, Command, Words};
use lafkuno::{ipc, text, Batch, Column, Error, Order};
use std::fmt::Write;

pub const COMMAND: Command = Command {
    word: "show",
    usage: "\
lafkuno show [--rows START..END] FILE     prints the schema and the rows of an Arrow file or stream (- is standard input)",
    run,
};

fn run(words: &[&str]) -> u8 {
    let words = match Words::parse(words, &[], &["--rows"]) {
        Ok(words) => words,
        Err(what) => return mistake(format_args!("show: {what}")),
    };
    let [file] = words.files[..] else {
        return mistake("show: one FILE is due");
    };
    let range = match words.value("--rows").map(text::range) {
        Some(None) => return mistake("show: --rows takes START..END"),
        range => range.flatten(),
    };
    match shown(file, range) {
        Ok(text) => print(&text),
        Err(e) => {
            eprintln!("{e}");
            status(&e)
        }
    }
}

fn text_of(bytes: &[u8]) -> String {
    String::from_utf8_lossy(bytes).escape_debug().to_string()
}

fn schema(column: &Column, depth: usize, out: &mut String) {
    let field = &column.field;
    let ordered = if field.ordered { ", ordered" } else { "" };
    let pairs: String = field.metadata.iter().map(|(k, v)| format!(", {}={}", text_of(k), text_of(v))).collect();
    let _ = writeln!(out, "# {}{}: {}{ordered}{pairs}", "  ".repeat(depth), field.name.escape_debug(), column.ty());
    column.children.iter().for_each(|c| schema(c, depth + 1, out));
}

/// The rows of a column as text; the library checks them first.
fn rows(column: &Column, start: u64, end: u64) -> Result<Vec<String>, Error> {
    let batch = Batch::from(column.clone());
    let order = Order::Copy { source: 0, start, end };
    let joined = Batch::join(&[&batch], &[order], false)?.columns.remove(0);
    let (ty, unread) = (joined.ty(), "(can't be read)".to_string());
    Ok((0..joined.length).map(|i| joined.row(i).map_or(unread.clone(), |row| text::show(&ty, &row))).collect())
}

fn shown(file: &str, range: Option<(u64, u64)>) -> Result<String, Error> {
    let batches = ipc::read_files(&[file])?.remove(0);
    let mut out = String::new();
    for (k, v) in &batches[0].metadata {
        let _ = writeln!(out, "# {}={}", text_of(k), text_of(v));
    }
    batches[0].columns.iter().for_each(|c| schema(c, 0, &mut out));
    let mut first = 0;
    for batch in &batches {
        let (start, end) = range.unwrap_or((0, u64::MAX));
        let (a, b) = (start.clamp(first, first + batch.rows) - first, end.clamp(first, first + batch.rows) - first);
        first += batch.rows;
        if b <= a {
            continue;
        }
        let mut cells = vec![];
        for column in &batch.columns {
            let one = Batch::from(column.clone());
            // columns of other types are shown by their names alone
            cells.push(if one.taken().is_ok() { rows(column, a, b)? } else { vec!["(not read)".into(); (b - a) as usize] });
        }
        for i in 0..(b - a) as usize {
            let line: Vec<&str> = cells.iter().map(|c| c[i].as_str()).collect();
            out += &line.join("\t");
            out.push('\n');
        }
    }
    Ok(out)
}
