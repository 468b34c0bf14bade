//! `lafkuno convert FILE COLUMN TYPE`: a column's rows in another type.

use super::{beside, join, mistake, print, status, Command, Words};
use lafkuno::{ipc, Batch, Column, Error, Order, Type};

pub const COMMAND: Command = Command {
    word: "convert",
    usage: "\
lafkuno convert [--buffers] FILE COLUMN TYPE
                                          the rows of a column of FILE in another TYPE: other widths of offsets, run ends and keys, or a list
                                          as a list-view of the same width, or back; --buffers prints the buffers too
lafkuno convert --out OUT FILE COLUMN TYPE
                                          the same of an Arrow file, whose other columns stay as they are",
    run,
};

fn run(words: &[&str]) -> u8 {
    let words = match Words::parse(words, &["--buffers"], &["--out"]) {
        Ok(words) => words,
        Err(what) => return mistake(format_args!("convert: {what}")),
    };
    let [file, name, ty] = words.files[..] else {
        return mistake("convert: FILE COLUMN TYPE are due");
    };
    let ty: Type = match ty.parse() {
        Ok(ty) => ty,
        Err(what) => return mistake(format_args!("convert: {what}")),
    };
    let told = |error: Error| {
        eprintln!("convert of {name}: {error}");
        status(&error)
    };
    if let Some(out) = words.value("--out") {
        return arrow(file, name, out, |column| column.convert(&ty)).map_or_else(told, |()| 0);
    }
    let columns = match beside::columns(file) {
        Ok(columns) => columns,
        Err(what) => return mistake(format_args!("{file}: {what}")),
    };
    let Some((_, column)) = columns.iter().find(|(n, _)| n == name) else {
        return mistake(format_args!("{file}: there is no column `{name}`"));
    };
    column.convert(&ty).map_or_else(told, |new| {
        let mut out = format!("# {}\n{}", new.ty(), beside::lines(&new));
        if words.has("--buffers") {
            out.push('\n');
            join::buffers_text(&new, &mut 0, &mut out);
        }
        print(&out)
    })
}

/// All batches of a file as one, with one of its columns written anew.
pub fn arrow(file: &str, name: &str, out: &str, anew: impl Fn(&Column) -> Result<Column, Error>) -> Result<(), Error> {
    let batches = ipc::read_files(&[file])?.remove(0);
    let orders: Vec<Order> = batches.iter().enumerate().map(|(source, b)| Order::Copy { source, start: 0, end: b.rows }).collect();
    let mut batch = match &batches[..] {
        [one] => one.clone(),
        _ => Batch::join(&batches.iter().collect::<Vec<_>>(), &orders, false)?,
    };
    let column: &mut Column =
        batch.columns.iter_mut().find(|c| c.field.name == name).ok_or_else(|| Error::File(format!("{file}: there is no column `{name}`")))?;
    *column = anew(column)?;
    ipc::write_file(out, &batch)
}
