//! `lafkuno join --orders`: Arrow files, over every column.

use super::{mistake, status, Progress, Words};
use lafkuno::{ipc, text, Batch, Choices, Error, Job, Order};

/// Where a file's rows are: each batch, and the file's row that it begins with.
struct Rows {
    first: usize,
    starts: Vec<u64>,
    rows: u64,
}

/// A copy of a file's rows as copies of its batches.
fn spread(files: &[Rows], order: Order, out: &mut Vec<Order>) -> bool {
    let Order::Copy { source, start, end } = order else {
        out.push(order);
        return true;
    };
    let Some(file) = files.get(source) else { return false };
    if end < start || file.rows < end {
        return false;
    }
    let ends = file.starts.iter().skip(1).copied().chain([file.rows]);
    for (k, (from, to)) in file.starts.iter().copied().zip(ends).enumerate() {
        let (a, b) = (start.max(from), end.min(to));
        if a < b {
            out.push(Order::Copy { source: file.first + k, start: a - from, end: b - from });
        }
    }
    true
}

/// The words behind `join` where `--orders` is among them.
pub fn run(words: &Words, orders: &str) -> u8 {
    let jobs = match words.value("--jobs").map_or(Ok(1), str::parse::<usize>) {
        Ok(jobs) if jobs != 0 => jobs,
        _ => return mistake("join: --jobs takes a count of threads"),
    };
    if words.files.is_empty() {
        return mistake("join: Arrow files are due before or behind --orders");
    }
    let list = match std::fs::read(orders).map_err(|e| e.to_string()).and_then(|b| text::read_orders(&b, &words.files).map_err(|e| e.to_string())) {
        Ok(list) => list,
        Err(what) => return mistake(format_args!("{orders}: {what}")),
    };
    let mut trips = list.trips;
    if let (Some(out), [first, ..]) = (words.value("--out"), &mut trips[..]) {
        if first.out.is_some() {
            return mistake(format_args!("{orders}: line {}: --out and `out` in the orders are one too many", first.line));
        }
        first.out = Some(out.into());
    }
    if let Some(trip) = trips.iter().find(|t| t.out.is_none()) {
        return mistake(format_args!("join: where the rows of line {} go is due: --out FILE, or `out FILE` among the orders", trip.line));
    }
    match join(words, &trips, list.choices, jobs, orders) {
        Ok(status) => status,
        Err(e) => {
            eprintln!("{e}");
            status(&e)
        }
    }
}

fn join(words: &Words, trips: &[text::Trip], choices: Choices, jobs: usize, orders: &str) -> Result<u8, Error> {
    let batches = ipc::read_files(&words.files)?;
    let (mut files, mut first) = (vec![], 0);
    for list in &batches {
        let mut rows = 0;
        let mut starts = vec![];
        for batch in list {
            starts.push(rows);
            rows += batch.rows;
        }
        files.push(Rows { first, starts, rows });
        first += list.len();
    }
    let sources: Vec<&Batch> = batches.iter().flatten().collect();
    if let Some(first) = sources.first() {
        first.taken()?;
    }
    let (mut list, mut made) = (vec![], vec![]);
    let mut worst = 0;
    for trip in trips {
        let mut spread_orders = vec![];
        match trip.orders.iter().find(|o| !spread(&files, o.what, &mut spread_orders)) {
            None => {
                made.push(trip);
                list.push(Job { sources: sources.clone(), orders: spread_orders, choices });
            }
            Some(order) => {
                let rows: Vec<String> = words.files.iter().zip(&files).map(|(name, f)| format!("{name} has {}", f.rows)).collect();
                eprintln!("{orders}: line {} (`{}`): refused, ground 2: no such rows; {}", order.line, order.text, rows.join(", "));
                worst = super::REFUSED;
            }
        }
    }
    let progress = Progress::new(list.len(), "joins");
    let answers = lafkuno::run_many(&list, jobs, |job| Batch::join_with(&job.sources, &job.orders, job.choices), &|n| progress.show(n));
    drop(progress);
    for (trip, answer) in made.iter().zip(answers) {
        let out = trip.out.as_deref().unwrap_or_default();
        let written = answer.and_then(|batch| ipc::write_file(out, &batch).map(|()| batch));
        match written {
            Ok(batch) => eprintln!("{out}: {} columns, {} orders, {} rows", batch.columns.len(), trip.orders.len(), batch.rows),
            Err(e) => {
                eprintln!("{out} (line {} of {orders}): {e}", trip.line);
                worst = worst.max(status(&e));
            }
        }
    }
    Ok(worst)
}
