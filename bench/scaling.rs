// How many joins a second one machine makes, by rows and kind, on one thread and on two. Run by bench/run; built by cargo with bindings/rust.

use lafkuno::{join_many, keep_pages, run_many, text, Batch, Choices, Column, Field, Job, Order, Row, Type};
use std::hint::black_box;
use std::time::Instant;

fn column(name: &str, ty: &str, rows: u64, row: &str) -> Column {
    let ty: Type = ty.parse().unwrap();
    let some: Vec<Row> = text::rows(&ty, row).unwrap();
    let rows: Vec<Row> = (0..rows as usize).map(|k| some[k % some.len()].clone()).collect();
    Column { field: Field { name: name.into(), ..Field::default() }, ..Column::build(&ty, &rows).unwrap() }
}

// Vans whose batches are at hand at the same time.
const VANS: usize = 31;

type Columns = Vec<(&'static str, &'static str, &'static str)>;

// What a batch may hold: each column's name, type and rows.
fn kinds() -> [(&'static str, Columns); 4] {
    let six = vec![
        ("a", "l?", "1 2 null 4"),
        ("b", "u?", "\"Leith\" \"Granton\" null"),
        ("c", "vu?", "\"short\" \"a text of more than twelve bytes\""),
        ("d", "+r(i, u?)", "5*\"driving\" 3*\"idle\""),
        ("e", "S?[u]", "\"x\" \"y\" null"),
        ("f", "+us:0,1(i?, g?)", "0:1 1:2.5 0:null"),
    ];
    [
        ("one of int64", vec![("n", "l?", "1 2 null 4")]),
        ("one of strings", vec![("s", "u?", "\"Leith\" \"Granton\" null")]),
        ("one of list-views", vec![("v", "+vl?(i?)", "[1, 2] [] null [3]")]),
        ("six: numbers, strings, views, run ends, dictionary, union", six),
    ]
}

extern "C" {
    fn clock_gettime(clock: i32, time: *mut [i64; 2]) -> i32;
}

// The processor time of all threads of this process, in seconds: what other work on the machine takes is not in it.
fn processor() -> f64 {
    let mut time = [0; 2];
    unsafe { clock_gettime(2, &mut time) };
    time[0] as f64 + time[1] as f64 / 1e9
}

// Joins a second of trips over two batches (two copies, a null, a copy), and microseconds of a processor a join. Neighbouring jobs are of
// other vans, with batches of their own.
fn rate(vans: &[[Batch; 2]], threads: usize, jobs: usize) -> (f64, f64) {
    let rows = vans[0][0].rows;
    let copy = |source, start, end| Order::Copy { source, start, end };
    let orders = vec![copy(0, rows / 4, rows), Order::Nulls(1), copy(1, 0, rows / 2), copy(0, 0, rows / 4)];
    let choices = Choices { keep_nulls: true, ..Choices::default() };
    let job = |k: usize| Job { sources: vans[k % vans.len()].iter().collect(), orders: orders.clone(), choices };
    let jobs: Vec<Job> = (0..jobs).map(job).collect();
    best_of_seven(jobs.len(), || assert!(join_many(&jobs, threads, &|_| {}).iter().all(Result::is_ok)))
}

// What the machine itself gives two threads: jobs of arithmetic that touch no memory.
fn arithmetic(threads: usize) -> (f64, f64) {
    let spin = |seed: &u64| (0..100_000u64).fold(*seed, |x, k| black_box(x.wrapping_mul(6364136223846793005).wrapping_add(k)));
    let jobs: Vec<u64> = (0..400).collect();
    best_of_seven(jobs.len(), || drop(black_box(run_many(&jobs, threads, spin, &|_| {}))))
}

// So many jobs: jobs a second by the clock, and microseconds of a processor a job.
fn best_of_seven(jobs: usize, work: impl Fn()) -> (f64, f64) {
    let (mut wall, mut used) = (f64::MAX, f64::MAX);
    for _ in 0..7 {
        let (start, before) = (Instant::now(), processor());
        work();
        (wall, used) = (wall.min(start.elapsed().as_secs_f64()), used.min(processor() - before));
    }
    (jobs as f64 / wall, 1e6 * used / jobs as f64)
}

fn print_row(name: &str, one: (f64, f64), two: (f64, f64)) {
    println!("| {name} | {:.0} | {:.0} | {:.2} | {:.1} | {:.1} | {:.2} |", one.0, two.0, two.0 / one.0, one.1, two.1, 2.0 * one.1 / two.1);
}

// With a word, the allocator stays as it comes.
fn main() {
    if std::env::args().len() == 1 {
        keep_pages();
    }
    println!(
        "| rows a batch | columns | joins a second, 1 thread | 2 threads | ratio | processor us a join, 1 thread | 2 threads | ratio on free cores |"
    );
    println!("|---|---|---|---|---|---|---|---|");
    print_row("- | none: arithmetic alone", arithmetic(1), arithmetic(2));
    for rows in [10u64, 1000, 100_000] {
        for (name, columns) in kinds() {
            let jobs = (4_000_000 / (rows * columns.len() as u64 + 2000)).max(64) as usize;
            let batch = || {
                let made = columns.iter().map(|(name, ty, some)| column(name, ty, rows, some)).collect();
                Batch { rows, columns: made, metadata: vec![] }
            };
            let vans: Vec<[Batch; 2]> = (0..jobs.min(VANS)).map(|_| [batch(), batch()]).collect();
            print_row(&format!("{rows} | {name}"), rate(&vans, 1, jobs), rate(&vans, 2, jobs));
        }
    }
}
