// Times the boundary: foreign arrays in, joined, and out again, against plain copies. Run by bench/run; built by cargo with bindings/rust.

use lafkuno::c_data::{Exported, Import};
use lafkuno::{Column, Join};
use std::hint::black_box;

const ROWS: u64 = 5_000_000;

fn longs(n: u64) -> Column {
    let bytes: Vec<u8> = (0..n).flat_map(u64::to_le_bytes).collect();
    Column { format: "l".into(), length: n, buffers: vec![bytes.into()], ..Column::default() }
}

fn strings(n: u64) -> Column {
    let offsets: Vec<u8> = (0..=n as u32).flat_map(|k| (12 * k).to_le_bytes()).collect();
    Column { format: "u".into(), length: n, buffers: vec![offsets.into(), vec![b'x'; 12 * n as usize].into()], ..Column::default() }
}

fn lists(n: u64) -> Column {
    let offsets: Vec<u8> = (0..=n as u32).flat_map(|k| (2 * k).to_le_bytes()).collect();
    Column { format: "+l".into(), length: n, buffers: vec![offsets.into()], children: vec![longs(2 * n)], ..Column::default() }
}

fn list_views(n: u64) -> Column {
    let offsets: Vec<u8> = (0..n as u32).flat_map(|k| (2 * k).to_le_bytes()).collect();
    let sizes: Vec<u8> = (0..n).flat_map(|_| 2u32.to_le_bytes()).collect();
    Column { format: "+vl".into(), length: n, buffers: vec![offsets.into(), sizes.into()], children: vec![longs(2 * n)], ..Column::default() }
}

extern "C" {
    fn clock_gettime(clock: i32, time: *mut [i64; 2]) -> i32;
}

// The processor time of this process, in microseconds: what other work on the machine takes is not in it.
fn processor() -> f64 {
    let mut time = [0; 2];
    unsafe { clock_gettime(2, &mut time) };
    1e6 * time[0] as f64 + time[1] as f64 / 1e3
}

// The best of some rounds, in microseconds.
fn best<R>(rounds: usize, mut f: impl FnMut() -> R) -> f64 {
    let time = |_| {
        let start = processor();
        black_box(f());
        processor() - start
    };
    (0..rounds).map(time).fold(f64::MAX, f64::min)
}

// Foreign slices in, all their rows joined, and out.
fn through(outs: &[&Exported]) -> Exported {
    let mut import = Import::new();
    let columns: Vec<Column> = outs.iter().map(|o| unsafe { import.lend(&o.schema, &o.array) }.unwrap()).collect();
    let mut join = Join::open(&columns.iter().collect::<Vec<_>>(), false).unwrap();
    for (s, column) in columns.iter().enumerate() {
        join.copy(s, 0..column.length).unwrap();
    }
    Exported::joined(&join.finish().unwrap()).unwrap()
}

// The most memory that this process had, in MB.
fn peak() -> u64 {
    let status = std::fs::read_to_string("/proc/self/status").unwrap_or_default();
    let line = status.lines().find_map(|l| l.strip_prefix("VmHWM:")).unwrap_or("0");
    line.split_whitespace().next().and_then(|kb| kb.parse::<u64>().ok()).unwrap_or(0) / 1000
}

fn main() {
    let (a, b) = (longs(ROWS), longs(ROWS));
    let outs = [Exported::new(&a).unwrap(), Exported::new(&b).unwrap()];
    let copies = best(15, || {
        // what is due: all bytes into one body, and the rows into the room
        let body = [a.buffers[0].to_vec(), b.buffers[0].to_vec()];
        let mut room = vec![0u8; 16 * ROWS as usize];
        room[..8 * ROWS as usize].copy_from_slice(&body[0]);
        room[8 * ROWS as usize..].copy_from_slice(&body[1]);
        room
    });
    let ours = best(15, || through(&[&outs[0], &outs[1]]));
    println!("two columns of {ROWS} int64, in, joined and out: {ours:.0} us; two memcpys: {copies:.0} us; ratio {:.2}", ours / copies);
    for (name, batch) in [("int64", a.clone()), ("strings", strings(ROWS)), ("lists of int64", lists(ROWS)), ("list-views of int64", list_views(ROWS))] {
        let slice = Exported::new(&batch.slice(4_900_000, 10).unwrap()).unwrap();
        println!("ten rows at row 4,900,000 of {name}: {:.1} us", best(200, || through(&[&slice])));
    }
    let before = peak();
    let batch = longs(36_000_000);
    let with = peak();
    let slices: Vec<Exported> = (0..16).map(|k| Exported::new(&batch.slice(2_000_000 * k, 1).unwrap()).unwrap()).collect();
    let trips = best(20, || through(&slices.iter().collect::<Vec<_>>()));
    println!("16 trips of one row of a batch of 288 MB: {trips:.1} us; memory {before} MB, with the batch {with} MB, after the trips {} MB", peak());
}
