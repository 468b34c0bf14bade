// Times the check of a lent column and the reading of its rows against plain Rust on the same tables and body, and prints a table.
// Both sides are first held to the same answers, on whole and on damaged columns. Run by bench/run.
#[path = "columns/lent.rs"]
mod lent;
#[path = "columns/plain.rs"]
mod plain;
#[path = "columns/reader.rs"]
mod reader;
#[path = "columns/shapes.rs"]
mod shapes;
mod timing;

use lent::Lent;
use plain::{plain_ground, Check};
use reader::array;
use shapes::{dictionary, fixed, list, list_view, runs, strings, union, views, OFFSET, ROWS};
use std::hint::black_box;
use timing::{compare, Random};

// ---- the same answers

// Columns with one number of a table or one byte of the body changed.
fn check_damaged(random: &mut Random, whole: &Lent, name: &str) {
    let mut counts = [0; 16];
    for _ in 0..4000 {
        let mut lent = whole.clone();
        let near = [0, 1, 2, 8, u32::MAX as u64, 1 << 63, u64::MAX];
        let other = |old: u64, random: &mut Random| match random.below(3) {
            0 => near[random.below(7) as usize],
            1 => old.wrapping_sub(1 + random.below(9)),
            _ => old.wrapping_add(1 + random.below(9)),
        };
        match random.below(3) {
            0 => {
                let k = random.below(lent.lengths.len() as u64) as usize;
                lent.lengths[k] = other(lent.lengths[k], random);
            }
            1 => {
                let k = random.below(lent.places.len() as u64) as usize;
                lent.places[k] = other(lent.places[k], random);
            }
            _ => {
                let k = random.below(lent.body.len() as u64) as usize;
                lent.body[k] = random.next() as u8;
            }
        }
        let (ours, plain) = (lent.ground(), plain_ground(&lent));
        assert_eq!(ours, plain, "{name}: {:?} {:?}", lent.lengths, lent.places);
        counts[ours as usize] += 1;
    }
    assert!(0 < counts[0] && 0 < counts[9] && 0 < counts[12], "{name}: {counts:?}");
}

fn check(random: &mut Random, name: &str, lent: &Lent) {
    assert_eq!(plain_ground(lent), 0, "{name}");
    assert_eq!(lent.ground(), 0, "{name}");
    check_damaged(random, lent, name);
    let mut other = lent.clone();
    other.formats[0] = b'x';
    assert_eq!((other.ground(), plain_ground(&other)), (10, 10), "{name}");
    compare(
        &format!("check of {name}"),
        1.2,
        || black_box(lent).ground(),
        || plain_ground(black_box(lent)),
    );
}

fn read(name: &str, lent: &Lent) {
    let mut tree = [0; 256];
    assert_eq!(lent.open(&mut tree[..255]), 14);
    assert_eq!(lent.open(&mut tree), 0);
    let mut shape = Check { lent, ends: [0; 33] };
    shape.shape(0, 1);
    let array = array(&shape, 0);
    for row in 0..ROWS {
        assert_eq!(lent.row(&tree, row as u64), array.row(row), "{name} {row}");
    }
    assert_eq!(lent.row(&tree, ROWS as u64), (16 + 2, 0));
    compare(
        &format!("reading of {name}"),
        1.5,
        || (0..ROWS as u64).fold(0u64, |sum, row| sum.wrapping_add(black_box(lent).row(black_box(&tree), row).1)),
        || (0..ROWS).fold(0u64, |sum, row| sum.wrapping_add(black_box(&array).row(row).1)),
    );
}

fn main() {
    let mut random = Random(88172645463325252);
    let random = &mut random;
    println!("| {ROWS} rows, offset {OFFSET} | port, ns | plain Rust, ns | ratio | goal | |");
    println!("|---|---|---|---|---|---|");
    let run_ends = runs(random);
    let dense = union(random, "+ud:5,7", true);
    let columns = [
        ("i32 with validity", fixed(random)),
        ("byte strings", strings(random)),
        ("views", views(random)),
        ("list", list(random)),
        ("list-view", list_view(random)),
        ("sparse union", union(random, "+us:5,7", false)),
        ("dense union", dense.clone()),
        ("run ends", run_ends.clone()),
        ("dictionary", dictionary(random)),
    ];
    for (name, lent) in &columns {
        check(random, name, lent);
    }
    read("run ends", &run_ends);
    read("dense union", &dense);
}
