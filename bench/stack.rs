// The largest stack that each call uses: random joins, one in thirteen of depth 8, and as many columns that are written in another type, whose
// calls run over a painted stack. Run by bench/run; built by cargo with bindings/rust.

use lafkuno::calls::{self, FinishedTables, Into, COUNTERS, PLAN, TREE};
use lafkuno::Lent;
use std::collections::BTreeMap;
use std::hint::black_box;
use trials::conversions::{laid, Laid};
use trials::generate::{orders, Generate, Order};
use trials::random::Random;

const JOINS: u64 = 2000;
const DEEP: usize = 64 << 10;
const PAINT: u8 = 0xA5;

// The bytes below this frame that a call wrote. The thread's stack is far larger than what is painted.
#[inline(never)]
fn used(call: &mut dyn FnMut()) -> usize {
    let here = black_box(0u8);
    let top = &raw const here as usize;
    let bottom = (top - DEEP) as *mut u8;
    // the frames of `paint` and `lowest` are as far below as this
    let spare = 512;
    #[inline(never)]
    fn paint(bottom: *mut u8, n: usize) {
        (0..n).for_each(|k| unsafe { bottom.add(k).write_volatile(PAINT) });
    }
    #[inline(never)]
    fn lowest(bottom: *mut u8, n: usize) -> usize {
        (0..n).find(|k| unsafe { bottom.add(*k).read_volatile() } != PAINT).unwrap_or(n)
    }
    paint(bottom, DEEP - spare);
    call();
    DEEP - lowest(bottom, DEEP - spare)
}

struct Most(BTreeMap<&'static str, usize>);

impl Most {
    fn note<R>(&mut self, name: &'static str, mut call: impl FnMut() -> R) -> R {
        let mut answer = None;
        let bytes = used(&mut || answer = Some(call()));
        let most = self.0.entry(name).or_default();
        *most = bytes.max(*most);
        answer.unwrap()
    }
}

fn join(seed: u64, most: &mut Most) {
    let mut random = Random::new(seed);
    let mut generate = Generate::new(&mut random);
    let ty = generate.ty();
    let sources = generate.sources(&ty);
    let list = orders(&mut random, &ty, &sources);
    let lent = Lent::lay(&sources.iter().collect::<Vec<_>>()).unwrap();
    let x = lent.tables();
    let (mut plan, mut counters, mut tree) = ([0; PLAN], [0; COUNTERS], [0; TREE]);
    most.note("plan_parts", || calls::plan_parts(&x, true, false, &mut plan));
    if most.note("measure_open", || calls::measure_open(&plan, &x, &mut counters)) != 0 {
        return;
    }
    for order in &list {
        match *order {
            Order::Copy { source, start, end } => most.note("measure_copy", || calls::measure_copy(&plan, &x, &mut counters, source, start, end)),
            Order::Nulls(n) => most.note("measure_nulls", || calls::measure_nulls(&plan, &mut counters, n)),
        };
    }
    let (mut parts, mut end) = (vec![], 0);
    for p in 0..most.note("part_count", || calls::part_count(&plan)) {
        most.note("part_node, part_buffer", || calls::part_at(&plan, p));
        let size = most.note("needed_bytes", || calls::needed_bytes(&plan, &counters, p as u32));
        parts.extend([end, size]);
        end += size;
    }
    let mut room = vec![0; end as usize];
    assert_eq!(most.note("open", || calls::open(&x, true, false, &parts, &mut plan, &mut counters, &mut room)), 0);
    for order in &list {
        match *order {
            Order::Copy { source, start, end } => most.note("copy", || calls::copy(&plan, &parts, &x, &mut counters, &mut room, source, start, end)),
            Order::Nulls(n) => most.note("nulls", || calls::nulls(&plan, &parts, &mut counters, &mut room, n)),
        };
    }
    let nodes = x.sources[1] as usize;
    let named = most.note("buffer_total", || calls::buffer_total(&plan, x.places, x.sources));
    let (mut lengths, mut nulls) = (vec![0; 2 * nodes], vec![0; nodes]);
    let (mut places, mut buffers) = (vec![0; 9 * nodes], vec![0; 2 * named]);
    let mut out = FinishedTables { lengths: &mut lengths, nulls: &mut nulls, places: &mut places, buffers: &mut buffers };
    assert_eq!(most.note("finish", || calls::finish(&plan, &parts, &x, &counters, &room, 0, &mut out)), 0);
    most.note("running_nulls", || calls::running_nulls(&counters));
    most.note("column_ground", || calls::column_ground(&x, 0, nodes as u32));
    most.note("open_column", || calls::open_column(&x, 0, nodes as u32, &mut tree));
    let whole = (0, nodes as u32);
    for row in 0..sources[0].length {
        let _ = most.note("read_row", || calls::read_row(&tree, &x, 0, row));
        most.note("same_row", || calls::same_row(&x, whole, whole, row, row, &mut [0]));
    }
}

fn conversion(seed: u64, most: &mut Most) {
    let Laid { into, lent, target: t, .. } = laid(&mut Random::new(seed)).unwrap();
    let x = lent.tables();
    let (ask, write) = match into {
        Into::List => ("plan_list", "list"),
        Into::ListView => ("plan_list_view", "list_view"),
        Into::Widths => ("plan_convert", "convert"),
    };
    let (mut plan, mut counters) = ([0; PLAN], [0; COUNTERS]);
    if most.note(ask, || calls::plan_convert(into, &x, t, &mut plan, &mut counters)) != 0 {
        return;
    }
    let (mut parts, mut end) = (vec![], 0);
    for p in 0..calls::part_count(&plan) {
        let size = calls::needed_bytes(&plan, &counters, p as u32);
        parts.extend([end, size]);
        end += size;
    }
    let mut room = vec![0; end as usize];
    assert_eq!(most.note(write, || calls::convert(into, &x, t, &parts, &mut plan, &mut counters, &mut room)), 0);
    if into == Into::ListView {
        let n = t.n as usize;
        let (mut lengths, mut nulls, mut places) = (vec![0; 2 * n], vec![0; n], vec![0; 9 * n]);
        let mut out = FinishedTables { lengths: &mut lengths, nulls: &mut nulls, places: &mut places, buffers: &mut [] };
        assert_eq!(most.note("list_view_child", || calls::list_view_child(&x, t.first, t.n, &mut out)), 0);
    }
}

fn main() {
    let run = || {
        let mut most = Most(BTreeMap::new());
        (1..=JOINS).for_each(|seed| join(seed, &mut most));
        (1..=JOINS).for_each(|seed| conversion(seed, &mut most));
        println!("| {JOINS} random joins and conversions, seeds 1 to {JOINS} | most stack of a call, bytes |");
        println!("|---|---|");
        most.0.iter().for_each(|(name, bytes)| println!("| {name} | {bytes} |"));
    };
    std::thread::Builder::new().stack_size(8 << 20).spawn(run).unwrap().join().unwrap();
}
