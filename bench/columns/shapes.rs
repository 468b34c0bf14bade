// A column of each kind, of 4,096 rows.

use crate::lent::Lent;
use crate::timing::{bytes, Random};

pub const ROWS: usize = 4096;
pub const OFFSET: usize = 8;
const SLOTS: usize = OFFSET + ROWS;

pub fn some_bytes(random: &mut Random, n: usize) -> Vec<u8> {
    (0..n).map(|_| random.next() as u8).collect()
}

pub fn ints(random: &mut Random, n: usize) -> Vec<i32> {
    (0..n).map(|_| random.next() as i32).collect()
}

pub fn fixed(random: &mut Random) -> Lent {
    let mut lent = Lent::default();
    lent.node("i", 0, 0, ROWS, OFFSET);
    lent.validity(0, &some_bytes(random, SLOTS / 8));
    lent.buffer(0, 1, bytes(&ints(random, SLOTS)));
    lent
}

// n byte strings of up to 19 bytes.
pub fn put_strings(lent: &mut Lent, node: usize, random: &mut Random, n: usize) {
    let mut offsets = vec![0i32];
    for i in 0..n {
        offsets.push(offsets[i] + random.below(20) as i32);
    }
    lent.buffer(node, 1, bytes(&offsets));
    lent.buffer(node, 2, &some_bytes(random, offsets[n] as usize));
}

pub fn strings(random: &mut Random) -> Lent {
    let mut lent = Lent::default();
    lent.node("u", 0, 0, ROWS, OFFSET);
    lent.validity(0, &some_bytes(random, SLOTS / 8));
    put_strings(&mut lent, 0, random, SLOTS);
    lent
}

// Views of 0 to 24 bytes in no order, the long ones in two data buffers.
pub fn views(random: &mut Random) -> Lent {
    let mut lent = Lent::default();
    lent.node("vu", 0, 0, ROWS, OFFSET);
    lent.validity(0, &some_bytes(random, SLOTS / 8));
    let datas = [some_bytes(random, 8192), some_bytes(random, 8192)];
    let view = |random: &mut Random| {
        let (len, buffer, at) = (random.below(25) as usize, random.below(2) as usize, random.below(8000) as usize);
        let prefix = &datas[buffer][at..at + 4];
        let mut v = [len as u32, u32::from_le_bytes(prefix.try_into().unwrap()), buffer as u32, at as u32];
        if len <= 12 {
            v = [len as u32, 0, 0, 0];
        }
        v
    };
    let views: Vec<u32> = (0..SLOTS).flat_map(|_| view(random)).collect();
    lent.buffer(0, 1, bytes(&views));
    for data in &datas {
        lent.data(0, data);
    }
    lent
}

pub fn list(random: &mut Random) -> Lent {
    let mut lent = Lent::default();
    lent.node("+l", 1, 0, ROWS, OFFSET);
    let mut offsets = vec![0i32];
    for i in 0..SLOTS {
        offsets.push(offsets[i] + random.below(4) as i32);
    }
    let items = offsets[SLOTS] as usize;
    lent.node("i", 0, 0, items, 0);
    lent.validity(0, &some_bytes(random, SLOTS / 8));
    lent.buffer(0, 1, bytes(&offsets));
    lent.buffer(1, 1, bytes(&ints(random, items)));
    lent
}

pub fn list_view(random: &mut Random) -> Lent {
    let mut lent = Lent::default();
    lent.node("+vl", 1, 0, ROWS, OFFSET);
    lent.node("i", 0, 0, 1000, 0);
    let offsets: Vec<i32> = (0..SLOTS).map(|_| random.below(900) as i32).collect();
    let sizes: Vec<i32> = (0..SLOTS).map(|_| random.below(100) as i32).collect();
    lent.validity(0, &some_bytes(random, SLOTS / 8));
    lent.buffer(0, 1, bytes(&offsets));
    lent.buffer(0, 2, bytes(&sizes));
    lent.buffer(1, 1, bytes(&ints(random, 1000)));
    lent
}

pub fn union(random: &mut Random, format: &str, dense: bool) -> Lent {
    let mut lent = Lent::default();
    lent.node(format, 2, 0, ROWS, OFFSET);
    let types: Vec<u8> = (0..SLOTS).map(|_| [5, 7][random.below(2) as usize]).collect();
    lent.buffer(0, 1, &types);
    if dense {
        let positions: Vec<i32> = (0..SLOTS).map(|_| random.below(SLOTS as u64) as i32).collect();
        lent.buffer(0, 2, bytes(&positions));
    }
    lent.node("i", 0, 0, SLOTS, 0);
    lent.validity(1, &some_bytes(random, SLOTS / 8));
    lent.buffer(1, 1, bytes(&ints(random, SLOTS)));
    lent.node("l", 0, 0, SLOTS, 0);
    let longs: Vec<u64> = (0..SLOTS).map(|_| random.next()).collect();
    lent.buffer(2, 1, bytes(&longs));
    lent
}

// Runs of 1 to 15 rows that reach over all rows.
pub fn runs(random: &mut Random) -> Lent {
    let mut lent = Lent::default();
    let mut ends: Vec<i32> = vec![];
    let mut end = 0;
    while end < SLOTS as i32 {
        end += 1 + random.below(15) as i32;
        ends.push(end);
    }
    lent.node("+r", 2, 0, ROWS, OFFSET);
    lent.node("i", 0, 0, ends.len(), 0);
    lent.node("i", 0, 0, ends.len(), 0);
    lent.buffer(1, 1, bytes(&ends));
    lent.validity(2, &some_bytes(random, ends.len().div_ceil(8)));
    lent.buffer(2, 1, bytes(&ints(random, ends.len())));
    lent
}

pub fn dictionary(random: &mut Random) -> Lent {
    let mut lent = Lent::default();
    lent.node("C", 0, 1, ROWS, OFFSET);
    lent.node("u", 0, 0, 200, 0);
    let valid = some_bytes(random, SLOTS / 8);
    let keys: Vec<u8> = (0..SLOTS).map(|k| random.below(if valid[k / 8] >> (k % 8) & 1 == 1 { 200 } else { 256 }) as u8).collect();
    lent.validity(0, &valid);
    lent.buffer(0, 1, &keys);
    put_strings(&mut lent, 1, random, 200);
    lent
}
