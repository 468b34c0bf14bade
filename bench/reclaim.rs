// Times a reclaiming of 4,096 rows over 512 entries against plain Rust with a bitmap on the same body, and prints a table. Both sides are first
// held to the same keys and entries. Run by bench/run.
mod timing;

use std::hint::black_box;
use timing::{bytes, compare, Random};

// A slice passes as pointer and length.
extern "C" {
    fn lafkuno_plan_reclaim(
        formats: *const u8, formats_len: usize, schema: *const u32, schema_len: usize, lengths: *const u64, lengths_len: usize,
        places: *const u64, places_len: usize, buffers: *const u64, buffers_len: usize, body: *const u8, body_len: usize,
        first: u32, n: u32, plan: *mut u64, plan_len: usize, counters: *mut u64, counters_len: usize,
    ) -> u8;
    fn lafkuno_reclaim(
        formats: *const u8, formats_len: usize, schema: *const u32, schema_len: usize, lengths: *const u64, lengths_len: usize,
        places: *const u64, places_len: usize, buffers: *const u64, buffers_len: usize, body: *const u8, body_len: usize,
        first: u32, n: u32, parts: *const u64, parts_len: usize, plan: *mut u64, plan_len: usize,
        counters: *mut u64, counters_len: usize, room: *mut u8, room_len: usize,
    ) -> u8;
    fn lafkuno_part_count(plan: *const u64, plan_len: usize) -> u32;
    fn lafkuno_needed_bytes(plan: *const u64, plan_len: usize, counters: *const u64, counters_len: usize, p: u32) -> u64;
}

const ROWS: usize = 4096;
const OFFSET: usize = 8;
const SLOTS: usize = OFFSET + ROWS;
const ENTRIES: usize = 512;
// Keys of two bytes, their validity, and entries of eight bytes.
const BITS: usize = 2 * SLOTS;
const MASK: usize = SLOTS / 8 + 1;
const VALUES: usize = (BITS + MASK).next_multiple_of(8);

struct Trips {
    body: Vec<u8>,
    masked: bool,
    parts: Vec<u64>,
    room: Vec<u8>,
}

impl Trips {
    // Every `step`-th entry is in use; one row in `nulls` is null, none where it is 0.
    fn random(random: &mut Random, step: u64, nulls: u64) -> Trips {
        let keys: Vec<u16> = (0..SLOTS).map(|_| (step * random.below(ENTRIES as u64 / step)) as u16).collect();
        let mut body = bytes(&keys).to_vec();
        let mut bits = vec![0u8; MASK];
        (0..SLOTS).filter(|_| nulls == 0 || random.below(nulls) != 0).for_each(|i| bits[i / 8] |= 1 << (i % 8));
        body.extend(bits);
        body.resize(VALUES, 0);
        body.extend(bytes(&(0..ENTRIES).map(|_| random.next()).collect::<Vec<u64>>()));
        let mut trips = Trips { body, masked: nulls != 0, parts: vec![], room: vec![] };
        let (mut plan, mut counters) = ([0u64; 872], [0u64; 96]);
        assert_eq!(trips.asked(&mut plan, &mut counters), 0);
        let mut end = 0;
        for p in 0..unsafe { lafkuno_part_count(plan.as_ptr(), 872) } {
            let size = unsafe { lafkuno_needed_bytes(plan.as_ptr(), 872, counters.as_ptr(), 96, p) };
            trips.parts.extend([end, size]);
            end += size.next_multiple_of(64);
        }
        trips.room = vec![0; end as usize];
        trips
    }

    fn tables(&self) -> ([u32; 10], [u64; 4], [u64; 18]) {
        let (schema, lengths) = ([0, 1, 2, 0, 1, 1, 1, 0, 0, 0], [ROWS as u64, OFFSET as u64, ENTRIES as u64, 0]);
        let [b, k, v] = [BITS, MASK, VALUES].map(|n| n as u64);
        (schema, lengths, [self.masked as u64, b, k, 0, b, 0, 0, 0, 0, 0, 0, 0, v, 8 * ENTRIES as u64, 0, 0, 0, 0])
    }

    fn asked(&self, plan: &mut [u64; 872], counters: &mut [u64; 96]) -> u8 {
        let (schema, lengths, places) = self.tables();
        unsafe {
            lafkuno_plan_reclaim(
                b"SL".as_ptr(), 2, schema.as_ptr(), 10, lengths.as_ptr(), 4, places.as_ptr(), 18, [0u64; 0].as_ptr(), 0,
                self.body.as_ptr(), self.body.len(), 0, 2, plan.as_mut_ptr(), 872, counters.as_mut_ptr(), 96,
            )
        }
    }

    fn reclaim(&mut self) -> u8 {
        let (schema, lengths, places) = self.tables();
        let (mut plan, mut counters) = ([0u64; 872], [0u64; 96]);
        unsafe {
            lafkuno_reclaim(
                b"SL".as_ptr(), 2, schema.as_ptr(), 10, lengths.as_ptr(), 4, places.as_ptr(), 18, [0u64; 0].as_ptr(), 0,
                self.body.as_ptr(), self.body.len(), 0, 2, self.parts.as_ptr(), self.parts.len(), plan.as_mut_ptr(), 872,
                counters.as_mut_ptr(), 96, self.room.as_mut_ptr(), self.room.len(),
            )
        }
    }

    // The new keys, the validity and the entries in use; none where a key is outside.
    fn plain(&self) -> Option<(Vec<u16>, Vec<u8>, Vec<u64>)> {
        let body = black_box(&self.body[..]);
        let (keys, mask) = (&body[..BITS], &body[BITS..BITS + MASK]);
        let key = |i: usize| u16::from_le_bytes([keys[2 * i], keys[2 * i + 1]]) as usize;
        let valid = |i: usize| !self.masked || mask[i / 8] >> (i % 8) & 1 == 1;
        let mut used = [0u64; ENTRIES / 64];
        for i in (OFFSET..SLOTS).filter(|i| valid(*i)) {
            *used.get_mut(key(i) / 64)? |= 1 << (key(i) % 64);
        }
        let mut ranks = [0u16; ENTRIES];
        let mut entries = vec![];
        for (e, rank) in ranks.iter_mut().enumerate().filter(|(e, _)| used[e / 64] >> (e % 64) & 1 == 1) {
            *rank = entries.len() as u16;
            entries.push(u64::from_le_bytes(body[VALUES + 8 * e..VALUES + 8 * e + 8].try_into().unwrap()));
        }
        let new = (OFFSET..SLOTS).map(|i| if valid(i) { ranks[key(i)] } else { 0 }).collect();
        let bits = if self.masked { body[BITS + OFFSET / 8..BITS + OFFSET / 8 + ROWS / 8].to_vec() } else { vec![] };
        Some((new, bits, entries))
    }
}

fn main() {
    let mut random = Random(88172645463325252);
    println!("| {ROWS} rows, {ENTRIES} entries, offset {OFFSET} | port, ns | plain Rust, ns | ratio | goal | |");
    println!("|---|---|---|---|---|---|");
    for (name, step, nulls) in [("reclaim, all in use", 1, 0), ("reclaim, every second entry", 2, 0), ("reclaim, every eighth entry", 8, 0), ("reclaim, every second entry, one row in eight null", 2, 8)] {
        let mut trips = Trips::random(&mut random, step, nulls);
        assert_eq!(trips.reclaim(), 0);
        let (keys, bits, entries) = trips.plain().unwrap();
        let part = |p: usize| &trips.room[trips.parts[2 * p] as usize..(trips.parts[2 * p] + trips.parts[2 * p + 1]) as usize];
        let first = (nulls != 0) as usize;
        if nulls != 0 {
            assert_eq!(part(0), &bits[..]);
        }
        assert_eq!((part(first), part(first + 1)), (bytes(&keys), bytes(&entries)));
        let other = Trips { body: trips.body.clone(), masked: trips.masked, parts: vec![], room: vec![] };
        compare(name, 1.5, || trips.reclaim(), || other.plain());
    }
}
