// Times a column of 4,096 rows into runs and back against plain loops in Rust on the same body, and prints a table. Both sides are first
// held to the same bytes. The way back is timed a second time against a plain loop that tests the run ends first, as a reader of foreign
// columns must. Run by bench/run.
mod timing;

use std::hint::black_box;
use timing::{bytes, compare, Random};

type Call = unsafe extern "C" fn(
    *const u8, usize, *const u32, usize, *const u64, usize, *const u64, usize, *const u64, usize, *const u8, usize,
    u32, u32, u32, u64, u64, *const u64, usize, *mut u64, usize, *mut u64, usize, *mut u8, usize,
) -> u8;

// A slice passes as pointer and length.
extern "C" {
    fn lafkuno_encode(
        formats: *const u8, formats_len: usize, schema: *const u32, schema_len: usize, lengths: *const u64, lengths_len: usize,
        places: *const u64, places_len: usize, buffers: *const u64, buffers_len: usize, body: *const u8, body_len: usize,
        first: u32, n: u32, target: u32, start: u64, end: u64, parts: *const u64, parts_len: usize,
        plan: *mut u64, plan_len: usize, counters: *mut u64, counters_len: usize, room: *mut u8, room_len: usize,
    ) -> u8;
    fn lafkuno_expand(
        formats: *const u8, formats_len: usize, schema: *const u32, schema_len: usize, lengths: *const u64, lengths_len: usize,
        places: *const u64, places_len: usize, buffers: *const u64, buffers_len: usize, body: *const u8, body_len: usize,
        first: u32, n: u32, target: u32, start: u64, end: u64, parts: *const u64, parts_len: usize,
        plan: *mut u64, plan_len: usize, counters: *mut u64, counters_len: usize, room: *mut u8, room_len: usize,
    ) -> u8;
}

const ROWS: usize = 4096;
const FORMATS: &[u8] = b"l+ri";
const VALUE: [u32; 5] = [0, 1, 2, 0, 0];
const RUNS: [u32; 5] = [1, 2, 0, 2, 0];
const ENDS: [u32; 5] = [3, 1, 0, 0, 0];
const ROOM: usize = 20 * ROWS;

// A column of i64 in runs of `mean` rows, one run in `nulls` null where it is not 0, and the same as runs.
struct Trip {
    body: Vec<u8>,
    runs: Vec<u8>,
    count: usize,
    masked: bool,
}

fn bit(mask: &[u8], i: usize) -> bool {
    mask[i / 8] >> (i % 8) & 1 == 1
}

impl Trip {
    fn random(random: &mut Random, mean: u64, nulls: u64) -> Trip {
        let (mut values, mut valid, mut ends, mut heads, mut kept) = (vec![], vec![], vec![], vec![], vec![]);
        while values.len() < ROWS {
            let n = (1 + random.below(2 * mean - 1)).min((ROWS - values.len()) as u64);
            let ok = nulls == 0 || random.below(nulls) != 0 || kept.last() == Some(&false);
            let v = if ok { values.len() as u64 + 1 } else { 0 };
            (0..n).for_each(|_| (values.push(v), valid.push(ok)).0);
            (ends.push(values.len() as u32), heads.push(v), kept.push(ok)).0;
        }
        let mask = |bits: &[bool]| {
            let mut m = vec![0u8; ROWS / 8];
            (0..bits.len()).filter(|i| bits[*i]).for_each(|i| m[i / 8] |= 1 << (i % 8));
            m
        };
        let body = [bytes(&values), &mask(&valid)].concat();
        let runs = [bytes(&heads), &mask(&kept)[..], bytes(&ends)].concat();
        Trip { body, runs, count: ends.len(), masked: nulls != 0 }
    }

    // What a call is given beside the body, laid once.
    fn encoder(&self) -> Lent {
        let (v, k, m) = (8 * ROWS as u64, ROWS as u64 / 8, self.masked as u64);
        // run ends, validity where there is a null, values
        let parts = [0, v / 2, v / 2, k, v, v];
        Lent {
            call: lafkuno_encode,
            schema: [VALUE, RUNS, ENDS, VALUE].concat(),
            lengths: vec![ROWS as u64, 0],
            places: vec![m, v, k, 0, v, 0, 0, 0, 0],
            parts: if self.masked { parts.to_vec() } else { [&parts[..2], &parts[4..]].concat() },
            nodes: [1, 1],
            body: self.body.clone(),
            plan: [0; 872],
            counters: [0; 96],
            room: vec![0; ROOM],
        }
    }

    fn expander(&self) -> Lent {
        let (c, k, m) = (self.count as u64, ROWS as u64 / 8, self.masked as u64);
        let parts = [0, k, 4096, 8 * ROWS as u64];
        Lent {
            call: lafkuno_expand,
            schema: [RUNS, ENDS, VALUE].concat(),
            lengths: vec![ROWS as u64, 0, c, 0, c, 0],
            places: [[0; 9], [0, 0, 0, 8 * c + k, 4 * c, 0, 0, 0, 0], [m, 8 * c, k, 0, 8 * c, 0, 0, 0, 0]].concat(),
            parts: if self.masked { parts.to_vec() } else { parts[2..].to_vec() },
            nodes: [3, 2],
            body: self.runs.clone(),
            plan: [0; 872],
            counters: [0; 96],
            room: vec![0; ROOM],
        }
    }

    #[inline(never)]
    fn plain_encode(&self) -> (Vec<i32>, Vec<u64>, Vec<u8>) {
        let (values, mask) = black_box(&self.body[..]).split_at(8 * ROWS);
        let at = |i: usize| u64::from_le_bytes(values[8 * i..8 * i + 8].try_into().unwrap());
        let ok = |i: usize| !self.masked || bit(mask, i);
        let (mut ends, mut out, mut bits) = (vec![], vec![], vec![]);
        for i in 0..ROWS {
            if i + 1 == ROWS || ok(i) != ok(i + 1) || ok(i) && at(i) != at(i + 1) {
                if self.masked {
                    if ends.len() % 8 == 0 {
                        bits.push(0);
                    }
                    *bits.last_mut().unwrap() |= (ok(i) as u8) << (ends.len() % 8);
                }
                ends.push(i as i32 + 1);
                out.push(if ok(i) { at(i) } else { 0 });
            }
        }
        (ends, out, bits)
    }

    #[inline(never)]
    fn plain_expand(&self) -> (Vec<u64>, Vec<u8>) {
        let runs = black_box(&self.runs[..]);
        let (values, rest) = runs.split_at(8 * self.count);
        let (mask, ends) = rest.split_at(ROWS / 8);
        let (mut out, mut bits, mut from) = (Vec::with_capacity(ROWS), vec![0u8; if self.masked { ROWS / 8 } else { 0 }], 0);
        for k in 0..self.count {
            let end = u32::from_le_bytes(ends[4 * k..4 * k + 4].try_into().unwrap()) as usize;
            let ok = !self.masked || bit(mask, k);
            out.resize(end, if ok { u64::from_le_bytes(values[8 * k..8 * k + 8].try_into().unwrap()) } else { 0 });
            if self.masked && ok {
                (from..end).for_each(|i| bits[i / 8] |= 1 << (i % 8));
            }
            from = end;
        }
        (out, bits)
    }

    // The same where the run ends rise and reach the last row.
    #[inline(never)]
    fn checked_expand(&self) -> Option<(Vec<u64>, Vec<u8>)> {
        let ends = &black_box(&self.runs[..])[8 * self.count + ROWS / 8..];
        let mut last = 0;
        for k in 0..self.count {
            let end = i32::from_le_bytes(ends[4 * k..4 * k + 4].try_into().unwrap());
            if end <= last {
                return None;
            }
            last = end;
        }
        if (last as usize) < ROWS {
            return None;
        }
        Some(self.plain_expand())
    }

    fn agree(&self) {
        let mut runs = self.encoder();
        assert_eq!(runs.run(), 0);
        let (ends, values, bits) = self.plain_encode();
        assert_eq!(&runs.room[..4 * ends.len()], bytes(&ends));
        assert_eq!(&runs.room[8 * ROWS..8 * (ROWS + values.len())], bytes(&values));
        assert_eq!(&runs.room[4 * ROWS..4 * ROWS + bits.len()], &bits[..]);
        let mut plain = self.expander();
        assert_eq!(plain.run(), 0);
        let (rows, bits) = self.plain_expand();
        assert_eq!(&plain.room[4096..4096 + 8 * ROWS], bytes(&rows));
        assert_eq!(&plain.room[..bits.len()], &bits[..]);
    }
}

// Tables, parts and what is written.
struct Lent {
    call: Call,
    schema: Vec<u32>,
    lengths: Vec<u64>,
    places: Vec<u64>,
    parts: Vec<u64>,
    nodes: [u32; 2],
    body: Vec<u8>,
    plan: [u64; 872],
    counters: [u64; 96],
    room: Vec<u8>,
}

impl Lent {
    // The column's nodes begin at node 0, the result's type at node `nodes[1]`.
    fn run(&mut self) -> u8 {
        unsafe {
            (self.call)(
                FORMATS.as_ptr(), 4, self.schema.as_ptr(), self.schema.len(), self.lengths.as_ptr(), self.lengths.len(), self.places.as_ptr(),
                self.places.len(), [0u64; 0].as_ptr(), 0, self.body.as_ptr(), self.body.len(), 0, self.nodes[0], self.nodes[1], 0, ROWS as u64,
                self.parts.as_ptr(), self.parts.len(), self.plan.as_mut_ptr(), 872, self.counters.as_mut_ptr(), 96, self.room.as_mut_ptr(), ROOM,
            )
        }
    }
}

fn main() {
    let mut random = Random(88172645463325252);
    println!("| {ROWS} rows of i64 | port, ns | plain Rust, ns | ratio | goal | |");
    println!("|---|---|---|---|---|---|");
    for (mean, nulls) in [(256, 0), (16, 0), (4, 0), (1, 0), (16, 5)] {
        let trip = Trip::random(&mut random, mean, nulls);
        trip.agree();
        let what = format!("runs of about {mean}{}", if nulls == 0 { "" } else { ", one in 5 null" });
        let (mut encoder, mut expander) = (trip.encoder(), trip.expander());
        compare(&format!("into {what}"), 1.2, || encoder.run(), || trip.plain_encode());
        compare(&format!("back from {what}"), 1.2, || expander.run(), || trip.plain_expand());
        compare(&format!("back from {what}, ends tested by both"), 1.2, || expander.run(), || trip.checked_expand());
    }
}
