// Times the mean of a column and the ratio of two against a plain loop in Rust over the same numbers and validity, and prints a table.
// Both sides are first held to the same answers. Run by bench/run.
mod timing;

use std::hint::black_box;
use timing::{bytes, compare, Random};

extern "C" {
    fn lafkuno_mean(
        formats: *const u8, formats_len: usize, schema: *const u32, schema_len: usize, lengths: *const u64, lengths_len: usize,
        places: *const u64, places_len: usize, buffers: *const u64, buffers_len: usize, body: *const u8, body_len: usize,
        first: u32, n: u32, start: u64, end: u64, answer: *mut u64, answer_len: usize,
    ) -> u8;
    fn lafkuno_ratio(
        formats: *const u8, formats_len: usize, schema: *const u32, schema_len: usize, lengths: *const u64, lengths_len: usize,
        places: *const u64, places_len: usize, buffers: *const u64, buffers_len: usize, body: *const u8, body_len: usize,
        first_a: u32, n_a: u32, first_b: u32, n_b: u32, start: u64, end: u64, answer: *mut u64, answer_len: usize,
    ) -> u8;
}

const ROWS: usize = 4096;
const OFFSET: usize = 8;

// Two columns of a format in one set of tables: the numbers, and the validity where they have one.
struct Two {
    formats: Vec<u8>,
    lengths: [u64; 4],
    places: [u64; 18],
    body: Vec<u8>,
}

const SCHEMA: [u32; 10] = [0, 1, 2, 0, 0, 0, 1, 2, 0, 0];

impl Two {
    fn new(format: u8, numbers: [&[u8]; 2], validity: Option<&[u8]>) -> Two {
        let mut two = Two { formats: vec![format], lengths: [ROWS as u64, OFFSET as u64, ROWS as u64, OFFSET as u64], places: [0; 18], body: vec![] };
        let mut lay = |s: &[u8]| {
            two.body.resize(two.body.len().next_multiple_of(64), 0);
            two.body.extend(s);
            [(two.body.len() - s.len()) as u64, s.len() as u64]
        };
        for (k, s) in numbers.into_iter().enumerate() {
            let place = lay(s);
            two.places[9 * k + 3..9 * k + 5].copy_from_slice(&place);
            if let Some(bits) = validity {
                let place = lay(bits);
                two.places[9 * k] = 1;
                two.places[9 * k + 1..9 * k + 3].copy_from_slice(&place);
            }
        }
        two
    }

    fn mean(&self) -> [u64; 5] {
        let mut answer = [0; 5];
        unsafe {
            lafkuno_mean(
                self.formats.as_ptr(), 1, SCHEMA.as_ptr(), 10, self.lengths.as_ptr(), 4, self.places.as_ptr(), 18, [].as_ptr(), 0,
                self.body.as_ptr(), self.body.len(), 0, 1, 0, ROWS as u64, answer.as_mut_ptr(), 5,
            )
        };
        answer
    }

    fn ratio(&self) -> [u64; 6] {
        let mut answer = [0; 6];
        unsafe {
            lafkuno_ratio(
                self.formats.as_ptr(), 1, SCHEMA.as_ptr(), 10, self.lengths.as_ptr(), 4, self.places.as_ptr(), 18, [].as_ptr(), 0,
                self.body.as_ptr(), self.body.len(), 0, 1, 1, 1, 0, ROWS as u64, answer.as_mut_ptr(), 6,
            )
        };
        answer
    }
}

// ---- plain loops

fn is_valid(bits: Option<&[u8]>, k: usize) -> bool {
    bits.is_none_or(|b| b[k / 8] >> (k % 8) & 1 == 1)
}

fn plain_mean<T: Copy + Into<i128>>(numbers: &[T], bits: Option<&[u8]>) -> (u64, i128) {
    let (mut count, mut sum) = (0, 0i128);
    for k in OFFSET..OFFSET + ROWS {
        if is_valid(bits, k) {
            count += 1;
            sum += numbers[k].into();
        }
    }
    (count, sum)
}

fn plain_ratio<T: Copy + Into<i128>>(a: &[T], b: &[T], bits: Option<&[u8]>) -> (u64, i128, i128) {
    let (mut count, mut first, mut second) = (0, 0i128, 0i128);
    for k in OFFSET..OFFSET + ROWS {
        if is_valid(bits, k) && is_valid(black_box(bits), k) {
            count += 1;
            first += a[k].into();
            second += b[k].into();
        }
    }
    (count, first, second)
}

fn measure<T: Copy + Into<i128> + timing::Number>(name: &str, format: u8, a: &[T], b: &[T], bits: Option<&[u8]>) {
    let two = Two::new(format, [bytes(a), bytes(b)], bits);
    let (m, q) = (two.mean(), two.ratio());
    assert_eq!((m[0], m[1] as i64 as i128), plain_mean(a, bits));
    assert_eq!((q[0], q[1] as i64 as i128, q[2] as i64 as i128), plain_ratio(a, b, bits));
    compare(&format!("mean, {name}"), 1.5, || two.mean(), || plain_mean(black_box(a), black_box(bits)));
    compare(&format!("ratio, {name}"), 1.5, || two.ratio(), || plain_ratio(black_box(a), black_box(b), black_box(bits)));
}

fn main() {
    let mut random = Random(88172645463325252);
    let mut numbers = |limit: u64| (0..OFFSET + ROWS).map(|_| random.below(2 * limit) as i64 - limit as i64).collect::<Vec<i64>>();
    let (a, b) = (numbers(1 << 40), numbers(1 << 40));
    let narrow = |s: &[i64]| s.iter().map(|&n| (n >> 12) as i32).collect::<Vec<i32>>();
    let bits: Vec<u8> = (0..(OFFSET + ROWS) / 8).map(|_| (random.next() | random.next()) as u8).collect();
    println!("| {ROWS} rows, offset {OFFSET} | port, ns | plain Rust, ns | ratio | goal | |");
    println!("|---|---|---|---|---|---|");
    measure("i64", b'l', &a, &b, None);
    measure("i64 with validity", b'l', &a, &b, Some(&bits));
    measure("i32", b'i', &narrow(&a), &narrow(&b), None);
    measure("i32 with validity", b'i', &narrow(&a), &narrow(&b), Some(&bits));
}
