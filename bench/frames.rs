// Times the box around 4,096 rows of two lent columns against a plain loop in Rust on the same body, and prints a table. Both sides are
// first held to the same frame. Run by bench/run.
mod timing;

use std::hint::black_box;
use timing::{bytes, compare, Random};

// A slice passes as pointer and length.
extern "C" {
    fn lafkuno_frame(
        formats: *const u8, formats_len: usize, schema: *const u32, schema_len: usize, lengths: *const u64, lengths_len: usize,
        places: *const u64, places_len: usize, buffers: *const u64, buffers_len: usize, body: *const u8, body_len: usize,
        first_a: u32, n_a: u32, first_b: u32, n_b: u32, start: u64, end: u64, room: *mut f64, room_len: usize,
    ) -> u8;
}

const ROWS: usize = 4096;
const OFFSET: usize = 8;
const SLOTS: usize = OFFSET + ROWS;
// Values of both columns, then their validity.
const LONGITUDES: usize = 8 * SLOTS;
const BITS: usize = 2 * LONGITUDES;
const MASK: usize = SLOTS / 8 + 1;

struct Trip {
    body: Vec<u8>,
    masked: bool,
}

impl Trip {
    // One row in `nulls` is null on either side; none where it is 0.
    fn random(random: &mut Random, masked: bool, nulls: u64) -> Trip {
        let mut body = vec![];
        for low in [50.0, 8.0] {
            let values: Vec<u64> = (0..SLOTS).map(|_| f64::to_bits(low + random.below(1_000_000) as f64 / 1e6)).collect();
            body.extend(bytes(&values));
        }
        for _ in 0..2 {
            let mut bits = vec![0u8; MASK];
            (0..SLOTS).filter(|_| nulls == 0 || random.below(nulls) != 0).for_each(|i| bits[i / 8] |= 1 << (i % 8));
            body.extend(bits);
        }
        Trip { body, masked }
    }

    fn frame(&self) -> (u8, [f64; 4]) {
        let (schema, lengths) = ([0, 1, 2, 0, 0, 0, 1, 2, 0, 0], [ROWS as u64, OFFSET as u64, ROWS as u64, OFFSET as u64]);
        let m = self.masked as u64;
        let [v, b, k] = [LONGITUDES, BITS, MASK].map(|n| n as u64);
        let places = [m, b, k, 0, v, 0, 0, 0, 0, m, b + k, k, v, v, 0, 0, 0, 0];
        let mut room = [0.0; 4];
        let ground = unsafe {
            lafkuno_frame(
                b"g".as_ptr(), 1, schema.as_ptr(), 10, lengths.as_ptr(), 4, places.as_ptr(), 18, [0u64; 0].as_ptr(), 0,
                self.body.as_ptr(), self.body.len(), 0, 1, 1, 1, 0, ROWS as u64, room.as_mut_ptr(), 4,
            )
        };
        (ground, room)
    }

    fn plain(&self) -> Option<[f64; 4]> {
        let body = black_box(&self.body[..]);
        let (lat, lon) = (&body[..LONGITUDES], &body[LONGITUDES..BITS]);
        let masks = self.masked.then(|| (&body[BITS..BITS + MASK], &body[BITS + MASK..]));
        let mut frame: Option<[f64; 4]> = None;
        for i in OFFSET..SLOTS {
            if let Some((a, b)) = masks {
                if a[i / 8] >> (i % 8) & 1 == 0 || b[i / 8] >> (i % 8) & 1 == 0 {
                    continue;
                }
            }
            let y = f64::from_le_bytes(lat[8 * i..8 * i + 8].try_into().unwrap());
            let x = f64::from_le_bytes(lon[8 * i..8 * i + 8].try_into().unwrap());
            if y.is_nan() || x.is_nan() {
                continue;
            }
            frame = Some(match frame {
                None => [y, y, x, x],
                Some([s, n, w, e]) => [if y < s { y } else { s }, if n < y { y } else { n }, if x < w { x } else { w }, if e < x { x } else { e }],
            });
        }
        frame
    }
}

fn main() {
    let mut random = Random(88172645463325252);
    println!("| {ROWS} rows, offset {OFFSET} | port, ns | plain Rust, ns | ratio | goal | |");
    println!("|---|---|---|---|---|---|");
    for (name, masked, nulls) in [
        ("box, no validity", false, 0),
        ("box, no nulls", true, 0),
        ("box, one in eight null", true, 8),
        ("box, half of each null", true, 2),
    ] {
        let trip = Trip::random(&mut random, masked, nulls);
        assert_eq!(trip.frame(), (0, trip.plain().unwrap()));
        compare(name, 1.5, || trip.frame(), || trip.plain());
    }
}
