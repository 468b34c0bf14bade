// The leaves in plain Rust.

#[inline(never)]
pub fn plain_copy(room: &mut [u8], at: usize, body: &[u8], from: usize, n: usize) {
    room[at..at + n].copy_from_slice(&body[from..from + n]);
}

#[inline(never)]
pub fn plain_zeros(room: &mut [u8], at: usize, n: usize) {
    room[at..at + n].fill(0);
}

// As the original: each window's length is added with a test. False where a sum does not fit.
macro_rules! plain_offsets {
    ($checked:ident, $wrapping:ident, $t:ty) => {
        #[inline(never)]
        pub fn $checked(room: &mut Vec<$t>, mut last: $t, offsets: &[$t]) -> bool {
            room.clear();
            room.reserve(offsets.len());
            for window in offsets.windows(2) {
                let length = window[1] - window[0];
                match last.checked_add(length) {
                    Some(next) => {
                        last = next;
                        room.push(last);
                    }
                    None => return false,
                }
            }
            true
        }

        #[inline(never)]
        pub fn $wrapping(room: &mut [$t], last: $t, offsets: &[$t]) {
            let shift = last.wrapping_sub(offsets[0]);
            for (r, o) in room.iter_mut().zip(&offsets[1..]) {
                *r = o.wrapping_add(shift);
            }
        }
    };
}

plain_offsets!(plain_checked_i32, plain_wrapping_i32, i32);
plain_offsets!(plain_checked_i64, plain_wrapping_i64, i64);

macro_rules! plain_keys {
    ($name:ident, $t:ty) => {
        #[inline(never)]
        pub fn $name(room: &mut [$t], keys: &[$t], base: $t) {
            room.iter_mut().zip(keys).for_each(|(r, k)| *r = k.wrapping_add(base));
        }
    };
}

plain_keys!(plain_keys_u8, u8);
plain_keys!(plain_keys_u16, u16);
plain_keys!(plain_keys_u32, u32);

// Length, prefix, buffer index and offset stand in a view from the lowest bits on.
#[inline(never)]
pub fn plain_views(room: &mut [u128], views: &[u128], base: u32) {
    for (r, v) in room.iter_mut().zip(views) {
        *r = if *v as u32 <= 12 {
            *v
        } else {
            let index = ((*v >> 64) as u32).wrapping_add(base);
            (*v & !(0xffff_ffff << 64)) | (index as u128) << 64
        };
    }
}

pub fn read_word(s: &[u8], at: usize) -> u64 {
    u64::from_le_bytes(s[at..at + 8].try_into().unwrap())
}

// Up to 64 bits of body at a; those past its end are 0.
pub fn last_bits(body: &[u8], a: usize, n: usize) -> u64 {
    let mut word = [0; 16];
    let end = (a + n).div_ceil(8);
    word[..end - a / 8].copy_from_slice(&body[a / 8..end]);
    (u128::from_le_bytes(word) >> (a % 8)) as u64 & (u64::MAX >> (64 - n))
}

// As the original: eight bytes are read, shifted, counted and written into bytes that are 0 so far, 56 bits or more at a time.
#[inline(never)]
pub fn plain_set_bits(room: &mut [u8], b: usize, body: &[u8], a: usize, n: usize) -> usize {
    let (mut i, mut zeros) = (0, 0);
    while 64 <= n - i {
        let (d, h) = ((b + i) / 8, (b + i) % 8);
        let (q, j) = ((a + i) / 8, (a + i) % 8);
        let (x, k) = match (j, h) {
            (0, 0) => (read_word(body, q), 64),
            (_, 0) => ((read_word(body, q) >> j) & (u64::MAX >> 8), 56),
            _ => ((read_word(body, q) >> j) << h, 64 - j.max(h)),
        };
        let old = if h == 0 { 0 } else { read_word(room, d) };
        room[d..d + 8].copy_from_slice(&(old | x).to_le_bytes());
        zeros += k - x.count_ones() as usize;
        i += k;
    }
    zeros + plain_rest(room, b + i, body, a + i, n - i)
}

// Fewer than 64 bits.
pub fn plain_rest(room: &mut [u8], b: usize, body: &[u8], a: usize, n: usize) -> usize {
    if n == 0 {
        return 0;
    }
    let x = last_bits(body, a, n);
    let (d, end) = (b / 8, (b + n).div_ceil(8));
    for (r, y) in room[d..end].iter_mut().zip(((x as u128) << (b % 8)).to_le_bytes()) {
        *r |= y;
    }
    n - x.count_ones() as usize
}

// The bits to the end of the first byte, then whole words of 64 bits, then the rest.
#[inline(never)]
pub fn plain_word_bits(room: &mut [u8], b: usize, body: &[u8], a: usize, n: usize) -> usize {
    let head = n.min((8 - b % 8) % 8);
    let mut zeros = plain_rest(room, b, body, a, head);
    let words = (n - head) / 64;
    let (d, q, j) = ((b + head) / 8, (a + head) / 8, (a + head) % 8);
    let target = room[d..d + 8 * words].chunks_exact_mut(8);
    if j == 0 {
        for (r, s) in target.zip(body[q..].chunks_exact(8)) {
            let x = u64::from_le_bytes(s.try_into().unwrap());
            r.copy_from_slice(&x.to_le_bytes());
            zeros += x.count_zeros() as usize;
        }
    } else {
        let source = body[q..].chunks_exact(8).zip(body[q + 8..].iter().step_by(8));
        for (r, (s, next)) in target.zip(source) {
            let x = u64::from_le_bytes(s.try_into().unwrap()) >> j | (*next as u64) << (64 - j);
            r.copy_from_slice(&x.to_le_bytes());
            zeros += x.count_zeros() as usize;
        }
    }
    let done = head + 64 * words;
    zeros + plain_rest(room, b + done, body, a + done, n - done)
}

#[inline(never)]
pub fn plain_count_zeros(body: &[u8], a: usize, n: usize) -> usize {
    let head = n.min((8 - a % 8) % 8);
    let words = (n - head) / 64;
    let done = head + 64 * words;
    let ones = |a: usize, n: usize| if n == 0 { 0 } else { last_bits(body, a, n).count_ones() as usize };
    let mut sum = ones(a, head) + ones(a + done, n - done);
    for s in body[(a + head) / 8..].chunks_exact(8).take(words) {
        sum += u64::from_le_bytes(s.try_into().unwrap()).count_ones() as usize;
    }
    n - sum
}

#[inline(never)]
pub fn plain_find_runs(ends: &[i32], rows: &[u64]) -> usize {
    rows.iter().fold(0, |sum: usize, row| sum.wrapping_add(ends.partition_point(|e| *e as u64 <= *row)))
}
