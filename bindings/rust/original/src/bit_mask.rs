// Licensed to the Apache Software Foundation (ASF) under one
// or more contributor license agreements.  See the NOTICE file
// distributed with this work for additional information
// regarding copyright ownership.  The ASF licenses this file
// to you under the Apache License, Version 2.0 (the
// "License"); you may not use this file except in compliance
// with the License.  You may obtain a copy of the License at
//
//   http://www.apache.org/licenses/LICENSE-2.0
//
// Unless required by applicable law or agreed to in writing,
// software distributed under the License is distributed on an
// "AS IS" BASIS, WITHOUT WARRANTIES OR CONDITIONS OF ANY
// KIND, either express or implied.  See the License for the
// specific language governing permissions and limitations
// under the License.

//! Copies of validity bits, after what is known of arrow-data's `bit_mask.rs`.

/// Sets the bits of `write_data` from `offset_write` on to those of `data` from `offset_read` on, `len` of them, where
/// they are zero so far. Returns how many zeros were copied.
pub fn set_bits(write_data: &mut [u8], data: &[u8], offset_write: usize, offset_read: usize, len: usize) -> usize {
    assert!(offset_write + len <= write_data.len() * 8);
    assert!(offset_read + len <= data.len() * 8);
    let mut null_count = 0;
    let mut acc = 0;
    while len > acc {
        let (nulls, len_set) = set_upto_64bits(write_data, data, offset_write + acc, offset_read + acc, len - acc);
        null_count += nulls;
        acc += len_set;
    }
    null_count
}

fn set_upto_64bits(write_data: &mut [u8], data: &[u8], offset_write: usize, offset_read: usize, len: usize) -> (usize, usize) {
    let (read_byte, read_shift) = (offset_read / 8, offset_read % 8);
    let (write_byte, write_shift) = (offset_write / 8, offset_write % 8);

    if len >= 64 {
        let chunk = u64::from_le_bytes(data[read_byte..read_byte + 8].try_into().unwrap());
        let out: &mut [u8; 8] = (&mut write_data[write_byte..write_byte + 8]).try_into().unwrap();
        match (read_shift, write_shift) {
            (0, 0) => {
                *out = chunk.to_le_bytes();
                (chunk.count_zeros() as usize, 64)
            }
            (0, _) => {
                let len = 64 - write_shift;
                let chunk = chunk << write_shift;
                *out = (u64::from_le_bytes(*out) | chunk).to_le_bytes();
                (len - chunk.count_ones() as usize, len)
            }
            (_, 0) => {
                let len = 64 - 8;
                let chunk = (chunk >> read_shift) & 0x00FF_FFFF_FFFF_FFFF;
                *out = chunk.to_le_bytes();
                (len - chunk.count_ones() as usize, len)
            }
            _ => {
                let len = 64 - read_shift.max(write_shift);
                let chunk = ((chunk >> read_shift) & (u64::MAX >> (64 - len))) << write_shift;
                *out = (u64::from_le_bytes(*out) | chunk).to_le_bytes();
                (len - chunk.count_ones() as usize, len)
            }
        }
    } else {
        let len = len.min(64 - read_shift.max(write_shift));
        let bytes = (len + read_shift).div_ceil(8);
        let mut word = [0; 8];
        word[..bytes].copy_from_slice(&data[read_byte..read_byte + bytes]);
        let chunk = (u64::from_le_bytes(word) >> read_shift) & (u64::MAX >> (64 - len));
        let zeros = len - chunk.count_ones() as usize;
        let bytes = (len + write_shift).div_ceil(8);
        for (i, c) in (chunk << write_shift).to_le_bytes().iter().enumerate().take(bytes) {
            write_data[write_byte + i] |= c;
        }
        (zeros, len)
    }
}

pub fn set_bit(data: &mut [u8], i: usize) {
    data[i / 8] |= 1 << (i % 8);
}
