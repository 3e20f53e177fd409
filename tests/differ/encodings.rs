//! Rows and encodings to try: legal ones, long and short, and damaged ones.

use crate::model;
use crate::random::Random;

/// A number from 1 up: small ones, any of 32 bits, and those where the length of a codeword changes.
pub fn number(random: &mut Random, order: usize) -> u32 {
    match random.below(6) {
        0 => 1 + random.below(4) as u32,
        1 => 1 + random.below(1000) as u32,
        2 => (random.next() as u32).max(1),
        3 => 1 + (random.next() as u32 >> random.below(32)).min(u32::MAX - 1),
        4 => u32::MAX - random.below(3) as u32,
        _ => {
            let m = if (2..=6).contains(&order) { order } else { 2 };
            let first = model::first_number(m, random.below(45)) + random.below(3) as u128 - 1;
            first.clamp(1, model::MAX_NUMBER) as u32
        }
    }
}

/// A legal row: mostly short, now and then full.
pub fn row(random: &mut Random, order: usize) -> Vec<u32> {
    let len = match random.below(40) {
        0 => random.one_of(&[4094, 4095, 4096]),
        1 => random.below(4097),
        2..=5 => random.below(300),
        _ => random.below(14),
    };
    match random.below(6) {
        0 => vec![1; len],
        1 => (0..len).map(|_| 1 + random.below(3) as u32).collect(),
        2 => (0..len).map(|_| 1 + random.below(1000) as u32).collect(),
        3 => vec![number(random, order); len],
        _ => (0..len).map(|_| number(random, order)).collect(),
    }
}

/// Rows of 4,096: ones, the largest numbers, small ones, and any.
pub fn full_rows(random: &mut Random, order: usize) -> [Vec<u32>; 4] {
    let small = (0..model::MAX_COUNT).map(|_| 1 + random.below(3) as u32).collect();
    let any = (0..model::MAX_COUNT).map(|_| number(random, order)).collect();
    [vec![1; model::MAX_COUNT], vec![u32::MAX; model::MAX_COUNT], small, any]
}

/// A row that may be too long or have zeros.
pub fn row_with_faults(random: &mut Random, order: usize) -> Vec<u32> {
    let mut row = row(random, order);
    if random.once_in(40) {
        let n = number(random, order);
        row = vec![n; random.one_of(&[4096, 4097, 4098, 5000])];
    }
    for _ in 0..random.one_of(&[0, 0, 0, 0, 0, 1, 2]) {
        if !row.is_empty() {
            let place = random.below(row.len());
            row[place] = 0;
        }
    }
    row
}

/// A codeword that is too large, a little or by far.
fn too_large(random: &mut Random, m: usize) -> Vec<bool> {
    match random.below(3) {
        0 => model::codeword(m, model::MAX_NUMBER + 1 + random.below(3) as u128),
        1 => model::codeword(m, model::MAX_NUMBER + 1 + (random.next() as u128) * (1 + random.below(1 << 20) as u128)),
        _ => {
            // digits that never have m ones in a row, then a 0 and m ones
            let len = random.one_of(&[50, 100, 1000, 20_000]) + random.below(50);
            let mut ones = 0;
            let mut bits = Vec::new();
            for _ in 0..len {
                let bit = ones + 1 < m && random.once_in(2);
                ones = if bit { ones + 1 } else { 0 };
                bits.push(bit);
            }
            bits.push(false);
            bits.extend(vec![true; m]);
            bits
        }
    }
}

/// The bits of a row with a codeword among them that is too large.
fn with_too_large(random: &mut Random, m: usize) -> Vec<u8> {
    let mut bits = model::row_bits(m, &row(random, m));
    bits.extend(too_large(random, m));
    bits.extend(model::row_bits(m, &row(random, m)));
    model::pack(&bits)
}

/// A row that is full, or nearly, and what comes after it.
fn full(random: &mut Random, m: usize) -> Vec<u8> {
    let mut bits = vec![true; m * random.one_of(&[4090, 4095, 4096, 4096])];
    match random.below(4) {
        0 => bits.extend(vec![true; m]),
        1 => bits.extend(too_large(random, m)),
        2 => bits.extend(model::row_bits(m, &row(random, m))),
        _ => (),
    }
    model::pack(&bits)
}

fn random_bytes(random: &mut Random) -> Vec<u8> {
    let len = if random.once_in(4) { random.below(500) } else { random.below(12) };
    match random.below(4) {
        0 => random.bytes(len),
        // few ones
        1 => (0..len).map(|_| (random.next() & random.next() & random.next()) as u8).collect(),
        // few zeros
        2 => (0..len).map(|_| (random.next() | random.next() | random.next()) as u8).collect(),
        _ => vec![random.one_of(&[0x00, 0xFF, 0x55, 0x24, 0x92, 0xAA, 0x77]); len],
    }
}

fn damage(random: &mut Random, s: &mut Vec<u8>) {
    match random.below(7) {
        0 => {
            let left = s.len() - random.below(3).min(s.len());
            s.truncate(left);
        }
        1 => s.push(random.one_of(&[0x00, 0x01, 0x80, 0xFF])),
        2 => {
            let more = random.below(5);
            s.extend(random.bytes(more));
        }
        3 => {
            // a bit of the last byte, where padding is
            if let Some(last) = s.last_mut() {
                *last ^= 1 << random.below(8);
            }
        }
        _ => {
            for _ in 0..1 + random.below(3) {
                if !s.is_empty() {
                    let place = random.below(s.len());
                    s[place] ^= 1 << random.below(8);
                }
            }
        }
    }
}

/// An encoding of order m, or bytes that are nearly one, or not at all.
pub fn encoding(random: &mut Random, m: usize) -> Vec<u8> {
    let mut s = match random.below(24) {
        0..=15 => model::encoding(m, &row(random, m)),
        16..=19 => random_bytes(random),
        20 | 21 => with_too_large(random, m),
        22 => full(random, m),
        _ => {
            let len = random.one_of(&[24_063, 24_064, 24_065, 30_000]);
            if random.once_in(8) { random.bytes(len) } else { vec![random.one_of(&[0x00, 0xFF, 0x10]); random.below(60)] }
        }
    };
    if random.once_in(3) {
        damage(random, &mut s);
    }
    s
}
