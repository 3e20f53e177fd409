//! What is tried whole, beside the model: every string of up to two bytes, every byte between others, every number up to 100,000. And numbers that would look
//! small to sums of 64, 96 or 128 bits.

use crate::codec::Codec;
use crate::model;

/// What stands before and after a byte of order 3: codewords at hand of several lengths, with 0, 1 and 2 ones at the end, and several ends.
const BEFORE: [&[u8]; 13] = [
    &[],
    &[0x01],
    &[0x03],
    &[0xE0],
    &[0xF8],
    &[0xFC],
    &[0x00],
    &[0x6D],
    &[0x5B],
    &[0xB6, 0xDB],
    &[0x00, 0x00, 0xB6],
    &[0x49, 0x24, 0x93],
    &[0xE1, 0x02, 0x81],
];
const AFTER: [&[u8]; 13] = [
    &[],
    &[0xE0],
    &[0x70],
    &[0x07],
    &[0x80],
    &[0xC0],
    &[0x03, 0x80],
    &[0xB8],
    &[0xFF, 0x07],
    &[0xBF, 0x07],
    &[0xF7, 0x07],
    &[0x6D, 0xB8],
    &[0x00, 0x07],
];

/// The encodings of 2^128 + 1 in order 2 to 6, worked out apart from the model, whose numbers end there.
const PAST_128_BITS: [&[u8]; 5] = [
    &[
        0x92, 0x28, 0x2A, 0xA4, 0x88, 0xA8, 0x8A, 0x85, 0x4A, 0x29, 0x50, 0xAA, 0x50, 0x55, 0x50, 0xA1, 0x21, 0x12, 0x12, 0x4A, 0xA9, 0x40, 0x80, 0xC0,
    ],
    &[0x55, 0x20, 0x08, 0x34, 0x00, 0x30, 0x4B, 0x06, 0xB0, 0xC1, 0x2D, 0x45, 0x16, 0xD5, 0x45, 0x8A, 0x0D, 0x68, 0x38],
    &[0x41, 0x3A, 0x30, 0x43, 0xB0, 0xA2, 0x99, 0x90, 0x55, 0xD9, 0x0A, 0x55, 0x05, 0xB2, 0xEC, 0xC8, 0x1D, 0xE0],
    &[0xA6, 0x07, 0x4A, 0xBC, 0x8B, 0x77, 0x23, 0x34, 0x71, 0x95, 0x18, 0x90, 0x21, 0xA7, 0xA1, 0x45, 0x0F, 0x80],
    &[0xDA, 0xBD, 0x70, 0x42, 0x4F, 0x18, 0x4A, 0xF5, 0x98, 0x65, 0x07, 0x14, 0x5E, 0x5C, 0x80, 0x03, 0x3F],
];

impl Codec<'_> {
    pub fn every(&mut self) {
        self.small_strings();
        self.bytes_between();
        for order in 2..=6 {
            self.ended_strings(order);
            self.every_number(order);
            self.wrapped(order);
        }
    }

    /// Every string of up to two bytes, in every order.
    fn small_strings(&mut self) {
        for order in 2..=6 {
            self.small_string(order, &[]);
            for first in 0..=255 {
                self.small_string(order, &[first]);
                for second in 0..=255 {
                    self.small_string(order, &[first, second]);
                }
            }
        }
    }

    fn small_string(&mut self, order: usize, s: &[u8]) {
        self.read(order, s, &[7; 9]);
        self.total(order, s, 0, 1);
        self.header(order, s);
        self.replace(order, &[s, &[0xA5; 2]].concat(), s.len(), 0, 600);
        if order == 3 {
            self.table_read(s, &[7; 6]);
            self.table_read_bytes(s, &[7; 22]);
        }
    }

    /// Every string of two bytes, and a byte that ends the codeword at hand: it is accepted.
    fn ended_strings(&mut self, order: usize) {
        let end = (1u8 << order) - 1;
        for first in 0..=255 {
            for second in 0..=255 {
                let s = [first, second, end];
                let count = model::row_of(order as u64, &s).map_or(0, |row| row.len());
                assert!(count > 0);
                self.read(order, &s, &vec![7; count]);
                self.total(order, &s, 0, count);
                self.header(order, &s);
                for n in [1, 600] {
                    self.replace(order, &[first, second, end, 0xA5, 0xA5], 3, count / 2, n);
                }
                if order == 3 {
                    self.table_read(&s, &vec![7; count]);
                    self.table_read_bytes(&s, &vec![7; 4 * count + 3]);
                }
            }
        }
    }

    /// Every byte after each number of ones, in order 3, between other bytes.
    fn bytes_between(&mut self) {
        for before in BEFORE {
            for after in AFTER {
                for byte in 0..=255 {
                    self.everywhere(3, &[before, &[byte], after].concat());
                }
            }
        }
    }

    /// Every number up to 100,000, in rows.
    fn every_number(&mut self, order: usize) {
        let numbers: Vec<u32> = (1..=100_000).collect();
        for row in numbers.chunks(model::MAX_COUNT) {
            let s = model::encoding(order, row);
            self.write(order, row, &vec![0xA5; s.len()]);
            self.read(order, &s, &vec![7; row.len()]);
            self.total(order, &s, 0, row.len());
            self.header(order, &s);
            if order == 3 {
                self.table_read(&s, &vec![7; row.len()]);
                self.table_read_bytes(&s, &vec![7; 4 * row.len()]);
            }
        }
    }

    /// Numbers that look small where sums are taken modulo a power of two: first in the row, and after eight ones.
    fn wrapped(&mut self, order: usize) {
        let mut codewords = vec![model::unpack(PAST_128_BITS[order - 2])];
        for power in [32, 64, 96] {
            codewords.extend([1, 600].map(|n| model::codeword(order, (1 << power) + n)));
        }
        for codeword in codewords {
            for ones in [0, 8] {
                let s = model::pack(&[vec![true; ones * order], codeword.clone()].concat());
                let refused = model::row_of(order as u64, &s).err();
                assert!(matches!(refused, Some(refusal) if refusal.number == 7 && refusal.place == ones as u64));
                self.everywhere(order, &s);
            }
        }
    }
}
