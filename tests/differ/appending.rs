//! Appending by headers beside the model: by true ones, which writing, reading or the append before gave, and by false ones of every kind, in range and at and
//! past every limit. Buffers hold anything before, are exactly as long as is needed, a byte shorter, or longer.

use crate::codec::Codec;
use crate::encodings;
use crate::model::{self, Header};
use crate::random::Random;

const MOST_BITS: u64 = model::MOST_BITS;
const MOST_COUNT: u64 = model::MAX_COUNT as u64;
const MOST_TOTAL: u64 = model::MOST_TOTAL;

/// Past every limit by far. In some, the low bits alone would be small, and in some a number more would make them so.
pub const FAR: [u64; 9] = [1 << 32, (1 << 32) + 1, 1 << 61, 1 << 63, (1 << 63) + 2, u64::MAX - u32::MAX as u64, u64::MAX - 3, u64::MAX - 1, u64::MAX];

/// Bytes that are anything, or all ones, or all zeros.
pub fn content(random: &mut Random, len: usize) -> Vec<u8> {
    match random.below(4) {
        0 => vec![0xFF; len],
        1 => vec![0x00; len],
        _ => random.bytes(len),
    }
}

/// The first and the last number of every length.
fn borders(order: usize) -> Vec<u32> {
    let firsts = (0..).map(|s| model::first_number(order, s)).take_while(|first| *first <= model::MAX_NUMBER);
    firsts.flat_map(|first| [first - 1, first]).chain([model::MAX_NUMBER]).map(|n| n as u32).collect()
}

fn length(order: usize, n: u32) -> usize {
    model::codeword(order, n as u128).len()
}

/// A header that is nearly this one: one of its numbers is a little more or less.
fn nearly(random: &mut Random, header: Header) -> Header {
    let up = random.once_in(2);
    let by = 1 + random.below(9) as u64;
    let other = |n: u64| if up { n + by } else { n.saturating_sub(by) };
    match random.below(3) {
        0 => Header { bits: other(header.bits), ..header },
        1 => Header { count: other(header.count), ..header },
        _ => Header { total: other(header.total), ..header },
    }
}

/// A header for a buffer of so many bytes, whose numbers are anything, mostly around their limits.
fn any(random: &mut Random, room: usize) -> Header {
    let most = 8 * room as u64;
    let bits = match random.below(8) {
        0 => most + random.below(3) as u64,
        1 => MOST_BITS + random.below(3) as u64,
        2 => MOST_BITS - random.below(60) as u64,
        3 => random.one_of(&FAR),
        4 | 5 => most.saturating_sub(random.below(60) as u64),
        _ => random.below(8 * room + 1) as u64,
    };
    Header { bits, count: random.around(MOST_COUNT as usize) as u64, total: random.around(MOST_TOTAL as usize) as u64 }
}

impl Codec<'_> {
    pub fn appending(&mut self) {
        for order in 2..=6 {
            self.at_every_bit(order);
            self.every_byte(order);
            self.grown(order);
            self.filled(order);
        }
        for order in 0..=8 {
            self.every_limit(order);
            self.large_buffers(order);
        }
    }

    /// The first and the last codeword of every length after any bits, which end at every bit of a byte: in buffers of the very size, a byte shorter, and up to
    /// nine longer.
    fn at_every_bit(&mut self, order: usize) {
        for n in borders(order) {
            for bits in 0..=16 {
                let need = (bits + length(order, n) + 7) / 8;
                for room in need - 1..=need + 9 {
                    let buffer = content(self.random, room);
                    let count = self.random.below(model::MAX_COUNT) as u64;
                    let total = self.random.below(MOST_TOTAL as usize + 1) as u64;
                    self.append(order, &buffer, Header { bits: bits as u64, count, total }, n);
                }
            }
        }
    }

    /// Every byte, of which every number of bits is in use.
    fn every_byte(&mut self, order: usize) {
        for byte in 0..=255 {
            for bits in 0..=8 {
                for n in [1, 2, 3, 600] {
                    let buffer = [byte, !byte, byte, byte];
                    self.append(order, &buffer, Header { bits, count: 0, total: 0 }, n);
                }
            }
        }
    }

    /// Numbers one after the other, from no header on, until the buffer is full: each time the answer, the header and the whole buffer are those of writing the
    /// longer row.
    fn grown(&mut self, order: usize) {
        for room in 0..=40 {
            for largest in [1, 2, 12, 1000, u32::MAX] {
                let before = content(self.random, room);
                let mut row = Vec::new();
                let mut header = Header::default();
                let mut buffer = before.clone();
                loop {
                    let n = encodings::number(self.random, order);
                    row.push(1 + (n - 1) % largest);
                    let appended = self.append(order, &buffer, header, row[row.len() - 1]);
                    let written = self.write(order, &row, &before);
                    if written.number != 0 {
                        self.ledger.same("an append to a full buffer", appended.number, written.number, || format!("order {order}, row {row:?}, room {room}"));
                        break;
                    }
                    self.ledger.same("an append and writing", &appended, &written, || format!("order {order}, row {row:?}, room {room}"));
                    header = appended.header;
                    buffer = appended.output;
                }
            }
        }
    }

    /// The last numbers of rows of 4,096, appended to what writing the others gave; then the row is full.
    fn filled(&mut self, order: usize) {
        for row in encodings::full_rows(self.random, order) {
            let fewer = model::MAX_COUNT - 3;
            let need = model::encoding(order, &row).len();
            let room = need + self.random.below(3);
            let before = content(self.random, room);
            let mut so_far = self.write(order, &row[..fewer], &before);
            for count in fewer..model::MAX_COUNT {
                so_far = self.append(order, &so_far.output, so_far.header, row[count]);
                let written = self.write(order, &row[..=count], &before);
                self.ledger.same("an append and writing", &so_far, &written, || format!("order {order}, row {row:?}"));
            }
            for n in [0, 1, u32::MAX] {
                self.append(order, &so_far.output, so_far.header, n);
            }
        }
    }

    /// In small buffers, every number of bits up to two more than there are and those around 192,512, with counts and totals at, before and past their limits;
    /// and the number 0, the smallest and the largest codeword.
    fn every_limit(&mut self, order: usize) {
        let counts = [&[0, MOST_COUNT - 1, MOST_COUNT, MOST_COUNT + 1][..], &FAR[..1], &FAR[8..]].concat();
        let totals = [&[0, MOST_TOTAL - 1, MOST_TOTAL, MOST_TOTAL + 1, MOST_TOTAL + u32::MAX as u64][..], &FAR[3..4], &FAR[5..6], &FAR[8..]].concat();
        for room in [0, 1, 2, 3, 6, 7] {
            let buffer = content(self.random, room);
            let most = 8 * room as u64;
            for bits in (0..=most + 2).chain([MOST_BITS - 1, MOST_BITS, MOST_BITS + 1]).chain(FAR) {
                for &count in &counts {
                    for &total in &totals {
                        for n in [0, 1, u32::MAX] {
                            self.append(order, &buffer, Header { bits, count, total }, n);
                        }
                    }
                }
            }
        }
    }

    /// Buffers that have room for the longest encoding, or nearly, or for more: no bit goes past 192,512, wherever the buffer ends.
    fn large_buffers(&mut self, order: usize) {
        let longest = if (2..=6).contains(&order) { length(order, u32::MAX) as u64 } else { 0 };
        for room in [24_063, 24_064, 24_065, 30_000] {
            let buffer = content(self.random, room);
            let most = 8 * room as u64;
            for limit in [MOST_BITS, most] {
                for bits in [limit - longest - 1, limit - longest, limit - longest + 1, limit - order as u64, limit + 1 - order as u64, limit, limit + 1] {
                    for n in [1, u32::MAX] {
                        self.append(order, &buffer, Header { bits, count: 0, total: 0 }, n);
                    }
                    self.append(order, &buffer, Header { bits, count: MOST_COUNT, total: MOST_TOTAL }, 1);
                }
            }
        }
    }

    /// An append to bytes of some order, damaged or not: by the header that they have there, by one that is nearly that, or by any. The buffer has no room for
    /// more, just enough, or more than that.
    pub fn append_case(&mut self, order: usize, made: usize, s: Vec<u8>) {
        let has = model::header(made as u64, &s).results;
        let mut buffer = s;
        let more = self.random.below(10);
        let tail = content(self.random, more);
        buffer.extend(tail);
        let header = match self.random.below(8) {
            0..=3 => has,
            4 | 5 => nearly(self.random, has),
            _ => any(self.random, buffer.len()),
        };
        let n = match self.random.below(8) {
            0 => 0,
            1 => u32::MAX,
            2 | 3 => 1,
            _ => encodings::number(self.random, order),
        };
        self.append(order, &buffer, header, n);
    }
}
