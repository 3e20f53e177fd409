//! Encodings for a reader that takes 64 bits at a time: codewords at every bit of a word, encodings of a few bytes, codewords longer than a word, and the
//! limits. They are built bit by bit, are the same in every run, and go to all that read an encoding.

use crate::codec::Codec;
use crate::encodings;
use crate::model;
use crate::random::Random;

const WORD: usize = 64;

/// Of the codewords of one length: the first, the last, or any.
#[derive(Clone, Copy)]
enum Digits {
    Zeros,
    Largest,
    Any,
}

const DIGITS: [Digits; 3] = [Digits::Zeros, Digits::Largest, Digits::Any];

/// A codeword of a length from m up, which may be too large.
fn of_length(random: &mut Random, m: usize, length: usize, digits: Digits) -> Vec<bool> {
    if length == m {
        return vec![true; m];
    }
    let mut bits = vec![false; length - m - 1];
    let mut ones = 0;
    // from the right, where digits count most
    for bit in bits.iter_mut().rev() {
        let one = match digits {
            Digits::Zeros => false,
            Digits::Largest => true,
            Digits::Any => random.once_in(2),
        };
        *bit = one && ones + 1 < m;
        ones = if *bit { ones + 1 } else { 0 };
    }
    bits.push(false);
    bits.extend(vec![true; m]);
    bits
}

/// Codewords of so many bits together, none or at least m, and each of at most so many, at least twice m. What is left over comes first.
pub fn row(random: &mut Random, m: usize, bits: usize, longest: usize) -> Vec<bool> {
    let mut lengths = Vec::new();
    let mut left = bits;
    while left > 0 {
        // nothing is left over, or enough for another
        let length = if left < 2 * m { left } else { m + random.below((left - 2 * m).min(longest - m) + 1) };
        lengths.push(length);
        left -= length;
    }
    lengths.iter().rev().flat_map(|length| of_length(random, m, *length, Digits::Any)).collect()
}

/// Small numbers, so that what comes after them begins at this bit of one of the first words.
fn before(random: &mut Random, m: usize, begin: usize) -> Vec<bool> {
    let none_so_short = 0 < begin && begin < m;
    let words = random.below(3) + none_so_short as usize;
    row(random, m, words * WORD + begin, 2 * m)
}

fn flipped(s: &[u8], bit: usize) -> Vec<u8> {
    let mut other = s.to_vec();
    other[bit / 8] ^= 128 >> (bit % 8);
    other
}

/// The codewords of a row of ones and so many twos, each of which has a bit more.
fn ones_and_twos(random: &mut Random, m: usize, count: usize, twos: usize) -> Vec<bool> {
    let mut row = vec![1; count];
    while row.iter().filter(|n| **n == 2).count() < twos {
        row[random.below(count)] = 2;
    }
    model::row_bits(m, &row)
}

impl Codec<'_> {
    pub fn words(&mut self) {
        for order in 2..=6 {
            self.legal_codewords(order);
            self.short_encodings(order);
            self.long_codewords(order);
            self.limits_in_words(order);
            self.full_rows(order);
            self.spans(order);
        }
    }

    /// Hands bytes to all that read an encoding. The output has just enough room, and for bytes that are refused more than they can need.
    pub fn everywhere(&mut self, order: usize, s: &[u8]) {
        let row = model::row_of(order as u64, s);
        let count = row.as_ref().map_or(0, |row| row.len());
        let room = if row.is_ok() { count } else { (4 * s.len()).min(model::MAX_COUNT) };
        let out = vec![9; room];
        self.read(order, s, &out);
        if order == 3 {
            self.table_read(s, &out);
            self.readers(s, &out);
        }
        self.total(order, s, 0, count);
        if count > 0 {
            let from = self.random.below(count);
            let to = from + self.random.below(count - from);
            self.total(order, s, from, to);
        }
        let repeats = 1 + self.random.below(10_000) as u64;
        let total = row.map_or(0, |row| model::sum(&row));
        let shared = self.random.around(total as usize) as u64;
        self.repeated_total(order, s, repeats, shared);
        let n = encodings::number(self.random, order);
        let longer = [s, &[0xA5; 8]].concat();
        if let Some(header) = self.header(order, s) {
            self.append(order, &longer, header, n);
        }
        let place = self.random.below(count + 1);
        self.replace(order, &longer, s.len(), place, n);
    }

    /// Bits that end in a codeword: as they are, and before two words and more of small numbers.
    fn ended(&mut self, order: usize, mut bits: Vec<bool>) {
        self.everywhere(order, &model::pack(&bits));
        let more = 2 * WORD + self.random.below(WORD);
        bits.extend(row(self.random, order, more, 2 * order));
        self.everywhere(order, &model::pack(&bits));
    }

    /// Codewords of every length that is legal begin, and so also end, at every bit of a word.
    fn legal_codewords(&mut self, order: usize) {
        let longest = model::codeword(order, model::MAX_NUMBER).len();
        for length in order..=longest {
            for begin in 0..WORD {
                for digits in DIGITS {
                    let mut bits = before(self.random, order, begin);
                    bits.extend(of_length(self.random, order, length, digits));
                    self.ended(order, bits);
                }
            }
        }
    }

    /// Encodings of up to 40 bytes that end at each bit of the last byte, of short codewords and of longer ones; with too long a rest, and with a one at each
    /// bit of the padding. One of each length is damaged.
    fn short_encodings(&mut self, order: usize) {
        self.everywhere(order, &[]);
        for bits in order..=8 * 40 {
            for longest in [2 * order, 32] {
                let s = model::pack(&row(self.random, order, bits, longest));
                self.everywhere(order, &s);
                self.everywhere(order, &[&s[..], &[0]].concat());
                for bit in bits..8 * s.len() {
                    self.everywhere(order, &flipped(&s, bit));
                }
                if (bits + s.len()) % 8 == 0 {
                    self.damaged(order, &s);
                }
            }
        }
    }

    /// Bytes cut off at every byte, and with each bit flipped.
    fn damaged(&mut self, order: usize, s: &[u8]) {
        for len in 0..s.len() {
            self.everywhere(order, &s[..len]);
        }
        for bit in 0..8 * s.len() {
            self.everywhere(order, &flipped(s, bit));
        }
    }

    /// Codewords of every length up to 200 bits, most too large by far: first in the row; and behind small numbers, so that they begin at every bit of a word,
    /// also without their last bits, as a rest.
    fn long_codewords(&mut self, order: usize) {
        for length in order..=200 {
            for digits in DIGITS {
                let bits = of_length(self.random, order, length, digits);
                self.ended(order, bits);
            }
            for begin in 0..WORD {
                let digits = self.random.one_of(&DIGITS);
                let mut bits = before(self.random, order, begin);
                bits.extend(of_length(self.random, order, length, digits));
                let without = bits.len() - 1 - self.random.below(order);
                self.everywhere(order, &model::pack(&bits[..without]));
                self.ended(order, bits);
            }
        }
    }

    /// The largest number and the next one begin at every bit of a word.
    fn limits_in_words(&mut self, order: usize) {
        for begin in 0..WORD {
            for n in [model::MAX_NUMBER, model::MAX_NUMBER + 1] {
                let mut bits = before(self.random, order, begin);
                bits.extend(model::codeword(order, n));
                self.ended(order, bits);
            }
        }
    }

    /// The last of 4,095, 4,096 and 4,097 small numbers ends at every bit of a word. Words of zeros behind the row, a rest, leave it to the check at that very
    /// number which refusal comes; the 4,096th and the 4,097th are then also too large.
    fn full_rows(&mut self, order: usize) {
        let rest = vec![false; 3 * WORD];
        let too_large = [model::codeword(order, model::MAX_NUMBER + 1), rest.clone()].concat();
        let ends = [(4095, &[][..]), (4096, &[]), (4097, &[]), (4096, &rest), (4097, &rest), (4095, &too_large), (4096, &too_large)];
        for twos in 0..WORD {
            for (count, behind) in ends {
                let mut bits = ones_and_twos(self.random, order, count, twos);
                bits.extend(behind);
                self.everywhere(order, &model::pack(&bits));
            }
        }
    }

    /// Totals of rows of 40 numbers from each place to each, also to those before it and to those that the row does not have.
    fn spans(&mut self, order: usize) {
        for longest in [order, 2 * order, 16, 32] {
            let mut bits = Vec::new();
            for _ in 0..40 {
                let length = order + self.random.below(longest - order + 1);
                bits.extend(of_length(self.random, order, length, Digits::Any));
            }
            let s = model::pack(&bits);
            for from in 0..=42 {
                for to in 0..=42 {
                    self.total(order, &s, from, to);
                }
                self.total(order, &s, from, usize::MAX);
            }
        }
    }
}
