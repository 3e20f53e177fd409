//! Replacing, and its preview, beside the model: a codeword of every length for one of every length, at every bit of a byte; before any number of bits up to 40
//! bytes, so that the bits behind move by words and by what is left of one; at every place of short rows, and in full ones. Buffers hold anything behind the
//! bytes in use, are exactly as long as is needed, a byte shorter, or longer.

use crate::appending::{content, FAR};
use crate::codec::Codec;
use crate::encodings;
use crate::model;
use crate::random::Random;
use crate::text::{bytes, numbers};
use crate::words;

/// A number of every length that is legal, any of those that have it.
fn of_every_length(random: &mut Random, order: usize) -> Vec<u32> {
    let begins: Vec<u128> = (0..).map(|s| model::first_number(order, s)).take_while(|first| *first <= model::MAX_NUMBER).collect();
    let ends = begins[1..].iter().copied().chain([model::MAX_NUMBER + 1]);
    let any = |(first, end): (u128, u128)| (first + random.below((end - first) as usize) as u128) as u32;
    [1].into_iter().chain(begins.iter().copied().zip(ends).map(any)).collect()
}

/// Numbers whose codewords have so many bits together, none or at least m, and each at most so many.
fn of_bits(random: &mut Random, order: usize, bits: usize, longest: usize) -> Vec<u32> {
    let (codewords, _) = model::parse(order, &words::row(random, order, bits, longest));
    codewords.iter().map(|codeword| model::number(order, codeword) as u32).collect()
}

/// Numbers behind which the next begins at this bit of a byte.
fn up_to_bit(random: &mut Random, order: usize, bit: usize) -> Vec<u32> {
    let none_so_short = 0 < bit && bit < order;
    let bytes = random.below(3) + none_so_short as usize;
    of_bits(random, order, 8 * bytes + bit, 2 * order)
}

/// A row, and the place in it of a number that others stand before and behind.
fn between(before: &[u32], n: u32, behind: &[u32]) -> (Vec<u32>, usize) {
    ([before, &[n], behind].concat(), before.len())
}

/// Encodings of order m and bytes that are none, each for another reason: none at all, zeros, a byte or a one too many, numbers that are too large.
fn right_and_wrong(m: usize) -> Vec<Vec<u8>> {
    let too_large = model::codeword(m, model::MAX_NUMBER + 1);
    let row = model::row_bits(m, &[3, 1, 4, 2, 1]);
    vec![
        vec![],
        vec![0],
        model::encoding(m, &[1]),
        model::pack(&row),
        model::encoding(m, &[u32::MAX, 1]),
        model::pack(&[&row[..], &[false; 8]].concat()),
        model::pack(&[&row[..], &[true]].concat()),
        model::pack(&too_large),
        model::pack(&[row, too_large].concat()),
    ]
}

impl Codec<'_> {
    pub fn replacing(&mut self) {
        for order in 2..=6 {
            self.every_length(order);
            self.every_place(order);
            self.every_tail(order);
            self.one_by_one(order);
            self.in_full_rows(order);
        }
        for order in 0..=8 {
            self.every_check(order);
            self.around_full_rows(order);
            self.bytes_in_use(order);
        }
    }

    /// Replaces a number of a row, in a buffer that is a byte too short, for the row that comes of it or for the one there is, and in one that is just long
    /// enough or longer.
    fn changed(&mut self, order: usize, row: &[u32], place: usize, n: u32) {
        let s = model::encoding(order, row);
        let mut other = row.to_vec();
        other[place] = n;
        let need = model::encoding(order, &other).len().max(s.len());
        let more = self.random.one_of(&[0, 0, 1, 7, 8, 9, 40]);
        let behind = content(self.random, need + more - s.len());
        let buffer = [&s[..], &behind].concat();
        self.replace(order, &buffer[..need - 1], s.len(), place, n);
        self.there_and_back(order, row, &buffer, place, &other);
    }

    /// In the buffer that a row's encoding begins: the number at a place by itself, which changes nothing; by that of another row, which is then read, and the
    /// bytes before the place are as they were; and by itself again, and the first row is back.
    fn there_and_back(&mut self, order: usize, row: &[u32], buffer: &[u8], place: usize, other: &[u32]) {
        let arguments = || format!("order {order}, row {}, place {place}, n {}, buf {}", numbers(row), other[place], bytes(buffer));
        let used = model::encoding(order, row).len();
        let same = self.replace(order, buffer, used, place, row[place]);
        self.ledger.same("a number replaced by itself", (same.bytes, &same.output[..]), (used, buffer), arguments);
        let there = self.replace(order, buffer, used, place, other[place]);
        let read = self.border.read(order, &there.output[..there.bytes], &vec![0; row.len()]);
        self.ledger.same("the row after replacing", &read.output[..], other, arguments);
        let kept = model::row_bits(order, &row[..place]).len() / 8;
        self.ledger.same("the bytes before the place", &there.output[..kept], &buffer[..kept], arguments);
        let back = self.replace(order, &there.output, there.bytes, place, row[place]);
        self.ledger.same("a number put back", (back.header, &back.output[..back.bytes]), (same.header, &buffer[..used]), arguments);
    }

    /// A codeword of every length for one of every length, at every bit of a byte, before some 40 bytes or fewer.
    fn every_length(&mut self, order: usize) {
        for old in of_every_length(self.random, order) {
            for new in of_every_length(self.random, order) {
                for bit in 0..8 {
                    let before = up_to_bit(self.random, order, bit);
                    let bits = self.random.one_of(&[0, order, 64, 8 * 40]) + self.random.below(2) * 2 * order;
                    let behind = of_bits(self.random, order, bits, 2 * order);
                    let (row, place) = between(&before, old, &behind);
                    self.changed(order, &row, place, new);
                }
            }
        }
    }

    /// Every place of rows of up to 40 numbers, small ones and any: by 1, by any number, and by the largest.
    fn every_place(&mut self, order: usize) {
        for len in 1..=40 {
            let small: Vec<u32> = (0..len).map(|_| 1 + self.random.below(9) as u32).collect();
            let any: Vec<u32> = (0..len).map(|_| encodings::number(self.random, order)).collect();
            for place in 0..len {
                for n in [1, encodings::number(self.random, order), u32::MAX] {
                    self.changed(order, &small, place, n);
                    self.changed(order, &any, place, n);
                }
            }
        }
    }

    /// Every number of bits behind the codeword, up to 40 bytes, of short codewords and of longer ones; and it begins at every bit of a byte.
    fn every_tail(&mut self, order: usize) {
        for bits in [0].into_iter().chain(order..=8 * 40) {
            for bit in 0..8 {
                let before = up_to_bit(self.random, order, bit);
                let longest = self.random.one_of(&[2 * order, 32]);
                let behind = of_bits(self.random, order, bits, longest);
                let (row, place) = between(&before, encodings::number(self.random, order), &behind);
                let n = encodings::number(self.random, order);
                self.changed(order, &row, place, n);
            }
        }
    }

    /// A row becomes another, number after number, from the front, from the back, or anyhow: in the end what is in use, and its header, are what writing gives.
    fn one_by_one(&mut self, order: usize) {
        for len in [1, 2, 3, 8, 9, 40, 41, 300] {
            for way in 0..3 {
                let row: Vec<u32> = (0..len).map(|_| encodings::number(self.random, order)).collect();
                let mut places: Vec<usize> = (0..len).collect();
                match way {
                    0 => (),
                    1 => places.reverse(),
                    _ => (0..len).for_each(|i| places.swap(i, self.random.below(len))),
                }
                let before = content(self.random, 6 * len);
                let mut so_far = self.write(order, &vec![1; len], &before);
                for place in places {
                    so_far = self.replace(order, &so_far.output, so_far.bytes, place, row[place]);
                }
                let written = self.write(order, &row, &before);
                let sides = [&so_far, &written].map(|side| (side.header, side.output[..side.bytes].to_vec()));
                self.ledger.same("numbers replaced and writing", &sides[0], &sides[1], || format!("order {order}, row {}", numbers(&row)));
            }
        }
    }

    /// The first places of rows of 4,096, one in the midst and the last.
    fn in_full_rows(&mut self, order: usize) {
        for row in encodings::full_rows(self.random, order) {
            for place in [0, 1, 2047, 4095] {
                for n in [1, 2, 600, u32::MAX] {
                    self.changed(order, &row, place, n);
                }
            }
        }
    }

    /// Bytes that are an encoding and bytes that are none, of which all are in use, fewer, or more than there are, in orders that there are and others.
    fn every_check(&mut self, order: usize) {
        let m = if (2..=6).contains(&order) { order } else { 2 };
        for s in right_and_wrong(m) {
            for more in [0, 1, 7] {
                let buffer = [s.clone(), content(self.random, more)].concat();
                let most = model::MOST_BYTES as usize;
                for used in [0, s.len().saturating_sub(1), s.len(), s.len() + 1, buffer.len(), buffer.len() + 1, most, most + 1] {
                    self.every_argument(order, &buffer, used);
                }
                for used in FAR {
                    self.every_argument(order, &buffer, used as usize);
                }
            }
        }
    }

    /// The places around the end of a row and far from it, and numbers that there are and 0.
    fn every_argument(&mut self, order: usize, buffer: &[u8], used: usize) {
        for place in [0, 1, 4, 5, 6, 4095, 4096, 4097].into_iter().chain(FAR) {
            for n in [0, 1, 9, u32::MAX] {
                self.replace(order, buffer, used, place as usize, n);
            }
        }
    }

    /// Rows of about 4,096 ones: the last places that a row has and those after it, with room for no more bits, for one, and for any number.
    fn around_full_rows(&mut self, order: usize) {
        for ones in [4095, 4096, 4097] {
            let s = model::pack(&vec![true; ones * order]);
            for more in [0, 1, 6] {
                let buffer = [s.clone(), content(self.random, more)].concat();
                for place in [0, 4094, 4095, 4096, 4097, usize::MAX] {
                    for n in [0, 1, 2, u32::MAX] {
                        self.replace(order, &buffer, s.len(), place, n);
                    }
                }
            }
        }
    }

    /// Bytes in use around 24,064, in buffers that have so many, fewer or more: zeros, ones, and the largest numbers.
    fn bytes_in_use(&mut self, order: usize) {
        let m = if (2..=6).contains(&order) { order } else { 2 };
        let largest = [model::encoding(m, &[u32::MAX; 4096]), vec![0; 30_000]].concat();
        for longest in [&[0x00; 30_000][..], &[0xFF; 30_000], &largest[..30_000]] {
            for room in [24_063, 24_064, 24_065, 30_000] {
                for used in [24_063, 24_064, 24_065, 30_000, 30_001] {
                    self.replace(order, &longest[..room], used, 4095, 1);
                }
            }
        }
    }

    /// A replacement in bytes of some order, damaged or not, that hold a row of so many numbers there, or none. The buffer has no room for more, just enough,
    /// or more than that; mostly all of the bytes are in use.
    pub fn replace_case(&mut self, order: usize, s: &[u8], count: usize) {
        let more = self.random.below(10);
        let buffer = [s.to_vec(), content(self.random, more)].concat();
        let used = if self.random.once_in(8) { self.random.around(buffer.len()) } else { s.len() };
        let place = if self.random.once_in(4) { self.random.around(count) } else { self.random.below(count.max(1)) };
        let n = match self.random.below(8) {
            0 => 0,
            1 => u32::MAX,
            2 | 3 => 1,
            _ => encodings::number(self.random, order),
        };
        self.replace(order, &buffer, used, place, n);
    }
}
