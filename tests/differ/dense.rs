//! The dense byte code beside the model, for every number of stoppers: the borders of every length and of every digit, short strings, codewords that never end
//! or are far too large, the limits, and which refusal comes first.

use crate::codec::Codec;
use crate::model;
use crate::random::Random;
use crate::text;

const LARGEST: u128 = model::MAX_NUMBER;
const MOST_BYTES: usize = model::MOST_DENSE_BYTES as usize;

/// Stoppers for which there is no code; in some the lowest bits alone would be right.
const NO_STOPPERS: [usize; 12] =
    [0, 255, 256, 257, 384, 65_664, 1 << 32, (1 << 32) + 1, (1 << 32) + 128, 1 << 63, (1 << 63) + 128, usize::MAX];

/// Stoppers for which every string of two bytes is tried, and the longest strings.
const SOME: [usize; 8] = [1, 2, 127, 128, 129, 200, 253, 254];

/// Numbers of a row, as far as they are such.
fn row_of(numbers: Vec<u128>) -> Vec<u32> {
    numbers.into_iter().filter(|n| (1..=LARGEST).contains(n)).map(|n| n as u32).collect()
}

/// How many bytes the largest number has.
fn longest(s: usize) -> usize {
    model::dense_codeword(s, LARGEST).len()
}

/// The first numbers of every length from both sides, and the largest there are.
fn borders(s: usize) -> Vec<u32> {
    let firsts = (1..=longest(s)).map(|k| model::dense_first(s, k));
    let around = firsts.flat_map(|first| [first - 1, first, first + 1]);
    row_of(around.chain([LARGEST - 1, LARGEST]).collect())
}

/// Of every length, the numbers with one digit at one place and else zeros, and the numbers before them.
fn digits(s: usize) -> Vec<u32> {
    let c = 256 - s as u128;
    let mut numbers = Vec::new();
    for k in 2..=longest(s) {
        let mut worth = s as u128;
        for _ in 1..k {
            for digit in 1..c {
                let n = model::dense_first(s, k) + digit * worth;
                numbers.extend([n - 1, n]);
            }
            worth *= c;
        }
    }
    row_of(numbers)
}

/// A number from 1 up: small ones, any of 32 bits, and those where the length of a codeword changes.
fn number(random: &mut Random, s: usize) -> u32 {
    match random.below(5) {
        0 => 1 + random.below(4) as u32,
        1 => 1 + random.below(1000) as u32,
        2 => 1 + (random.next() as u32 >> random.below(32)).min(u32::MAX - 1),
        3 => u32::MAX - random.below(3) as u32,
        _ => {
            let first = model::dense_first(s, 1 + random.below(26)) + random.below(3) as u128 - 1;
            first.clamp(1, LARGEST) as u32
        }
    }
}

/// Bytes of one kind: any; around the first that goes on; mostly such that go on; mostly such that end a codeword.
fn string(random: &mut Random, s: usize, len: usize) -> Vec<u8> {
    let kind = random.below(4);
    let one = |_| match kind {
        0 => random.next() as u8,
        1 => (s + random.below(3)).saturating_sub(1).min(255) as u8,
        2 if random.once_in(8) => random.below(s) as u8,
        2 => (s + random.below(256 - s)) as u8,
        _ if random.once_in(8) => (s + random.below(256 - s)) as u8,
        _ => random.below(s) as u8,
    };
    (0..len).map(one).collect()
}

impl Codec<'_> {
    pub fn dense(&mut self) {
        for s in NO_STOPPERS {
            self.no_stoppers(s);
        }
        for s in 1..=254 {
            self.dense_rows(s);
            self.one_byte(s);
            self.unfinished(s);
            self.too_large(s);
            self.dense_limits(s);
            for _ in 0..200 {
                let len = self.random.below(60);
                let bytes = string(self.random, s, len);
                self.dense_string(s, &bytes);
            }
        }
        for s in SOME {
            self.two_bytes(s);
            self.longest_strings(s);
        }
    }

    // ---- One row, and one string ----

    /// A legal row with outputs that are one too short, exact and longer. What is written is read as the row, and what is read is written as the same bytes.
    fn dense_row(&mut self, s: usize, row: &[u32]) {
        let encoding = model::dense_bytes(s, row);
        for room in [encoding.len().saturating_sub(1), encoding.len() + 3] {
            self.dense_write(s, row, &vec![0xA5; room]);
        }
        for room in [row.len().saturating_sub(1), row.len() + 3] {
            self.dense_read(s, &encoding, &vec![9; room]);
        }
        let written = self.dense_write(s, row, &vec![0xA5; encoding.len()]).output;
        let read = self.dense_read(s, &written, &vec![9; row.len()]).output;
        let again = self.dense_write(s, &read, &vec![0x5A; written.len()]).output;
        let arguments = || format!("stoppers {s}, row {}", text::numbers(row));
        self.ledger.same("a row written and read", &read[..], row, arguments);
        self.ledger.same("its bytes, written again", again, written, arguments);
    }

    /// Any bytes. What is read is written as the same bytes.
    fn dense_string(&mut self, s: usize, bytes: &[u8]) {
        let row = model::dense_row_of(s as u64, bytes);
        let room = row.as_ref().map_or(bytes.len(), |row| row.len());
        let read = self.dense_read(s, bytes, &vec![9; room]);
        if row.is_ok() {
            let again = self.dense_write(s, &read.output, &vec![0xA5; bytes.len()]);
            self.ledger.same("bytes read and written", &again.output[..], bytes, || format!("stoppers {s}, {}", text::bytes(bytes)));
        }
    }

    /// Bytes that reading refuses by this number, with this place.
    fn refused(&mut self, s: usize, bytes: &[u8], number: u64, place: usize) {
        let refusal = model::dense_row_of(s as u64, bytes).err();
        let as_said = matches!(&refusal, Some(refusal) if (refusal.number, refusal.place) == (number, place as u64));
        assert!(as_said, "stoppers {s}, {}: the model does not say {number}, place {place}", text::bytes(bytes));
        for room in [0, bytes.len().min(model::MAX_COUNT)] {
            self.dense_read(s, bytes, &vec![9; room]);
        }
    }

    // ---- Legal rows ----

    fn dense_rows(&mut self, s: usize) {
        let borders = borders(s);
        self.dense_row(s, &borders);
        for n in &borders {
            self.dense_row(s, &[*n]);
        }
        self.small_rows(s, &[1, s as u32, s as u32 + 1, borders[borders.len() / 2], u32::MAX]);
        for row in digits(s).chunks(model::MAX_COUNT) {
            self.dense_row(s, row);
        }
        let largest: Vec<u32> = (0..300).map(|i| u32::MAX - i).collect();
        self.dense_row(s, &largest);
    }

    /// Every row of up to three of some numbers.
    fn small_rows(&mut self, s: usize, numbers: &[u32]) {
        self.dense_row(s, &[]);
        for a in numbers {
            for b in numbers {
                self.dense_row(s, &[*a, *b]);
                for c in numbers {
                    self.dense_row(s, &[*a, *b, *c]);
                }
            }
        }
    }

    // ---- Short strings ----

    /// Every byte alone, and behind the first and last byte that goes on and that ends a codeword, with a codeword's end after it and without.
    fn one_byte(&mut self, s: usize) {
        for byte in 0..=255 {
            self.dense_string(s, &[byte]);
            for other in [s as u8, 255, 0, s as u8 - 1] {
                self.dense_string(s, &[other, byte]);
                self.dense_string(s, &[other, byte, 0]);
            }
        }
    }

    fn two_bytes(&mut self, s: usize) {
        for first in 0..=255 {
            for second in 0..=255 {
                self.dense_string(s, &[first, second]);
                self.dense_string(s, &[first, second, 0]);
            }
        }
    }

    // ---- Codewords that do not end, and codewords that are too large ----

    /// Runs of bytes that go on, of every length to 60, alone and behind legal rows; and the codeword of the largest number without its last bytes.
    fn unfinished(&mut self, s: usize) {
        let largest = model::dense_codeword(s, LARGEST);
        for byte in [s as u8, 255] {
            for len in 1..=60 {
                let run = vec![byte; len];
                self.refused(s, &run, 17, 0);
                self.refused(s, &[&largest, &run[..]].concat(), 17, 0);
                self.refused(s, &[&[0, s as u8 - 1], &largest[..], &run].concat(), 17, 0);
            }
        }
        for len in 1..largest.len() {
            self.refused(s, &largest[..len], 17, 0);
        }
    }

    fn too_large(&mut self, s: usize) {
        for more in 1..=300 {
            self.refused(s, &model::dense_codeword(s, LARGEST + more), 7, 0);
        }
        let next = model::dense_codeword(s, LARGEST + 1);
        for before in [1, 2, 7, 4094, 4095] {
            let legal = vec![s as u8 - 1; before];
            self.refused(s, &[&legal, &next[..]].concat(), 7, before);
        }
        self.dense_wrapped(s);
        self.dense_long_codewords(s);
    }

    /// Numbers that look small where they, or what their leading bytes are worth, are taken modulo a power of two.
    fn dense_wrapped(&mut self, s: usize) {
        for power in [32, 33, 48, 63, 64, 65, 80, 96, 112] {
            for small in [0, 1, 2, 600, LARGEST] {
                let n = (1 << power) + small;
                self.refused(s, &model::dense_codeword(s, n), 7, 0);
                self.refused(s, &model::dense_codeword(s, s as u128 * n + 1), 7, 0);
                self.refused(s, &model::dense_codeword(s, s as u128 * (n + 1)), 7, 0);
            }
        }
    }

    /// Codewords of every length from one more than the largest number has on to 150 bytes: of the lowest, the highest and any digits.
    fn dense_long_codewords(&mut self, s: usize) {
        for len in longest(s)..150 {
            self.refused(s, &[&vec![s as u8; len][..], &[0]].concat(), 7, 0);
            self.refused(s, &[&vec![255; len][..], &[s as u8 - 1]].concat(), 7, 0);
            let mut any: Vec<u8> = (0..len).map(|_| (s + self.random.below(256 - s)) as u8).collect();
            any.push(self.random.below(s) as u8);
            self.refused(s, &any, 7, 0);
        }
    }

    // ---- Limits ----

    fn dense_limits(&mut self, s: usize) {
        let (first, last, goes_on) = (vec![0u8; 4096], vec![s as u8 - 1; 4096], vec![255u8; 30]);
        let next = model::dense_codeword(s, LARGEST + 1);
        // 4,096 codewords are legal, of one byte and of the most
        self.dense_row(s, &[1; 4096]);
        self.dense_row(s, &[s as u32; 4096]);
        self.dense_row(s, &[u32::MAX; 4096]);
        // the 4,097th is 4, also where it is too large; before it comes the 7 of one before, and after it 17
        self.refused(s, &[&first[..], &[0]].concat(), 4, 0);
        self.refused(s, &[&first[..], &next].concat(), 4, 0);
        self.refused(s, &[&last[..], &[0], &goes_on].concat(), 4, 0);
        self.refused(s, &[&next[..], &last, &last].concat(), 7, 0);
        self.refused(s, &[&last[..4095], &next, &last].concat(), 7, 4095);
        self.refused(s, &[&next[..], &goes_on].concat(), 7, 0);
        self.refused(s, &[&last[..], &goes_on].concat(), 17, 0);
        self.not_written(s);
    }

    /// The most bytes, of which 4,096 numbers have as many only with 254 stoppers, and one more.
    fn longest_strings(&mut self, s: usize) {
        let largest = model::dense_bytes(s, &[u32::MAX; 4096]);
        assert_eq!(largest.len() == MOST_BYTES, s == 254);
        self.refused(s, &[&largest[..], &[0]].concat(), if s == 254 { 2 } else { 4 }, 0);
        for goes_on in [s as u8, 255] {
            let mut bytes = vec![goes_on; MOST_BYTES];
            self.refused(s, &bytes, 17, 0);
            for last in [0, s as u8 - 1] {
                bytes[MOST_BYTES - 1] = last;
                self.refused(s, &bytes, 7, 0);
            }
            bytes.push(0);
            self.refused(s, &bytes, 2, 0);
        }
        self.refused(s, &vec![0; MOST_BYTES], 4, 0);
        self.refused(s, &vec![0; MOST_BYTES + 1], 2, 0);
    }

    /// What writing refuses: 4 before 3, 3 before 5, and 5 with every room that is too short.
    fn not_written(&mut self, s: usize) {
        for room in [0, 3, 8200] {
            let out = vec![0xA5; room];
            self.dense_write(s, &[1; 4097], &out);
            self.dense_write(s, &[0; 4097], &out);
            self.dense_write(s, &[0; 4096], &out);
            self.dense_write(s, &[1, 2, 0, u32::MAX, 0], &out);
            let mut full = [1; 4096];
            full[4095] = 0;
            self.dense_write(s, &full, &out);
        }
        let row = [1, u32::MAX, 2];
        for room in 0..=model::dense_bytes(s, &row).len() {
            self.dense_write(s, &row, &vec![0xA5; room]);
        }
    }

    /// 16 comes first.
    fn no_stoppers(&mut self, s: usize) {
        for row in [&[][..], &[1], &[0], &[1; 4097], &[0; 4097]] {
            for room in [0, 5000] {
                self.dense_write(s, row, &vec![0xA5; room]);
            }
        }
        for bytes in [&[][..], &[0], &[127], &[255], &[0; 4097], &[255; MOST_BYTES], &[0; MOST_BYTES + 1]] {
            self.refused(s, bytes, 16, 0);
        }
    }

    // ---- Random cases ----

    pub fn dense_case(&mut self) {
        let stoppers = self.random.stoppers();
        let s = stoppers.clamp(1, 254);
        let len = match self.random.below(40) {
            0 => self.random.one_of(&[4095, 4096, 4097]),
            1 => self.random.below(1000),
            _ => self.random.below(14),
        };
        let mut row: Vec<u32> = (0..len).map(|_| number(self.random, s)).collect();
        let mut encoding = model::dense_bytes(s, &row);
        if len > 0 && self.random.once_in(8) {
            row[self.random.below(len)] = 0;
        }
        let room = self.random.room(encoding.len());
        let out = self.random.bytes(room);
        self.dense_write(stoppers, &row, &out);
        self.damage(s, &mut encoding);
        let room = self.random.room(len);
        let out = self.random.numbers(room);
        self.dense_read(stoppers, &encoding, &out);
    }

    /// Some bytes are changed, taken off or put behind; or a number is too large.
    fn damage(&mut self, s: usize, bytes: &mut Vec<u8>) {
        match self.random.below(6) {
            0 => {
                for _ in 0..self.random.below(3).min(bytes.len()) {
                    let place = self.random.below(bytes.len());
                    bytes[place] = self.random.next() as u8;
                }
            }
            1 => bytes.truncate(bytes.len().saturating_sub(1 + self.random.below(3))),
            2 => {
                let len = self.random.below(40);
                let more = string(self.random, s, len);
                bytes.extend(more);
            }
            3 if self.random.once_in(4) => {
                let more = 1 + (self.random.next() >> self.random.below(64)) as u128;
                bytes.extend(model::dense_codeword(s, LARGEST + more));
                let len = self.random.below(40);
                let behind = string(self.random, s, len);
                bytes.extend(behind);
            }
            _ => (),
        }
    }
}
