//! The index and its three questions beside the model.

use crate::border::{told, Border, Called, Told};
use crate::ledger::Ledger;
use crate::model::{self, Answer, Index, Refusal};
use crate::random::Random;
use crate::text::{bytes, numbers};

/// Bytes as the model judges them: an index, or their refusal.
type Checked = Result<Index, Refusal>;

/// What the model answers of bytes: their refusal, or what the index that they are says.
fn model_answer(checked: &Checked, question: impl Fn(&Index) -> Answer<(u64, u64)>) -> Told {
    match checked {
        Ok(index) => {
            let a = question(index);
            told(a.number, a.place, &[a.results.0, a.results.1])
        }
        Err(refusal) => told(refusal.number, refusal.place, &[]),
    }
}

/// The index of a row, by the model; no bytes where there is none.
fn index_of(order: usize, alphabet: u32, row: &[u32]) -> Vec<u8> {
    let mut s = vec![0; 8192];
    let bits = model::build(order as u64, alphabet as u64, row, &mut s).results as usize;
    s.truncate((bits + 7) / 8);
    s
}

/// Every order, with alphabets of up to six numbers and lengths of up to four.
fn small() -> impl Iterator<Item = (usize, u32, usize)> {
    (2..=6).flat_map(|order| (1..=6).flat_map(move |alphabet| (0..=4).map(move |len| (order, alphabet, len))))
}

/// Every row of a length over an alphabet.
fn rows(alphabet: u32, len: usize) -> impl Iterator<Item = Vec<u32>> {
    let number = move |code: u32, place: usize| code / alphabet.pow(place as u32) % alphabet + 1;
    (0..alphabet.pow(len as u32)).map(move |code| (0..len).map(|place| number(code, place)).collect())
}

/// Bytes that are to be the index of a row of `len` numbers.
struct Candidate<'a> {
    order: usize,
    alphabet: u32,
    len: usize,
    s: &'a [u8],
    checked: Checked,
}

impl<'a> Candidate<'a> {
    fn new(order: usize, alphabet: u32, len: usize, s: &'a [u8]) -> Candidate<'a> {
        let checked = model::index_of(order as u64, alphabet as u64, len as u64, s);
        Candidate { order, alphabet, len, s, checked }
    }

    fn told(&self, question: &str) -> String {
        format!("{question} of (order {}, alphabet {}, len {}, index {})", self.order, self.alphabet, self.len, bytes(self.s))
    }
}

pub struct Indexing<'a> {
    pub border: &'a mut Border,
    pub ledger: &'a mut Ledger,
    pub random: &'a mut Random,
}

impl Indexing<'_> {
    fn build(&mut self, order: usize, alphabet: u32, row: &[u32], out: &[u8]) -> Called<u8> {
        let called = self.border.build(order, alphabet, row, out);
        let mut output = out.to_vec();
        let a = model::build(order as u64, alphabet as u64, row, &mut output);
        let arguments = || format!("build(order {order}, alphabet {alphabet}, row {}, out {})", numbers(row), bytes(out));
        self.ledger.compare("build", &a.number.to_string(), &called, told(a.number, a.place, &[a.results]), &output, arguments);
        called
    }

    fn extract(&mut self, index: &Candidate, i: usize) {
        let called = self.border.extract(index.order, index.alphabet, index.len, index.s, i);
        let tells = model_answer(&index.checked, |index| index.extract(i as u64));
        self.ledger.compare("extract", &tells[0].to_string(), &called, tells, &[], || index.told(&format!("extract(i {i})")));
    }

    fn rank(&mut self, index: &Candidate, n: u32, i: usize) {
        let called = self.border.rank(index.order, index.alphabet, index.len, index.s, n, i);
        let tells = model_answer(&index.checked, |index| index.rank(n as u64, i as u64));
        self.ledger.compare("rank", &tells[0].to_string(), &called, tells, &[], || index.told(&format!("rank(n {n}, i {i})")));
    }

    fn select(&mut self, index: &Candidate, n: u32, j: usize) {
        let called = self.border.select(index.order, index.alphabet, index.len, index.s, n, j);
        let tells = model_answer(&index.checked, |index| index.select(n as u64, j as u64));
        self.ledger.compare("select", &tells[0].to_string(), &called, tells, &[], || index.told(&format!("select(n {n}, j {j})")));
    }

    // ---- Random cases ----

    fn alphabet(&mut self) -> u32 {
        match self.random.below(12) {
            0 => self.random.one_of(&[0, 4097, 4098, 65_536, 65_537, u32::MAX]),
            1 => self.random.one_of(&[4095, 4096]),
            2 => self.random.one_of(&[100, 256, 987, 1000, 2584]),
            _ => 1 + self.random.below(40) as u32,
        }
    }

    fn number(&mut self, alphabet: u32) -> u32 {
        let most = alphabet.clamp(1, 4096) as usize;
        match self.random.below(4) {
            0 => 1 + self.random.below(most.min(3)) as u32,
            1 => (most - self.random.below(most.min(3))) as u32,
            _ => 1 + self.random.below(most) as u32,
        }
    }

    fn row(&mut self, alphabet: u32) -> Vec<u32> {
        let len = match self.random.below(40) {
            0 => self.random.one_of(&[4095, 4096, 4097, 5000]),
            1..=3 => self.random.below(400),
            _ => self.random.below(14),
        };
        let mut row: Vec<u32> = match self.random.below(4) {
            0 => vec![self.number(alphabet); len],
            _ => (0..len).map(|_| self.number(alphabet)).collect(),
        };
        for _ in 0..self.random.one_of(&[0, 0, 0, 0, 0, 0, 0, 0, 1, 2]) {
            if !row.is_empty() {
                let place = self.random.below(len);
                row[place] = self.random.one_of(&[0, alphabet.wrapping_add(1), u32::MAX]);
            }
        }
        row
    }

    fn damage(&mut self, s: &mut Vec<u8>) {
        match self.random.below(5) {
            0 => s.truncate(s.len().saturating_sub(1)),
            1 => s.push(self.random.one_of(&[0x00, 0x01, 0x80])),
            2 => {
                let len = self.random.below(20);
                *s = self.random.bytes(len);
            }
            _ => {
                if !s.is_empty() {
                    let place = s.len() - 1 - self.random.below(s.len().min(4));
                    s[place] ^= 1 << self.random.below(8);
                }
            }
        }
    }

    /// A row's index is built, and asked, whole or damaged.
    pub fn case(&mut self) {
        let order = self.random.order();
        let alphabet = self.alphabet();
        let row = self.row(alphabet);
        let mut s = index_of(order, alphabet, &row);
        let room = self.random.room(s.len());
        let out = self.random.bytes(room);
        self.build(order, alphabet, &row, &out);
        let mut len = row.len();
        let (mut order, mut alphabet) = (order, alphabet);
        if self.random.once_in(3) {
            self.damage(&mut s);
        }
        // the same bytes asked as something else
        match self.random.below(24) {
            0 => order = self.random.order(),
            1 => alphabet = self.alphabet(),
            2 => len = self.random.around(len),
            3 => len = self.random.around(4096),
            _ => (),
        }
        self.questions(order, alphabet, len, &s);
    }

    fn questions(&mut self, order: usize, alphabet: u32, len: usize, s: &[u8]) {
        let index = Candidate::new(order, alphabet, len, s);
        for _ in 0..4 {
            let i = self.random.around(len);
            self.extract(&index, i);
            let n = match self.random.below(8) {
                0 => self.random.one_of(&[0, alphabet.wrapping_add(1), u32::MAX, 4097, 65_537]),
                _ => self.number(alphabet),
            };
            let i = self.random.around(len);
            self.rank(&index, n, i);
            // uses around the last one
            let uses = match &index.checked {
                Ok(index) => index.row.iter().filter(|x| **x == n).count(),
                Err(_) => 0,
            };
            let j = self.random.around(uses);
            self.select(&index, n, j);
        }
    }

    fn ask(&mut self, index: &Candidate, n: u32, i: usize, j: usize) {
        self.extract(index, i);
        self.rank(index, n, i);
        self.select(index, n, j);
    }

    // ---- What is tried whole ----

    /// Every row of up to four numbers from up to six, and every place, number and use, the first illegal ones too.
    pub fn small_rows(&mut self) {
        for (order, alphabet, len) in small() {
            for row in rows(alphabet, len) {
                self.build(order, alphabet, &row, &[0xA5; 4]);
                let s = index_of(order, alphabet, &row);
                let index = Candidate::new(order, alphabet, len, &s);
                assert!(matches!(&index.checked, Ok(checked) if checked.row == row));
                for i in 0..=len + 1 {
                    self.extract(&index, i);
                    for n in 0..=alphabet + 1 {
                        self.rank(&index, n, i);
                        self.select(&index, n, i);
                    }
                }
            }
        }
    }

    /// Every string of up to two bytes as the index of up to four numbers from up to six. It is refused, or it is the index of the row that is extracted
    /// from it; those that are an index are as many as there are rows whose index has up to two bytes.
    pub fn small_strings(&mut self) {
        let mut strings = vec![vec![]];
        strings.extend((0..=255).map(|byte| vec![byte]));
        strings.extend((0..=65_535u16).map(|two| two.to_be_bytes().to_vec()));
        for (order, alphabet, len) in small() {
            let mut taken = 0;
            for s in &strings {
                let index = Candidate::new(order, alphabet, len, s);
                self.ask(&index, 1, 0, 1);
                if let Ok(checked) = &index.checked {
                    taken += 1;
                    for i in 1..len {
                        self.extract(&index, i);
                    }
                    let built = self.build(order, alphabet, &checked.row, &vec![0xA5; s.len()]);
                    self.ledger.same("an index built again", &built.output, s, || index.told("extract"));
                }
            }
            assert_eq!(taken, rows(alphabet, len).filter(|row| index_of(order, alphabet, row).len() <= 2).count());
        }
    }

    /// The visits of every number of small alphabets and of large ones, as ranks in an empty row tell them.
    pub fn visits(&mut self) {
        for order in 2..=6 {
            for alphabet in (1..=16).chain([987, 988, 4095, 4096]) {
                let index = Candidate::new(order, alphabet, 0, &[]);
                for n in 1..=alphabet {
                    self.rank(&index, n, 0);
                }
            }
        }
    }

    /// Rows of 4,096 numbers that change from place to place, asked at 65 places for numbers that they have, and for numbers that they may not have.
    pub fn large_rows(&mut self) {
        for order in 2..=6 {
            for alphabet in [2, 3, 5, 8, 100, 1000, 4096] {
                for modulus in [1009, 4099] {
                    let row: Vec<u32> = (0..4096).map(|i| i * 2053 % modulus % alphabet + 1).collect();
                    self.build(order, alphabet, &row, &[0xA5; 8192]);
                    let s = index_of(order, alphabet, &row);
                    let index = Candidate::new(order, alphabet, 4096, &s);
                    for k in 0..=64 {
                        self.ask(&index, row[63 * k], 64 * k, k % 8);
                        self.ask(&index, 63 * k as u32 % (alphabet + 2), 63 * k, k % 3);
                    }
                }
            }
        }
    }

    /// The limits of order, alphabet and length, alone and together.
    pub fn limits(&mut self) {
        for order in [0, 1, 2, 3, 6, 7, 8, usize::MAX] {
            for alphabet in [0, 1, 2, 4095, 4096, 4097, u32::MAX] {
                for len in [0, 1, 4095, 4096, 4097usize] {
                    let most = alphabet.clamp(1, 4096);
                    let row: Vec<u32> = (0..len).map(|i| if i % 2 == 0 { most } else { 1 }).collect();
                    let s = index_of(order, alphabet, &row);
                    self.build(order, alphabet, &row, &vec![0xA5; s.len()]);
                    for length in [len, len + 1, usize::MAX] {
                        self.questions(order, alphabet, length, &s);
                    }
                    let longer = [&s[..], &[0; 8193]].concat();
                    self.questions(order, alphabet, len, &longer);
                }
            }
        }
    }
}
