//! The text of the listing program beside the model.

use crate::border::{told, Border};
use crate::encodings;
use crate::ledger::Ledger;
use crate::model;
use crate::random::Random;
use crate::text::bytes;

pub struct Listing<'a> {
    pub border: &'a mut Border,
    pub ledger: &'a mut Ledger,
    pub random: &'a mut Random,
}

fn line(n: u64) -> Vec<u8> {
    format!("{n:>10}\n").into_bytes()
}

/// Which answer a text is.
fn kind(text: &[u8]) -> String {
    match text {
        [b'N', b'O', number @ .., b'\n'] => format!("NO {}", String::from_utf8_lossy(number).trim()),
        _ => "a listing".to_string(),
    }
}

impl Listing<'_> {
    fn listing(&mut self, input: &[u8], out: &[u8]) {
        let called = self.border.listing(input, out);
        let text = model::listing(input);
        let mut output = out.to_vec();
        let mut tells = told(5, 0, &[]);
        let mut answer = "5".to_string();
        if text.len() <= output.len() {
            output[..text.len()].copy_from_slice(&text);
            tells = told(0, 0, &[text.len() as u64]);
            answer = kind(&text);
        }
        let arguments = || format!("listing(input {}, out {})", bytes(input), bytes(out));
        self.ledger.compare("listing", &answer, &called, tells, &output, arguments);
    }

    /// With an output of about the length of the text.
    fn listed(&mut self, input: &[u8]) {
        let need = model::listing(input).len();
        let room = self.random.room(need);
        let out = self.random.bytes(room);
        self.listing(input, &out);
    }

    /// A number that some check refuses, or that a narrower number would hold as another.
    fn odd(&mut self) -> u64 {
        self.random.one_of(&[0, 4_294_967_296, 4_294_967_297, 4_294_967_298, 9_999_999_999, 4_294_967_295, 8_589_934_594, 1_000_000_000])
    }

    fn damage(&mut self, input: &mut Vec<u8>) {
        if input.is_empty() {
            return;
        }
        let place = self.random.below(input.len());
        match self.random.below(8) {
            0 => input[place] = self.random.next() as u8,
            1 => input[place] = self.random.one_of(b" 0123456789\n\r\t+-._"),
            2 => input.insert(place, self.random.one_of(b" 01\n\r")),
            3 => {
                input.remove(place);
            }
            4 => input.truncate(place),
            5 => input.push(self.random.one_of(b" 0\n1")),
            6 => {
                let other = self.random.below(input.len());
                input.swap(place, other);
            }
            _ => {
                let more = self.random.below(25);
                input.extend(self.random.bytes(more));
            }
        }
    }

    pub fn case(&mut self) {
        // ten columns hold no larger number
        let order = self.random.order() as u64 % 10_000_000_000;
        let mut input = line(order);
        for n in encodings::row(self.random, order as usize) {
            input.extend(line(n as u64));
        }
        if self.random.once_in(6) {
            let n = self.odd();
            let place = self.random.below(input.len() / 11);
            input.splice(11 * place..11 * place + 11, line(n));
        }
        if self.random.once_in(3) {
            self.damage(&mut input);
        }
        self.listed(&input);
    }

    /// Every character at every column of a line, and the limits.
    pub fn fixed(&mut self) {
        let good = [line(2), line(1_234_567_890), line(7)].concat();
        for place in 0..good.len() {
            for character in 0..=255 {
                let mut input = good.clone();
                input[place] = character;
                self.listing(&input, &[0xA5; 160]);
            }
        }
        for place in 0..11 {
            for character in 0..=255 {
                let mut input = line(3);
                input[place] = character;
                self.listing(&input, &[0xA5; 60]);
            }
        }
        for cut in 0..=good.len() {
            self.listing(&good[..cut], &[0xA5; 160]);
        }
        for n in 0..=20 {
            self.listing(&line(n), &[0xA5; 56]);
        }
        self.long();
    }

    fn long(&mut self) {
        for n in [0, 1, 4_294_967_295, 4_294_967_296] {
            for len in [4095, 4096, 4097] {
                let mut input = line(2);
                for _ in 0..len {
                    input.extend(line(n));
                }
                for room in [7, 8, 155_702, 155_703, 155_704] {
                    self.listing(&input, &vec![0xA5; room]);
                }
                // a character more, and one less
                let longer = [&input[..], b"x"].concat();
                self.listing(&longer, &vec![0xA5; 9]);
                self.listing(&input[..input.len() - 1], &vec![0xA5; 9]);
            }
        }
        for len in [45_066, 45_067, 45_068, 70_000] {
            self.listing(&vec![b' '; len], &[0xA5; 8]);
            self.listing(&vec![b'\n'; len], &[0xA5; 7]);
        }
    }
}
