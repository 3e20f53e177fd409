//! Writing, the two readers, the dense code, headers, appending, replacing and its preview, and totals beside the model.

use crate::border::{told, Border, Called, Told, TOLD};
use crate::encodings;
use crate::ledger::Ledger;
use crate::model::{self, Answer, Header};
use crate::random::Random;
use crate::text::{bytes, numbers};

fn one(a: &Answer<u64>) -> Told {
    told(a.number, a.place, &[a.results])
}

fn encoded(a: &Answer<(u64, Header)>) -> Told {
    let (bytes, header) = a.results;
    told(a.number, a.place, &[bytes, header.bits, header.count, header.total])
}

/// What writing, appending or replacing leaves: the number of its answer, the bytes in use, the header, and the output. The library's answer is held to the
/// model's before.
#[derive(PartialEq, Debug)]
pub struct Encoded {
    pub number: u64,
    pub bytes: usize,
    pub header: Header,
    pub output: Vec<u8>,
}

impl Encoded {
    fn new(a: &Answer<(u64, Header)>, called: Called<u8>) -> Encoded {
        Encoded { number: a.number, bytes: a.results.0 as usize, header: a.results.1, output: called.output }
    }
}

/// An append's answer, and what decided it: of 18 and 5 the limit that is passed, where it is one alone; where all went well, whether the header was true.
fn append_answer(number: u64, order: usize, buf: &[u8], header: Header, n: u32) -> String {
    let passed = |bits: u64| vec![("buffer", bits > 8 * buf.len() as u64), ("bits", bits > model::MOST_BITS)];
    let given = || vec![("count", header.count > model::MAX_COUNT as u64), ("total", header.total > model::MOST_TOTAL)];
    let reasons = match number {
        0 => {
            let is_true = model::is_true(order as u64, buf, header);
            vec![("true", is_true), ("false", !is_true)]
        }
        18 => [passed(header.bits), given()].concat(),
        5 => passed(header.bits + model::codeword(order, n as u128).len() as u64),
        _ => Vec::new(),
    };
    decided(number, &reasons)
}

/// The answer of a replacement and of its preview, and what decided it: of 2 the limit that is passed, where it is one alone; where all went well, whether fewer
/// bytes, as many or more are then in use.
fn replace_answer(a: &Answer<(u64, Header)>, buf: &[u8], used: usize) -> String {
    let bytes = a.results.0 as usize;
    let reasons = match a.number {
        0 => vec![("fewer", bytes < used), ("as many", bytes == used), ("more", bytes > used)],
        2 => vec![("buffer", used > buf.len()), ("bytes", used as u64 > model::MOST_BYTES)],
        _ => Vec::new(),
    };
    decided(a.number, &reasons)
}

/// An answer with the reason that holds, where it is one alone.
fn decided(number: u64, reasons: &[(&str, bool)]) -> String {
    let reasons: Vec<&str> = reasons.iter().filter(|(_, holds)| *holds).map(|(reason, _)| *reason).collect();
    match reasons[..] {
        [one] => format!("{number} ({one})"),
        _ => number.to_string(),
    }
}

/// Each operation, called through the border and asked of the model.
pub struct Codec<'a> {
    pub border: &'a mut Border,
    pub ledger: &'a mut Ledger,
    pub random: &'a mut Random,
}

impl Codec<'_> {
    pub fn write(&mut self, order: usize, row: &[u32], out: &[u8]) -> Encoded {
        let called = self.border.write(order, row, out);
        let mut output = out.to_vec();
        let a = model::write(order as u64, row, &mut output);
        let arguments = || format!("write(order {order}, row {}, out {})", numbers(row), bytes(out));
        self.ledger.compare("write", &a.number.to_string(), &called, encoded(&a), &output, arguments);
        Encoded::new(&a, called)
    }

    pub fn read(&mut self, order: usize, s: &[u8], out: &[u32]) {
        let called = self.border.read(order, s, out);
        let mut output = out.to_vec();
        let a = model::read(order as u64, s, &mut output);
        let arguments = || format!("read(order {order}, s {}, out {})", bytes(s), numbers(out));
        self.ledger.compare("read", &a.number.to_string(), &called, one(&a), &output, arguments);
    }

    pub fn table_read(&mut self, s: &[u8], out: &[u32]) {
        let called = self.border.table_read(s, out);
        let mut output = out.to_vec();
        let a = model::table_read(s, &mut output);
        let arguments = || format!("table_read(s {}, out {})", bytes(s), numbers(out));
        self.ledger.compare("table_read", &a.number.to_string(), &called, one(&a), &output, arguments);
    }

    pub fn table_read_bytes(&mut self, s: &[u8], out: &[u8]) {
        let called = self.border.table_read_bytes(s, out);
        let mut output = out.to_vec();
        let a = model::table_read_bytes(s, &mut output);
        let arguments = || format!("table_read_bytes(s {}, out {})", bytes(s), bytes(out));
        self.ledger.compare("table_read_bytes", &a.number.to_string(), &called, one(&a), &output, arguments);
    }

    pub fn dense_write(&mut self, stoppers: usize, row: &[u32], out: &[u8]) -> Called<u8> {
        let called = self.border.dense_write(stoppers, row, out);
        let mut output = out.to_vec();
        let a = model::dense_write(stoppers as u64, row, &mut output);
        let arguments = || format!("dense_write(stoppers {stoppers}, row {}, out {})", numbers(row), bytes(out));
        self.ledger.compare("dense_write", &a.number.to_string(), &called, one(&a), &output, arguments);
        called
    }

    pub fn dense_read(&mut self, stoppers: usize, s: &[u8], out: &[u32]) -> Called<u32> {
        let called = self.border.dense_read(stoppers, s, out);
        let mut output = out.to_vec();
        let a = model::dense_read(stoppers as u64, s, &mut output);
        let arguments = || format!("dense_read(stoppers {stoppers}, s {}, out {})", bytes(s), numbers(out));
        self.ledger.compare("dense_read", &a.number.to_string(), &called, one(&a), &output, arguments);
        called
    }

    /// The header that an encoding has, where it has one.
    pub fn header(&mut self, order: usize, s: &[u8]) -> Option<Header> {
        let called = self.border.header(order, s);
        let a = model::header(order as u64, s);
        let header = a.results;
        let tells = told(a.number, a.place, &[header.bits, header.count, header.total]);
        self.ledger.compare("header", &a.number.to_string(), &called, tells, &[], || format!("header(order {order}, s {})", bytes(s)));
        if a.number == 0 { Some(header) } else { None }
    }

    /// .. From a true header comes a true one: it is what the bytes then in use have.
    pub fn append(&mut self, order: usize, buf: &[u8], header: Header, n: u32) -> Encoded {
        let called = self.border.append(order, buf, header, n);
        let mut output = buf.to_vec();
        let a = model::append(order as u64, &mut output, header, n);
        let answer = append_answer(a.number, order, buf, header, n);
        let arguments = || format!("append(order {order}, buf {}, {header:?}, n {n})", bytes(buf));
        self.ledger.compare("append", &answer, &called, encoded(&a), &output, arguments);
        let appended = Encoded::new(&a, called);
        if answer == "0 (true)" {
            let has = self.header(order, &appended.output[..appended.bytes]);
            self.ledger.same("a header after a true one", Some(appended.header), has, arguments);
        }
        appended
    }

    /// .. It is previewed first: that answers the same, by the model and by what the replacement then does on a copy, and leaves the buffer alone. The header
    /// that both answer is a true one: it is what the bytes then in use have.
    pub fn replace(&mut self, order: usize, buf: &[u8], used: usize, place: usize, n: u32) -> Encoded {
        let previewed = self.border.preview(order, buf, used, place, n);
        let called = self.border.replace(order, buf, used, place, n);
        let mut output = buf.to_vec();
        let a = model::replace(order as u64, &mut output, used as u64, place as u64, n);
        let answer = replace_answer(&a, buf, used);
        let arguments = || format!("replace(order {order}, buf {}, used {used}, place {place}, n {n})", bytes(buf));
        self.ledger.compare("preview", &answer, &previewed, encoded(&a), &[], arguments);
        self.ledger.compare("replace", &answer, &called, encoded(&a), &output, arguments);
        let told = previewed.answer.len().min(called.answer.len());
        self.ledger.same("a preview and the replacement", &previewed.answer[..told], &called.answer[..told], arguments);
        let replaced = Encoded::new(&a, called);
        if a.number == 0 {
            let has = self.header(order, &replaced.output[..replaced.bytes]);
            self.ledger.same("a header after replacing", Some(replaced.header), has, arguments);
        }
        replaced
    }

    pub fn total(&mut self, order: usize, s: &[u8], from: usize, to: usize) {
        let called = self.border.total(order, s, from, to);
        let a = model::total(order as u64, s, from as u64, to as u64);
        let arguments = || format!("total(order {order}, s {}, a {from}, b {to})", bytes(s));
        self.ledger.compare("total", &a.number.to_string(), &called, one(&a), &[], arguments);
    }

    pub fn repeated_total(&mut self, order: usize, s: &[u8], repeats: u64, shared: u64) {
        let called = self.border.repeated_total(order, s, repeats, shared);
        let a = model::repeated_total(order as u64, s, repeats, shared);
        let arguments = || format!("repeated_total(order {order}, s {}, repeats {repeats}, shared {shared})", bytes(s));
        self.ledger.compare("repeated_total", &a.number.to_string(), &called, one(&a), &[], arguments);
    }

    /// .. with 0 and 1 shared, the row's total and one more, and as much as can be asked for.
    fn repeated_totals(&mut self, order: usize, s: &[u8], repeats: u64) {
        let total = model::row_of(order as u64, s).map_or(0, |row| model::sum(&row));
        for shared in [0, 1, total, total + 1, u64::MAX] {
            self.repeated_total(order, s, repeats, shared);
        }
    }

    // ---- What the library says twice ----

    /// The two readers answer the same and leave the same; into bytes, the same four bytes for each number.
    pub fn readers(&mut self, s: &[u8], out: &[u32]) {
        let by_bits = self.border.read(3, s, out);
        let by_bytes = self.border.table_read(s, out);
        let arguments = || format!("s {}, out {}", bytes(s), numbers(out));
        // the answers' lists may have room for fewer numbers
        let both = by_bits.answer.len().min(by_bytes.answer.len()).min(TOLD);
        self.ledger.same("the two readers' answers", &by_bits.answer[..both], &by_bytes.answer[..both], arguments);
        self.ledger.same("the two readers' rows", &by_bits.output, &by_bytes.output, arguments);
        let host: Vec<u8> = out.iter().flat_map(|n| n.to_le_bytes()).collect();
        let into_bytes = self.border.table_read_bytes(s, &host);
        let expected: Vec<u8> = by_bits.output.iter().flat_map(|n| n.to_le_bytes()).collect();
        self.ledger.same("the table decoder's rows", &into_bytes.output, &expected, arguments);
    }

    /// What is written is read, and the row comes back; numbers appended one after the other are the row written. The header that is read is the result.
    fn round_trip(&mut self, order: usize, row: &[u32], encoding: &[u8]) -> Header {
        let arguments = || format!("order {order}, row {}", numbers(row));
        let junk = self.random.numbers(row.len());
        let read = self.border.read(order, encoding, &junk);
        self.ledger.same("a round trip", &read.output[..], row, arguments);
        if order == 3 {
            let read = self.border.table_read(encoding, &junk);
            self.ledger.same("a round trip by bytes", &read.output[..], row, arguments);
        }
        let header = self.header(order, encoding).unwrap();
        if row.len() <= 40 {
            let mut so_far = Header::default();
            let mut buffer = self.random.bytes(encoding.len());
            for n in row {
                let appended = self.append(order, &buffer, so_far, *n);
                so_far = appended.header;
                buffer = appended.output;
            }
            self.ledger.same("numbers appended", (&buffer[..], so_far), (encoding, header), arguments);
        }
        header
    }

    // ---- Random cases ----

    /// A row is written, and read again where that went well.
    pub fn row_case(&mut self) {
        let order = self.random.order();
        let row = encodings::row_with_faults(self.random, order);
        let legal = (2..=6).contains(&order) && row.len() <= model::MAX_COUNT && !row.contains(&0);
        let encoding = if legal { model::encoding(order, &row) } else { Vec::new() };
        let room = if legal { self.random.room(encoding.len()) } else { self.random.below(60) };
        let out = self.random.bytes(room);
        let written = self.write(order, &row, &out);
        if legal {
            let header = self.round_trip(order, &row, &encoding);
            if written.number == 0 {
                self.ledger.same("a header", written.header, header, || format!("order {order}, row {}", numbers(&row)));
            }
        }
    }

    /// An encoding, whole or damaged, is handed to all that read one.
    pub fn encoding_case(&mut self) {
        let made = 2 + self.random.below(5);
        let s = encodings::encoding(self.random, made);
        let order = if self.random.once_in(8) { self.random.order() } else { made };
        let row = model::row_of(order as u64, &s).unwrap_or_default();
        let count = row.len();
        let room = self.random.room(count);
        let out = self.random.numbers(room);
        self.read(order, &s, &out);
        if made == 3 || self.random.once_in(4) {
            self.table_case(&s);
        }
        let (from, to) = (self.random.around(count), self.random.around(count));
        self.total(order, &s, from, to);
        self.total(order, &s, from.min(to), from.max(to));
        let from = self.random.below(count + 1);
        let to = from + self.random.below(count + 1 - from);
        self.total(order, &s, from, to);
        let repeats = self.random.around(10_000) as u64;
        let shared = self.random.around(model::sum(&row) as usize) as u64;
        self.repeated_total(order, &s, repeats, shared);
        self.header(order, &s);
        self.replace_case(order, &s, count);
        self.append_case(order, made, s);
    }

    fn table_case(&mut self, s: &[u8]) {
        let count = model::row_of(3, s).map_or(0, |row| row.len());
        let room = self.random.room(count);
        let out = self.random.numbers(room);
        self.table_read(s, &out);
        self.readers(s, &out);
        let room = self.random.room(4 * count);
        let out = self.random.bytes(room);
        self.table_read_bytes(s, &out);
    }

    /// The limits themselves, at each of which the answer changes.
    pub fn limits(&mut self) {
        for order in 0..=8usize {
            for ones in [4094, 4095, 4096, 4097, 4098] {
                let row = vec![1; ones];
                let full = 512 * order;
                for room in [full.saturating_sub(1), full, full + 1] {
                    self.write(order, &row, &vec![0xA5; room]);
                }
                let s = model::pack(&vec![true; ones * order]);
                for room in [4095, 4096, 4097] {
                    self.read(order, &s, &vec![9; room]);
                    self.table_read(&s, &vec![9; room]);
                }
                for room in [16_383, 16_384, 16_385] {
                    self.table_read_bytes(&s, &vec![9; room]);
                }
                for (from, to) in [(0, ones), (0, ones + 1), (ones, ones), (ones + 1, ones + 1), (ones, ones - 1), (0, usize::MAX), (usize::MAX, usize::MAX)] {
                    self.total(order, &s, from, to);
                }
                for repeats in [0, 1, 2, 10_000, 10_001, u64::MAX] {
                    self.repeated_totals(order, &s, repeats);
                }
                self.header(order, &s);
                let header = Header { bits: (ones * order) as u64, count: ones as u64, total: ones as u64 };
                for n in [0, 1, 2, u32::MAX] {
                    let mut buffer = s.clone();
                    self.append(order, &buffer, header, n);
                    buffer.extend([0xA5; 9]);
                    self.append(order, &buffer, header, n);
                }
            }
            self.long_strings(order);
        }
        for order in 2..=6 {
            self.largest_rows(order);
        }
    }

    /// The longest encodings: 4,096 largest numbers, and 4,095 and one appended.
    fn largest_rows(&mut self, order: usize) {
        let s = model::encoding(order, &[u32::MAX; 4096]);
        for room in [s.len() - 1, s.len(), s.len() + 1] {
            self.write(order, &[u32::MAX; 4096], &vec![0xA5; room]);
        }
        for room in [4095, 4096, 4097] {
            self.read(order, &s, &vec![9; room]);
            if order == 3 {
                self.table_read(&s, &vec![9; room]);
                self.table_read_bytes(&s, &vec![9; 4 * room]);
            }
        }
        for (from, to) in [(0, 4096), (1, 4095), (4095, 4096), (4096, 4096), (0, 4097)] {
            self.total(order, &s, from, to);
        }
        for repeats in [10_000, 10_001] {
            self.repeated_totals(order, &s, repeats);
        }
        let full = self.header(order, &s).unwrap();
        let most = [&s[..], &[0xA5; 24_064]].concat();
        for n in [0, 1] {
            self.append(order, &most[..24_064], full, n);
        }
        for room in [s.len() - 1, s.len(), s.len() + 1] {
            let fewer = self.write(order, &[u32::MAX; 4095], &vec![0xA5; room]);
            self.append(order, &fewer.output, fewer.header, u32::MAX);
        }
    }

    /// Strings around the largest number of bytes, and one of the largest encodings.
    fn long_strings(&mut self, order: usize) {
        let most = model::MOST_BYTES as usize;
        let largest = if (2..=6).contains(&order) { model::encoding(order, &[u32::MAX; 4096]) } else { Vec::new() };
        let mut strings = vec![largest];
        for len in [most - 1, most, most + 1, 70_000] {
            for byte in [0x00, 0xFF, 0x24] {
                strings.push(vec![byte; len]);
                // a codeword as long as an encoding can be
                let mut ended = vec![byte; len];
                ended[len - 1] = 0x7F;
                strings.push(ended);
            }
        }
        for s in strings {
            self.read(order, &s, &vec![9; 4096]);
            self.table_read(&s, &vec![9; 4096]);
            self.table_read_bytes(&s, &vec![9; 16_384]);
            self.total(order, &s, 0, 4096);
            self.repeated_total(order, &s, 10_000, 0);
            self.repeated_total(order, &s, 10_000, u64::MAX);
            self.header(order, &s);
            self.replace(order, &s, s.len(), 0, 1);
        }
    }
}
