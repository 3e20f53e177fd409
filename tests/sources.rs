//! What the papers and their sources 000, 001 and 003 print, held to the model: each value is compared with the model's, and the scripts of the console
//! (tests/scripts, the arguments) have to ask for it. What the sources have wrong is listed with what is right, and there the model has to give the right one.

mod model;
#[path = "console/requests.rs"]
mod requests;
#[path = "console/table.rs"]
mod table;
#[path = "console/words.rs"]
mod words;

use requests::{answer, Said};
use std::collections::HashSet;
use table::{after, f, inside, ones_at_end, value};

fn string(bits: &[bool]) -> String {
    bits.iter().map(|bit| if *bit { '1' } else { '0' }).collect()
}

fn bits(string: &str) -> Vec<bool> {
    string.chars().filter(|c| *c != ' ').map(|c| c == '1').collect()
}

fn codeword(m: usize, n: u128) -> String {
    string(&model::codeword(m, n))
}

/// Bytes as a request has them.
fn hexadecimal(bytes: &[u8]) -> String {
    bytes.iter().map(|byte| format!(" {byte:02X}")).collect()
}

// ---- What the sources print ----

/// What a source has wrong: where, what it prints, what is right, and why.
struct Erratum {
    place: &'static str,
    printed: &'static str,
    right: &'static str,
    why: &'static str,
}

const fn erratum(place: &'static str, printed: &'static str, right: &'static str, why: &'static str) -> Erratum {
    Erratum { place, printed, right, why }
}

const LIST: &str = "the list has 010011 five times after 10011 and goes on with 0000011; 001's table 2 has all";

const ERRATA: [Erratum; 13] = [
    erratum("000, section 2.2, codeword 7", "010011", "01011", LIST),
    erratum("000, section 2.2, codeword 8", "010011", "000011", LIST),
    erratum("000, section 2.2, codeword 9", "010011", "100011", LIST),
    erratum("000, section 2.2, codeword 11", "010011", "001011", LIST),
    erratum("000, section 2.2, codeword 12", "0000011", "101011", LIST),
    erratum("000, section 2.2, where 11 stands", "left", "right", "its own list and 001 have it at the right end"),
    erratum("001, section 3.1, codewords of up to M bytes, about 128 to the power", "M-1", "M", "its own 2^(7M), and its sum"),
    erratum("001, section 3.3.2, the codeword of 600", "0110110110110111", "0110110110111", "its own two parts, 01101 and 10110111, have thirteen bits"),
    erratum("001, section 3.3.2, pairs inside a byte", "1 1", "1 1, 1 2, 2 1", "after two ones, 10111111 has 2, 1 and 11110111 has 1, 2"),
    erratum("001, section 3.3.3, largest of 16 digits", "19511", "19512", "the sum of the digits that it prints"),
    erratum("001, table 5, byte 130, p = 2, p", "1", "0", "the byte ends in 0"),
    erratum("001, table 8, PV where PL is -1", "150", "149", "the text has M + p, and so has table 7: 149 for p = 1"),
    erratum("001, table 8, PV where PL is -2", "149", "150", "the text has M + p, and so has table 7: 150 for p = 2"),
];

/// The comparisons: how many, which errata they met, and what the scripts ask for.
struct Sources {
    compared: usize,
    met: HashSet<&'static str>,
    asked: HashSet<String>,
}

impl Sources {
    fn new(scripts: &str) -> Sources {
        let mut asked: HashSet<String> = scripts.lines().map(str::to_string).collect();
        // a request for several codewords asks for each
        for line in scripts.lines().filter(|line| line.starts_with("codewords ")) {
            let words: Vec<&str> = line.split(' ').collect();
            asked.extend(words.iter().skip(2).map(|n| format!("codewords {} {n}", words[1])));
        }
        Sources { compared: 0, met: HashSet::new(), asked }
    }

    fn same(&mut self, place: &str, printed: &str, right: &str) {
        match ERRATA.iter().find(|e| e.place == place) {
            Some(e) => {
                assert_eq!((e.printed, e.right), (printed, right), "{place}: {}", e.why);
                self.met.insert(e.place);
            }
            None => assert_eq!(printed, right, "{place}"),
        }
        self.compared += 1;
    }

    fn same_number(&mut self, place: &str, printed: u128, right: u128) {
        self.same(place, &printed.to_string(), &right.to_string());
    }

    fn asks(&self, request: &str) {
        assert!(self.asked.contains(request), "no script asks: {}", request);
    }

    /// A codeword as a source prints it.
    fn codeword(&mut self, place: &str, m: usize, n: u128, printed: &str) {
        self.same(place, printed, &codeword(m, n));
        self.asks(&format!("codewords {m} {n}"));
    }

    /// What the answer to a request has to have.
    fn says(&mut self, request: &str, part: &str) {
        self.asks(request);
        let text = match answer(request.as_bytes()) {
            Said::Text(text) => text,
            other => panic!("{request}: {other:?}"),
        };
        assert!(format!("{text};").contains(part), "{}: {}, and not {}", request, text, part);
        self.compared += 1;
    }
}

// 001, table 1
const TABLE_1: [[u128; 13]; 5] = [
    [1, 2, 3, 5, 8, 13, 21, 34, 55, 89, 144, 233, 377],
    [1, 2, 4, 7, 13, 24, 44, 81, 149, 274, 504, 927, 1705],
    [1, 2, 4, 8, 15, 29, 56, 108, 208, 401, 773, 1490, 2872],
    [1, 2, 4, 8, 16, 31, 61, 120, 236, 464, 912, 1793, 3525],
    [1, 2, 4, 8, 16, 32, 63, 125, 248, 492, 976, 1936, 3840],
];

// F(n), and that there are so many codewords of length n + m (001's equation 1). A script asks for the number with the n-th digit alone.
fn table_1(s: &mut Sources) {
    for (m, row) in (2..).zip(&TABLE_1) {
        for (n, printed) in (1..).zip(row) {
            let place = format!("001, table 1, m = {m}, n = {n}");
            s.same_number(&place, *printed, f(m as i64, n as i64));
            s.same_number(&place, *printed, model::first_number(m, n) - model::first_number(m, n - 1));
            let with_last = model::first_number(m, n) + printed;
            s.codeword(&place, m, with_last, &format!("{}10{}", "0".repeat(n - 1), "1".repeat(m)));
        }
    }
}

// 001, table 2: Fib2, Fib3 and Fib4
const TABLE_2: [[&str; 3]; 35] = [
    ["11", "111", "1111"],
    ["011", "0111", "01111"],
    ["0011", "00111", "001111"],
    ["1011", "10111", "101111"],
    ["00011", "000111", "0001111"],
    ["10011", "100111", "1001111"],
    ["01011", "010111", "0101111"],
    ["000011", "110111", "1101111"],
    ["100011", "0000111", "00001111"],
    ["010011", "1000111", "10001111"],
    ["001011", "0100111", "01001111"],
    ["101011", "1100111", "11001111"],
    ["0000011", "0010111", "00101111"],
    ["1000011", "1010111", "10101111"],
    ["0100011", "0110111", "01101111"],
    ["0010011", "00000111", "11101111"],
    ["1010011", "10000111", "000001111"],
    ["0001011", "01000111", "100001111"],
    ["1001011", "11000111", "010001111"],
    ["0101011", "00100111", "110001111"],
    ["00000011", "10100111", "001001111"],
    ["10000011", "01100111", "101001111"],
    ["01000011", "00010111", "011001111"],
    ["00100011", "10010111", "111001111"],
    ["10100011", "01010111", "000101111"],
    ["00010011", "11010111", "100101111"],
    ["10010011", "00110111", "010101111"],
    ["01010011", "10110111", "110101111"],
    ["00001011", "000000111", "001101111"],
    ["10001011", "100000111", "101101111"],
    ["01001011", "010000111", "011101111"],
    ["00101011", "110000111", "0000001111"],
    ["10101011", "001000111", "1000001111"],
    ["000000011", "101000111", "0100001111"],
    ["100000011", "011000111", "1100001111"],
];

fn table_2(s: &mut Sources) {
    for (n, row) in (1..).zip(&TABLE_2) {
        for (m, printed) in (2..).zip(row) {
            s.codeword(&format!("001, table 2, Fib{m}, {n}"), m, n, printed);
        }
    }
}

// 001, table 4: what each of the bytes 220 to 227 gives after a prefix, the numbers and what remains
const TABLE_4: [(&str, [(&str, &str); 8]); 4] = [
    ("", [("8", "00"), ("8", "01"), ("8", "10"), ("8", "11"), ("1", "00000"), ("1", "00001"), ("1", "00010"), ("1", "00011")]),
    ("00011", [("5 4", "00"), ("5 4", "01"), ("5 4", "10"), ("5 4", "11"), ("5", "1100000"), ("5", "1100001"), ("5", "1100010"), ("5", "1100011")]),
    ("01", [("2 2", "00"), ("2 2", "01"), ("2 2", "10"), ("2 2", "11"), ("2", "100000"), ("2", "100001"), ("2", "100010"), ("2", "100011")]),
    ("100010", [("317", "00"), ("317", "01"), ("317", "10"), ("317", "11"), ("43", "00000"), ("43", "00001"), ("43", "00010"), ("43", "00011")]),
];

fn words(numbers: &[u128]) -> String {
    numbers.iter().map(u128::to_string).collect::<Vec<_>>().join(" ")
}

/// The numbers of the parse of a string of order 3, and what remains.
fn split(string_of_bits: &str) -> (String, String) {
    let (codewords, rest) = model::parse(3, &bits(string_of_bits));
    (words(&codewords.iter().map(|codeword| model::number(3, codeword)).collect::<Vec<_>>()), string(&rest))
}

fn table_4(s: &mut Sources) {
    for (prefix, entries) in TABLE_4 {
        for (byte, (numbers, rest)) in (220..=227).zip(entries) {
            let place = format!("001, table 4, {byte} after {prefix}");
            let text = format!("{prefix}{byte:08b}");
            s.same(&place, numbers, &split(&text).0);
            s.same(&place, rest, &split(&text).1);
            s.asks(&format!("room 4 read 3{}", hexadecimal(&model::pack(&bits(&(text + "0111"))))));
        }
    }
}

fn figure_3(s: &mut Sources) {
    let string_of_bits: String = [227, 221, 226, 221, 223].iter().map(|byte| format!("{byte:08b}")).collect();
    s.same("001, figure 3, bits", "1110001111011101111000101101110111011111", &string_of_bits);
    s.same("001, figure 3", "1 5 4 2 317 2 2", &split(&string_of_bits).0);
    s.same("001, section 3.3.1, what remains of the first byte", "00011", &split("11100011").1);
    s.same("001, section 3.3.1, 0001111011101", "5 4", &split("0001111011101").0);
    s.same("001, section 3.3.1, what remains of it", "01", &split("0001111011101").1);
    s.says("room 8 table-read E3 DD E2 DD DF 80", "output 1 5 4 2 317 2 2 1;");
    s.says("room 8 table-read E3 DD E2 DD DF", "NO 6:");
}

// 001, table 5: for each byte, after 0, 1 and 2 ones, PL PV S SL SV p. Values are as printed there, rounded by a root. A ? is lost in the text that we have.
const TABLE_5: [(u8, [&str; 3]); 23] = [
    (0, ["8 0 - 0 0 0", "8 0 - 0 0 0", "8 0 - 0 0 0"]),
    (1, ["8 80.9989 - 0 0 1", "8 80.9989 - 0 0 1", "8 80.9989 - 0 0 1"]),
    (124, ["1 0 - 4 3.2296 0", "1 0 - 4 3.2296 0", "1 0 - 4 3.2296 0"]),
    (125, ["1 0 - 4 10.3071 1", "1 0 - 4 10.3071 1", "1 0 - 4 10.3071 1"]),
    (126, ["1 0 1 1 0 0", "1 0 1 1 0 0", "1 0 1 1 0 0"]),
    (127, ["1 0 1 1 1.1374 1", "1 0 1 1 1.1374 1", "1 0 1 1 1.1374 1"]),
    (128, ["8 1.1374 - 0 0 0", "8 1.1374 - 0 0 0", "-2 -1.474 - 7 0 0"]),
    (129, ["8 82.1363 - 0 0 1", "8 82.1363 - 0 0 1", "-2 -1.474 - 7 44.0382 1"]),
    (130, ["8 45.1757 - 0 0 0", "8 45.1757 - 0 0 0", "-2 -1.474 - 7 23.9431 1"]),
    (131, ["8 126.175 - 0 0 2", "8 126.175 - 0 0 2", "-2 -1.474 - 7 67.9813 2"]),
    (183, ["5 12.399 - 0 0 0", "5 12.399 - 0 0 0", "-2 -1.474 15 0 0 0"]),
    (184, ["2 1.1374 - 3 0 0", "2 1.1374 - 3 0 0", "-2 -1.474 2 3 0 0"]),
    (185, ["2 1.1374 - 3 3.8480 1", "2 1.1374 - 3 3.8480 1", "-2 -1.474 2 3 3.8480 1"]),
    (220, ["3 3.2296 - 2 0 0", "-1 -.6184 2 2 0 0", "-2 -1.474 4 2 0 0"]),
    (221, ["3 3.2296 - 2 2.0921 1", "-1 -.6184 2 2 2.0921 1", "-2 -1.474 4 2 2.0921 1"]),
    (222, ["3 3.2296 - 2 1.1374 0", "-1 -.6184 2 2 1.1374 0", "-2 -1.474 4 2 1.1374 0"]),
    (223, ["3 3.2296 - 2 3.2296 2", "-1 -.6184 2 2 3.2296 2", "-2 -1.474 4 2 3.2296 2"]),
    (224, ["0 0 - 5 0 0", "-1 -.6184 - 6 1.1374 0", "-2 -1.474 - 7 3.2296 0"]),
    (225, ["0 0 - 5 13.0176 1", "-1 -.6184 - 6 25.0805 1", "-2 -1.474 - 7 47.2678 1"]),
    (226, ["0 0 - 5 7.0775 0", "-1 -.6184 - 6 14.1550 0", "-2 -1.474 - 7 27.1726 0"]),
    (227, ["0 0 - 5 20.0951 2", "-1 -.6184 - 6 38.0981 2", "-2 -1.474 - 7 71.2108 2"]),
    (254, ["0 0 1 2 1.1374 0", "-1 -.6184 1 3 3.2296 0", "-2 -1.474 1,1 1 0 0"]),
    (255, ["0 0 1 ? ? 2", "-1 ? 1,1 ? 0 0", "-2 -1.474 ? ? 1.1374 ?"]),
];

// 001, table 8: the same over whole numbers
const TABLE_8: [(u8, [&str; 3]); 10] = [
    (124, ["1 0 - 4 3 0", "1 0 - 4 3 0", "1 0 - 4 3 0"]),
    (125, ["1 0 - 4 10 1", "1 0 - 4 10 1", "1 0 - 4 10 1"]),
    (126, ["1 0 1 1 0 0", "1 0 1 1 0 0", "1 0 1 1 0 0"]),
    (127, ["1 0 1 1 1 1", "1 0 1 1 1 1", "1 0 1 1 1 1"]),
    (128, ["8 1 - 0 0 0", "8 1 - 0 0 0", "-2 149 - 7 0 0"]),
    (129, ["8 82 - 0 0 1", "8 82 - 0 0 1", "-2 149 - 7 44 1"]),
    (222, ["3 3 - 2 1 0", "-1 150 2 2 1 0", "-2 149 4 2 1 0"]),
    (223, ["3 3 - 2 3 2", "-1 150 2 2 3 2", "-2 149 4 2 3 2"]),
    (224, ["0 0 - 5 0 0", "-1 150 - 6 1 0", "-2 149 - 7 3 0"]),
    (225, ["0 0 - 5 13 1", "-1 150 - 6 25 1", "-2 149 - 7 47 1"]),
];

const COLUMNS: [&str; 6] = ["PL", "PV", "S", "SL", "SV", "p"];

/// A row as 001 has it: the pending ones are not in PL and PV; where none ends, the whole byte is; and the ones at the end are in SL and SV.
fn row_of_001(ones: usize, byte: u8) -> [String; 6] {
    let (codewords, rest) = after(ones, byte);
    let all = model::unpack(&[byte]);
    let p = ones_at_end(&rest).to_string();
    if codewords.is_empty() {
        return ["8".to_string(), value(&all, 0).to_string(), "-".to_string(), "0".to_string(), "0".to_string(), p];
    }
    let pl = codewords[0].len() as i64 - 3 - ones as i64;
    let pv = if pl < 0 { 148 + ones as u128 } else { value(&all[..pl as usize], 0) };
    let inside: Vec<String> = inside(&codewords).iter().map(u128::to_string).collect();
    let s = if inside.is_empty() { "-".to_string() } else { inside.join(",") };
    [pl.to_string(), pv.to_string(), s, rest.len().to_string(), value(&rest, 0).to_string(), p]
}

/// The whole number next to a value as table 5 prints it.
fn nearest(printed: &str) -> String {
    let (whole, part) = printed.split_once('.').unwrap_or((printed, "0"));
    let whole: u128 = whole.parse().unwrap();
    (whole + (part.as_bytes()[0] >= b'5') as u128).to_string()
}

fn row(s: &mut Sources, table: u32, byte: u8, ones: usize, printed: &str) {
    let right = row_of_001(ones, byte);
    let corrects = right[0].starts_with('-');
    for ((column, printed), right) in COLUMNS.iter().zip(printed.split(' ')).zip(&right) {
        let place = format!("001, table {table}, byte {byte}, p = {ones}, {column}");
        match (*column, table) {
            _ if printed == "?" => continue,
            // a correction, which table 5 has as a value of the root and table 8 as a row of table 7
            ("PV", 5) if corrects => continue,
            ("PV", 8) if corrects => s.same(&format!("001, table 8, PV where PL is -{ones}"), printed, right),
            ("PV", 5) | ("SV", 5) => s.same(&place, &nearest(printed), right),
            _ => s.same(&place, printed, right),
        }
    }
    s.asks(&format!("table-row {ones} {byte:02X}"));
}

fn tables_5_and_8(s: &mut Sources) {
    for (table, rows) in [(5, &TABLE_5[..]), (8, &TABLE_8[..])] {
        for (byte, by_ones) in rows {
            for (ones, printed) in by_ones.iter().enumerate() {
                row(s, table, *byte, ones, printed);
            }
        }
    }
}

// 001, table 7: digits, and their values shifted by 0, 1, 2 and 10 places
const SHIFTS: [i64; 4] = [0, 1, 2, 10];
const TABLE_7: [(&str, [u128; 4]); 8] = [
    ("10110010", [56, 103, 190, 24858]),
    ("00001010", [57, 105, 193, 25281]),
    ("10001010", [58, 107, 197, 25785]),
    ("01001010", [59, 109, 200, 26208]),
    ("11001010", [60, 111, 204, 26712]),
    ("00101010", [61, 112, 206, 26986]),
    ("01011011", [147, 271, 498, 65234]),
    ("11011011", [148, 273, 502, 65738]),
];

// .. and what takes one and two ones back, for p = 1 and p = 2: the value that they have as the last of so many digits
const TAKEN_BACK: [(usize, &str, u128); 5] = [(1, "1", 1), (2, "01", 2), (10, "0000000001", 274), (2, "11", 3), (10, "0000000011", 423)];

fn table_7(s: &mut Sources) {
    for (digits, printed) in TABLE_7 {
        for (shift, printed) in SHIFTS.iter().zip(printed) {
            let place = format!("001, table 7, {digits} by {shift}");
            s.same_number(&place, printed, value(&bits(digits), *shift));
            if digits.ends_with('0') {
                let byte = model::pack(&bits(digits))[0];
                s.says(&format!("table-value 0 {shift} {byte:02X}"), &format!("value {printed};"));
            } else {
                // as the digits of a codeword, whose number has the first of that length besides
                let codeword = bits(&format!("{}{digits}0111", "0".repeat(*shift as usize)));
                let n = model::first_number(3, 8 + *shift as usize) + printed;
                s.says(&format!("room 1 table-read{}", hexadecimal(&model::pack(&codeword))), &format!("output {n};"));
            }
        }
    }
    for (shift, digits, printed) in TAKEN_BACK {
        s.same_number(&format!("001, table 7, {digits} taken back"), printed, value(&bits(digits), 0));
        assert_eq!(digits.len(), shift);
    }
}

fn reversed(digits: &str) -> String {
    digits.chars().rev().collect()
}

// 001's other codewords and numbers
fn text_of_001(s: &mut Sources) {
    // 45 = 34 + 8 + 3, with the largest first
    s.codeword("001, section 2, 45", 2, 45, &(reversed("10010100") + "1"));
    for (n, digits) in [(10, "1011"), (11, "1100"), (12, "1101"), (13, "10000")] {
        let digits = reversed(digits);
        s.same_number("001, section 2, 10 to 13 by order 3", n, value(&bits(&digits), 0));
        s.codeword("001, section 2, 10 to 13 by order 3", 3, model::first_number(3, digits.len()) + n, &(digits + "0111"));
    }
    let last: [&[u128]; 3] = [&[1, 2, 4, 7, 12, 20, 33], &[1, 2, 4, 8, 15, 28], &[1, 2, 4, 8, 16, 31]];
    let start: [&[u128]; 3] = [&[1, 2, 3, 5, 8], &[1, 2, 3, 5, 9, 16], &[1, 2, 3, 5, 9, 17, 32]];
    for (m, (last, start)) in (2..).zip(last.iter().zip(start)) {
        let first = |k: usize| if k == 0 { 1 } else { model::first_number(m, k - 1) };
        for (k, n) in last.iter().enumerate() {
            s.same_number(&format!("001, section 3.1, L{m}"), *n, first(k + 1) - 1);
        }
        for (k, n) in start.iter().enumerate() {
            s.same_number(&format!("001, section 3.3, Start{m}"), *n, first(k));
        }
        s.asks(&format!("codewords {m} {}", words(last)));
        s.asks(&format!("codewords {m} {}", words(start)));
    }
    s.same_number("001, section 3.3.3, largest of 8 digits", 148, value(&bits("11011011"), 0));
    s.same_number("001, section 3.3.3, largest of 16 digits", 19511, value(&bits("1011011011011011"), 0));
    // .. which they are: the next is the first number of the next length
    assert_eq!(model::first_number(3, 8) + 148 + 1, model::first_number(3, 9));
    assert_eq!(model::first_number(3, 16) + 19512 + 1, model::first_number(3, 17));
}

// 001's codeword that is split, and its claim of what may lie inside a byte
fn split_codeword(s: &mut Sources) {
    s.codeword("001, section 3.3.2, the codeword of 600", 3, 600, "0110110110110111");
    s.same("001, section 3.3.2, its parts", &["01101", "10110111"].concat(), &codeword(3, 600));
    s.same_number("001, section 3.3.2, DV", 19, value(&bits("01101"), 0));
    s.same_number("001, section 3.3.2, EV", 12, value(&bits("1011"), 0));
    s.same_number("001, section 3.3.2, V", 273, 600 - model::first_number(3, 9));
    s.same_number("001, section 3.3.2, the length", 13, codeword(3, 600).len() as u128);
    let mut pairs = HashSet::new();
    for (ones, byte) in (0..3).flat_map(|ones| (0..=255).map(move |byte| (ones, byte))) {
        let inside = inside(&after(ones, byte).0);
        if inside.len() == 2 {
            pairs.insert(words(&inside));
        }
    }
    let mut pairs: Vec<String> = pairs.into_iter().collect();
    pairs.sort();
    s.same("001, section 3.3.2, pairs inside a byte", "1 1", &pairs.join(", "));
}

// 001's searches and lost bits
fn words_of_001(s: &mut Sources) {
    for printed in ["1011000111", "100001000111", "11011000111", "01010000111", "0101000111", "110100110110111", "0111"] {
        s.codeword("001, sections 3.4 and 3.5", 3, model::number(3, &bits(printed)), printed);
    }
    s.codeword("001, section 3.5, void and and", 3, 12627, "110100110110110111");
    // day is found after 111 where it is none: inside burnt offering
    assert!("10000100011111011000111".contains("1111011000111"));
}

// 001's dense codes: how many codewords they have, and the pairs s and c that it takes, each with the words of its text
const PAIRS: [(usize, usize, u32); 6] =
    [(189, 67, 289_101), (185, 71, 439_191), (176, 80, 296_933), (171, 85, 1_000_000), (223, 33, 11_378), (188, 68, 75_192)];

fn dense_of_001(s: &mut Sources) {
    for (bytes, printed) in (1..).zip([128, 16_512, 2_113_664]) {
        s.same_number("001, section 3.1, L_E", printed, model::dense_first(128, bytes + 1) - 1);
        s.same_number("001, section 3.1, codewords of up to M bytes", printed, (1..=bytes).map(|i| 128 * 128u128.pow(i as u32 - 1)).sum());
    }
    s.says("dense-write 128 128 16512 2113664", "encoding 7F FF 7F FF FF 7F;");
    s.says("dense-write 128 129 16513 2113665", "encoding 80 00 80 80 00 80 80 80 00;");
    let is_power = (1..=12).all(|bytes| (model::dense_first(128, bytes + 1) - 1).ilog2() as usize == 7 * bytes);
    s.same("001, section 3.1, codewords of up to M bytes, about 128 to the power", "M-1", if is_power { "M" } else { "M-1" });
    for (stoppers, others, words) in PAIRS {
        let two = stoppers + stoppers * others;
        s.same_number("001, tables 3 and 10, codewords of up to two bytes by s and c", two as u128, model::dense_first(stoppers, 3) - 1);
        s.says(&format!("dense-write {stoppers} {stoppers} {} {two} {} {words}", stoppers + 1, two + 1), "bytes 11;");
    }
}

// .. and from how many bytes on Fibm has more codewords of as many bits. (For order 3 it has 67 bytes, which is past the numbers of the model.)
fn denser(s: &mut Sources) {
    for (m, printed) in [(2, None), (3, None), (4, Some(7)), (5, Some(6)), (6, Some(7))] {
        let more = |bytes: &usize| model::first_number(m, 8 * bytes - m) > model::dense_first(128, bytes + 1);
        let least = (1..=12).find(more);
        assert!(least.map_or(true, |least| (least..=12).all(|bytes| more(&bytes))));
        s.same(&format!("001, section 3.1, Fib{m} is denser"), &format!("{printed:?}"), &format!("{least:?}"));
    }
}

// 003's codewords by its rule, in which bytes from c up end a codeword and those below c go on; turned round they are 001's. The words are numbered from 1.
const OF_003: [(usize, u32, &[u8]); 8] = [
    (128, 1, &[0x80]),
    (128, 2, &[0x81]),
    (128, 128, &[0xFF]),
    (128, 129, &[0x00, 0x80]),
    (200, 1, &[0x38]),
    (200, 200, &[0xFF]),
    (200, 201, &[0x00, 0x38]),
    (200, 11_400, &[0x37, 0xFF]),
];

fn dense_of_003(s: &mut Sources) {
    for (stoppers, n, printed) in OF_003 {
        let c = 256 - stoppers;
        let turned = |byte: &u8| if *byte as usize >= c { *byte as usize - c } else { *byte as usize + stoppers } as u8;
        let turned: Vec<u8> = printed.iter().map(turned).collect();
        let right = model::dense_codeword(stoppers, n as u128);
        s.same(&format!("003, section 2.2, number {n}"), &hexadecimal(&turned), &hexadecimal(&right));
    }
    s.says("dense-write 128 1 2 127 128 129", "encoding 00 01 7E 7F 80 00;");
    s.says("dense-write 200 1 200 201 11400 11401", "encoding 00 C7 C8 00 FF C7 C8 C8 00;");
}

// 000's codewords, its text and its counts
fn source_000(s: &mut Sources) {
    let list = "11 011 0011 1011 00011 10011 010011 010011 010011 010011 010011 0000011";
    for (n, printed) in (1..).zip(list.split(' ')) {
        s.codeword(&format!("000, section 2.2, codeword {n}"), 2, n, printed);
    }
    for (n, length) in (1..).zip([2, 3, 4, 4, 5, 5, 5, 6]) {
        s.same_number("000, section 2.2, lengths", length, codeword(2, n).len() as u128);
    }
    let right = (1..=33).all(|n| codeword(2, n).find("11") == Some(codeword(2, n).len() - 2));
    s.same("000, section 2.2, where 11 stands", "left", if right { "right" } else { "left" });
    s.codeword("000, section 2.2, 19", 2, 19, &(reversed("101001") + "1"));
    for (n, height) in [(26, 8), (29, 8), (30, 8), (32, 8), (378, 14), (743, 15)] {
        s.same_number("000, table 1, height", height, codeword(2, n).len() as u128);
        s.asks(&format!("codewords 2 {n}"));
    }
}

// COMPRESSORS, by the codewords that 000 prints
fn compressors(s: &mut Sources) {
    let row: Vec<u32> = "COMPRESSORS".chars().map(|letter| 1 + "SROEPMC".find(letter).unwrap() as u32).collect();
    let encoded = "01011 0011 10011 00011 011 1011 11 11 0011 011 11";
    let all = string(&model::row_bits(2, &row));
    s.same("000, section 3.2, COMPRESSORS", &encoded.replace(' ', ""), &all);
    s.same_number("000, section 3.2, its bits", 39, all.len() as u128);
    for (letter, printed) in row.iter().zip(encoded.split(' ')) {
        s.codeword("000, section 3.2, a letter", 2, *letter as u128, printed);
    }
    let of_row: String = row.iter().map(|n| format!(" {n}")).collect();
    let each: Vec<String> = row.iter().zip(encoded.split(' ')).map(|(n, codeword)| format!("{n} {codeword}")).collect();
    s.says(&format!("codewords 2{of_row}"), &format!("{};", each.join(", ")));
    for (n, count) in (1..).zip([3, 2, 2, 1, 1, 1, 1]) {
        s.says(&format!("rank 2 7 11 {n} 11 27 32 D6 74"), &format!("count {count},"));
    }
}

// 000's analysis: its F has F(1) = F(2) = 1; the full levels have F - 1 numbers, with 3 F - 3 nodes before and 2 F - 3 after pruning
fn trees(s: &mut Sources) {
    let f = |i: usize| f(2, i as i64 - 1);
    for (h, n) in (1..).zip([1, 2, 4, 7, 12, 20, 33]) {
        let place = format!("000, section 4.2, depth {}", h + 1);
        let codewords: Vec<String> = (1..=n).map(|k| codeword(2, k)).collect();
        let begins: HashSet<&str> = codewords.iter().flat_map(|word| (0..=word.len()).map(move |end| &word[..end])).collect();
        let nodes = model::Tree::of(2, n as usize).bitmaps(&[]).len() as u128;
        s.same_number(&place, f(h + 2) - 1, n);
        s.same_number(&place, 3 * f(h + 2) - 3, begins.len() as u128);
        s.same_number(&place, 2 * f(h + 2) - 3, nodes + n);
        s.same_number(&place, f(h), codewords.iter().filter(|word| word.len() == h + 1).count() as u128);
    }
}

// ---- What the papers say of single calls ----

// Paper 01's examples, from its own text
const PAPER_01: [(&str, &str); 24] = [
    ("room 0 write 2", "bytes 0, bits 0,"),
    ("total 2 0 0", "total 0;"),
    ("room 3 write 2 3 1 4 2 1", "bytes 2, bits 15, count 5, total 11; output 3E DE A5;"),
    ("codewords 3 600", "600 0110110110111;"),
    ("room 3 write 3 600", "bytes 2, bits 13, count 1, total 600; output 6D B8 A5;"),
    ("room 1 write 3 1", "output E0;"),
    ("room 1 write 6 2", "output 7E;"),
    ("room 4 read 2 FF", "count 4; output 1 1 1 1;"),
    ("room 1 read 2 00", "NO 6:"),
    ("room 1 read 2 E0", "NO 6:"),
    ("room 3 build 2 4 3 1 4 2 1", "bits 10; output 6B 40 A5; bitmaps 0110101101;"),
    ("extract 2 4 5 2 6B 40", "number 4, visits 2;"),
    ("rank 2 4 5 1 3 6B 40", "count 1,"),
    ("select 2 4 5 1 2 6B 40", "place 4,"),
    ("select 2 4 5 1 3 6B 40", "NO 12:"),
    ("room 0 build 2 1 1 1", "bits 0; output none;"),
    ("extract 2 1 2 1", "number 1, visits 0;"),
    ("room 1024 write 2 1x4096", "bytes 1024, bits 8192, count 4096, total 4096;"),
    ("room 1025 write 2 1x4097", "NO 4:"),
    ("room 4097 read 2 FFx1024 C0", "NO 4:"),
    ("room 6 write 2 4294967295", "bytes 6, bits 47, count 1, total 4294967295;"),
    ("room 1 read 2 A4 88 08 A2 A1 16", "NO 7, place 0:"),
    ("table-value 1 4 B7", "value 267;"),
    ("repeated-total 3 11 0 6D B8", "total 6600;"),
];

// What decides where a sentence can be read in two ways
const READ_AS: [(&str, &str); 46] = [
    ("room 4096 read 2 A4 88 08 A2 A1 17 FFx1024 80", "NO 7, place 0:"),
    ("room 4096 read 2 FFx1024 A4 88 08 A2 A1 16", "NO 4:"),
    ("room 4096 read 2 FFx1023 A4 88 08 A2 A1 16 FF FF", "NO 7, place 4092:"),
    ("room 1 read 2 00x9", "NO 6:"),
    ("room 1 read 2 00x8 03", "NO 7, place 0:"),
    ("room 1 read 2 C0 00", "NO 6:"),
    ("room 1 read 2 C0", "output 1;"),
    ("room 2 read 3 FC", "output 1 1;"),
    ("room 2 read 3 FF", "NO 6:"),
    ("room 1 table-read 00x24064", "NO 6:"),
    ("room 1 table-read 00x24065", "NO 2:"),
    ("room 1 read 7 00x24065", "NO 1:"),
    ("room 1 write 9 0", "NO 1:"),
    ("room 0 write 2 0x4097", "NO 4:"),
    ("room 0 write 2 5 0", "NO 3, place 1:"),
    ("room 1024 append 2 0 8192 4096 4096 FFx1024", "NO 3, place 0:"),
    ("room 1025 append 2 1 8192 4096 4096 FFx1024", "NO 4:"),
    ("room 3 append 2 2 2 1 1 C0 FF FF", "bytes 1, bits 5, count 2, total 3; buffer D8 FF FF;"),
    ("room 3 append 2 4 6 3 3 FC FF FF", "bytes 2, bits 10, count 4, total 7; buffer FE C0 FF;"),
    ("total 2 2 2 3E DE", "total 0;"),
    ("total 2 5 5 3E DE", "total 0;"),
    ("total 2 6 6 3E DE", "NO 8:"),
    ("total 2 3 2 3E DE", "NO 8:"),
    ("total 2 9 0 E0", "NO 6:"),
    ("repeated-total 2 1 0", "total 0;"),
    ("room 1 build 7 0 1", "NO 1:"),
    ("room 3 build 2 4 1 5 0", "NO 10, place 1:"),
    ("extract 2 4 5 0 6B", "NO 11:"),
    ("extract 2 4 5 0 6B 40 00", "NO 11:"),
    ("extract 2 4 5 0 6B 41", "NO 11:"),
    ("extract 2 4 4 0 6B 40", "NO 11:"),
    ("room 2 build 2 4 2 1 4 2 4 3", "bits 12; output 6B 40;"),
    ("select 2 4 5 5 0 6B 40", "NO 10, place 0:"),
    ("rank 2 4 5 0 9 6B 40", "NO 10, place 0:"),
    ("rank 2 4 5 2 5 6B 40", "count 1,"),
    ("rank 2 4 5 2 6 6B 40", "NO 8:"),
    ("select 2 4 5 3 2 6B 40", "NO 12:"),
    ("extract 2 4 5 9 6B", "NO 11:"),
    ("rank 2 4096 0 987 0", "visits 16;"),
    ("room 4 table-read-bytes E0", "count 1; output 01 00 00 00;"),
    ("room 3 table-read-bytes E0", "; output A5 A5 A5;"),
    ("room 3 table-read-bytes E0", "NO 5:"),
    ("room 5 table-read-bytes E0", "count 1; output 01 00 00 00 A5;"),
    ("room 8 table-read-bytes E6 0B 2C 14 8D C0", "NO 7, place 1:"),
    ("table-row 2 BF", "inside 2 1;"),
    ("table-row 2 F7", "inside 1 2;"),
];

// Paper 02's R-1 on the row of P2, whose total is 11, on an empty row, and on eleven repeats of 600
const R_1: [(&str, &str); 11] = [
    ("repeated-total 2 3 2 3E DE", "total 29;"),
    ("repeated-total 2 3 11 3E DE", "total 11;"),
    ("repeated-total 2 3 12 3E DE", "NO 15:"),
    ("repeated-total 2 0 99 3E DE", "NO 14:"),
    ("repeated-total 2 3 0 3E DE", "total 33;"),
    ("repeated-total 2 1 11 3E DE", "total 11;"),
    ("repeated-total 2 1 12 3E DE", "NO 15:"),
    ("repeated-total 2 3 99 E0", "NO 6:"),
    ("repeated-total 2 3 0", "total 0;"),
    ("repeated-total 2 3 1", "NO 15:"),
    ("repeated-total 3 11 20 6D B8", "total 6400;"),
];

// Paper 02's R-2: its four examples, and what decides where a sentence can be read in two ways
const R_2: [(&str, &str); 42] = [
    ("dense-write 128 128", "bytes 1; encoding 7F;"),
    ("dense-write 128 129", "bytes 2; encoding 80 00;"),
    ("dense-write 128 16512", "bytes 2; encoding FF 7F;"),
    ("dense-write 128 16513", "bytes 3; encoding 80 80 00;"),
    ("dense-read 128 7F", "count 1; row 128;"),
    ("dense-read 128 80 00", "count 1; row 129;"),
    ("dense-read 128 FF 7F", "count 1; row 16512;"),
    ("dense-read 128 80 80 00", "count 1; row 16513;"),
    ("room 9 dense-write 128 128 129 16512 16513", "bytes 8; output 7F 80 00 FF 7F 80 80 00 A5;"),
    ("room 5 dense-read 128 7F 80 00 FF 7F 80 80 00", "count 4; output 128 129 16512 16513 7777777;"),
    ("room 1 dense-read 128 80", "NO 17:"),
    ("room 1 dense-read 128 FFx30", "NO 17:"),
    ("room 1 dense-read 128 FFx30 00", "NO 7, place 0:"),
    ("room 0 dense-write 128", "bytes 0; output none;"),
    ("room 0 dense-read 128", "count 0; output none;"),
    ("dense-write 254 254", "encoding FD;"),
    ("dense-write 254 255", "encoding FE 00;"),
    ("dense-write 254 508", "encoding FE FD;"),
    ("dense-write 254 509", "encoding FF 00;"),
    ("dense-write 254 763", "encoding FE FE 00;"),
    ("dense-write 1 2", "encoding 01 00;"),
    ("dense-write 1 257", "encoding 01 01 00;"),
    ("dense-write 255 1", "NO 16:"),
    ("dense-read 255 00", "NO 16:"),
    ("dense-write 254 4294967295", "bytes 25;"),
    ("dense-write 254 4294967295x4096", "bytes 102400;"),
    ("room 0 dense-write 0 0x4097", "NO 16:"),
    ("room 0 dense-write 128 0x4097", "NO 4:"),
    ("room 0 dense-write 128 0x4096", "NO 3, place 0:"),
    ("room 3 dense-write 128 5 0 0", "NO 3, place 1:"),
    ("room 1 dense-write 128 129", "NO 5:"),
    ("room 1 dense-write 128 129", "; output A5;"),
    ("room 0 dense-read 0 00x102401", "NO 16:"),
    ("dense-read 128 00x102400", "NO 4:"),
    ("dense-read 128 00x102401", "NO 2:"),
    ("dense-read 128 FFx102401", "NO 2:"),
    ("dense-read 128 00x4096 8E FE FE FE 7F", "NO 4:"),
    ("dense-read 128 8E FE FE FE 7F 00x4097", "NO 7, place 0:"),
    ("dense-read 128 00x4097 80", "NO 4:"),
    ("dense-read 128 8E FE FE FE 7F 80", "NO 7, place 0:"),
    ("room 0 dense-read 128 00 80", "NO 17:"),
    ("room 0 dense-read 128 00", "NO 5:"),
];

// Paper 02's R-4: what decides where a sentence can be read in two ways. The largest total is 4,096 times 4,294,967,295.
const R_4: [(&str, &str); 58] = [
    // writing returns the head, and a strip without one is read for it
    ("write 2 3 1 4 2 1", "bytes 2, bits 15, count 5, total 11; encoding 3E DE;"),
    ("write 2", "bytes 0, bits 0, count 0, total 0;"),
    ("write 2 4294967295x4096", "bytes 24064, bits 192512, count 4096, total 17592186040320;"),
    ("header 2 3E DE", "bits 15, count 5, total 11;"),
    ("header 2", "bits 0, count 0, total 0;"),
    ("header 3 6D B8", "bits 13, count 1, total 600;"),
    ("header 7 00x24065", "NO 1:"),
    ("header 2 00x24064", "NO 6:"),
    ("header 2 00x24065", "NO 2:"),
    ("header 2 FFx24065", "NO 2:"),
    ("header 2 FFx1024", "bits 8192, count 4096, total 4096;"),
    ("header 2 FFx1024 C0", "NO 4:"),
    ("header 2 24 88 08 A2 A1 16", "bits 47, count 1, total 4294967295;"),
    ("header 2 A4 88 08 A2 A1 16", "NO 7, place 0:"),
    ("header 2 FFx1024 A4 88 08 A2 A1 16", "NO 4:"),
    ("header 2 A4 88 08 A2 A1 17 FFx1024 80", "NO 7, place 0:"),
    ("header 2 FFx1024 C0 00", "NO 4:"),
    ("header 2 A4 88 08 A2 A1 16 00", "NO 7, place 0:"),
    ("header 2 E0", "NO 6:"),
    // append after append is writing; a head that was read will do
    ("append 2 600 15 5 11 3E DE", "bytes 4, bits 29, count 6, total 611; encoding 3E DE 45 58;"),
    ("header 2 3E DE 45 58", "bits 29, count 6, total 611;"),
    ("append 2 1 29 6 611 3E DE 45 58", "bytes 4, bits 31, count 7, total 612; encoding 3E DE 45 5E;"),
    ("room 3 append 2 1 0 0 0 FF FF FF", "bytes 1, bits 2, count 1, total 1; buffer C0 FF FF;"),
    // FF reads as 1, 1, 1, 1, so that a head of one 1 is false of it: dirty fill. The bits that it names are kept, and it goes up by the codeword
    ("header 2 FF", "bits 8, count 4, total 4;"),
    ("room 1 append 2 1 2 1 1 FF", "bytes 1, bits 4, count 2, total 2; buffer F0;"),
    ("room 1 append 2 1 2 1 1 C0", "bytes 1, bits 4, count 2, total 2; buffer F0;"),
    ("room 2 append 3 1 6 2 2 FC", "bytes 2, bits 9, count 3, total 3; buffer FF 80;"),
    ("room 2 append 2 1 6 2 2 FC", "bytes 1, bits 8, count 3, total 3; buffer FF A5;"),
    // 1, then 18, by the head that is given
    ("room 1 append 7 0 9 4097 17592186040321 C0", "NO 1:"),
    ("room 1 append 2 1 8 1 1 C0", "NO 5:"),
    ("room 1 append 2 1 9 1 1 C0", "NO 18:"),
    ("room 24065 append 2 1 192510 0 0", "bytes 24064, bits 192512, count 1, total 1;"),
    ("room 24065 append 2 1 192512 0 0", "NO 5:"),
    ("room 24065 append 2 1 192513 0 0", "NO 18:"),
    ("room 2 append 2 1 2 4095 1 C0", "bytes 1, bits 4, count 4096, total 2;"),
    ("room 2 append 2 1 2 4096 1 C0", "NO 4:"),
    ("room 2 append 2 1 2 4097 1 C0", "NO 18:"),
    ("room 2 append 2 1 2 1 17592186040321 C0", "NO 18:"),
    // a total at the limit takes one number, and the next append gets 18
    ("room 2 append 2 1 2 1 17592186040320 C0", "bytes 1, bits 4, count 2, total 17592186040321; buffer F0 A5;"),
    ("room 2 append 2 1 4 2 17592186040321 F0", "NO 18:"),
    ("room 7 append 2 4294967295 2 1 17592186040320 C0", "bytes 7, bits 49, count 2, total 17596481007615;"),
    ("room 7 append 2 1 49 2 17596481007615 C9 22 02 28 A8 45 80", "NO 18:"),
    // then 3, 4, 5
    ("room 1 append 2 0 9 0 0 C0", "NO 18:"),
    ("room 2 append 2 0 2 4097 1 C0", "NO 18:"),
    ("room 1 append 2 0 2 1 17592186040321 C0", "NO 18:"),
    ("room 1 append 2 1 9 4096 0 C0", "NO 18:"),
    ("room 2 append 2 0 2 4096 1 C0", "NO 3, place 0:"),
    ("room 1 append 2 0 8 4 4 FF", "NO 3, place 0:"),
    ("room 1024 append 2 1 8192 4096 4096 FFx1024", "NO 4:"),
    ("room 1 append 2 1 8 4 4 FF", "NO 5:"),
    // 5 also where the bits would pass 192,512
    ("room 24064 append 2 1 192500 0 0", "bytes 24063, bits 192502, count 1, total 1;"),
    ("room 24064 append 2 4294967295 192500 0 0", "NO 5:"),
    ("room 24070 append 2 4294967295 192465 0 0", "bytes 24064, bits 192512, count 1, total 4294967295;"),
    ("room 24070 append 2 4294967295 192466 0 0", "NO 5:"),
    ("room 24064 append 2 4294967295 192465 4095 17587891073025", "bytes 24064, bits 192512, count 4096, total 17592186040320;"),
    ("room 24064 append 2 1 192512 4096 17592186040320", "NO 4:"),
    ("room 24064 append 2 0 192512 4096 17592186040320", "NO 3, place 0:"),
    // a refusal writes nothing
    ("room 2 append 2 1 2 1 17592186040321 C0", "; buffer C0 A5;"),
];

// .. and which heads are true: reading the bytes that the bits reach, in that order, gives them. What comes after those bytes is not read.
const TRUE: [(u64, &[u8], [u64; 3], bool); 20] = [
    (2, &[0x3E, 0xDE], [15, 5, 11], true),
    (2, &[0x3E, 0xDE, 0xFF], [15, 5, 11], true),
    (2, &[0x3E, 0xDF], [15, 5, 11], false),
    (2, &[0x3E], [15, 5, 11], false),
    (2, &[0x3E, 0xDE], [14, 5, 11], false),
    (2, &[0x3E, 0xDE], [16, 5, 11], false),
    (2, &[0x3E, 0xDE], [15, 4, 11], false),
    (2, &[0x3E, 0xDE], [15, 5, 12], false),
    (2, &[0xFF], [2, 1, 1], false),
    (2, &[0xFF], [8, 4, 4], true),
    (2, &[0xC0], [2, 1, 1], true),
    (2, &[0xC0, 0xFF], [2, 1, 1], true),
    (2, &[0xF0], [4, 2, 2], true),
    (2, &[0xFC], [6, 3, 3], true),
    (3, &[0xFC], [6, 3, 3], false),
    (3, &[0xFC], [6, 2, 2], true),
    (2, &[], [0, 0, 0], true),
    (6, &[0xFF], [0, 0, 0], true),
    (7, &[0xFF], [0, 0, 0], false),
    (2, &[0xFF], [u64::MAX, 0, 0], false),
];

fn true_heads(s: &mut Sources) {
    for (order, bytes, [bits, count, total], printed) in TRUE {
        let is_true = model::is_true(order, bytes, model::Header { bits, count, total });
        let place = format!("paper 02, R-4, order {order}, {bits} {count} {total} of{}", hexadecimal(bytes));
        s.same(&place, &printed.to_string(), &is_true.to_string());
    }
}

// Paper 02's R-5: what decides where a sentence can be read in two ways
const R_5: [(&str, &str); 41] = [
    // the outcome is the strip of the changed row, with the head that writing the row and reading the strip give
    ("replace 2 2 1 3E DE", "bytes 2, bits 13, count 5, total 8; encoding 3F 78;"),
    ("write 2 3 1 1 2 1", "bytes 2, bits 13, count 5, total 8; encoding 3F 78;"),
    ("header 2 3F 78", "bits 13, count 5, total 8;"),
    ("read 2 3F 78", "count 5; row 3 1 1 2 1;"),
    // zeros from the new end to the old, and not to that of the buffer
    ("room 8 replace 2 0 1 24 88 08 A2 A1 16", "bytes 1, bits 2, count 1, total 1; buffer C0 00 00 00 00 00 A5 A5;"),
    ("room 6 replace 2 0 1 24 88 08 A2 A1 16", "bytes 1, bits 2, count 1, total 1; buffer C0 00 00 00 00 00;"),
    ("replace 2 0 1 24 88 08 A2 A1 16", "bytes 1, bits 2, count 1, total 1; encoding C0;"),
    // codewords before the place keep their bits
    ("replace 2 4 600 3E DE", "bytes 4, bits 27, count 5, total 610; encoding 3E D9 15 60;"),
    ("replace 2 3 1 3E DE", "bytes 2, bits 14, count 5, total 10; encoding 3E FC;"),
    ("room 3 replace 2 1 4 3E DE", "bytes 3, bits 17, count 5, total 14; buffer 3B B7 80;"),
    // 2 by the buffer, and by 24,064 bytes
    ("room 1 replace 2 0 1 3E DE", "NO 2:"),
    ("room 2 replace 2 0 1 3E DE", "bytes 2, bits 13, count 5, total 9; buffer FB 78;"),
    ("room 24065 replace 2 0 1 00x24064", "NO 6:"),
    ("room 24065 replace 2 0 1 00x24065", "NO 2:"),
    ("room 24063 replace 2 0 1 00x24064", "NO 2:"),
    // 1, then 2, then 4 and 7 from the left, then 6
    ("room 0 replace 7 0 1 C0", "NO 1:"),
    ("room 0 replace 1 0 1 C0", "NO 1:"),
    ("room 1024 replace 2 0 1 FFx1024 C0", "NO 2:"),
    ("room 1025 replace 2 0 1 FFx1024 C0", "NO 4:"),
    ("room 5 replace 2 0 1 A4 88 08 A2 A1 16", "NO 2:"),
    ("replace 2 0 1 A4 88 08 A2 A1 16", "NO 7, place 0:"),
    ("replace 2 0 4294967295 E9 22 02 28 A8 45 80", "NO 7, place 1:"),
    ("replace 2 0 1 FFx1024 A4 88 08 A2 A1 16", "NO 4:"),
    ("replace 2 0 1 A4 88 08 A2 A1 17 FFx1024 80", "NO 7, place 0:"),
    ("replace 2 0 1 FFx1024 C0 00", "NO 4:"),
    ("replace 2 0 1 A4 88 08 A2 A1 16 00", "NO 7, place 0:"),
    ("replace 2 9 0 E0", "NO 6:"),
    // then 8, 3, 5: 5 by the whole buffer, whatever is in use
    ("replace 2 5 0 3E DE", "NO 8:"),
    ("replace 2 5 1 3E DE", "NO 8:"),
    ("replace 2 4 0 3E DE", "NO 3, place 0:"),
    ("replace 2 0 1", "NO 8:"),
    ("room 1 replace 2 1 4294967295 C0", "NO 8:"),
    ("room 1 replace 2 0 0 C0", "NO 3, place 0:"),
    ("room 1 replace 2 0 9 C0", "bytes 1, bits 6, count 1, total 9; buffer 8C;"),
    ("room 5 replace 2 0 4294967295 C0", "NO 5:"),
    ("room 6 replace 2 0 4294967295 C0", "bytes 6, bits 47, count 1, total 4294967295; buffer 24 88 08 A2 A1 16;"),
    // a full row can be changed
    ("room 1024 replace 2 4095 1 FFx1024", "bytes 1024, bits 8192, count 4096, total 4096; buffer FFx1024;"),
    ("room 1024 replace 2 4095 2 FFx1024", "NO 5:"),
    ("room 1025 replace 2 4095 2 FFx1024", "bytes 1025, bits 8193, count 4096, total 4097;"),
    // a refusal writes nothing
    ("room 1 replace 2 0 4294967295 C0", "NO 5:"),
    ("room 1 replace 2 0 4294967295 C0", "; buffer C0;"),
];

// Paper 01's listing
const LISTING: &str = "\
PLACE     NUMBER BITS           TOTAL
    0          3    4               3
    1          1    2               4
    2          4    4               8
    3          2    3              10
    4          1    2              11
BYTES          2;";

/// Lines of the listing's input, each a number right-justified in 10 columns.
fn input(numbers: &[u64]) -> String {
    numbers.iter().map(|n| format!("{n:>10}$")).collect()
}

fn listings(s: &mut Sources) {
    let once = |text: &str| format!("listing-text 1 {text}");
    s.says(&once(&input(&[2, 3, 1, 4, 2, 1])), LISTING);
    s.says("listing 2 3 1 4 2 1", LISTING);
    s.says(&once(&input(&[6])), "PLACE     NUMBER BITS           TOTAL\nBYTES          0;");
    s.says("listing-text 45068 x", "NO    4;");
    for text in ["$", "        02$", "         2^$", "        +2$", "        2 $", "          $", "12345678901$", "00000000 2$"] {
        s.says(&once(text), "NO   13;");
    }
    s.says("listing-text 0 $", "NO   13;");
    s.says(&once(&(input(&[7]) + "         x$")), "NO   13;");
    for numbers in [&[0][..], &[9999999999], &[4294967298, 1], &[7, 0]] {
        s.says(&once(&input(numbers)), "NO    1;");
    }
    for number in [4294967296, 9999999999] {
        s.says(&once(&input(&[2, number])), "NO    3;");
    }
}

fn papers(s: &mut Sources) {
    for (request, part) in PAPER_01.iter().chain(&READ_AS).chain(&R_1).chain(&R_2).chain(&R_4).chain(&R_5) {
        s.says(request, part);
    }
    for (alphabet, visits) in [(3, &[1, 2, 2][..]), (5, &[2, 2, 3, 2, 3])] {
        for (n, visits) in (1..).zip(visits) {
            s.says(&format!("rank 2 {alphabet} 0 {n} 0"), &format!("visits {visits};"));
        }
    }
}

// Paper 02, R-3: in order 2 the first number with s digits is F(s + 2). Its digits are zeros, and up to 44 of them it is a legal number.
fn first_numbers_of_order_2(s: &mut Sources) {
    for digits in 0..=44 {
        let place = format!("paper 02, R-3, s = {digits}");
        let first = f(2, digits as i64 + 2);
        s.same_number(&place, first, model::first_number(2, digits));
        s.codeword(&place, 2, first, &("0".repeat(digits) + "011"));
    }
}

fn main() {
    let read = |path: String| std::fs::read_to_string(&path).unwrap_or_else(|error| panic!("{path}: {error}"));
    let scripts: Vec<String> = std::env::args().skip(1).map(read).collect();
    let mut s = Sources::new(&scripts.concat());
    table_1(&mut s);
    table_2(&mut s);
    table_4(&mut s);
    figure_3(&mut s);
    tables_5_and_8(&mut s);
    table_7(&mut s);
    text_of_001(&mut s);
    split_codeword(&mut s);
    words_of_001(&mut s);
    dense_of_001(&mut s);
    denser(&mut s);
    dense_of_003(&mut s);
    source_000(&mut s);
    compressors(&mut s);
    trees(&mut s);
    papers(&mut s);
    true_heads(&mut s);
    first_numbers_of_order_2(&mut s);
    listings(&mut s);
    for e in &ERRATA {
        assert!(s.met.contains(e.place), "nothing was compared at: {}", e.place);
    }
    println!("tests/sources: {} values of the papers and the sources agree with the model, but for {} that are wrong in the sources", s.compared, ERRATA.len());
}
