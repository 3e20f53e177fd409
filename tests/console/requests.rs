//! What the console answers to a line, by the model.

// a program that compares no help uses a part of it
#![allow(dead_code)]

use crate::model::{self, Answer, Header};
use crate::table;
use crate::words::{decimal, Words};

/// The most bytes of a line, without its line feed.
const LONGEST_LINE: usize = 327_679;
/// The largest rooms: in bytes, and in numbers.
const ROOM_BYTES: usize = 102_416;
const ROOM_NUMBERS: usize = 4_100;
/// Room for every answer.
const ENOUGH_BYTES: usize = 102_400;
const ENOUGH_NUMBERS: usize = 4_096;
/// What stands in an output before a call.
const BYTE_BEFORE: u8 = 0xA5;
const NUMBER_BEFORE: u32 = 7_777_777;
/// What an input of the listing is cut off at, in bytes and in numbers.
const LISTING_BYTES: usize = 45_100;
const LISTING_NUMBERS: usize = 4_099;

/// What stands before a request.
#[derive(Clone, Copy)]
enum Before {
    Nothing,
    Room(u64),
}

/// Answers a request, or nothing where the line has another form.
type Request = fn(Words, Before) -> Option<String>;

/// Each request: its usage, which begins with its name, and its answer.
const REQUESTS: [(&str, Request); 21] = [
    ("codewords ORDER ROW", codewords),
    ("write ORDER ROW", write),
    ("read ORDER BYTES", read),
    ("table-read BYTES", table_read),
    ("table-read-bytes BYTES", table_read_bytes),
    ("dense-write STOPPERS ROW", dense_write),
    ("dense-read STOPPERS BYTES", dense_read),
    ("header ORDER BYTES", header),
    ("append ORDER NUMBER BITS COUNT TOTAL BYTES", append),
    ("replace ORDER PLACE NUMBER BYTES", replace),
    ("preview ORDER PLACE NUMBER BYTES", preview),
    ("total ORDER FROM TO BYTES", total),
    ("repeated-total ORDER REPEATS SHARED BYTES", repeated_total),
    ("build ORDER ALPHABET ROW", build),
    ("extract ORDER ALPHABET LENGTH PLACE INDEX", extract),
    ("rank ORDER ALPHABET LENGTH NUMBER PLACE INDEX", rank),
    ("select ORDER ALPHABET LENGTH NUMBER USE INDEX", select),
    ("listing ORDER ROW", listing),
    ("listing-text TIMES TEXT", listing_text),
    ("table-row ONES BYTE", table_row),
    ("table-value ONES LENGTH BYTE", table_value),
];

/// The usages of the requests, but for that of help, whose words are not the model's.
pub fn usages() -> Vec<&'static str> {
    REQUESTS.iter().map(|(usage, _)| *usage).collect()
}

pub fn name(usage: &str) -> &str {
    usage.split(' ').next().unwrap()
}

/// What the console says to a line.
#[derive(PartialEq, Eq, Debug)]
pub enum Said {
    Nothing,
    /// One line or more, without the last line feed.
    Text(String),
    Help,
}

pub fn answer(line: &[u8]) -> Said {
    if line.len() > LONGEST_LINE {
        return Said::Text(format!("expected a line of at most {LONGEST_LINE} bytes"));
    }
    let mut words = Words::new(line);
    match words.next() {
        None => Said::Nothing,
        Some(word) if word.starts_with(b"#") => Said::Nothing,
        Some(b"room") => match words.next().and_then(decimal) {
            Some(room) => request(words, Before::Room(room)),
            None => expected("room N REQUEST"),
        },
        Some(_) => request(Words::new(line), Before::Nothing),
    }
}

fn expected(usage: &str) -> Said {
    Said::Text(format!("expected: {usage}"))
}

fn request(mut words: Words, before: Before) -> Said {
    let word = words.next().unwrap_or(b"");
    if word == b"help" {
        return match (before, words.next()) {
            (Before::Nothing, None) => Said::Help,
            _ => expected("help"),
        };
    }
    match REQUESTS.iter().find(|(usage, _)| name(usage).as_bytes() == word) {
        Some((usage, request)) => request(words, before).map_or_else(|| expected(usage), Said::Text),
        None => Said::Text("expected a request: help lists them".to_string()),
    }
}

// ---- Elements ----

trait Element: PartialEq {
    fn printed(&self) -> String;
}

impl Element for u8 {
    fn printed(&self) -> String {
        format!("{self:02X}")
    }
}

impl Element for u32 {
    fn printed(&self) -> String {
        self.to_string()
    }
}

/// Each after a space, and 10 or more that are equal as one with how often it stands there.
fn printed<T: Element>(elements: &[T]) -> String {
    if elements.is_empty() {
        return " none".to_string();
    }
    let mut text = String::new();
    let mut left = elements;
    while let Some(first) = left.first() {
        let equal = left.iter().take_while(|element| *element == first).count();
        let one = format!(" {}", first.printed());
        text += &if equal >= 10 { format!("{one}x{equal}") } else { one.repeat(equal) };
        left = &left[equal..];
    }
    text
}

fn string(bits: &[bool]) -> String {
    bits.iter().map(|bit| if *bit { '1' } else { '0' }).collect()
}

// ---- Outputs and answers ----

/// What a call may write. Where the line has its size, the whole of it is shown, under this name; else what was written.
struct Output<T> {
    elements: Vec<T>,
    whole: Option<&'static str>,
}

impl<T: Element> Output<T> {
    fn shown(&self, name: &str, written: u64) -> String {
        match self.whole {
            Some(name) => format!("; {name}{}", printed(&self.elements)),
            None => format!("; {name}{}", printed(&self.elements[..written as usize])),
        }
    }
}

impl Before {
    /// A fresh output of the room that the line has or, where it has none, of enough.
    fn output<T: Clone>(self, element: T, most: usize, enough: usize) -> Option<Output<T>> {
        match self {
            Before::Nothing => Some(Output { elements: vec![element; enough], whole: None }),
            Before::Room(room) if room <= most as u64 => Some(Output { elements: vec![element; room as usize], whole: Some("output") }),
            _ => None,
        }
    }

    fn bytes(self) -> Option<Output<u8>> {
        self.output(BYTE_BEFORE, ROOM_BYTES, ENOUGH_BYTES)
    }

    fn numbers(self) -> Option<Output<u32>> {
        self.output(NUMBER_BEFORE, ROOM_NUMBERS, ENOUGH_NUMBERS)
    }

    /// Before a request that takes no room.
    fn nothing(self) -> Option<()> {
        match self {
            Before::Nothing => Some(()),
            _ => None,
        }
    }
}

fn reason(number: u64) -> &'static str {
    match number {
        1 => "the order is not 2 to 6",
        2 => "more bytes than an encoding can have, or more in use than the buffer has",
        3 => "a number is 0",
        4 => "more than 4096 numbers",
        5 => "the output is too short, or more than 192512 bits would be in use",
        6 => "8 bits or more, or a one, remain after the last codeword",
        7 => "a number is above 4294967295",
        8 => "the place, the span or the use is not in the row",
        9 => "the alphabet is not 1 to 4096",
        10 => "a number is 0 or above the alphabet",
        11 => "the bytes are no index of so many numbers",
        12 => "the number stands in the row fewer times",
        14 => "the repeats are not 1 to 10000",
        15 => "more is shared than the row's total",
        16 => "the stoppers are not 1 to 254",
        17 => "the bytes end inside a codeword",
        18 => "the header has more bits, numbers or total than the buffer or a row can have",
        _ => panic!("{number} is no refusal"),
    }
}

fn refusal<R>(a: &Answer<R>) -> String {
    let place = if [3, 7, 10].contains(&a.number) { format!(", place {}", a.place) } else { String::new() };
    format!("NO {}{place}: {}", a.number, reason(a.number))
}

/// The answer of a call that writes nothing.
fn plain<R>(a: &Answer<R>, results: impl Fn(&R) -> String) -> String {
    if a.number == 0 { results(&a.results) } else { refusal(a) }
}

/// The answer of a call with an output, of which so much was written.
fn shown<R, T: Element>(a: &Answer<R>, results: impl Fn(&R) -> String, output: &Output<T>, name: &str, written: u64) -> String {
    match output.whole {
        None if a.number != 0 => refusal(a),
        _ => plain(a, results) + &output.shown(name, written),
    }
}

// ---- The requests ----

fn codewords(mut words: Words, before: Before) -> Option<String> {
    before.nothing()?;
    let order = words.number()?;
    let row = words.row()?;
    let a = model::write(order, &row, &mut vec![0; ENOUGH_BYTES]);
    let one = |n: &u32| format!("{n} {}", string(&model::codeword(order as usize, *n as u128)));
    let all = |_: &_| match row[..] {
        [] => "none".to_string(),
        _ => row.iter().map(one).collect::<Vec<_>>().join(", "),
    };
    Some(plain(&a, all))
}

/// A header, as the answers tell it.
fn told(header: &Header) -> String {
    format!("bits {}, count {}, total {}", header.bits, header.count, header.total)
}

/// What writing, appending, replacing and its preview tell: the bytes in use, and the header.
fn encoded((bytes, header): &(u64, Header)) -> String {
    format!("bytes {bytes}, {}", told(header))
}

fn write(mut words: Words, before: Before) -> Option<String> {
    let order = words.number()?;
    let row = words.row()?;
    let mut output = before.bytes()?;
    let a = model::write(order, &row, &mut output.elements);
    Some(shown(&a, encoded, &output, "encoding", a.results.0))
}

fn count(count: &u64) -> String {
    format!("count {count}")
}

fn read(mut words: Words, before: Before) -> Option<String> {
    let order = words.number()?;
    let bytes = words.bytes()?;
    let mut output = before.numbers()?;
    let a = model::read(order, &bytes, &mut output.elements);
    Some(shown(&a, count, &output, "row", a.results))
}

fn table_read(words: Words, before: Before) -> Option<String> {
    let bytes = words.bytes()?;
    let mut output = before.numbers()?;
    let a = model::table_read(&bytes, &mut output.elements);
    Some(shown(&a, count, &output, "row", a.results))
}

fn table_read_bytes(words: Words, before: Before) -> Option<String> {
    let bytes = words.bytes()?;
    let mut output = before.bytes()?;
    let a = model::table_read_bytes(&bytes, &mut output.elements);
    Some(shown(&a, count, &output, "bytes", 4 * a.results))
}

fn dense_write(mut words: Words, before: Before) -> Option<String> {
    let stoppers = words.number()?;
    let row = words.row()?;
    let mut output = before.bytes()?;
    let a = model::dense_write(stoppers, &row, &mut output.elements);
    Some(shown(&a, |bytes| format!("bytes {bytes}"), &output, "encoding", a.results))
}

fn dense_read(mut words: Words, before: Before) -> Option<String> {
    let stoppers = words.number()?;
    let bytes = words.bytes()?;
    let mut output = before.numbers()?;
    let a = model::dense_read(stoppers, &bytes, &mut output.elements);
    Some(shown(&a, count, &output, "row", a.results))
}

fn header(mut words: Words, before: Before) -> Option<String> {
    before.nothing()?;
    let order = words.number()?;
    let a = model::header(order, &words.bytes()?);
    Some(plain(&a, told))
}

/// The buffer of an append, a replacement or its preview, which begins with these bytes: six bytes longer, or of the room that the line has.
fn buffer(bytes: Vec<u8>, before: Before) -> Option<Output<u8>> {
    match before {
        Before::Nothing => Some(Output { elements: [bytes, vec![BYTE_BEFORE; 6]].concat(), whole: None }),
        Before::Room(room) if room <= ROOM_BYTES as u64 => {
            let mut elements = bytes;
            elements.resize(room as usize, BYTE_BEFORE);
            Some(Output { elements, whole: Some("buffer") })
        }
        _ => None,
    }
}

fn append(mut words: Words, before: Before) -> Option<String> {
    let (order, n) = (words.number()?, words.number_32()?);
    let header = Header { bits: words.number()?, count: words.number()?, total: words.number()? };
    let mut output = buffer(words.bytes()?, before)?;
    let a = model::append(order, &mut output.elements, header, n);
    Some(shown(&a, encoded, &output, "encoding", a.results.0))
}

/// What a replacement is asked for, and its preview: order, place and number; the buffer; and how many of its bytes are in use, which are all that are given,
/// also where the room is for fewer.
fn change(mut words: Words, before: Before) -> Option<((u64, u64, u32), Output<u8>, u64)> {
    let asked = (words.number()?, words.number()?, words.number_32()?);
    let bytes = words.bytes()?;
    let used = bytes.len() as u64;
    Some((asked, buffer(bytes, before)?, used))
}

fn replace(words: Words, before: Before) -> Option<String> {
    let ((order, place, n), mut output, used) = change(words, before)?;
    let a = model::replace(order, &mut output.elements, used, place, n);
    Some(shown(&a, encoded, &output, "encoding", a.results.0))
}

/// Nothing is written: where the line has a room, the buffer is shown as it was.
fn preview(words: Words, before: Before) -> Option<String> {
    let ((order, place, n), buffer, used) = change(words, before)?;
    let answer = plain(&model::preview(order, &buffer.elements, used, place, n), encoded);
    Some(match buffer.whole {
        Some(_) => answer + &buffer.shown("buffer", 0),
        None => answer,
    })
}

fn total(mut words: Words, before: Before) -> Option<String> {
    before.nothing()?;
    let (order, from, to) = (words.number()?, words.number()?, words.number()?);
    let a = model::total(order, &words.bytes()?, from, to);
    Some(plain(&a, |total| format!("total {total}")))
}

fn repeated_total(mut words: Words, before: Before) -> Option<String> {
    before.nothing()?;
    let (order, repeats, shared) = (words.number()?, words.number()?, words.number()?);
    let a = model::repeated_total(order, &words.bytes()?, repeats, shared);
    Some(plain(&a, |total| format!("total {total}")))
}

fn build(mut words: Words, before: Before) -> Option<String> {
    let (order, alphabet) = (words.number()?, words.number_32()?);
    let row = words.row()?;
    let mut output = before.bytes()?;
    let a = model::build(order, alphabet as u64, &row, &mut output.elements);
    let bits = a.results as usize;
    let bitmaps = match bits {
        1..=64 => format!("; bitmaps {}", string(&model::unpack(&output.elements)[..bits])),
        _ => String::new(),
    };
    Some(shown(&a, |bits| format!("bits {bits}"), &output, "index", (a.results + 7) / 8) + &bitmaps)
}

fn extract(mut words: Words, before: Before) -> Option<String> {
    before.nothing()?;
    let (order, alphabet, length, place) = (words.number()?, words.number_32()?, words.number()?, words.number()?);
    let a = model::ask(order, alphabet as u64, length, &words.bytes()?, |index| index.extract(place));
    Some(plain(&a, |(number, visits)| format!("number {number}, visits {visits}")))
}

fn rank(mut words: Words, before: Before) -> Option<String> {
    before.nothing()?;
    let (order, alphabet, length) = (words.number()?, words.number_32()?, words.number()?);
    let (number, place) = (words.number_32()?, words.number()?);
    let a = model::ask(order, alphabet as u64, length, &words.bytes()?, |index| index.rank(number as u64, place));
    Some(plain(&a, |(count, visits)| format!("count {count}, visits {visits}")))
}

fn select(mut words: Words, before: Before) -> Option<String> {
    before.nothing()?;
    let (order, alphabet, length) = (words.number()?, words.number_32()?, words.number()?);
    let (number, times) = (words.number_32()?, words.number()?);
    let a = model::ask(order, alphabet as u64, length, &words.bytes()?, |index| index.select(number as u64, times));
    Some(plain(&a, |(place, visits)| format!("place {place}, visits {visits}")))
}

/// The listing program's text, without its last line feed.
fn listed(input: &[u8]) -> String {
    let text = String::from_utf8(model::listing(input)).unwrap();
    text.strip_suffix('\n').unwrap().to_string()
}

fn listing(mut words: Words, before: Before) -> Option<String> {
    before.nothing()?;
    let order = words.number().filter(|order| *order <= 9_999_999_999)?;
    let row = words.row()?;
    let mut input = format!("{order:>10}\n");
    for n in row.iter().take(LISTING_NUMBERS) {
        input += &format!("{n:>10}\n");
    }
    Some(listed(input.as_bytes()))
}

fn listing_text(mut words: Words, before: Before) -> Option<String> {
    before.nothing()?;
    let times = words.number()?;
    let character = |c: &u8| match *c {
        b'$' => b'\n',
        b'^' => b'\r',
        b'~' => b'\t',
        other => other,
    };
    let text: Vec<u8> = words.text().iter().map(character).collect();
    // no more than what is left of it after the cut
    let times = times.min(LISTING_BYTES as u64) as usize;
    let input: Vec<u8> = text.iter().copied().cycle().take((text.len() * times).min(LISTING_BYTES)).collect();
    Some(listed(&input))
}

fn table_row(mut words: Words, before: Before) -> Option<String> {
    before.nothing()?;
    let ones = words.number().filter(|ones| *ones <= 2)?;
    Some(table::row(ones as usize, words.byte()?))
}

fn table_value(mut words: Words, before: Before) -> Option<String> {
    before.nothing()?;
    let ones = words.number().filter(|ones| *ones <= 2)?;
    let length = words.number().filter(|length| *length <= 37)?;
    Some(format!("value {}", table::moved(ones as usize, length, words.byte()?)))
}
