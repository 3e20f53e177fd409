//! A model of the library, written from papers 01 and 02 alone. It shares no table and no way of working with the proved code: it is slow and plain, keeps
//! bits in lists and numbers in 128 bits, and takes each sentence of the papers as it stands. Programs beside the proofs are compared with it.

// each program that uses the model uses a part of it
#![allow(dead_code)]

use std::cell::RefCell;
use std::collections::{HashMap, HashSet};
use std::rc::Rc;

/// The paper's limits.
pub const MAX_NUMBER: u128 = 4_294_967_295;
pub const MAX_COUNT: usize = 4_096;
pub const MOST_BYTES: u64 = 24_064;
pub const MOST_BITS: u64 = 192_512;
pub const MOST_TOTAL: u64 = 17_592_186_040_320;
pub const MOST_DENSE_BYTES: u64 = 102_400;
pub const LARGEST_ALPHABET: u64 = 4_096;

/// What a call says: the number of its answer, the place, and its results, which are 0 after a refusal.
pub struct Answer<R> {
    pub number: u64,
    pub place: u64,
    pub results: R,
}

impl<R: Default> Answer<R> {
    fn yes(results: R) -> Self {
        Answer { number: 0, place: 0, results }
    }

    fn no(refusal: Refusal) -> Self {
        Answer { number: refusal.number, place: refusal.place, results: R::default() }
    }
}

/// A refusal: its number, and the place of the first number at fault, which is 0 for most.
pub struct Refusal {
    pub number: u64,
    pub place: u64,
}

fn refusal(number: u64) -> Refusal {
    Refusal { number, place: 0 }
}

fn refusal_at(number: u64, place: usize) -> Refusal {
    Refusal { number, place: place as u64 }
}

// ---- The code of order m ----

/// What is worked out of an order once and then kept. Sums that pass 128 bits stay at the largest number there is.
struct Order {
    m: usize,
    /// F(0), F(1), ..
    f: Vec<u128>,
    /// The first numbers of the lengths m + 1, m + 2, ..
    first_numbers: Vec<u128>,
    /// For 0, 1, .. digits, in how many ways they can stand before k ones, k below m, so that m ones never come in a row.
    ways: Vec<Vec<u128>>,
}

impl Order {
    fn new(m: usize) -> Order {
        Order { m, f: vec![1], first_numbers: vec![2], ways: vec![vec![1; m]] }
    }

    /// F(n): F(0) is 1, and each further value is the sum of the m values before it, those before F(0) being 0.
    fn f(&mut self, n: usize) -> u128 {
        for i in self.f.len()..=n {
            let before = &self.f[i - self.m.min(i)..];
            let sum = before.iter().fold(0, |sum: u128, value| sum.saturating_add(*value));
            self.f.push(sum);
        }
        self.f[n]
    }

    /// The first number of length s + m + 1: 2 + F(1) + .. + F(s).
    fn first_number(&mut self, s: usize) -> u128 {
        for i in self.first_numbers.len()..=s {
            let sum = self.first_numbers[i - 1].saturating_add(self.f(i));
            self.first_numbers.push(sum);
        }
        self.first_numbers[s]
    }

    /// In how many ways j digits can be chosen so that m ones never come in a row.
    fn choices(&mut self, j: usize) -> u128 {
        for i in self.ways.len()..=j {
            let fewer = &self.ways[i - 1];
            let mut more: Vec<u128> = Vec::new();
            for k in 0..self.m {
                let with_zero = fewer[0];
                let with_one = if k + 1 < self.m { fewer[k + 1] } else { 0 };
                more.push(with_zero + with_one);
            }
            self.ways.push(more);
        }
        self.ways[j][0]
    }
}

/// What is kept of an order.
fn of_order<R>(m: usize, work: impl FnOnce(&mut Order) -> R) -> R {
    thread_local!(static KEPT: RefCell<HashMap<usize, Order>> = RefCell::new(HashMap::new()));
    KEPT.with(|kept| work(kept.borrow_mut().entry(m).or_insert_with(|| Order::new(m))))
}

/// The first number of length s + m + 1.
pub fn first_number(m: usize, s: usize) -> u128 {
    of_order(m, |order| order.first_number(s))
}

/// The number of a codeword: 1 for m ones; else the first number of its length and F(j) for each digit j that is one, the leftmost digit being j = 1.
pub fn number(m: usize, codeword: &[bool]) -> u128 {
    if codeword.len() == m {
        return 1;
    }
    let s = codeword.len() - m - 1;
    of_order(m, |order| {
        let mut sum = order.first_number(s);
        for j in 1..=s {
            if codeword[j - 1] {
                sum = sum.saturating_add(order.f(j));
            }
        }
        sum
    })
}

/// The codeword of a number. The digit strings of one length are counted through: those whose last digit is zero come before those whose last digit is
/// one, and so on to the front. That the codeword so found has the number is looked at each time.
pub fn codeword(m: usize, n: u128) -> Vec<bool> {
    if n == 1 {
        return vec![true; m];
    }
    let mut s = 0;
    while first_number(m, s + 1) <= n {
        s += 1;
    }
    let mut left = n - first_number(m, s);
    let mut bits = vec![false; s];
    let mut ones = 0;
    for j in (1..=s).rev() {
        let with_zero = of_order(m, |order| order.choices(j - 1));
        if left < with_zero {
            ones = 0;
        } else {
            left -= with_zero;
            bits[j - 1] = true;
            ones += 1;
        }
        assert!(ones < m);
    }
    bits.push(false);
    bits.extend(vec![true; m]);
    assert_eq!(number(m, &bits), n);
    bits
}

/// The codewords of a row, one after the other.
fn joined<T: Clone>(row: &[u32], codeword: impl Fn(u128) -> Vec<T>) -> Vec<T> {
    let mut all = Vec::new();
    let mut last: Option<(u32, Vec<T>)> = None;
    for &n in row {
        // a row that repeats a number repeats its codeword
        let again = matches!(&last, Some((before, _)) if *before == n);
        if !again {
            last = Some((n, codeword(n as u128)));
        }
        all.extend_from_slice(&last.as_ref().unwrap().1);
    }
    all
}

pub fn row_bits(m: usize, row: &[u32]) -> Vec<bool> {
    joined(row, |n| codeword(m, n))
}

// ---- The encoding, paper 01's strip ----

/// Bits in bytes, the first bit worth 128, with zeros to the end of the last byte.
pub fn pack(bits: &[bool]) -> Vec<u8> {
    let mut bytes = vec![0; (bits.len() + 7) / 8];
    for (i, bit) in bits.iter().enumerate() {
        if *bit {
            bytes[i / 8] += [128, 64, 32, 16, 8, 4, 2, 1][i % 8];
        }
    }
    bytes
}

pub fn unpack(bytes: &[u8]) -> Vec<bool> {
    let mut bits = Vec::new();
    for byte in bytes {
        for worth in [128, 64, 32, 16, 8, 4, 2, 1] {
            bits.push(byte / worth % 2 == 1);
        }
    }
    bits
}

/// The parse of a string of bits, paper 01's split: codewords, each cut off where m ones first come in a row, and a rest in which they never do.
pub fn parse(m: usize, bits: &[bool]) -> (Vec<Vec<bool>>, Vec<bool>) {
    let mut codewords = Vec::new();
    let mut pending: Vec<bool> = Vec::new();
    for bit in bits {
        pending.push(*bit);
        if pending.len() >= m && pending[pending.len() - m..].iter().all(|b| *b) {
            codewords.push(std::mem::take(&mut pending));
        }
    }
    (codewords, pending)
}

/// The encoding of a row.
pub fn encoding(m: usize, row: &[u32]) -> Vec<u8> {
    pack(&row_bits(m, row))
}

/// The numbers of codewords as a row: at each, from the left, 4 if it is the 4,097th, else 7 if it is too large.
fn legal_row(numbers: impl Iterator<Item = u128>) -> Result<Vec<u32>, Refusal> {
    let mut row = Vec::new();
    for (place, n) in numbers.enumerate() {
        if place == MAX_COUNT {
            return Err(refusal(4));
        }
        if n > MAX_NUMBER {
            return Err(refusal_at(7, place));
        }
        row.push(n as u32);
    }
    Ok(row)
}

/// The row of an encoding and the bits that its codewords have, or the refusal of every call that reads one: 1; 2; 4 or 7 at each finished codeword, from the
/// left; 6.
fn row_and_bits_of(order: u64, bytes: &[u8]) -> Result<(Vec<u32>, u64), Refusal> {
    if !(2..=6).contains(&order) {
        return Err(refusal(1));
    }
    if bytes.len() as u64 > MOST_BYTES {
        return Err(refusal(2));
    }
    let m = order as usize;
    let (codewords, rest) = parse(m, &unpack(bytes));
    let row = legal_row(codewords.iter().map(|codeword| number(m, codeword)))?;
    if rest.len() >= 8 || rest.contains(&true) {
        return Err(refusal(6));
    }
    Ok((row, codewords.iter().map(|codeword| codeword.len() as u64).sum()))
}

pub fn row_of(order: u64, bytes: &[u8]) -> Result<Vec<u32>, Refusal> {
    row_and_bits_of(order, bytes).map(|(row, _)| row)
}

// ---- The calls ----

/// What goes with an encoding, paper 02's head: the bits in use, how many numbers they hold, and their total.
#[derive(Clone, Copy, Default, PartialEq, Eq, Debug)]
pub struct Header {
    pub bits: u64,
    pub count: u64,
    pub total: u64,
}

/// Writing a row: the bytes of its encoding, and its header.
pub fn write(order: u64, row: &[u32], output: &mut [u8]) -> Answer<(u64, Header)> {
    if !(2..=6).contains(&order) {
        return Answer::no(refusal(1));
    }
    if row.len() > MAX_COUNT {
        return Answer::no(refusal(4));
    }
    if let Some(place) = row.iter().position(|n| *n == 0) {
        return Answer::no(refusal_at(3, place));
    }
    let bits = row_bits(order as usize, row);
    let bytes = pack(&bits);
    if output.len() < bytes.len() {
        return Answer::no(refusal(5));
    }
    output[..bytes.len()].copy_from_slice(&bytes);
    Answer::yes((bytes.len() as u64, Header { bits: bits.len() as u64, count: row.len() as u64, total: sum(row) }))
}

/// A row that was read, in the output: how many numbers it has; 5 where the output is shorter.
fn handed_over(row: Result<Vec<u32>, Refusal>, output: &mut [u32]) -> Answer<u64> {
    let row = match row {
        Ok(row) => row,
        Err(refusal) => return Answer::no(refusal),
    };
    if output.len() < row.len() {
        return Answer::no(refusal(5));
    }
    output[..row.len()].copy_from_slice(&row);
    Answer::yes(row.len() as u64)
}

/// Reading an encoding: how many numbers its row has.
pub fn read(order: u64, bytes: &[u8], output: &mut [u32]) -> Answer<u64> {
    handed_over(row_of(order, bytes), output)
}

/// Reading with the byte reader: an encoding of order 3, with no check of an order.
pub fn table_read(bytes: &[u8], output: &mut [u32]) -> Answer<u64> {
    read(3, bytes, output)
}

/// The same for a host that takes four bytes for each number, the lowest first; 5 is then fewer than four bytes for each number.
pub fn table_read_bytes(bytes: &[u8], output: &mut [u8]) -> Answer<u64> {
    let row = match row_of(3, bytes) {
        Ok(row) => row,
        Err(refusal) => return Answer::no(refusal),
    };
    if output.len() < 4 * row.len() {
        return Answer::no(refusal(5));
    }
    for (place, n) in row.iter().enumerate() {
        let mut left = *n;
        for byte in &mut output[4 * place..4 * place + 4] {
            *byte = (left % 256) as u8;
            left /= 256;
        }
    }
    Answer::yes(row.len() as u64)
}

/// The header of an encoding that comes without one: the bits that its codewords have, how many they are, and their total.
pub fn header(order: u64, bytes: &[u8]) -> Answer<Header> {
    match row_and_bits_of(order, bytes) {
        Ok((row, bits)) => Answer::yes(Header { bits, count: row.len() as u64, total: sum(&row) }),
        Err(refusal) => Answer::no(refusal),
    }
}

/// The bytes of a buffer that so many bits reach, or nothing where it has fewer.
fn reached(buffer: &[u8], bits: u64) -> Option<&[u8]> {
    let bytes = bits / 8 + (bits % 8 > 0) as u64;
    if bytes > buffer.len() as u64 {
        return None;
    }
    Some(&buffer[..bytes as usize])
}

/// Whether a header is true in an order: reading the bytes of the buffer that its bits reach gives it.
pub fn is_true(order: u64, buffer: &[u8], given: Header) -> bool {
    match reached(buffer, given.bits).map(|bytes| header(order, bytes)) {
        Some(a) => a.number == 0 && a.results == given,
        None => false,
    }
}

/// Appending a number by a header, true or false (paper 02's R-4): the bytes then in use, and the header then. The bits in use stay as they are, whatever they
/// are; the codeword comes after them, and zeros up to the end of its last byte. 18 looks at the header that is given, and at no other.
pub fn append(order: u64, buffer: &mut [u8], header: Header, n: u32) -> Answer<(u64, Header)> {
    if !(2..=6).contains(&order) {
        return Answer::no(refusal(1));
    }
    let exceed = |bits: u64| bits > 8 * buffer.len() as u64 || bits > MOST_BITS;
    if exceed(header.bits) || header.count > MAX_COUNT as u64 || header.total > MOST_TOTAL {
        return Answer::no(refusal(18));
    }
    if n == 0 {
        return Answer::no(refusal(3));
    }
    if header.count == MAX_COUNT as u64 {
        return Answer::no(refusal(4));
    }
    let mut bits = unpack(reached(buffer, header.bits).unwrap());
    bits.truncate(header.bits as usize);
    bits.extend(codeword(order as usize, n as u128));
    if exceed(bits.len() as u64) {
        return Answer::no(refusal(5));
    }
    let bytes = pack(&bits);
    buffer[..bytes.len()].copy_from_slice(&bytes);
    Answer::yes((bytes.len() as u64, Header { bits: bits.len() as u64, count: header.count + 1, total: header.total + n as u64 }))
}

/// Replacing the number at a place of the encoding in the first `used` bytes of a buffer (paper 02's R-5): the bytes then in use, and the header then. The row
/// is read, changed and written again; the bytes in use that it no longer reaches become zeros.
pub fn replace(order: u64, buffer: &mut [u8], used: u64, place: u64, n: u32) -> Answer<(u64, Header)> {
    if !(2..=6).contains(&order) {
        return Answer::no(refusal(1));
    }
    if used > buffer.len() as u64 {
        return Answer::no(refusal(2));
    }
    let mut row = match row_of(order, &buffer[..used as usize]) {
        Ok(row) => row,
        Err(refusal) => return Answer::no(refusal),
    };
    if place >= row.len() as u64 {
        return Answer::no(refusal(8));
    }
    if n == 0 {
        return Answer::no(refusal(3));
    }
    row[place as usize] = n;
    let written = write(order, &row, buffer);
    if written.number == 0 && written.results.0 < used {
        buffer[written.results.0 as usize..used as usize].fill(0);
    }
    written
}

/// Seeing the change before making it (paper 02's R-6): what replacing answers on a copy of the buffer.
pub fn preview(order: u64, buffer: &[u8], used: u64, place: u64, n: u32) -> Answer<(u64, Header)> {
    replace(order, &mut buffer.to_vec(), used, place, n)
}

pub fn sum(row: &[u32]) -> u64 {
    row.iter().map(|n| *n as u64).sum()
}

/// The total of the numbers from place a up to but without place b.
pub fn total(order: u64, bytes: &[u8], a: u64, b: u64) -> Answer<u64> {
    let row = match row_of(order, bytes) {
        Ok(row) => row,
        Err(refusal) => return Answer::no(refusal),
    };
    if a > b || b > row.len() as u64 {
        return Answer::no(refusal(8));
    }
    Answer::yes(sum(&row[a as usize..b as usize]))
}

/// The width of a runner: the total of a row repeated r times, where each repeat has the shared knots in common with the next (paper 02's R-1).
pub fn repeated_total(order: u64, bytes: &[u8], r: u64, shared: u64) -> Answer<u64> {
    let row = match row_of(order, bytes) {
        Ok(row) => row,
        Err(refusal) => return Answer::no(refusal),
    };
    if r < 1 || r > 10_000 {
        return Answer::no(refusal(14));
    }
    let total = sum(&row);
    if shared > total {
        return Answer::no(refusal(15));
    }
    Answer::yes(r * total - (r - 1) * shared)
}

// ---- The dense byte code of s stoppers, paper 02's R-2 ----

/// The first number with k bytes, as shorter codewords come first: 1 + s + s c + .. + s c^(k - 2), where c is 256 - s. Sums that pass 128 bits stay at the
/// largest number there is.
pub fn dense_first(s: usize, k: usize) -> u128 {
    let c = 256 - s as u128;
    let mut first: u128 = 1;
    let mut as_long = s as u128;
    for _ in 1..k {
        first = first.saturating_add(as_long);
        as_long = as_long.saturating_mul(c);
    }
    first
}

/// The number of a codeword: the first of its length and, besides, the leading bytes less s as digits to base c, highest first, and the last byte as the
/// lowest digit, to base s.
pub fn dense_number(s: usize, codeword: &[u8]) -> u128 {
    let c = 256 - s as u128;
    let (last, leading) = codeword.split_last().unwrap();
    let mut digits: u128 = 0;
    for byte in leading {
        digits = digits.saturating_mul(c).saturating_add(*byte as u128 - s as u128);
    }
    let within = digits.saturating_mul(s as u128).saturating_add(*last as u128);
    dense_first(s, codeword.len()).saturating_add(within)
}

/// The codeword of a number. Those of one length are counted through: each leading byte parts them into c equal parts, and the last byte into single ones.
/// That the codeword so found has the number is looked at each time.
pub fn dense_codeword(s: usize, n: u128) -> Vec<u8> {
    let c = 256 - s as u128;
    let mut k = 1;
    while dense_first(s, k + 1) <= n {
        k += 1;
    }
    let mut left = n - dense_first(s, k);
    let mut part = dense_first(s, k + 1) - dense_first(s, k);
    let mut bytes = Vec::new();
    for _ in 1..k {
        part /= c;
        bytes.push((s as u128 + left / part) as u8);
        left %= part;
    }
    assert_eq!(part, s as u128);
    bytes.push(left as u8);
    assert_eq!(dense_number(s, &bytes), n);
    bytes
}

pub fn dense_bytes(s: usize, row: &[u32]) -> Vec<u8> {
    joined(row, |n| dense_codeword(s, n))
}

/// Bytes as codewords, each cut off behind the first byte that is below s, and a rest in which there is none.
pub fn dense_parse(s: usize, bytes: &[u8]) -> (Vec<Vec<u8>>, Vec<u8>) {
    let mut codewords = Vec::new();
    let mut pending: Vec<u8> = Vec::new();
    for byte in bytes {
        pending.push(*byte);
        if (*byte as usize) < s {
            codewords.push(std::mem::take(&mut pending));
        }
    }
    (codewords, pending)
}

/// The row of a dense input, or the refusal of reading it: 16; 2; 4 or 7 at each finished codeword, from the left; 17.
pub fn dense_row_of(stoppers: u64, bytes: &[u8]) -> Result<Vec<u32>, Refusal> {
    if !(1..=254).contains(&stoppers) {
        return Err(refusal(16));
    }
    if bytes.len() as u64 > MOST_DENSE_BYTES {
        return Err(refusal(2));
    }
    let s = stoppers as usize;
    let (codewords, rest) = dense_parse(s, bytes);
    let row = legal_row(codewords.iter().map(|codeword| dense_number(s, codeword)))?;
    if !rest.is_empty() {
        return Err(refusal(17));
    }
    Ok(row)
}

/// Writing a row in the dense code: how many bytes it has.
pub fn dense_write(stoppers: u64, row: &[u32], output: &mut [u8]) -> Answer<u64> {
    if !(1..=254).contains(&stoppers) {
        return Answer::no(refusal(16));
    }
    if row.len() > MAX_COUNT {
        return Answer::no(refusal(4));
    }
    if let Some(place) = row.iter().position(|n| *n == 0) {
        return Answer::no(refusal_at(3, place));
    }
    let bytes = dense_bytes(stoppers as usize, row);
    if output.len() < bytes.len() {
        return Answer::no(refusal(5));
    }
    output[..bytes.len()].copy_from_slice(&bytes);
    Answer::yes(bytes.len() as u64)
}

/// Reading a row in the dense code: how many numbers it has.
pub fn dense_read(stoppers: u64, bytes: &[u8], output: &mut [u32]) -> Answer<u64> {
    handed_over(dense_row_of(stoppers, bytes), output)
}

// ---- The row index ----

/// What a node and a bit after it lead to: the next node, or the one number that is left.
enum Next {
    Node(usize),
    Number(u32),
}

/// The nodes, paper 01's forks, of the codewords of 1 to a largest number, the alphabet (paper 01's top).
pub struct Tree {
    /// Codewords and paths of number n are at n - 1.
    codewords: Vec<Vec<bool>>,
    /// In the order in which bitmaps are joined.
    nodes: Vec<Vec<bool>>,
    /// For each node, what comes after a 0 and after a 1.
    next: Vec<[Next; 2]>,
    /// For each number, which nodes begin its codeword.
    paths: Vec<Vec<usize>>,
}

fn with(string: &[bool], bit: bool) -> Vec<bool> {
    [string, &[bit]].concat()
}

/// A node, if the string is one, then all nodes on its 0 side, then all on its 1 side. `begins` are the strings that begin some codeword.
fn join(begins: &HashSet<Vec<bool>>, string: &[bool], nodes: &mut Vec<Vec<bool>>) {
    let sides = [with(string, false), with(string, true)];
    if sides.iter().all(|side| begins.contains(side)) {
        nodes.push(string.to_vec());
    }
    for side in sides {
        if begins.contains(&side) {
            join(begins, &side, nodes);
        }
    }
}

impl Tree {
    fn new(m: usize, alphabet: usize) -> Tree {
        let codewords: Vec<Vec<bool>> = (1..=alphabet).map(|n| codeword(m, n as u128)).collect();
        let mut begins = HashSet::new();
        for codeword in &codewords {
            for length in 0..=codeword.len() {
                begins.insert(codeword[..length].to_vec());
            }
        }
        let mut nodes = Vec::new();
        join(&begins, &[], &mut nodes);
        assert_eq!(nodes.len(), alphabet - 1);
        let at: HashMap<&[bool], usize> = nodes.iter().enumerate().map(|(i, node)| (&node[..], i)).collect();
        let number_of: HashMap<&[bool], u32> = codewords.iter().zip(1..).map(|(codeword, n)| (&codeword[..], n)).collect();
        // a string that is no node goes on in one way, to a node or to the end of a codeword
        let after = |node: &[bool], bit: bool| {
            let mut string = with(node, bit);
            loop {
                if let Some(node) = at.get(&string[..]) {
                    return Next::Node(*node);
                }
                if let Some(n) = number_of.get(&string[..]) {
                    return Next::Number(*n);
                }
                let zero = begins.contains(&with(&string, false));
                string.push(!zero);
            }
        };
        let next = nodes.iter().map(|node| [after(node, false), after(node, true)]).collect();
        let path = |codeword: &Vec<bool>| (0..codeword.len()).filter_map(|length| at.get(&codeword[..length]).copied()).collect();
        let paths = codewords.iter().map(path).collect();
        Tree { codewords, nodes, next, paths }
    }

    /// The tree of an order and an alphabet, made once.
    pub fn of(m: usize, alphabet: usize) -> Rc<Tree> {
        thread_local!(static MADE: RefCell<HashMap<(usize, usize), Rc<Tree>>> = RefCell::new(HashMap::new()));
        MADE.with(|made| made.borrow_mut().entry((m, alphabet)).or_insert_with(|| Rc::new(Tree::new(m, alphabet))).clone())
    }

    /// How many nodes begin the codeword of a number: its visits, paper 01's looks.
    pub fn visits(&self, n: u32) -> u64 {
        self.paths[n as usize - 1].len() as u64
    }

    /// The nodes' bitmaps: for each number of the row whose codeword begins with the node, in row order, the next bit.
    pub fn bitmaps(&self, row: &[u32]) -> Vec<Vec<bool>> {
        let mut bitmaps = vec![Vec::new(); self.nodes.len()];
        for n in row {
            for node in &self.paths[*n as usize - 1] {
                bitmaps[*node].push(self.codewords[*n as usize - 1][self.nodes[*node].len()]);
            }
        }
        bitmaps
    }

    /// The row that bytes are the index of, if they are one: node by node, the next bits of a bitmap part the places whose numbers begin with the node. All
    /// bytes have to be needed, and the padding has to be zeros.
    pub fn row_of(&self, length: usize, bytes: &[u8]) -> Option<Vec<u32>> {
        let mut row = vec![1; length];
        let mut places = vec![Vec::new(); self.nodes.len()];
        if let Some(all) = places.first_mut() {
            *all = (0..length).collect();
        }
        let stream = unpack(bytes);
        let mut read = 0;
        for node in 0..self.nodes.len() {
            for place in std::mem::take(&mut places[node]) {
                let bit = *stream.get(read)?;
                read += 1;
                match self.next[node][bit as usize] {
                    Next::Node(below) => places[below].push(place),
                    Next::Number(n) => row[place] = n,
                }
            }
        }
        let padding = &stream[read..];
        if padding.len() >= 8 || padding.contains(&true) {
            return None;
        }
        Some(row)
    }
}

/// The checks that building and the questions begin with: 1; 9; 4.
fn tree_of(order: u64, alphabet: u64, length: u64) -> Result<Rc<Tree>, Refusal> {
    if !(2..=6).contains(&order) {
        return Err(refusal(1));
    }
    if alphabet < 1 || alphabet > LARGEST_ALPHABET {
        return Err(refusal(9));
    }
    if length > MAX_COUNT as u64 {
        return Err(refusal(4));
    }
    Ok(Tree::of(order as usize, alphabet as usize))
}

/// Building the index of a row: how many bits its bitmaps have.
pub fn build(order: u64, alphabet: u64, row: &[u32], output: &mut [u8]) -> Answer<u64> {
    let tree = match tree_of(order, alphabet, row.len() as u64) {
        Ok(tree) => tree,
        Err(refusal) => return Answer::no(refusal),
    };
    if let Some(place) = row.iter().position(|n| *n == 0 || *n as u64 > alphabet) {
        return Answer::no(refusal_at(10, place));
    }
    let stream = tree.bitmaps(row).concat();
    let bytes = pack(&stream);
    if output.len() < bytes.len() {
        return Answer::no(refusal(5));
    }
    output[..bytes.len()].copy_from_slice(&bytes);
    Answer::yes(stream.len() as u64)
}

/// An index that the questions take, by its tree and its row. They are answered from the row.
pub struct Index {
    tree: Rc<Tree>,
    alphabet: u64,
    pub row: Vec<u32>,
}

/// The index in bytes, or the refusal of every question: 1; 9; 4; 11.
pub fn index_of(order: u64, alphabet: u64, length: u64, bytes: &[u8]) -> Result<Index, Refusal> {
    let tree = tree_of(order, alphabet, length)?;
    match tree.row_of(length as usize, bytes) {
        Some(row) => Ok(Index { tree, alphabet, row }),
        None => Err(refusal(11)),
    }
}

impl Index {
    /// The number at a place, from 0, and its visits.
    pub fn extract(&self, place: u64) -> Answer<(u64, u64)> {
        if place >= self.row.len() as u64 {
            return Answer::no(refusal(8));
        }
        let n = self.row[place as usize];
        Answer::yes((n as u64, self.tree.visits(n)))
    }

    /// How often a number stands at the places before i, and its visits.
    pub fn rank(&self, n: u64, i: u64) -> Answer<(u64, u64)> {
        if n < 1 || n > self.alphabet {
            return Answer::no(refusal(10));
        }
        if i > self.row.len() as u64 {
            return Answer::no(refusal(8));
        }
        let count = self.row[..i as usize].iter().filter(|m| **m as u64 == n).count();
        Answer::yes((count as u64, self.tree.visits(n as u32)))
    }

    /// The place of the use j of a number, from 1, and its visits.
    pub fn select(&self, n: u64, j: u64) -> Answer<(u64, u64)> {
        if n < 1 || n > self.alphabet {
            return Answer::no(refusal(10));
        }
        if j == 0 {
            return Answer::no(refusal(8));
        }
        let places: Vec<usize> = (0..self.row.len()).filter(|place| self.row[*place] as u64 == n).collect();
        if places.len() < j as usize {
            return Answer::no(refusal(12));
        }
        Answer::yes((places[j as usize - 1] as u64, self.tree.visits(n as u32)))
    }
}

/// A question to an index in bytes.
pub fn ask(order: u64, alphabet: u64, length: u64, bytes: &[u8], question: impl Fn(&Index) -> Answer<(u64, u64)>) -> Answer<(u64, u64)> {
    match index_of(order, alphabet, length, bytes) {
        Ok(index) => question(&index),
        Err(refusal) => Answer::no(refusal),
    }
}

// ---- The listing ----

/// A decimal number of the input, perhaps above what the calls take.
type Decimal = u64;

/// The numbers of the input's lines, or nothing where a line has another form or there is none. The characters are looked at one by one: in each line ten
/// columns, spaces and then digits, and a line feed; a 0 is the first digit only where it is the one digit.
fn lines(input: &[u8]) -> Option<Vec<Decimal>> {
    let mut numbers = Vec::new();
    let mut column = 0;
    let mut number: Option<Decimal> = None;
    for character in input {
        match (column, *character, number) {
            (0..=9, b' ', None) => (),
            (9, b'0', None) => number = Some(0),
            (0..=9, b'1'..=b'9', None) => number = Some((*character - b'0') as Decimal),
            (0..=9, b'0'..=b'9', Some(n)) => number = Some(10 * n + (*character - b'0') as Decimal),
            (10, b'\n', Some(n)) => {
                numbers.push(n);
                number = None;
                column = 0;
                continue;
            }
            _ => return None,
        }
        column += 1;
    }
    if column != 0 || numbers.is_empty() {
        return None;
    }
    Some(numbers)
}

/// The first number is the order, the others the row, on which the checks of writing follow; 3 also means above 4,294,967,295.
fn listed(input: &[u8]) -> Result<String, u64> {
    if input.len() > 45_067 {
        return Err(4);
    }
    let numbers = lines(input).ok_or(13u64)?;
    let (order, row) = (numbers[0], &numbers[1..]);
    if !(2..=6).contains(&order) {
        return Err(1);
    }
    if row.len() > MAX_COUNT {
        return Err(4);
    }
    if row.iter().any(|n| *n == 0 || *n as u128 > MAX_NUMBER) {
        return Err(3);
    }
    let mut text = format!("{:>5}{:>11}{:>5}{:>16}\n", "PLACE", "NUMBER", "BITS", "TOTAL");
    let mut bits = 0;
    let mut total: u64 = 0;
    for (place, n) in row.iter().enumerate() {
        let length = codeword(order as usize, *n as u128).len();
        bits += length;
        total += n;
        text += &format!("{place:>5}{n:>11}{length:>5}{total:>16}\n");
    }
    text += &format!("{:<5}{:>11}\n", "BYTES", (bits + 7) / 8);
    Ok(text)
}

/// What the listing program prints: the listing, or one line with the number of the refusal.
pub fn listing(input: &[u8]) -> Vec<u8> {
    listed(input).unwrap_or_else(|number| format!("{:<2}{number:>5}\n", "NO")).into_bytes()
}
