//! The table of the table decoder, by the parse of order 3: what each byte does after 0, 1 or 2 ones that are pending.

use crate::model;

pub fn ones_at_end(bits: &[bool]) -> usize {
    bits.iter().rev().take_while(|bit| **bit).count()
}

fn body(bits: &[bool]) -> &[bool] {
    &bits[..bits.len() - ones_at_end(bits)]
}

/// F(n): F(0) is 1, F is 0 at negative places, and each further value is the sum of the m before it.
pub fn f(m: i64, n: i64) -> u128 {
    let mut values: Vec<u128> = vec![1];
    while values.len() as i64 <= n {
        values.push(values.iter().rev().take(m as usize).sum());
    }
    if n < 0 { 0 } else { values[n as usize] }
}

/// The sum of F(j + shift) of order 3 over the bits j that are one, the first being bit 1.
pub fn value(bits: &[bool], shift: i64) -> u128 {
    bits.iter().zip(1..).filter(|(bit, _)| **bit).map(|(_, j)| f(3, j + shift)).sum()
}

/// A byte after so many ones: the codewords that end in it, and the rest.
pub fn after(ones: usize, byte: u8) -> (Vec<Vec<bool>>, Vec<bool>) {
    model::parse(3, &[vec![true; ones], model::unpack(&[byte])].concat())
}

/// What finishes the pending codeword or, where none ends, makes it longer.
fn front(ones: usize, byte: u8) -> Vec<bool> {
    let (codewords, rest) = after(ones, byte);
    match codewords.first() {
        Some(codeword) => codeword[..codeword.len() - 3].to_vec(),
        None => body(&rest).to_vec(),
    }
}

/// The numbers that lie inside the byte.
pub fn inside(codewords: &[Vec<bool>]) -> Vec<u128> {
    codewords.iter().skip(1).map(|codeword| model::number(3, codeword)).collect()
}

/// A row of the table.
pub fn row(ones: usize, byte: u8) -> String {
    let (codewords, rest) = after(ones, byte);
    let front = front(ones, byte);
    let inside = inside(&codewords);
    assert!(inside.len() <= 2);
    let inside = |k: usize| *inside.get(k).unwrap_or(&0);
    format!(
        "ended {}; finishing: bits {}, values {} {} {}; inside {} {}; remaining: bits {}, value {}, ones {}",
        codewords.len(),
        front.len(),
        value(&front, 0),
        value(&front, -1) + value(&front, -2),
        value(&front, -1),
        inside(0),
        inside(1),
        body(&rest).len(),
        value(body(&rest), 0),
        ones_at_end(&rest)
    )
}

/// What the bits that finish a pending codeword, or make it longer, are worth after so many others.
pub fn moved(ones: usize, length: u64, byte: u8) -> u128 {
    value(&front(ones, byte), length as i64)
}
