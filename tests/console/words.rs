//! The words of a line: what parts them, and numbers, rows and bytes.

/// The most elements of a row, or of bytes.
const MOST_ELEMENTS: usize = 102_416;

/// What is left of a line, from which words are taken one by one.
pub struct Words<'a> {
    left: &'a [u8],
}

fn blank(character: u8) -> bool {
    matches!(character, b' ' | b'\t' | b'\r')
}

/// A decimal number: digits and nothing else, at least one, of 64 bits.
pub fn decimal(word: &[u8]) -> Option<u64> {
    if word.is_empty() {
        return None;
    }
    let mut number: u128 = 0;
    for character in word {
        if !character.is_ascii_digit() {
            return None;
        }
        number = 10 * number + (*character - b'0') as u128;
        if number > u64::MAX as u128 {
            return None;
        }
    }
    Some(number as u64)
}

fn decimal_32(word: &[u8]) -> Option<u32> {
    decimal(word).filter(|number| *number <= u32::MAX as u64).map(|number| number as u32)
}

fn digit(character: u8) -> Option<u8> {
    (character as char).to_digit(16).map(|digit| digit as u8)
}

fn hexadecimal(word: &[u8]) -> Option<u8> {
    match word {
        [high, low] => Some(16 * digit(*high)? + digit(*low)?),
        _ => None,
    }
}

impl<'a> Words<'a> {
    pub fn new(line: &'a [u8]) -> Words<'a> {
        Words { left: line }
    }

    /// The next word. What is left then begins with the blank after it.
    pub fn next(&mut self) -> Option<&'a [u8]> {
        let begin = self.left.iter().position(|c| !blank(*c))?;
        let rest = &self.left[begin..];
        let end = rest.iter().position(|c| blank(*c)).unwrap_or(rest.len());
        self.left = &rest[end..];
        Some(&rest[..end])
    }

    pub fn number(&mut self) -> Option<u64> {
        decimal(self.next()?)
    }

    /// A number of 32 bits, as a row's numbers are.
    pub fn number_32(&mut self) -> Option<u32> {
        decimal_32(self.next()?)
    }

    /// The other words: elements, each perhaps with how often it stands there.
    fn elements<T: Clone>(mut self, element: impl Fn(&[u8]) -> Option<T>) -> Option<Vec<T>> {
        let mut all = Vec::new();
        while let Some(word) = self.next() {
            let (one, times) = match word.iter().position(|c| *c == b'x') {
                Some(at) => (&word[..at], decimal(&word[at + 1..])?),
                None => (word, 1),
            };
            let one = element(one)?;
            if times > (MOST_ELEMENTS - all.len()) as u64 {
                return None;
            }
            all.extend(vec![one; times as usize]);
        }
        Some(all)
    }

    pub fn row(self) -> Option<Vec<u32>> {
        self.elements(decimal_32)
    }

    pub fn bytes(self) -> Option<Vec<u8>> {
        self.elements(hexadecimal)
    }

    /// One byte, and no more.
    pub fn byte(self) -> Option<u8> {
        match self.bytes()?[..] {
            [byte] => Some(byte),
            _ => None,
        }
    }

    /// All that is left after one blank.
    pub fn text(self) -> &'a [u8] {
        &self.left[self.left.len().min(1)..]
    }
}
