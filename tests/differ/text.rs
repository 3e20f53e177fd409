//! Arguments as text, in full, so that a call can be repeated.

pub fn bytes(s: &[u8]) -> String {
    let each: Vec<String> = s.iter().map(|byte| format!("{byte:02X}")).collect();
    format!("{} bytes [{}]", s.len(), each.join(" "))
}

pub fn numbers(row: &[u32]) -> String {
    format!("{} numbers {row:?}", row.len())
}
