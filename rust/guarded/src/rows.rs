//! The fuzzer's inputs as text: a row each of its bytes in hexadecimal, the status that it met, and its function.

/// A row: the bytes, the status and the function.
pub struct Row {
    pub bytes: Vec<u8>,
    pub status: u32,
    pub name: String,
}

/// The row of an input, which is tried for it.
pub fn written(bytes: &[u8]) -> String {
    let (name, status) = crate::one(bytes);
    let digits: String = bytes.iter().map(|b| format!("{b:02x}")).collect();
    format!("{digits} {status} {name}")
}

/// What a row says, if it is one.
pub fn read(line: &str) -> Option<Row> {
    let mut parts = line.splitn(3, ' ');
    let (digits, status, name) = (parts.next()?, parts.next()?, parts.next()?);
    let byte = |i: usize| u8::from_str_radix(digits.get(2 * i..2 * i + 2)?, 16).ok();
    let bytes = (0..digits.len() / 2).map(byte).collect::<Option<_>>()?;
    Some(Row { bytes, status: status.parse().ok()?, name: name.to_string() })
}
