//! Bytes as hexadecimal text.

pub fn encode(bytes: &[u8]) -> String {
    let digit = |n: u8| char::from(b"0123456789abcdef"[usize::from(n)]);
    bytes.iter().flat_map(|&b| [digit(b >> 4), digit(b & 15)]).collect()
}

/// Spaces are skipped. None if anything else is not a pair of digits.
pub fn decode(text: &str) -> Option<Vec<u8>> {
    let digits: Option<Vec<u8>> = text
        .chars()
        .filter(|c| !c.is_whitespace())
        .map(|c| c.to_digit(16).map(|d| d as u8))
        .collect();
    let digits = digits?;
    if digits.len() % 2 != 0 {
        return None;
    }
    Some(digits.chunks(2).map(|pair| pair[0] << 4 | pair[1]).collect())
}

/// For inputs that are written out by hand. Panics on anything that is not hexadecimal.
pub fn bytes(text: &str) -> Vec<u8> {
    decode(text).unwrap_or_else(|| panic!("not hexadecimal: {text}"))
}
