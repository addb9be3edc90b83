//! Octets as the words of a script: upper-case hex, `-` for none.

pub fn hex(octets: &[u8]) -> String {
    if octets.is_empty() {
        return "-".to_string();
    }
    let digit = |half: u8| char::from(b"0123456789ABCDEF"[usize::from(half)]);
    octets.iter().flat_map(|octet| [digit(octet >> 4), digit(octet & 15)]).collect()
}

pub fn unhex(word: &str) -> Result<Vec<u8>, String> {
    if word == "-" {
        return Ok(Vec::new());
    }
    if word.is_empty() || !word.len().is_multiple_of(2) {
        return Err(format!("odd hex: {word}"));
    }
    let digit = |c: u8| char::from(c).to_digit(16).ok_or(format!("no hex: {word}"));
    let octet = |pair: &[u8]| Ok((digit(pair[0])? * 16 + digit(pair[1])?) as u8);
    word.as_bytes().chunks(2).map(octet).collect()
}

pub fn optional(point: Option<u8>) -> String {
    point.map_or("-".to_string(), |point| point.to_string())
}
