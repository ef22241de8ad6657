//! Lower-case hex, as the listing and the trial program have it.

/// The value of one lower-case hex digit.
fn digit(character: u8) -> Option<u8> {
    match character {
        b'0'..=b'9' => Some(character - b'0'),
        b'a'..=b'f' => Some(character - b'a' + 10),
        _ => None,
    }
}

/// The octets that a run of lower-case hex stands for: none when the count is
/// odd or another character is there.
pub fn read(characters: &[u8]) -> Option<Vec<u8>> {
    if characters.len() % 2 != 0 {
        return None;
    }
    let mut octets = Vec::with_capacity(characters.len() / 2);
    for pair in characters.chunks(2) {
        octets.push(digit(pair[0])? * 16 + digit(pair[1])?);
    }
    Some(octets)
}

/// The lower-case hex of some octets.
pub fn write(octets: &[u8]) -> String {
    const DIGITS: &[u8; 16] = b"0123456789abcdef";
    let mut text = String::with_capacity(octets.len() * 2);
    for octet in octets {
        text.push(char::from(DIGITS[usize::from(octet / 16)]));
        text.push(char::from(DIGITS[usize::from(octet % 16)]));
    }
    text
}

#[cfg(test)]
mod tests {
    use super::*;

    #[test]
    fn every_octet_comes_back() {
        for octet in 0..=255 {
            let text = write(&[octet]);
            assert_eq!(text, format!("{octet:02x}"));
            assert_eq!(read(text.as_bytes()), Some(vec![octet]));
        }
    }

    #[test]
    fn only_lower_case_hex_in_pairs() {
        assert_eq!(read(b""), Some(vec![]));
        assert_eq!(read(b"00ff7a"), Some(vec![0, 255, 0x7a]));
        let wrong: [&[u8]; 10] = [
            b"0",
            b"000",
            b"FF",
            b"0G",
            b"g0",
            b" 0",
            b"0 ",
            b"0\r",
            b"\0\0",
            b"\xff\xff",
        ];
        for characters in wrong {
            assert_eq!(read(characters), None);
        }
    }
}
