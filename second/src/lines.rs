//! Reading an input line by line without holding it: of each line the first
//! octets are kept, the rest is only counted. And the lines of the trial and the
//! unit program, a key and octets in hex.

use crate::hex;
use std::io::{self, BufRead, ErrorKind};

/// The most characters of a line of the trial and the unit before its LF.
pub const CHARACTERS: usize = 4000;

/// One line of an input.
#[derive(Clone, Debug, Default, PartialEq, Eq)]
pub struct Line {
    /// The first octets of the line, its LF not among them.
    pub kept: Vec<u8>,
    /// How many octets the line has, its LF not counted.
    pub octets: u64,
    /// Whether an LF ended it; only the very last line can lack one.
    pub ended: bool,
}

/// Yields the lines of an input, keeping at most `keep` octets of each.
pub struct LineReader<R> {
    input: R,
    keep: usize,
}

impl<R: BufRead> LineReader<R> {
    /// A reader over an input.
    pub fn new(input: R, keep: usize) -> Self {
        LineReader { input, keep }
    }

    /// The next line, or none when nothing is left.
    pub fn next_line(&mut self) -> io::Result<Option<Line>> {
        let mut line = Line::default();
        loop {
            let piece = match self.input.fill_buf() {
                Ok(piece) => piece,
                Err(error) if error.kind() == ErrorKind::Interrupted => continue,
                Err(error) => return Err(error),
            };
            if piece.is_empty() {
                return Ok((line.octets > 0).then_some(line));
            }
            let end = piece.iter().position(|&octet| octet == b'\n');
            let part = &piece[..end.unwrap_or(piece.len())];
            let wanted = part.len().min(self.keep - line.kept.len());
            line.kept.extend_from_slice(&part[..wanted]);
            line.octets += part.len() as u64;
            line.ended = end.is_some();
            let used = part.len() + usize::from(line.ended);
            self.input.consume(used);
            if line.ended {
                return Ok(Some(line));
            }
        }
    }
}

/// The key and the octets of a line of the trial or the unit: none when it has
/// over 4,000 characters or lacks its LF, or where there is no key with hex.
pub fn key_and_octets(line: &Line) -> Option<(&[u8], Vec<u8>)> {
    if !line.ended || line.octets > CHARACTERS as u64 {
        return None;
    }
    let equals = line.kept.iter().position(|&octet| octet == b'=')?;
    let (key, rest) = line.kept.split_at(equals);
    let octets = hex::read(&rest[1..])?;
    Some((key, octets))
}

/// A truth value of such a line, none when it is over 01.
pub fn zero_or_one(octet: u8) -> Option<bool> {
    (octet <= 1).then_some(octet == 1)
}

#[cfg(test)]
mod tests {
    use super::*;
    use std::io::{BufReader, Read};

    fn all(input: &[u8], keep: usize, piece: usize) -> Vec<Line> {
        let mut reader = LineReader::new(BufReader::with_capacity(piece, input), keep);
        let mut lines = Vec::new();
        while let Some(line) = reader.next_line().unwrap() {
            lines.push(line);
        }
        lines
    }

    fn line(kept: &[u8], octets: u64, ended: bool) -> Line {
        let kept = kept.to_vec();
        Line {
            kept,
            octets,
            ended,
        }
    }

    #[test]
    fn lines_in_pieces_of_any_size() {
        for piece in 1..20 {
            let lines = all(b"abcdef\n\nxy\nlast", 4, piece);
            let wanted = [
                line(b"abcd", 6, true),
                line(b"", 0, true),
                line(b"xy", 2, true),
                line(b"last", 4, false),
            ];
            assert_eq!(lines, wanted);
        }
    }

    #[test]
    fn nothing_after_the_last_lf() {
        assert_eq!(all(b"", 4, 8), []);
        assert_eq!(all(b"\n", 4, 8), [line(b"", 0, true)]);
        assert_eq!(all(b"a\n", 4, 8), [line(b"a", 1, true)]);
    }

    #[test]
    fn a_very_long_line_is_counted_not_kept() {
        let input = io::repeat(b'a').take(10_000_000);
        let mut reader = LineReader::new(BufReader::new(input), 10);
        let line = reader.next_line().unwrap().unwrap();
        assert_eq!((line.kept.len(), line.octets), (10, 10_000_000));
        assert!(!line.ended);
    }

    #[test]
    fn a_key_and_octets() {
        let read = |text: &[u8], ended| {
            let line = line(text, text.len() as u64, ended);
            key_and_octets(&line).map(|(key, octets)| (key.to_vec(), octets))
        };
        let wanted = Some((b"key".to_vec(), vec![0x0a, 0xff]));
        assert_eq!(read(b"key=0aff", true), wanted);
        assert_eq!(read(b"key=", true), Some((b"key".to_vec(), vec![])));
        assert_eq!(read(b"=", true), Some((vec![], vec![])));
        assert_eq!(read(b"key=0aff", false), None);
        for text in [
            "", "key", "key=0", "key=0A", "key==00", "key= 00", "key=00\r",
        ] {
            assert_eq!(read(text.as_bytes(), true), None, "{text}");
        }
        let long = line(b"key=", 4001, true);
        assert_eq!(key_and_octets(&long), None);
    }

    #[test]
    fn truth_values() {
        for octet in 0..=255 {
            let wanted = match octet {
                0 => Some(false),
                1 => Some(true),
                _ => None,
            };
            assert_eq!(zero_or_one(octet), wanted);
        }
    }
}
