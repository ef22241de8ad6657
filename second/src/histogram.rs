//! Counts the refusal numbers in the output of the listing, the trial, the unit
//! or the follow program.

use crate::lines::LineReader;
use std::collections::BTreeMap;
use std::io::{self, BufRead, Write};

/// The keys that a refusal number stands after.
const KEYS: [&str; 3] = ["answer=", "refused=", "text="];
/// The key of a voice card's source: a refusal number, or one of two below.
const SOURCE: &str = "source=";
/// The source of the silence block; like 0, a payload, it is no refusal.
const SILENCE: u64 = 255;
/// More octets than any such line has.
const LINE_OCTETS: usize = 64;

/// How often each number stands after a key. 0 is an answer with no refusal, or
/// a voice card that is handed a payload or the silence block.
pub fn count(input: impl BufRead) -> io::Result<BTreeMap<u64, u64>> {
    let mut lines = LineReader::new(input, LINE_OCTETS);
    let mut counts = BTreeMap::new();
    while let Some(line) = lines.next_line()? {
        if let Some(number) = refusal_number(&line.kept) {
            *counts.entry(number).or_insert(0) += 1;
        }
    }
    Ok(counts)
}

/// The refusal number on a line, if it has one.
fn refusal_number(line: &[u8]) -> Option<u64> {
    let line = std::str::from_utf8(line).ok()?;
    if let Some(source) = line.strip_prefix(SOURCE) {
        let source = source.parse().ok()?;
        return Some(if source == SILENCE { 0 } else { source });
    }
    let value = KEYS.iter().find_map(|key| line.strip_prefix(key))?;
    value.parse().ok()
}

/// Prints a line for each number seen, rising: the number, a blank, the count.
pub fn run(input: impl BufRead, mut output: impl Write) -> io::Result<()> {
    for (number, count) in count(input)? {
        writeln!(output, "{number} {count}")?;
    }
    output.flush()
}

#[cfg(test)]
mod tests {
    use super::*;

    #[test]
    fn counts_the_keys_rising() {
        let input = b"answer=11\nrefused=2\nat=5\nanswer=0\ntext=34\nanswer=11\ncid=9\nanswer=x\n";
        let mut output = Vec::new();
        run(&input[..], &mut output).unwrap();
        assert_eq!(output, b"0 1\n2 1\n11 2\n34 1\n");
    }

    #[test]
    fn a_source_of_255_is_counted_as_0() {
        let input = b"source=255\noctets=\nsource=0\nsource=12\nsource=8\nsource=\nrefused=12\n";
        let mut output = Vec::new();
        run(&input[..], &mut output).unwrap();
        assert_eq!(output, b"0 2\n8 1\n12 2\n");
    }
}
