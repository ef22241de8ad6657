//! `generate list SEED COUNT`: a provisioning text and COUNT `frame=` lines.

use super::frames::Frames;
use super::records::records;
use super::Random;
use crate::provisioning::write_text;
use std::io::{self, Write};

/// Prints the input of a seed.
pub fn run(seed: u64, count: u64, mut output: impl Write) -> io::Result<()> {
    let mut generator = Generator::new(seed);
    output.write_all(&write_text(&generator.frames.records))?;
    for number in 0..count {
        let lf_missing = number + 1 == count && generator.lf_missing_at_end;
        // The first line must be a frame line, or it is part of the text.
        let line = match number {
            0 => generator.frames.legal_line(),
            _ if lf_missing => generator.last_line(seed / 4 % 4),
            _ => generator.frames.line(),
        };
        output.write_all(&line)?;
        if !lf_missing {
            output.write_all(b"\n")?;
        }
    }
    output.flush()
}

/// Makes the lines of one seed.
struct Generator {
    frames: Frames,
    lf_missing_at_end: bool,
}

impl Generator {
    /// The generator of a seed. Most seeds have all ten kinds of sub-channel
    /// and some more; some have a few or none, some have all 252.
    fn new(seed: u64) -> Self {
        let mut random = Random::new(seed);
        let count = match seed % 8 {
            5 => random.below(4),
            6 => 252,
            _ => random.between(10, 50),
        };
        let records = records(&mut random, count);
        Generator {
            frames: Frames::new(random, records),
            lf_missing_at_end: seed % 4 == 3,
        }
    }

    /// A very last line, to have no LF: of a kind.
    fn last_line(&mut self, kind: u64) -> Vec<u8> {
        match kind {
            0 => self.frames.legal_line(),
            1 => {
                let mut line = self.frames.over_3200();
                line.resize(line.len().max(6 + 3201), b'0');
                line
            }
            2 => b"frame=".to_vec(),
            _ => self.frames.line(),
        }
    }
}

#[cfg(test)]
mod tests {
    use super::*;
    use crate::{histogram, listing};
    use std::collections::BTreeMap;

    fn generated(seed: u64, count: u64) -> Vec<u8> {
        let mut input = Vec::new();
        run(seed, count, &mut input).unwrap();
        input
    }

    fn listed(input: &[u8]) -> Vec<u8> {
        let mut output = Vec::new();
        listing::run(input, &mut output).unwrap();
        output
    }

    fn frames(output: &[u8]) -> usize {
        let text = String::from_utf8(output.to_vec()).unwrap();
        text.lines()
            .filter(|line| line.starts_with("frame="))
            .count()
    }

    #[test]
    fn every_line_is_a_frame_and_the_text_is_good() {
        for seed in 0..32 {
            let output = listed(&generated(seed, 300));
            assert!(output.starts_with(b"frame=0\n"), "seed {seed}");
            assert_eq!(frames(&output), 300, "seed {seed}");
        }
    }

    #[test]
    fn the_same_seed_gives_the_same_input() {
        assert_eq!(generated(3, 200), generated(3, 200));
        assert_ne!(generated(3, 200), generated(4, 200));
    }

    #[test]
    fn some_seeds_lack_the_last_lf() {
        assert!(!generated(3, 10).ends_with(b"\n"));
        assert!(generated(4, 10).ends_with(b"\n"));
    }

    #[test]
    fn every_refusal_number_is_reached() {
        let mut seen: BTreeMap<u64, u64> = BTreeMap::new();
        for seed in 0..8 {
            let output = listed(&generated(seed, 2000));
            for (number, count) in histogram::count(&output[..]).unwrap() {
                *seen.entry(number).or_insert(0) += count;
            }
        }
        let numbers: Vec<u64> = seen.keys().copied().collect();
        assert_eq!(
            numbers,
            [0, 1, 2, 3, 4, 5, 6, 7, 8, 9, 11, 12, 13, 14, 15, 16]
        );
        for (number, count) in seen {
            assert!(count >= 20, "refusal {number} only {count} times");
        }
    }

    #[test]
    fn legal_frames_pass() {
        for seed in [0, 1, 2, 3, 6] {
            let mut generator = Generator::new(seed);
            let mut input = write_text(&generator.frames.records);
            for _ in 0..500 {
                input.extend(generator.frames.legal_line());
                input.push(b'\n');
            }
            let counts = histogram::count(&listed(&input)[..]).unwrap();
            let numbers: Vec<u64> = counts.keys().copied().collect();
            assert_eq!(numbers, [0], "seed {seed}");
        }
    }

    /// Which answers each kind of sub-channel and each type gives.
    fn answers(seed: u64, count: usize) -> BTreeMap<(String, u8, u8, u8), usize> {
        let mut generator = Generator::new(seed);
        let table = crate::provisioning::Table::of(&generator.frames.records);
        let mut seen = BTreeMap::new();
        for _ in 0..count {
            let piece = generator.frames.piece(true);
            let record = match table.record(piece.cid) {
                Some(record) => record,
                None => continue,
            };
            let answer =
                crate::payload::read(&table, piece.cid, piece.payload_type, &piece.payload);
            let answer = answer.err().unwrap_or(0);
            let word = record.syntax.word().to_string();
            *seen
                .entry((word, record.seq, piece.payload_type, answer))
                .or_insert(0) += 1;
        }
        seen
    }

    #[test]
    fn every_answer_of_every_layout_is_reached() {
        let seen = answers(0, 60_000);
        let reached = |word: &str, seq: u8, payload_type: u8, wanted: &[u8]| {
            let numbers: Vec<u8> = seen
                .keys()
                .filter(|key| key.0 == word && key.1 == seq && key.2 == payload_type)
                .map(|key| key.3)
                .collect();
            assert_eq!(numbers, wanted, "{word} seq={seq} type {payload_type}");
        };
        for (word, seq) in [("acelp", 0), ("g728", 0)] {
            reached(word, seq, 0, &[0, 13]);
        }
        for (word, seq) in [("acelp", 1), ("g728", 1), ("pcm", 1), ("g727", 1)] {
            reached(word, seq, 0, &[0, 13, 16]);
        }
        reached("g7231", 0, 0, &[0, 13, 14]);
        reached("g7231", 1, 0, &[0, 13, 14, 16]);
        reached("data", 0, 0, &[0, 13, 14]);
        reached("fax", 0, 0, &[0, 13, 14]);
        for (word, seq) in [("acelp", 0), ("pcm", 1), ("g7231", 1)] {
            reached(word, seq, 1, &[0, 13, 14, 15]);
            reached(word, seq, 2, &[0, 13]);
            reached(word, seq, 3, &[0, 13, 14]);
            reached(word, seq, 4, &[0, 13]);
            reached(word, seq, 5, &[12]);
        }
        reached("fax", 0, 1, &[0, 13, 14, 15]);
        reached("fax", 0, 3, &[12]);
        reached("data", 0, 1, &[12]);
    }
}
