//! `generate text SEED`: a listing input whose provisioning text is damaged or
//! at a boundary, followed by a few frame lines.

use super::records::records;
use super::Random;
use crate::provisioning::{write_text, TEXT_OCTETS};
use std::io::{self, Write};

/// How many recipes there are; the seed goes round them.
pub const RECIPES: u64 = 20;

/// Prints the input of a seed.
pub fn run(seed: u64, mut output: impl Write) -> io::Result<()> {
    let mut generator = Generator::new(seed);
    let text = generator.text(seed % RECIPES);
    output.write_all(&text)?;
    if !generator.no_frames {
        output.write_all(&generator.frame_lines())?;
    }
    output.flush()
}

/// The lines of a text, each with the LF that ends it.
fn lines_of(text: &[u8]) -> Vec<Vec<u8>> {
    let lines = text.split_inclusive(|octet| *octet == b'\n');
    lines.map(<[u8]>::to_vec).collect()
}

/// Makes the text of one seed.
struct Generator {
    random: Random,
    /// Whether the input ends with the text.
    no_frames: bool,
}

impl Generator {
    /// The generator of a seed.
    fn new(seed: u64) -> Self {
        let mut random = Random::new(seed);
        let no_frames = random.one_in(6);
        Generator { random, no_frames }
    }

    /// A few frame lines.
    fn frame_lines(&mut self) -> Vec<u8> {
        let lines: [&[u8]; 6] = [
            b"frame=05aa\n",
            b"frame=c50108000a23070000000006aa\n",
            b"frame=\n",
            b"frame=88c0000000\n",
            b"frame=4500\n",
            b"frame=8504\n",
        ];
        let count = self.random.between(1, 4);
        let mut all = Vec::new();
        for _ in 0..count {
            all.extend(self.random.pick(&lines));
        }
        all
    }

    /// A legal text of a few blocks.
    fn legal(&mut self) -> Vec<u8> {
        let count = self.random.between(1, 12);
        write_text(&records(&mut self.random, count))
    }

    /// The text of a recipe.
    fn text(&mut self, recipe: u64) -> Vec<u8> {
        match recipe {
            0 => self.legal(),
            1 => self.wrong_key(),
            2 | 3 => self.malformed_number(),
            4 => self.missing_lf(),
            5 => self.wrong_cid(),
            6 => self.wrong_syntax(),
            7 => self.wrong_m(),
            8 => self.wrong_seq(),
            9 => self.not_rising(),
            10 => self.cut_block(),
            11 => self.over_8192(),
            12 => self.near_8192(),
            13 => write_text(&records(&mut self.random, 252)),
            14 => Vec::new(),
            15 => self.two_damages(),
            16 => self.octets_damaged(),
            17 => self.lines_moved(),
            18 => self.carriage_returns(),
            _ => self.frame_like(),
        }
    }

    /// A line of a block, by its place in the block: which lines of a text are it.
    fn line_place(&mut self, lines: &[Vec<u8>], in_block: usize) -> usize {
        let blocks = lines.len() / 4;
        4 * self.random.below(blocks) + in_block
    }

    /// A legal text with one line, by its place in the block, replaced.
    fn replaced(&mut self, in_block: usize, line: &[u8]) -> Vec<u8> {
        let mut lines = lines_of(&self.legal());
        let place = self.line_place(&lines, in_block);
        lines[place] = line.to_vec();
        lines[place].push(b'\n');
        lines.concat()
    }

    /// 31: a wrong key.
    fn wrong_key(&mut self) -> Vec<u8> {
        let in_block = self.random.below(4);
        let keys: [&[u8]; 14] = [
            b"cid=", b"syntax=", b"m=", b"seq=", b"", b"=", b" ", b"CID=", b"cid", b"cid =",
            b"syn=", b"M=", b"seq:", b"\r",
        ];
        let values: [&[u8]; 5] = [b"5", b"acelp", b"1", b"0", b""];
        let mut line = self.random.pick(&keys).to_vec();
        line.extend(self.random.pick(&values));
        self.replaced(in_block, &line)
    }

    /// 31: a malformed number.
    fn malformed_number(&mut self) -> Vec<u8> {
        let in_block = self.random.pick(&[0, 2, 3]);
        let numbers: [&[u8]; 22] = [
            b"",
            b"00",
            b"01",
            b"05",
            b"010",
            b"000",
            b"1000",
            b"0000",
            b"2560",
            b"+5",
            b"-1",
            b" 5",
            b"5 ",
            b"5\r",
            b"1.0",
            b"0x5",
            b"a",
            b"1a",
            b"5\0",
            b"\xb2",
            b"1_0",
            b"99999999999999999999",
        ];
        let mut line = KEYS[in_block].to_vec();
        line.extend(self.random.pick(&numbers));
        self.replaced(in_block, &line)
    }

    /// 31: the last LF missing, at the end of the input or before a frame line.
    fn missing_lf(&mut self) -> Vec<u8> {
        let mut text = self.legal();
        if self.random.one_in(2) {
            let lines = lines_of(&text);
            let count = self.random.between(1, lines.len());
            text = lines[..count].concat();
        }
        text.pop();
        if self.random.one_in(3) {
            let cut = self.random.below(text.len().min(8));
            text.truncate(text.len() - cut);
        }
        self.no_frames = !self.random.one_in(3);
        text
    }

    /// 32: a CID that is not listed; also the ends of those that are.
    fn wrong_cid(&mut self) -> Vec<u8> {
        let cid = self
            .random
            .pick(&[0, 1, 2, 3, 4, 255, 256, 257, 300, 512, 999]);
        self.replaced(0, format!("cid={cid}").as_bytes())
    }

    /// 32: a syntax word that is not listed; also those that are.
    fn wrong_syntax(&mut self) -> Vec<u8> {
        let words: [&[u8]; 22] = [
            b"", b"acelp ", b" acelp", b"acelp\r", b"Acelp", b"ACELP", b"acel", b"acelpp", b"g723",
            b"g7232", b"g729", b"g72", b"faxx", b"digits", b"pcm\0", b"0", b"data", b"fax", b"pcm",
            b"g727", b"g728", b"g7231",
        ];
        let mut line = b"syntax=".to_vec();
        line.extend(self.random.pick(&words));
        self.replaced(1, &line)
    }

    /// 32: an m that is not listed for its syntax; also the ends of those that are.
    fn wrong_m(&mut self) -> Vec<u8> {
        let count = self.random.between(1, 12);
        let records = records(&mut self.random, count);
        let block = self.random.below(count);
        let most = u16::from(records[block].syntax.most_m());
        let m = self
            .random
            .pick(&[0, 1, most, most + 1, most + 1, most + 2, 13, 256, 257, 999]);
        let mut lines = lines_of(&write_text(&records));
        lines[4 * block + 2] = format!("m={m}\n").into_bytes();
        lines.concat()
    }

    /// 32: a seq that is not listed for its syntax; also those that are.
    fn wrong_seq(&mut self) -> Vec<u8> {
        let count = self.random.between(1, 12);
        let records = records(&mut self.random, count);
        let block = self.random.below(count);
        let other = u16::from(1 - records[block].seq);
        let seq = self
            .random
            .pick(&[other, other, other, 2, 10, 255, 256, 257]);
        let mut lines = lines_of(&write_text(&records));
        lines[4 * block + 3] = format!("seq={seq}\n").into_bytes();
        lines.concat()
    }

    /// 33: a CID that is not above the one before; now and then 32 on that line.
    fn not_rising(&mut self) -> Vec<u8> {
        let count = self.random.between(2, 12);
        let mut records = records(&mut self.random, count);
        let place = self.random.between(1, count - 1);
        let before = records[place - 1].cid;
        match self.random.below(5) {
            0 => records[place].cid = before,
            1 => records[place].cid = before - 1,
            2 => records[place].cid = self.random.small(0, 4),
            3 => records.swap(place - 1, place),
            _ => records[place].cid = self.random.small(0, before),
        }
        write_text(&records)
    }

    /// 31: a block cut at the end, after a line or within one.
    fn cut_block(&mut self) -> Vec<u8> {
        let text = self.legal();
        let lines = lines_of(&text);
        let cut = self.random.between(1, 3);
        lines[..lines.len() - cut].concat()
    }

    /// Legal blocks to about the size of all 252, then lines to an exact size.
    fn of_size(&mut self, size: usize) -> Vec<u8> {
        let mut text = match self.random.below(4) {
            0 => Vec::new(),
            1 => self.legal(),
            _ => write_text(&records(&mut self.random, 252)),
        };
        let long = b"cid=255\nsyntax=acelp\nm=6\nseq=1\n";
        match self.random.below(3) {
            0 => text.resize(size, b'a'),
            1 => text.resize(size, b'\n'),
            _ => {
                while text.len() < size {
                    text.extend(long);
                }
                text.truncate(size);
            }
        }
        if self.random.one_in(2) {
            text[size - 1] = b'\n';
        }
        text
    }

    /// 34: over 8,192 octets, by one or by many.
    fn over_8192(&mut self) -> Vec<u8> {
        let more = match self.random.below(4) {
            0 => 1,
            1 => self.random.between(1, 8),
            2 => self.random.between(1, 1000),
            _ => self.random.between(1, 300_000),
        };
        let mut text = self.of_size(TEXT_OCTETS + more);
        let last = text.len() - 1;
        text[last] = b'\n';
        text
    }

    /// 8,185 to 8,199 octets; mostly exactly 8,192, with a frame line right after.
    fn near_8192(&mut self) -> Vec<u8> {
        let size = match self.random.one_in(2) {
            true => TEXT_OCTETS,
            false => self.random.between(TEXT_OCTETS - 7, TEXT_OCTETS + 7),
        };
        let mut text = self.of_size(size);
        if !self.random.one_in(4) {
            text[size - 1] = b'\n';
        }
        if self.random.one_in(4) {
            // A line start that only looks like a frame line.
            let start = self.random.between(1, 8);
            let place = size - start;
            text[place - 1] = b'\n';
            text[place..].copy_from_slice(&b"frame-fr"[..start]);
            self.no_frames = true;
        }
        text
    }

    /// Two lines spoiled at random, anywhere: the first counts.
    fn two_damages(&mut self) -> Vec<u8> {
        let mut lines = lines_of(&self.legal());
        for _ in 0..2 {
            let place = self.random.below(lines.len());
            let wrong: [&[u8]; 8] = [
                b"cid=3\n",
                b"cid=4\n",
                b"cid=05\n",
                b"syntax=none\n",
                b"m=13\n",
                b"m=01\n",
                b"seq=2\n",
                b"\n",
            ];
            lines[place] = self.random.pick(&wrong).to_vec();
        }
        lines.concat()
    }

    /// Octets of a legal text flipped, changed, left out or added.
    fn octets_damaged(&mut self) -> Vec<u8> {
        let mut text = self.legal();
        for _ in 0..self.random.between(1, 3) {
            let place = self.random.below(text.len());
            match self.random.below(4) {
                0 => text[place] ^= 1 << self.random.below(8),
                1 => text[place] = self.random.octet(),
                2 => drop(text.remove(place)),
                _ => text.insert(place, self.random.octet()),
            }
        }
        text
    }

    /// Lines of a legal text swapped, doubled, left out, or a blank one added.
    fn lines_moved(&mut self) -> Vec<u8> {
        let mut lines = lines_of(&self.legal());
        let place = self.random.below(lines.len());
        let other = self.random.below(lines.len());
        match self.random.below(5) {
            0 => lines.swap(place, other),
            1 => lines.insert(place, lines[place].clone()),
            2 => drop(lines.remove(place)),
            3 => lines.insert(place, b"\n".to_vec()),
            _ => lines.push(b"\n".to_vec()),
        }
        lines.concat()
    }

    /// CR before the LF, on every line or on one.
    fn carriage_returns(&mut self) -> Vec<u8> {
        let mut lines = lines_of(&self.legal());
        let all = self.random.one_in(3);
        let chosen = self.random.below(lines.len());
        for (place, line) in lines.iter_mut().enumerate() {
            if all || place == chosen {
                line.insert(line.len() - 1, b'\r');
            }
        }
        lines.concat()
    }

    /// Lines that look like frame lines and are not, or are too early.
    fn frame_like(&mut self) -> Vec<u8> {
        let mut lines = lines_of(&self.legal());
        let place = self.random.between(0, lines.len());
        let like: [&[u8]; 8] = [
            b"frame\n",
            b"Frame=05\n",
            b" frame=05\n",
            b"frame:05\n",
            b"frame=05aa\n",
            b"frame=\n",
            b"cid=5frame=05\n",
            b"fram",
        ];
        lines.insert(place, self.random.pick(&like).to_vec());
        lines.concat()
    }
}

/// The keys by place in the block.
const KEYS: [&[u8]; 4] = [b"cid=", b"syntax=", b"m=", b"seq="];

#[cfg(test)]
mod tests {
    use super::*;
    use crate::{histogram, listing};
    use std::collections::BTreeMap;

    fn generated(seed: u64) -> Vec<u8> {
        let mut input = Vec::new();
        run(seed, &mut input).unwrap();
        input
    }

    fn listed(input: &[u8]) -> Vec<u8> {
        let mut output = Vec::new();
        listing::run(input, &mut output).unwrap();
        output
    }

    #[test]
    fn every_text_refusal_is_reached_and_good_texts_too() {
        let mut seen: BTreeMap<u64, u64> = BTreeMap::new();
        for seed in 0..600 {
            let output = listed(&generated(seed));
            for (number, count) in histogram::count(&output[..]).unwrap() {
                *seen.entry(number).or_insert(0) += count;
            }
        }
        for number in [0, 1, 7, 11, 31, 32, 33, 34] {
            let count = seen.get(&number).copied().unwrap_or(0);
            assert!(count >= 5, "refusal {number} only {count} times");
        }
    }

    #[test]
    fn the_sizes_are_reached() {
        let mut sizes = [0; 3];
        for round in 0..60 {
            let mut generator = Generator::new(12 + RECIPES * round);
            let size = generator.text(12).len();
            sizes[usize::from(size >= TEXT_OCTETS) + usize::from(size > TEXT_OCTETS)] += 1;
        }
        assert!(sizes.iter().all(|count| *count > 3), "{sizes:?}");
    }

    #[test]
    fn the_same_seed_gives_the_same_input() {
        for seed in 0..60 {
            assert_eq!(generated(seed), generated(seed));
        }
    }
}
