//! `generate fax SEED COUNT`: a recording of COUNT lines for the follow program,
//! most of them frames of many fax payloads. The followed sub-channel is the
//! first of the text, a fax one or a voice one.

use super::fax_calls::{call, fax_type};
use super::frames::{field_of, fitting, line_of, Frames, Piece};
use super::payloads::Drawer;
use super::records::{kinds, record, records};
use super::{print_lines, Random};
use crate::frame::SUB_FRAMES;
use crate::provisioning::{write_text, Record, Syntax};
use std::collections::VecDeque;
use std::io::{self, Write};

/// The most octets of an HDLC frame; a page has half as many blocks. The number
/// goes round in both.
const MOST: usize = 40;

/// Prints the recording of a seed.
pub fn run(seed: u64, count: u64, mut output: impl Write) -> io::Result<()> {
    let mut generator = Generator::new(seed);
    output.write_all(&write_text(&generator.frames.records))?;
    // The first line must be a frame line, or it is part of the text.
    let mut lines = vec![generator.crowd()];
    print_lines(&mut output, count, seed % 4 == 3, || {
        let next = vec![generator.line()];
        std::mem::replace(&mut lines, next)
    })
}

/// Makes the lines of one seed.
struct Generator {
    /// Frames and the records of the text.
    frames: Frames,
    /// The followed sub-channel.
    followed: Record,
    /// What of the followed sub-channel waits for the next frames.
    waiting: VecDeque<Piece>,
}

impl Generator {
    /// The generator of a seed: even ones follow a fax sub-channel, odd ones a
    /// voice one, each of the eight kinds in turn.
    fn new(seed: u64) -> Self {
        let mut random = Random::new(seed);
        let count = random.between(1, 6);
        let mut records = records(&mut random, count);
        let mut kinds = kinds();
        kinds.retain(|it| it.0.is_voice());
        let kind = match seed % 2 {
            0 => (Syntax::Fax, 0),
            _ => kinds[(seed / 2 % kinds.len() as u64) as usize],
        };
        let followed = record(&mut random, records[0].cid, kind);
        records[0] = followed;
        Generator {
            frames: Frames::new(random, records),
            followed,
            waiting: VecDeque::new(),
        }
    }

    /// Where the drawing comes from.
    fn random(&mut self) -> &mut Random {
        &mut self.frames.random
    }

    /// One line: mostly many fax payloads, now and then any line of the listing.
    fn line(&mut self) -> Vec<u8> {
        match self.random().one_in(25) {
            true => self.frames.line(),
            false => self.crowd(),
        }
    }

    /// A frame of as many payloads as fit or, now and then, of fewer.
    fn crowd(&mut self) -> Vec<u8> {
        let most = match self.random().below(8) {
            0 => self.random().between(1, 20),
            1 | 2 => self.random().between(20, 60),
            _ => SUB_FRAMES,
        };
        while self.waiting.len() < most {
            self.wait();
        }
        let count = fitting(self.waiting.make_contiguous(), most);
        let pieces: Vec<Piece> = self.waiting.drain(..count).collect();
        line_of(&field_of(&pieces))
    }

    /// A fax call waits for the next frames, a payload of another type or of
    /// another sub-channel among it at times.
    fn wait(&mut self) {
        let Record { cid, syntax, .. } = self.followed;
        for payload in call(self.random(), MOST) {
            if self.random().one_in(60) {
                let other = self.other_piece();
                self.waiting.push_back(other);
            }
            self.waiting.push_back(Piece {
                cid,
                payload_type: fax_type(syntax),
                payload,
                long: self.frames.random.one_in(20),
            });
        }
    }

    /// A piece of at most 255 octets, of any sub-channel or of any type on the
    /// followed one.
    fn other_piece(&mut self) -> Piece {
        loop {
            let spoil = self.random().one_in(4);
            let mut piece = self.frames.piece(spoil);
            if self.random().one_in(2) {
                let followed = self.followed;
                piece.cid = followed.cid;
                piece.payload_type = self.frames.allowed_type(&followed);
                piece.payload =
                    Drawer::new(self.random(), spoil).payload(&followed, piece.payload_type);
            }
            if piece.payload.len() <= 255 {
                return piece;
            }
        }
    }
}

#[cfg(test)]
mod tests {
    use super::*;
    use crate::frame::{open_frame, SubFrame};
    use crate::provisioning::read_text;
    use crate::{follow, hex, histogram};
    use std::collections::{BTreeMap, BTreeSet};

    fn generated(seed: u64, count: u64) -> Vec<u8> {
        let mut input = Vec::new();
        run(seed, count, &mut input).unwrap();
        input
    }

    /// What following the first sub-channel prints.
    fn followed(seed: u64, count: u64) -> String {
        let mut output = Vec::new();
        let cid = Generator::new(seed).followed.cid;
        follow::run(cid, &generated(seed, count)[..], &mut output).unwrap();
        String::from_utf8(output).unwrap()
    }

    /// The text of a recording and its lines.
    fn text_and_lines(input: &[u8]) -> (&[u8], &[u8]) {
        let place = input.windows(7).position(|it| it == b"\nframe=");
        input.split_at(place.unwrap() + 1)
    }

    #[test]
    fn the_count_of_lines_is_right_and_the_text_good() {
        for seed in 0..20 {
            let input = generated(seed, 200);
            let (text, lines) = text_and_lines(&input);
            let first = read_text(text).unwrap().records()[0];
            assert_eq!(first, Generator::new(seed).followed);
            assert!(input.starts_with(format!("cid={}\n", first.cid).as_bytes()));
            let ends = lines.iter().filter(|octet| **octet == b'\n').count();
            assert_eq!(ends, 200 - usize::from(seed % 4 == 3), "seed {seed}");
        }
    }

    #[test]
    fn the_same_seed_gives_the_same_recording() {
        assert_eq!(generated(3, 100), generated(3, 100));
        assert_ne!(generated(3, 100), generated(4, 100));
    }

    #[test]
    fn even_seeds_follow_fax_and_odd_ones_every_kind_of_voice() {
        let kind = |seed| {
            let record = Generator::new(seed).followed;
            (record.syntax.word(), record.seq)
        };
        let even: BTreeSet<_> = (0..16).step_by(2).map(kind).collect();
        assert_eq!(even, BTreeSet::from([("fax", 0)]));
        let odd: BTreeSet<_> = (1..16).step_by(2).map(kind).collect();
        assert_eq!(odd.len(), 8);
        assert!(!odd.contains(&("fax", 0)) && !odd.contains(&("data", 0)));
    }

    #[test]
    fn most_frames_hold_many_payloads() {
        for seed in 0..4 {
            let input = generated(seed, 500);
            let (_, lines) = text_and_lines(&input);
            let cid = Generator::new(seed).followed.cid;
            let mut counts = Vec::new();
            for line in lines.split(|octet| *octet == b'\n') {
                let field = line.strip_prefix(b"frame=").and_then(hex::read);
                let reader = field.as_ref().and_then(|it| open_frame(it).ok());
                let ours = |it: &SubFrame| it.cid == cid;
                counts.push(reader.map_or(0, |it| it.filter(ours).count()));
            }
            let many = counts.iter().filter(|it| **it >= 20).count();
            assert!(many > 350, "seed {seed}: {many}");
            assert_eq!(counts.iter().max(), Some(&64));
        }
    }

    #[test]
    fn more_than_half_is_accepted_and_every_answer_is_reached() {
        for seed in 0..16 {
            let output = followed(seed, 300);
            let counts = histogram::count(output.as_bytes()).unwrap();
            let all: u64 = counts.values().sum();
            assert!(counts[&0] > all / 2 && all > 300 * 30, "seed {seed}");
            for number in [13, 14, 41, 42] {
                assert!(counts[&number] >= 10, "refusal {number}, seed {seed}");
            }
            let mut did: BTreeMap<&str, usize> = BTreeMap::new();
            let keys = |line: &&str| line.starts_with("did=") || line.starts_with("gap=");
            for line in output.lines().filter(keys) {
                *did.entry(line).or_insert(0) += 1;
            }
            let wanted = [
                "did=aborted",
                "did=added",
                "did=began",
                "did=ended",
                "did=nothing",
                "did=stopped",
                "gap=0",
                "gap=1",
            ];
            assert!(did.keys().eq(&wanted), "seed {seed}");
            assert!(did.values().all(|it| *it >= 100), "seed {seed}: {did:?}");
        }
    }
}
