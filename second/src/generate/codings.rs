//! `generate codings SEED`: a recording for the listing and the unit program with
//! every coding type of pcm and g727 and every m (document 02, wish 2). Each comes
//! in a body of its own length, of one octet less and of one more: in a frame, to
//! the voice card, and to be written.

use super::frames::{field_of, line_of, Piece};
use super::Random;
use crate::hex;
use crate::payload::voice::{G727_OCTETS, PCM_OCTETS};
use crate::payload::PRIMARY;
use crate::provisioning::{write_text, Record, Syntax};
use std::io::{self, Write};

/// How many coding types four bits can state.
const CODES: u8 = 16;
/// Some that four bits cannot state: only the writer can be told them.
const BEYOND: [u8; 4] = [16, 63, 64, 255];
/// The silence block.
const SILENCE: [u8; 4] = [0x51, 0x1e, 0x9c, 0xe0];

/// Prints the recording of a seed.
pub fn run(seed: u64, mut output: impl Write) -> io::Result<()> {
    let records = records();
    let mut generator = Generator::new(seed);
    for record in &records {
        generator.sub_channel(record);
    }
    output.write_all(&write_text(&records))?;
    for line in generator.lines {
        output.write_all(&line)?;
        output.write_all(b"\n")?;
    }
    output.flush()
}

/// Pcm and g727 with every m. CIDs 52 to 75: up to m = 6 they have no octet 1a.
fn records() -> Vec<Record> {
    let mut records = Vec::new();
    for m in 1..=12 {
        for (cid, syntax) in [(50 + 2 * m, Syntax::Pcm), (51 + 2 * m, Syntax::G727)] {
            let seq = 1;
            records.push(Record {
                cid,
                syntax,
                m,
                seq,
            });
        }
    }
    records
}

/// The lengths of the bodies of a coding type: one octet less, its own, one more.
/// One that is not in its table has no length of its own: it gets no octets, and
/// the lengths of the first and the last that are there.
fn lengths(record: &Record, coding: u8) -> [usize; 3] {
    let octets: &[usize] = match record.syntax {
        Syntax::Pcm => &PCM_OCTETS,
        _ => &G727_OCTETS,
    };
    let m = usize::from(record.m);
    match octets.get(usize::from(coding)) {
        Some(count) => [m * count - 1, m * count, m * count + 1],
        None => [0, m * octets[0], m * octets[octets.len() - 1]],
    }
}

/// Makes the lines of one seed.
struct Generator {
    random: Random,
    /// The lines without their LFs.
    lines: Vec<Vec<u8>>,
}

impl Generator {
    /// The generator of a seed, which says what the sequences and the octets of
    /// the bodies are.
    fn new(seed: u64) -> Self {
        Generator {
            random: Random::new(seed),
            lines: Vec::new(),
        }
    }

    /// A line of a key and octets.
    fn push(&mut self, key: &str, octets: &[u8]) {
        let line = format!("{key}={}", hex::write(octets));
        self.lines.push(line.into_bytes());
    }

    /// All lines of a sub-channel.
    fn sub_channel(&mut self, record: &Record) {
        for coding in 0..CODES {
            for length in lengths(record, coding) {
                let (sequence, body) = self.drawn(length);
                self.read(record.cid, sequence, coding, &body);
                self.write(record.cid, sequence, coding, &body);
            }
        }
        for coding in BEYOND {
            let (sequence, body) = self.drawn(lengths(record, coding)[1]);
            self.write(record.cid, sequence, coding, &body);
        }
    }

    /// A sequence, and a body of so many octets.
    fn drawn(&mut self, length: usize) -> (u8, Vec<u8>) {
        (self.random.small(0, 15), self.random.octets(length))
    }

    /// A frame with the payload alone, and a call of the voice card. The first
    /// line must be a frame line, or it is part of the text; the silence block
    /// comes after it.
    fn read(&mut self, cid: u8, sequence: u8, coding: u8, body: &[u8]) {
        let mut payload = vec![sequence * 16 + coding];
        payload.extend(body);
        let field = field_of(&[Piece {
            cid,
            payload_type: PRIMARY,
            payload,
            long: false,
        }]);
        self.lines.push(line_of(&field));
        if self.lines.len() == 1 {
            self.push("silence", &SILENCE);
        }
        self.push("card", &[cid]);
    }

    /// The payload written as the last, in a room that has an octet or two left.
    fn write(&mut self, cid: u8, sequence: u8, coding: u8, body: &[u8]) {
        let room = body.len() as u16 + 4;
        self.push("room", &room.to_be_bytes());
        let mut octets = vec![1, cid, sequence, coding];
        octets.extend(body);
        self.push("voice", &octets);
        self.push("shown", &[]);
    }
}

#[cfg(test)]
mod tests {
    use super::*;
    use crate::frame::open_frame;
    use crate::provisioning::{read_text, Table};
    use crate::{histogram, listing, unit};
    use std::collections::{BTreeMap, BTreeSet};

    // 29 coding types stand in the tables, 12 values of m: 348 payloads pass, and
    // 2 x 348 have an octet too few or too many. Pcm lacks 2 of the 16 that four
    // bits can state and g727 lacks 1: 12 x 3 with three lengths each are in no
    // table. The writer gets 24 x 4 more of these.
    const PASS: u64 = 348;
    const ONE_OFF: u64 = 696;
    const NOT_IN_TABLE: u64 = 108;
    const BEYOND_FOUR_BITS: u64 = 96;
    const FRAMES: u64 = 1152;
    // A frame comes with card, room, voice and shown; what is beyond four bits
    // with the last three; and there is the silence block.
    const OTHER_LINES: u64 = 4 * 1152 + 3 * 96 + 1;

    fn generated(seed: u64) -> Vec<u8> {
        let mut input = Vec::new();
        run(seed, &mut input).unwrap();
        input
    }

    fn listed(seed: u64) -> String {
        let mut output = Vec::new();
        listing::run(&generated(seed)[..], &mut output).unwrap();
        String::from_utf8(output).unwrap()
    }

    fn answered(seed: u64) -> String {
        let mut output = Vec::new();
        unit::run(&generated(seed)[..], &mut output).unwrap();
        String::from_utf8(output).unwrap()
    }

    /// How many lines start so.
    fn count(output: &str, start: &str) -> u64 {
        output.lines().filter(|it| it.starts_with(start)).count() as u64
    }

    /// The fields of the frame lines.
    fn fields(seed: u64) -> Vec<Vec<u8>> {
        generated(seed)
            .split(|octet| *octet == b'\n')
            .filter_map(|line| line.strip_prefix(b"frame="))
            .map(|characters| hex::read(characters).unwrap())
            .collect()
    }

    #[test]
    fn the_text_is_good_and_both_forms_of_header_are_there() {
        let input = generated(1);
        let place = input.windows(7).position(|it| it == b"\nframe=").unwrap();
        let table = read_text(&input[..=place]).unwrap();
        assert_eq!(table.records(), records());
        assert_eq!(records().len(), 24);
        for syntax in [Syntax::Pcm, Syntax::G727] {
            let of = records().into_iter().filter(|it| it.syntax == syntax);
            assert!(of.clone().map(|it| it.m).eq(1..=12));
            assert_eq!(of.filter(|it| it.cid < 64).count(), 6);
        }
    }

    #[test]
    fn every_coding_type_comes_with_every_length() {
        let table = Table::of(&records());
        let mut seen = BTreeSet::new();
        for field in fields(2) {
            let sub_frames: Vec<_> = open_frame(&field).unwrap().collect();
            assert_eq!((sub_frames.len(), sub_frames[0].payload_type), (1, PRIMARY));
            let (cid, payload) = (sub_frames[0].cid, sub_frames[0].payload);
            let coding = payload[0] % 16;
            let record = table.record(cid).unwrap();
            assert!(lengths(record, coding).contains(&(payload.len() - 1)));
            seen.insert((cid, coding, payload.len()));
        }
        assert_eq!(seen.len() as u64, FRAMES);
        assert_eq!(FRAMES, 24 * 16 * 3);
    }

    #[test]
    fn wish_2_the_listing_takes_348_payloads() {
        assert_eq!(PASS, 12 * (14 + 15));
        assert_eq!(PASS + ONE_OFF + NOT_IN_TABLE, FRAMES);
        for seed in [0, 1, 2] {
            let output = listed(seed);
            assert_eq!(count(&output, "answer="), FRAMES);
            // All other lines are refused with 9.
            let wanted = [
                (0, PASS),
                (9, OTHER_LINES),
                (13, ONE_OFF),
                (16, NOT_IN_TABLE),
            ];
            let counts = histogram::count(output.as_bytes()).unwrap();
            assert_eq!(counts, BTreeMap::from(wanted));
        }
    }

    #[test]
    fn wish_2_the_unit_hands_on_and_writes_348_payloads() {
        for seed in [0, 1, 2] {
            let output = answered(seed);
            assert_eq!(count(&output, "malformed="), 0);
            assert_eq!(count(&output, "source="), FRAMES);
            assert_eq!(count(&output, "source=0"), PASS);
            assert_eq!(count(&output, "source=255"), FRAMES - PASS);
            assert_eq!(count(&output, "at="), PASS);
            assert_eq!(count(&output, "done=1"), PASS);
            let refused = ONE_OFF + NOT_IN_TABLE + BEYOND_FOUR_BITS;
            assert_eq!(count(&output, "refused="), refused);
            assert_eq!(count(&output, "refused=13"), ONE_OFF);
            let not_in_table = NOT_IN_TABLE + BEYOND_FOUR_BITS;
            assert_eq!(count(&output, "refused=16"), not_in_table);
            assert_eq!(count(&output, "lent="), FRAMES + BEYOND_FOUR_BITS);
        }
    }

    #[test]
    fn what_passes_is_written_as_it_came_and_a_refusal_writes_nothing() {
        let output = answered(3);
        let lent: Vec<&str> = output
            .lines()
            .filter_map(|line| line.strip_prefix("lent="))
            .collect();
        let untouched = lent.iter().filter(|it| it.chars().all(|it| it == 'e'));
        let refused = ONE_OFF + NOT_IN_TABLE + BEYOND_FOUR_BITS;
        assert_eq!(untouched.count() as u64, refused);
        // Each field that passes once more, with two octets after it or one.
        let in_room = |field: &Vec<u8>| match field[0] < 0x80 {
            true => hex::write(field) + "eeee",
            false => hex::write(field) + "ee",
        };
        let fields: BTreeSet<String> = fields(3).iter().map(in_room).collect();
        let same = lent.iter().filter(|it| fields.contains(**it));
        assert_eq!(same.count() as u64, PASS);
    }

    #[test]
    fn the_seed_says_what_sequences_and_bodies_are_and_no_more() {
        assert_eq!(generated(3), generated(3));
        assert_ne!(generated(3), generated(4));
        assert_eq!(listed(3), listed(4));
        let shape = |seed| -> Vec<usize> {
            generated(seed)
                .split(|octet| *octet == b'\n')
                .map(|line| line.len())
                .collect()
        };
        assert_eq!(shape(3), shape(4));
    }
}
