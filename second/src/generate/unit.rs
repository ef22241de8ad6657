//! `generate unit SEED COUNT`: a provisioning text and COUNT lines for the unit
//! program.

use super::contents::{data, Content, ContentDrawer};
use super::frames::{field_of, line_of, Frames, Piece};
use super::payloads::Drawer;
use super::records::records;
use super::{print_lines, Random};
use crate::hex;
use crate::provisioning::{write_text, Record, Syntax};
use std::io::{self, Write};

/// The most octets of a frame, a silence block, a room and a body.
const MOST_OCTETS: usize = 1700;

/// Prints the input of a seed.
pub fn run(seed: u64, count: u64, mut output: impl Write) -> io::Result<()> {
    let mut generator = Generator::new(seed);
    output.write_all(&write_text(&generator.frames.records))?;
    generator.first_line(seed);
    print_lines(&mut output, count, seed % 4 == 3, || {
        let lines = generator.lines.split_off(0);
        generator.scene();
        lines
    })
}

/// Makes the lines of one seed.
struct Generator {
    /// Frames and the records of the text.
    frames: Frames,
    /// The lines of the scene, without their LFs.
    lines: Vec<Vec<u8>>,
}

impl Generator {
    /// The generator of a seed, with every kind of sub-channel; some have all 252.
    fn new(seed: u64) -> Self {
        let mut random = Random::new(seed);
        let count = match seed % 8 {
            6 => 252,
            _ => random.between(10, 50),
        };
        let records = records(&mut random, count);
        Generator {
            frames: Frames::new(random, records),
            lines: Vec::new(),
        }
    }

    /// The first line must start with `frame=`, or it is part of the text. In
    /// some seeds it is malformed all the same.
    fn first_line(&mut self, seed: u64) {
        let line = match seed % 8 {
            5 => b"frame=05a".to_vec(),
            _ => self.frames.legal_line(),
        };
        self.lines.push(line);
    }

    /// One scene: some lines that belong together.
    fn scene(&mut self) {
        match self.random().below(100) {
            0..=14 => self.any_frame(),
            15..=32 => self.call_frame(),
            33..=35 => self.silence(),
            36..=53 => self.fitted(),
            54..=71 => self.any_writes(),
            72..=77 => self.near_255(),
            78..=79 => self.near_64(),
            80..=83 => self.near_1600(),
            84..=86 => self.after_the_last(),
            _ => self.malformed(),
        }
    }

    /// Where the drawing comes from.
    fn random(&mut self) -> &mut Random {
        &mut self.frames.random
    }

    /// A line of a key and octets.
    fn push(&mut self, key: &str, octets: &[u8]) {
        let line = format!("{key}={}", hex::write(octets));
        self.lines.push(line.into_bytes());
    }

    /// The lent frame, printed.
    fn shown(&mut self) {
        self.push("shown", &[]);
    }

    /// The lent frame, printed one time in so many.
    fn sometimes_shown(&mut self, times: usize) {
        if self.random().one_in(times) {
            self.shown();
        }
    }

    /// Any provisioned sub-channel.
    fn any_of_records(&mut self) -> Record {
        let index = self.frames.random.below(self.frames.records.len());
        self.frames.records[index]
    }

    /// A sub-channel of some syntaxes; the text has every syntax.
    fn record_of(&mut self, wanted: impl Fn(&Record) -> bool) -> Record {
        loop {
            let record = self.any_of_records();
            if wanted(&record) {
                return record;
            }
        }
    }

    /// A call of the voice card.
    fn card(&mut self, cid: u8) {
        self.push("card", &[cid]);
    }

    /// Calls on other sub-channels: any, reserved ones, ones that are not there.
    fn other_cards(&mut self) {
        for _ in 0..self.random().below(3) {
            let cid = match self.random().below(6) {
                0 => self.random().small(0, 3),
                1 | 2 => self.random().octet(),
                _ => self.any_of_records().cid,
            };
            self.card(cid);
        }
    }

    /// The silence block anew.
    fn silence(&mut self) {
        let count = match self.random().below(10) {
            0 | 1 => 0,
            2 => self.random().between(1698, MOST_OCTETS),
            3 => self.random().between(41, 600),
            _ => self.random().between(1, 40),
        };
        let octets = self.random().octets(count);
        self.push("silence", &octets);
    }

    /// Any frame line of the listing, sound or not, and calls on sub-channels
    /// that are likely to be in it.
    fn any_frame(&mut self) {
        if self.random().one_in(4) {
            self.silence();
        }
        let line = self.frames.line();
        self.lines.push(line);
        for back in 0..self.random().between(1, 3) {
            let cid = self.frames.record_before(back).cid;
            self.card(cid);
        }
        self.other_cards();
    }

    /// A frame made for one voice sub-channel: sound and unsound payloads,
    /// silence and other types, other sub-channels.
    fn call_frame(&mut self) {
        let record = self.record_of(|it| it.syntax.is_voice());
        let patterns = [
            "g", "bg", "gg", "sg", "b", "s", "bbg", "bsbgg", "tg", "og", "obg", "oso", "gb", "gs",
            "bt", "sgbg",
        ];
        let pattern = self.random().pick(&patterns);
        let pieces: Vec<Piece> = pattern.chars().map(|it| self.letter(&record, it)).collect();
        self.lines.push(line_of(&field_of(&pieces)));
        self.card(record.cid);
        self.other_cards();
        if self.random().one_in(3) {
            self.silence();
            self.card(record.cid);
        }
    }

    /// The piece of a letter: g a sound payload, b one with something wrong, s
    /// silence, t another type, o another sub-channel.
    fn letter(&mut self, record: &Record, letter: char) -> Piece {
        let (mut cid, mut payload_type) = (record.cid, 0);
        let random = &mut self.frames.random;
        let mut payload = Drawer::new(random, false).payload(record, 0);
        match letter {
            'b' => spoil(random, record, &mut payload),
            's' => {
                payload_type = 4;
                payload = Drawer::new(random, false).payload(record, 4);
            }
            't' => payload_type = random.small(1, 15),
            'o' => cid = random.small(4, 255),
            _ => {}
        }
        Piece {
            cid,
            payload_type,
            payload,
            long: random.one_in(5),
        }
    }

    /// The writer anew in a room.
    fn room(&mut self, octets: usize) {
        let octets = octets.min(MOST_OCTETS) as u16;
        self.push("room", &octets.to_be_bytes());
    }

    /// Legal content on any sub-channel.
    fn legal(&mut self) -> (u8, Content) {
        let record = self.any_of_records();
        let content = ContentDrawer::new(self.random(), false).content(&record);
        (record.cid, content)
    }

    /// Legal content of at most 255 octets.
    fn legal_not_last(&mut self) -> (u8, Content) {
        loop {
            let (cid, content) = self.legal();
            if content.payload <= 255 {
                return (cid, content);
            }
        }
    }

    /// Content on any sub-channel, perhaps spoiled, of a kind that is perhaps
    /// not allowed; or on one that is reserved or not there.
    fn any_content(&mut self) -> (u8, Content) {
        let record = self.any_of_records();
        let spoil = !self.random().one_in(3);
        let other_kind = self.random().one_in(6);
        let mut drawer = ContentDrawer::new(self.random(), spoil);
        let content = match other_kind {
            true => drawer.any_kind(&record),
            false => drawer.content(&record),
        };
        let cid = match self.random().below(24) {
            0 => self.random().small(0, 3),
            1 => self.random().octet(),
            _ => record.cid,
        };
        (cid, content)
    }

    /// A line that writes.
    fn write(&mut self, cid: u8, content: &Content, last: bool) {
        self.lines.push(content.line(cid, last));
    }

    /// Legal sub-frames in a room that they just fill, that the last of them
    /// misses by an octet, or that has some left; then one more.
    fn fitted(&mut self) {
        let mut list: Vec<(u8, Content, bool)> = Vec::new();
        let mut octets = 0;
        let count = self.random().pick(&[1, 1, 2, 3, 4, 8, 20]);
        for number in 1..=count {
            let to_be_last = number == count && !self.random().one_in(4);
            let (cid, content) = match to_be_last {
                true => self.legal(),
                false => self.legal_not_last(),
            };
            if octets + content.size(cid, to_be_last) <= 1600 {
                octets += content.size(cid, to_be_last);
                list.push((cid, content, to_be_last));
            }
        }
        let other = self.random().between(1, 40);
        let room = match self.random().below(10) {
            0..=3 => octets,
            4..=7 => octets - 1,
            8 => octets + other,
            _ => octets.saturating_sub(other),
        };
        self.room(room);
        for (cid, content, last) in &list {
            self.write(*cid, content, *last);
            self.sometimes_shown(3);
        }
        self.shown();
        let (cid, content) = self.any_content();
        let last = self.random().one_in(2);
        self.write(cid, &content, last);
        self.shown();
    }

    /// Sub-frames of all sorts in a room of any size.
    fn any_writes(&mut self) {
        let room = match self.random().below(3) {
            0 => self.random().below(60),
            1 => self.random().below(MOST_OCTETS + 1),
            _ => self
                .random()
                .pick(&[0, 1, 2, 3, 255, 256, 258, 1599, 1600, 1601, 1700]),
        };
        self.room(room);
        for _ in 0..self.random().between(2, 14) {
            let (cid, content) = self.any_content();
            let last = self.random().one_in(16) || content.payload > 255 && self.random().one_in(2);
            self.write(cid, &content, last);
            self.sometimes_shown(if room < 100 { 1 } else { 3 });
        }
        self.shown();
    }

    /// Data on a sub-channel whose payload has so many octets.
    fn data_payload(&mut self, payload: usize) -> (u8, Content) {
        let record = self.record_of(|it| it.syntax == Syntax::Data);
        (record.cid, data(self.random(), payload.saturating_sub(2)))
    }

    /// A payload of about 255 octets, last or not, in a room that is large
    /// enough or just not.
    fn near_255(&mut self) {
        let payload = self
            .random()
            .pick(&[253, 254, 255, 255, 256, 256, 257, 300]);
        let (cid, content) = self.data_payload(payload);
        let last = self.random().one_in(4);
        let room = match self.random().below(6) {
            0 => content.size(cid, last),
            1 => content.size(cid, last) - 1,
            2 => self.random().below(300),
            _ => MOST_OCTETS,
        };
        self.room(room);
        self.write(cid, &content, last);
        self.shown();
        // Also sub-frames of a voice sub-channel may pass 255 octets.
        let record = self.record_of(|it| it.syntax == Syntax::Pcm || it.syntax == Syntax::G727);
        let content = ContentDrawer::new(self.random(), false).content(&record);
        self.write(record.cid, &content, false);
        self.write(record.cid, &content, true);
        self.shown();
    }

    /// About 64 sub-frames, none of them last; then more.
    fn near_64(&mut self) {
        let room = self.random().pick(&[MOST_OCTETS, MOST_OCTETS, 1600, 300]);
        self.room(room);
        let count = self.random().between(62, 65);
        let mut written = 0;
        let mut octets = 0;
        while written < count {
            let (cid, content) = self.legal_not_last();
            let size = content.size(cid, false);
            if size > 24 || octets + size + 8 * (count - written) > 1560 {
                continue;
            }
            self.write(cid, &content, false);
            self.sometimes_shown(40);
            written += 1;
            octets += size;
        }
        self.shown();
        for _ in 0..self.random().between(1, 4) {
            let (cid, content) = self.legal();
            let last = self.random().one_in(3);
            self.write(cid, &content, last);
        }
        self.shown();
    }

    /// Sub-frames up to 1,600 octets, one off, or just beyond; then one more.
    fn near_1600(&mut self) {
        let room = self
            .random()
            .pick(&[1598, 1599, 1600, 1600, 1601, 1650, MOST_OCTETS]);
        self.room(room);
        let (mut octets, many) = (0, self.random().one_in(2));
        while many && octets < 1350 {
            let (cid, content) = self.legal_not_last();
            if octets + content.size(cid, false) <= 1580 {
                octets += content.size(cid, false);
                self.write(cid, &content, false);
            }
        }
        let last = !many || self.random().one_in(2);
        let wanted = self.random().between(1598, 1602);
        // The header's octets are those of a payload of any length.
        let (cid, content) = self.data_payload(3);
        let header = content.size(cid, last) - 3;
        let content = data(self.random(), wanted - octets - header - 2);
        self.write(cid, &content, last);
        self.shown();
        for _ in 0..self.random().between(1, 2) {
            let (cid, content) = self.legal();
            let last = self.random().one_in(2);
            self.write(cid, &content, last);
        }
        self.shown();
    }

    /// A last sub-frame, then others of all sorts: 24 comes first.
    fn after_the_last(&mut self) {
        let room = self.random().pick(&[600, MOST_OCTETS]);
        self.room(room);
        let (cid, content) = self.legal_not_last();
        self.write(cid, &content, true);
        self.shown();
        for _ in 0..self.random().between(1, 5) {
            let (cid, content) = self.any_content();
            let last = self.random().one_in(2);
            self.write(cid, &content, last);
        }
        self.shown();
    }

    /// Some malformed lines, or lines at a limit; then what is at hand.
    fn malformed(&mut self) {
        for _ in 0..self.random().between(1, 4) {
            let line = match self.random().below(8) {
                0 => self.near_1700(),
                1 => self.near_4000(),
                2 => self.another_character(),
                3 => self.another_count(),
                4 => self.frames.malformed_line(),
                _ => self.random().pick(&MALFORMED).to_vec(),
            };
            self.lines.push(line);
        }
        let cid = self.any_of_records().cid;
        self.card(cid);
        self.shown();
    }

    /// A line with 1,700 octets or one more, where that is the most.
    fn near_1700(&mut self) -> Vec<u8> {
        let count = self.random().between(1699, 1701);
        let body = hex::write(&self.random().octets(count));
        let cid = self.any_of_records().cid;
        let start = match self.random().below(6) {
            0 | 1 => "frame=".to_string(),
            2 => "silence=".to_string(),
            3 => format!("voice=01{cid:02x}0000"),
            4 => format!("data=01{cid:02x}00000000"),
            _ => format!("fax=01{cid:02x}000000000200000000"),
        };
        format!("{start}{body}").into_bytes()
    }

    /// A line of about 4,000 characters or more, malformed by its octets too.
    fn near_4000(&mut self) -> Vec<u8> {
        let start: &[u8] = self
            .random()
            .pick(&[&b"frame="[..], b"silence=", b"shown="]);
        let mut line = start.to_vec();
        let size = match self.random().below(3) {
            0 => self.random().between(4003, 10_000),
            _ => self.random().between(3998, 4002),
        };
        line.resize(size, b'0');
        line
    }

    /// Any sound line of those that write or call.
    fn any_line(&mut self) -> Vec<u8> {
        let (cid, content) = self.legal();
        match self.random().below(6) {
            0 => format!("card={cid:02x}").into_bytes(),
            1 => b"room=0010".to_vec(),
            2 => self.frames.legal_line(),
            _ => content.line(cid, true),
        }
    }

    /// A line with a character that does not belong there.
    fn another_character(&mut self) -> Vec<u8> {
        let mut line = self.any_line();
        let wrong = self.random().pick(b"ABCDEFgxzG \t\r\0.:=-\x7f\x80\xff");
        let place = self.random().below(line.len());
        match self.random().below(3) {
            0 => line[place] = wrong,
            1 => line.insert(place, wrong),
            _ => line.push(wrong),
        }
        line
    }

    /// A line with a hex digit or an octet too few or too many. Where a body
    /// stands at the end an octet more or less is not malformed.
    fn another_count(&mut self) -> Vec<u8> {
        let mut line = self.any_line();
        match self.random().below(4) {
            0 => drop(line.pop()),
            1 => line.push(b'0'),
            2 => line.truncate(line.len().saturating_sub(2)),
            _ => line.extend(b"00"),
        }
        line
    }
}

/// Makes a sound voice payload an unsound one.
fn spoil(random: &mut Random, record: &Record, payload: &mut Vec<u8>) {
    match random.below(4) {
        0 if record.seq == 1 => payload[0] |= 0x0f,
        1 if record.syntax == Syntax::G7231 => payload[usize::from(record.seq)] |= 3,
        2 => payload.clear(),
        3 => payload.push(0),
        _ => drop(payload.pop()),
    }
}

/// Lines that are malformed each in its own way.
const MALFORMED: [&[u8]; 68] = [
    b"",
    b"=",
    b"00",
    b"frame",
    b"frame=0",
    b"frame=0g",
    b"Frame=05",
    b" frame=05",
    b"frames=05",
    b"silence=0",
    b"silence=AA",
    b"silence",
    b"card",
    b"card=",
    b"card=5",
    b"card=0505",
    b"card=0A",
    b"card==05",
    b"cards=05",
    b"room=",
    b"room=00",
    b"room=000",
    b"room=000000",
    b"room=06a5",
    b"room=0700",
    b"room=ffff",
    b"shown",
    b"shown=00",
    b"shown=0",
    b"shown= ",
    b"SHOWN=",
    b"voice=",
    b"voice=01",
    b"voice=0105",
    b"voice=010500",
    b"voice=02050000",
    b"voice=ff05000000",
    b"digits=",
    b"digits=010500000000000000000000",
    b"digits=0105000000000000000000000000",
    b"digits=02050000000000000000000000",
    b"digits=01050000020000000000000000",
    b"digits=01050000000000ff0000000000",
    b"digits=01050000000000000000020000",
    b"signalling=",
    b"signalling=010500000000000000000000000000000000000000000000000000000000000000",
    b"signalling=0105000000000000000000000000000000000000000000000000000000000000000000",
    b"signalling=02050000000000000000000000000000000000000000000000000000000000000000",
    b"signalling=01050200000000000000000000000000000000000000000000000000000000000000",
    b"fax=",
    b"fax=01050000000000000000",
    b"fax=0205000100000000000000",
    b"fax=0105000200000000000000",
    b"fax=0105000100000500000000",
    b"fax=010500010000ff00000000",
    b"fax=0105000100000102000000",
    b"fax=0105000100000002000000",
    b"sid=",
    b"sid=01050000",
    b"sid=010500000000",
    b"sid=0205000000",
    b"sid=0105020000",
    b"data=",
    b"data=0105000000",
    b"data=02050000000000",
    b"data=01050200000000",
    b"data=01050002000000",
    b"other=05",
];

#[cfg(test)]
mod tests {
    use super::*;
    use crate::{histogram, unit};
    use std::collections::{BTreeMap, BTreeSet};

    fn generated(seed: u64, count: u64) -> Vec<u8> {
        let mut input = Vec::new();
        run(seed, count, &mut input).unwrap();
        input
    }

    fn answered(input: &[u8]) -> String {
        let mut output = Vec::new();
        unit::run(input, &mut output).unwrap();
        String::from_utf8(output).unwrap()
    }

    /// The lines of an input after its text.
    fn lines(input: &[u8]) -> Vec<Vec<u8>> {
        let mut lines: Vec<Vec<u8>> = input
            .split(|octet| *octet == b'\n')
            .map(|line| line.to_vec())
            .collect();
        let first = lines.iter().position(|line| line.starts_with(b"frame="));
        let mut lines = lines.split_off(first.unwrap());
        if input.ends_with(b"\n") {
            lines.pop();
        }
        lines
    }

    #[test]
    fn the_count_of_lines_is_right_and_the_text_good() {
        for seed in 0..16 {
            let input = generated(seed, 600);
            assert!(!answered(&input).starts_with("text="), "seed {seed}");
            assert_eq!(lines(&input).len(), 600, "seed {seed}");
            assert_eq!(input.ends_with(b"\n"), seed % 4 != 3);
        }
        assert_eq!(answered(&generated(0, 0)), "");
    }

    #[test]
    fn the_same_seed_gives_the_same_input() {
        assert_eq!(generated(3, 300), generated(3, 300));
        assert_ne!(generated(3, 300), generated(4, 300));
    }

    #[test]
    fn the_listed_malformed_lines_are_malformed() {
        for line in MALFORMED {
            let mut input = b"cid=5\nsyntax=fax\nm=1\nseq=0\nframe=05\nroom=0020\n".to_vec();
            input.extend(line);
            input.push(b'\n');
            let shown = String::from_utf8_lossy(line).into_owned();
            assert_eq!(answered(&input), "malformed=3\n", "{shown}");
        }
    }

    /// How often each value stands after a key, over some seeds.
    fn values(key: &str, seeds: u64, count: u64) -> BTreeMap<u64, u64> {
        let mut seen = BTreeMap::new();
        for seed in 0..seeds {
            let output = answered(&generated(seed, count));
            for value in output.lines().filter_map(|line| line.strip_prefix(key)) {
                *seen.entry(value.parse().unwrap()).or_insert(0) += 1;
            }
        }
        seen
    }

    #[test]
    fn every_source_of_the_voice_card_is_reached() {
        let seen = values("source=", 8, 4000);
        let sources: Vec<u64> = seen.keys().copied().collect();
        assert_eq!(sources, [0, 1, 2, 3, 4, 5, 6, 7, 8, 11, 12, 255]);
        assert!(seen.values().all(|count| *count >= 10), "{seen:?}");
    }

    #[test]
    fn every_refusal_of_the_writer_is_reached() {
        let seen = values("refused=", 8, 4000);
        let numbers: Vec<u64> = seen.keys().copied().collect();
        assert_eq!(numbers, [4, 11, 12, 13, 14, 15, 16, 21, 22, 23, 24]);
        assert!(seen.values().all(|count| *count >= 20), "{seen:?}");
    }

    #[test]
    fn the_histogram_counts_them_all() {
        let output = answered(&generated(2, 20_000));
        let counts = histogram::count(output.as_bytes()).unwrap();
        let numbers: Vec<u64> = counts.keys().copied().collect();
        let wanted = [
            0, 1, 2, 3, 4, 5, 6, 7, 8, 11, 12, 13, 14, 15, 16, 21, 22, 23, 24,
        ];
        assert_eq!(numbers, wanted);
    }

    #[test]
    fn frames_of_64_sub_frames_and_of_1600_octets_are_reached() {
        let counts = values("count=", 6, 4000);
        assert_eq!(*counts.keys().next_back().unwrap(), 64);
        let at = values("at=", 6, 4000);
        for octets in [1598, 1599, 1600] {
            assert!(at.contains_key(&octets), "{octets}");
        }
        assert_eq!(*at.keys().next_back().unwrap(), 1600);
    }

    /// Goes through an input with its answers, line by line: for each write the
    /// room, where the writer was, and its answer.
    fn writes(input: &[u8]) -> Vec<(usize, usize, String, Vec<u8>)> {
        let output = answered(input);
        let mut answers = output.lines().peekable();
        let (mut room, mut at) = (0, 0);
        let mut writes = Vec::new();
        for (index, line) in lines(input).into_iter().enumerate() {
            let key = line.split(|it| *it == b'=').next().unwrap().to_vec();
            let malformed = format!("malformed={}", index + 1);
            if answers.peek() == Some(&malformed.as_str()) {
                answers.next();
                continue;
            }
            match &key[..] {
                b"frame" | b"silence" => {}
                b"room" => {
                    let text = std::str::from_utf8(&line[5..]).unwrap();
                    room = usize::from_str_radix(text, 16).unwrap();
                    at = 0;
                }
                b"card" => {
                    answers.next();
                    answers.next();
                }
                b"shown" => {
                    answers.next();
                }
                _ => {
                    let answer = answers.next().unwrap().to_string();
                    writes.push((room, at, answer.clone(), line));
                    if let Some(place) = answer.strip_prefix("at=") {
                        at = place.parse().unwrap();
                        answers.next();
                        answers.next();
                    }
                }
            }
        }
        assert_eq!(answers.next(), None);
        writes
    }

    #[test]
    fn sub_frames_just_fill_the_room_or_miss_it_by_one() {
        let (mut fills, mut misses) = (0, 0);
        for seed in 0..4 {
            // Of a legal sub-frame that misses, the same room with an octet more
            // holds it.
            for (room, at, answer, line) in writes(&generated(seed, 3000)) {
                fills += usize::from(room > 0 && answer == format!("at={room}"));
                if answer == "refused=21" {
                    let mut generator = Generator::new(seed);
                    let mut input = write_text(&generator.frames.records);
                    input.extend(b"frame=\n");
                    generator.room(room - at + 1);
                    input.extend(generator.lines.concat());
                    input.push(b'\n');
                    input.extend(line);
                    input.push(b'\n');
                    misses += usize::from(answered(&input).starts_with("at="));
                }
            }
        }
        assert!(fills > 50 && misses > 50, "{fills} {misses}");
    }

    #[test]
    fn payloads_of_255_and_256_octets_that_are_not_last() {
        let (mut taken, mut refused) = (0, 0);
        for seed in 0..8 {
            for (room, at, answer, line) in writes(&generated(seed, 4000)) {
                // data= with 255 or 256 octets of payload: 12 hex digits before
                // the body.
                let not_last = line.starts_with(b"data=00");
                let body = line.len().saturating_sub(5 + 12) / 2;
                if not_last && room == 1700 && at < 1000 {
                    taken += usize::from(body == 253 && answer.starts_with("at="));
                    refused += usize::from(body == 254 && answer == "refused=22");
                }
            }
        }
        assert!(taken > 3 && refused > 3, "{taken} {refused}");
    }

    #[test]
    fn every_kind_of_line_and_malformed_ones() {
        let mut keys = BTreeSet::new();
        let mut malformed = 0;
        for seed in 0..4 {
            let input = generated(seed, 3000);
            malformed += answered(&input).matches("malformed=").count();
            for line in lines(&input) {
                let key = line.split(|it| *it == b'=').next().unwrap().to_vec();
                keys.insert(String::from_utf8_lossy(&key).into_owned());
            }
        }
        assert!(malformed > 200, "{malformed}");
        for key in [
            "frame",
            "silence",
            "card",
            "room",
            "voice",
            "digits",
            "signalling",
            "fax",
            "sid",
            "data",
            "shown",
        ] {
            assert!(keys.contains(key), "{key}");
        }
    }
}
