//! Random lines of the unit program that write a sub-frame, legal or spoiled.
//! They are made octet by octet, as docs/UNIT.md has them, and not by the writer.

use super::Random;
use crate::hex;
use crate::payload::allowed;
use crate::payload::voice::{G727_OCTETS, PCM_OCTETS};
use crate::provisioning::{Record, Syntax};

/// What a line that writes says, last and CID aside.
#[derive(Clone, Debug)]
pub struct Content {
    key: &'static str,
    /// The octets after last and CID.
    octets: Vec<u8>,
    /// The type of the payload where it is legal.
    payload_type: u8,
    /// How many octets the payload has where it is legal.
    pub payload: usize,
}

impl Content {
    /// The line without its LF.
    pub fn line(&self, cid: u8, last: bool) -> Vec<u8> {
        let mut octets = vec![u8::from(last), cid];
        octets.extend(&self.octets);
        format!("{}={}", self.key, hex::write(&octets)).into_bytes()
    }

    /// How many octets header and payload have.
    pub fn size(&self, cid: u8, last: bool) -> usize {
        let ei = cid > 63 || self.payload_type != 0;
        1 + usize::from(ei) + usize::from(!last) + self.payload
    }
}

/// Data of so many octets after its two.
pub fn data(random: &mut Random, count: usize) -> Content {
    let drawer = &mut ContentDrawer::new(random, false);
    let body = drawer.random.octets(count);
    drawer.data_of(body)
}

/// Draws content. When it spoils, each value is now and then a wrong one.
pub struct ContentDrawer<'r> {
    random: &'r mut Random,
    spoil: bool,
}

impl<'r> ContentDrawer<'r> {
    /// A drawer of legal content, or of content that may be spoiled.
    pub fn new(random: &'r mut Random, spoil: bool) -> Self {
        ContentDrawer { random, spoil }
    }

    /// Content of a kind that a sub-channel allows.
    pub fn content(&mut self, record: &Record) -> Content {
        loop {
            let payload_type = self.random.pick(&[0, 0, 1, 2, 3, 4]);
            if allowed(record.syntax, payload_type) {
                return self.of_type(record, payload_type);
            }
        }
    }

    /// Content of any kind, also of one that the sub-channel does not allow.
    pub fn any_kind(&mut self, record: &Record) -> Content {
        match self.random.below(8) {
            0 | 1 => self.voice(record),
            2 => self.data(),
            3 | 4 => self.fax(3),
            5 => self.digits(),
            6 => self.signalling(),
            _ => self.sid(record),
        }
    }

    /// Content that a type has on a sub-channel.
    fn of_type(&mut self, record: &Record, payload_type: u8) -> Content {
        match (payload_type, record.syntax) {
            (0, Syntax::Data) => self.data(),
            (0, Syntax::Fax) => self.fax(0),
            (0, _) => self.voice(record),
            (1, _) => self.digits(),
            (2, _) => self.signalling(),
            (3, _) => self.fax(3),
            _ => self.sid(record),
        }
    }

    /// Whether a value is to be wrong this time.
    fn wrong(&mut self) -> bool {
        self.spoil && self.random.one_in(8)
    }

    /// A value up to the most, or one about it or beyond it.
    fn up_to(&mut self, most: u8) -> u8 {
        match self.wrong() {
            true if self.random.one_in(2) => most.saturating_add(1),
            true => self.random.small(most, 255),
            false => self.random.small(0, most),
        }
    }

    /// 0 or 1.
    fn truth(&mut self) -> u8 {
        self.random.small(0, 1)
    }

    /// A body of so many octets, or of another length: mostly one off.
    fn body(&mut self, count: usize) -> Vec<u8> {
        let count = match self.wrong() {
            false => count,
            true => match self.random.below(10) {
                0..=2 => count + 1,
                3..=5 => count.saturating_sub(1),
                6 => self.random.below(4),
                7 => self.random.between(250, 260),
                8 => self.random.between(1590, 1700),
                _ => self.random.below(100),
            },
        };
        self.random.octets(count)
    }

    /// `voice=`: sequence, coding, the body.
    fn voice(&mut self, record: &Record) -> Content {
        let most_code = match record.syntax {
            Syntax::Pcm => 13,
            Syntax::G727 => 14,
            _ => 0,
        };
        let coding = self.up_to(most_code);
        let sequence = self.up_to(if record.seq == 1 { 15 } else { 0 });
        let body = self.voice_body(record, usize::from(coding));
        let mut octets = vec![sequence, coding];
        octets.extend(&body);
        Content {
            key: "voice",
            octets,
            payload_type: 0,
            payload: usize::from(record.seq) + body.len(),
        }
    }

    /// A voice transfer structure.
    fn voice_body(&mut self, record: &Record, code: usize) -> Vec<u8> {
        let octets = match record.syntax {
            Syntax::Pcm => *PCM_OCTETS.get(code).unwrap_or(&10),
            Syntax::G727 => *G727_OCTETS.get(code).unwrap_or(&10),
            Syntax::G7231 => return self.g7231(),
            _ => 10,
        };
        self.body(octets * usize::from(record.m))
    }

    /// A G.723.1 frame: rate and speech flag in the first octet.
    fn g7231(&mut self) -> Vec<u8> {
        let flags = match self.wrong() {
            true => 3,
            false => self.random.small(0, 2),
        };
        let mut body = self.body(if flags & 1 == 1 { 20 } else { 24 });
        if let Some(first) = body.first_mut() {
            *first = *first & !3 | flags;
        }
        body
    }

    /// `digits=`: sequence, level, three windows.
    fn digits(&mut self) -> Content {
        let level = match self.wrong() {
            true => self.random.pick(&[-32i8, -33, -64, -100, -127, -128]),
            false => self
                .random
                .pick(&[-31, -30, -20, -3, -2, -1, 0, 1, 3, 100, 127]),
        };
        let mut octets = vec![self.random.octet(), level as u8];
        for _ in 0..3 {
            octets.extend(self.window());
        }
        Content {
            key: "digits",
            octets,
            payload_type: 1,
            payload: 8,
        }
    }

    /// On, edge, code. The code of an off window is any.
    fn window(&mut self) -> [u8; 3] {
        let on = self.truth();
        let edge = self.up_to(19);
        let code = match on == 0 && self.random.one_in(2) {
            true => self.random.octet(),
            false => self.up_to(15),
        };
        [on, edge, code]
    }

    /// `signalling=`: alarm, sequence, thirty samples.
    fn signalling(&mut self) -> Content {
        let mut octets = vec![self.truth(), self.up_to(127)];
        octets.extend((0..30).map(|_| self.random.small(0, 15)));
        if self.wrong() {
            let place = 2 + self.random.below(30);
            octets[place] = self.random.pick(&[16, 17, 31, 128, 240, 255]);
        }
        Content {
            key: "signalling",
            octets,
            payload_type: 2,
            payload: 16,
        }
    }

    /// `fax=`: sequence, stamped, the stamp, the command, hdlc, modulation, the
    /// frequency, the body. Values that are not there are any.
    fn fax(&mut self, payload_type: u8) -> Content {
        let command = self.random.small(0, 4);
        let stamped = (command <= 1 || self.random.one_in(2)) != self.wrong();
        let mut octets = vec![self.up_to(15), u8::from(stamped)];
        let stamp_high = match stamped {
            true => self.up_to(127),
            false => self.random.octet(),
        };
        octets.extend([stamp_high, self.random.octet(), command]);
        octets.extend(self.fax_values(command));
        let count = match command {
            0 | 1 => 0,
            2 => self.random.pick(&[3, 12, 24, 36, 48, 60, 72]),
            _ => 3,
        };
        let body = self.body(count);
        octets.extend(&body);
        let values = if command == 1 { 3 } else { 0 };
        Content {
            key: "fax",
            octets,
            payload_type,
            payload: 1 + 2 * usize::from(stamped) + values + body.len(),
        }
    }

    /// Hdlc, modulation, frequency high, frequency low; any where the command is
    /// not on.
    fn fax_values(&mut self, command: u8) -> [u8; 4] {
        let any = self.random.octets(3);
        let hdlc = self.truth();
        if command != 1 {
            return [hdlc, any[0], any[1], any[2]];
        }
        let modulation = self.up_to(11);
        if modulation == 0 {
            return [hdlc, modulation, any[1], any[2]];
        }
        match self.wrong() {
            true => self
                .random
                .pick(&[[hdlc, modulation, 0, 1], [hdlc, modulation, 1, 0]]),
            false => [hdlc, modulation, 0, 0],
        }
    }

    /// `sid=`: noise, sequence, level; any where there is no noise.
    fn sid(&mut self, record: &Record) -> Content {
        let has_octets = matches!(record.syntax, Syntax::Pcm | Syntax::G727);
        let noise = has_octets != self.wrong();
        let octets = match noise {
            false => vec![0, self.random.octet(), self.random.octet()],
            true => {
                let level = match self.wrong() {
                    true => self.random.pick(&[-128i8, -100, -65, -64, 1, 2, 127]),
                    false => -(self.random.small(0, 63) as i8),
                };
                vec![1, self.up_to(15), level as u8]
            }
        };
        Content {
            key: "sid",
            octets,
            payload_type: 4,
            payload: 2 * usize::from(noise),
        }
    }

    /// `data=` with a body of any length.
    fn data(&mut self) -> Content {
        let count = match self.random.below(10) {
            0 | 1 => 1,
            2 => self.random.between(250, 256),
            3 => self.random.between(1, 600),
            _ => self.random.between(1, 40),
        };
        let body = match self.wrong() {
            true => Vec::new(),
            false => self.body(count),
        };
        self.data_of(body)
    }

    /// `data=`: begins, ends, the sequence, the body.
    fn data_of(&mut self, body: Vec<u8>) -> Content {
        let payload = 2 + body.len();
        let high = self.up_to(31);
        let mut octets = vec![self.truth(), self.truth(), high, self.random.octet()];
        octets.extend(body);
        Content {
            key: "data",
            octets,
            payload_type: 0,
            payload,
        }
    }
}

#[cfg(test)]
mod tests {
    use super::*;
    use crate::generate::records::records;
    use crate::provisioning::write_text;
    use crate::{histogram, unit};

    /// What the unit program answers to a line on some sub-channels.
    fn answer(records: &[Record], line: &[u8]) -> String {
        let mut input = write_text(records);
        input.extend(b"frame=\nroom=06a4\n");
        input.extend(line);
        input.push(b'\n');
        let mut output = Vec::new();
        unit::run(&input[..], &mut output).unwrap();
        String::from_utf8(output).unwrap()
    }

    #[test]
    fn legal_content_is_written_and_has_its_size() {
        for seed in 0..3000 {
            let random = &mut Random::new(seed);
            let records = records(random, 10);
            let record = random.pick(&records);
            let content = ContentDrawer::new(random, false).content(&record);
            let last = content.payload > 255 || random.one_in(2);
            let size = content.size(record.cid, last);
            let wanted = format!("at={size}\ncount=1\ndone={}\n", u8::from(last));
            let line = content.line(record.cid, last);
            assert_eq!(answer(&records, &line), wanted, "seed {seed}");
        }
    }

    #[test]
    fn data_of_so_many_octets() {
        for count in [1, 253, 254, 1597] {
            let content = data(&mut Random::new(count as u64), count);
            assert_eq!(content.payload, count + 2);
            assert_eq!(content.size(5, true), count + 3);
            assert_eq!(content.size(70, false), count + 5);
        }
    }

    #[test]
    fn spoiled_content_is_refused_in_every_way_and_never_malformed() {
        let mut output = String::new();
        for seed in 0..6000 {
            let random = &mut Random::new(seed);
            let records = records(random, 10);
            let record = random.pick(&records);
            let content = ContentDrawer::new(random, true).any_kind(&record);
            output += &answer(&records, &content.line(record.cid, true));
        }
        assert!(!output.contains("malformed"));
        let counts = histogram::count(output.as_bytes()).unwrap();
        for number in [12, 13, 14, 15, 16] {
            assert!(counts[&number] > 50, "{counts:?}");
        }
    }
}
