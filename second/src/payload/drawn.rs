//! For the tests: random content to write, legal or with wrong values, and a
//! plain restatement of what the writer of payloads must answer.

use super::data::Data;
use super::digits::{Digits, Window};
use super::fax::{Command, Fax};
use super::sid::Sid;
use super::signalling::Signalling;
use super::voice::{Voice, G727_OCTETS, PCM_OCTETS};
use super::*;
use crate::generate::Random;

/// Draws content. When it spoils, each value is now and then a wrong one.
pub struct ContentDrawer<'r> {
    pub random: &'r mut Random,
    pub spoil: bool,
}

impl ContentDrawer<'_> {
    fn wrong(&mut self) -> bool {
        self.spoil && self.random.one_in(8)
    }

    /// A value up to the most, or one beyond it.
    fn up_to(&mut self, most: u8) -> u8 {
        match self.wrong() {
            true => self.random.small(most, 255),
            false => self.random.small(0, most),
        }
    }

    /// Octets that live as long as the test.
    fn octets(&mut self, mut count: usize) -> &'static [u8] {
        if self.wrong() {
            count = match self.random.below(3) {
                0 => count + 1,
                1 => count.saturating_sub(1),
                _ => self.random.below(30),
            };
        }
        self.random.octets(count).leak()
    }

    /// Content of any kind that a sub-channel allows.
    pub fn content(&mut self, record: &Record) -> Content<'static> {
        loop {
            let content = self.any_kind(record);
            if type_of(record, &content).is_ok() {
                return content;
            }
        }
    }

    /// Content of any kind at all, of this record's layout.
    pub fn any_kind(&mut self, record: &Record) -> Content<'static> {
        match self.random.below(7) {
            0 | 1 => Content::Voice(self.voice(record)),
            2 => Content::Data(self.data()),
            3 => Content::Fax(self.fax()),
            4 => Content::Digits(self.digits()),
            5 => Content::Signalling(self.signalling()),
            _ => Content::Sid(self.sid(record)),
        }
    }

    fn voice(&mut self, record: &Record) -> Voice<'static> {
        let most_code = match record.syntax {
            Syntax::Pcm => 13,
            Syntax::G727 => 14,
            _ => 0,
        };
        let coding_type = self.up_to(most_code);
        let most_sequence = if record.seq == 1 { 15 } else { 0 };
        Voice {
            sequence: self.up_to(most_sequence),
            coding_type,
            body: self.body(record, usize::from(coding_type)),
        }
    }

    fn body(&mut self, record: &Record, code: usize) -> &'static [u8] {
        let octets = match record.syntax {
            Syntax::Pcm => *PCM_OCTETS.get(code).unwrap_or(&10),
            Syntax::G727 => *G727_OCTETS.get(code).unwrap_or(&10),
            Syntax::G7231 => return self.g7231(),
            _ => 10,
        };
        self.octets(octets * usize::from(record.m))
    }

    fn g7231(&mut self) -> &'static [u8] {
        let low_rate = self.random.one_in(2);
        let mut body = self.octets(if low_rate { 20 } else { 24 }).to_vec();
        let both = self.wrong();
        if let Some(first) = body.first_mut() {
            *first = match (low_rate, both) {
                (_, true) => *first | 3,
                (true, false) => *first & !2 | 1,
                (false, false) => *first & !1,
            };
        }
        body.leak()
    }

    fn data(&mut self) -> Data<'static> {
        let count = self.random.pick(&[1, 2, 40, 253, 254, 255, 300]);
        let wrong = self.wrong();
        Data {
            b: self.random.one_in(2),
            e: self.random.one_in(2),
            sequence: self.random.between(0, 8191) as u16 | u16::from(wrong) << 13,
            fragment: self.octets(count),
        }
    }

    fn fax(&mut self) -> Fax<'static> {
        let (command, octets) = match self.random.below(5) {
            0 => (Command::Off, 0),
            1 => (self.fax_on(), 0),
            2 => {
                let count = self.random.pick(&[3, 12, 24, 36, 48, 60, 72]);
                (Command::Data, count)
            }
            3 => (Command::EndOfFrame, 3),
            _ => (Command::Abort, 3),
        };
        let needed = matches!(command, Command::Off | Command::On { .. });
        let stamp = (needed || self.random.one_in(2)) != self.wrong();
        let high = u16::from(self.wrong()) << 15;
        let time = self.random.between(0, 32767) as u16 | high;
        Fax {
            sequence: self.up_to(15),
            stamp: stamp.then_some(time),
            command,
            body: self.octets(octets),
        }
    }

    fn fax_on(&mut self) -> Command {
        let modulation = self.up_to(11);
        let any = self.random.between(0, 65535) as u16;
        let zero = modulation != 0 && !self.wrong();
        Command::On {
            hdlc: self.random.one_in(2),
            modulation,
            frequency: if zero { 0 } else { any },
        }
    }

    fn digits(&mut self) -> Digits {
        let level = match self.wrong() {
            true => -32 - self.random.small(0, 96) as i8,
            false => (self.random.between(0, 158) as i16 - 31) as i8,
        };
        Digits {
            sequence: self.random.octet(),
            level,
            windows: [(); 3].map(|()| self.window()),
        }
    }

    fn window(&mut self) -> Window {
        let digit_type = self.up_to(1);
        let off = digit_type == 0;
        Window {
            digit_type,
            edge: self.up_to(19),
            code: match off && self.random.one_in(2) {
                true => self.random.octet(),
                false => self.up_to(15),
            },
        }
    }

    fn signalling(&mut self) -> Signalling {
        let mut samples = [(); 30].map(|()| self.random.small(0, 15));
        if self.wrong() {
            samples[self.random.below(30)] = self.random.small(16, 255);
        }
        Signalling {
            alarm: self.random.one_in(2),
            sequence: self.up_to(127),
            samples,
        }
    }

    fn sid(&mut self, record: &Record) -> Sid {
        let noise = matches!(record.syntax, Syntax::Pcm | Syntax::G727);
        if noise == self.wrong() {
            return Sid::Empty;
        }
        let noise_level = match self.wrong() {
            true => self.random.pick(&[-128, -100, -64, 1, 2, 127]),
            false => -(self.random.small(0, 63) as i8),
        };
        Sid::Noise {
            sequence: self.up_to(15),
            noise_level,
        }
    }
}

/// Content as it comes back: a level above zero as 0, the code of an off
/// window as 0. Nothing else may come back different.
pub fn as_it_comes_back<'p>(content: &Content<'p>) -> Content<'p> {
    let mut content = *content;
    if let Content::Digits(digits) = &mut content {
        digits.level = digits.level.min(0);
        for window in &mut digits.windows {
            if window.digit_type == 0 {
                window.code = 0;
            }
        }
    }
    content
}

/// What writing must answer, restated: the octets are laid out with no check at
/// all, values cut to their bits, and read; what was cut is 15, which comes
/// last, or 16 for a coding type.
pub fn wanted_number(table: &Table, cid: u8, content: &Content) -> Refusal {
    let record = match table.record(cid) {
        Some(record) => record,
        None => return 11,
    };
    let payload_type = match plain_type(record.syntax, content) {
        Some(payload_type) => payload_type,
        None => return 12,
    };
    if let Content::Voice(voice) = content {
        let rate_missing = record.syntax == Syntax::G7231 && voice.body.is_empty();
        let most = if record.seq == 0 { 0 } else { 15 };
        if voice.coding_type > most {
            return if rate_missing { 13 } else { 16 };
        }
    }
    if let Content::Sid(sid) = content {
        if matches!(sid, Sid::Noise { .. }) && !matches!(record.syntax, Syntax::Pcm | Syntax::G727)
        {
            return 15;
        }
    }
    let (octets, cut) = lay_out(record, content);
    match read(table, cid, payload_type, &octets) {
        Err(number) => number,
        Ok(_) if cut => 15,
        Ok(_) => 0,
    }
}

/// The type of content, restated.
fn plain_type(syntax: Syntax, content: &Content) -> Option<u8> {
    use Syntax::*;
    match (content, syntax) {
        (Content::Data(_), Data) | (Content::Fax(_), Fax) => Some(0),
        (Content::Voice(_) | Content::Data(_), Data | Fax) => None,
        (Content::Voice(_), _) => Some(0),
        (Content::Data(_), _) | (_, Data) => None,
        (Content::Digits(_), _) => Some(1),
        (Content::Signalling(_), _) => Some(2),
        (Content::Fax(_), _) => Some(3),
        (Content::Sid(_), Fax) => None,
        (Content::Sid(_), _) => Some(4),
    }
}

/// The octets with no check, and whether a value was cut to its bits.
fn lay_out(record: &Record, content: &Content) -> (Vec<u8>, bool) {
    match content {
        Content::Voice(it) => {
            let most = if record.seq == 1 { 15 } else { 0 };
            let mut octets = it.body.to_vec();
            if record.seq == 1 {
                octets.insert(0, (it.sequence % 16) << 4 | it.coding_type);
            }
            (octets, it.sequence > most)
        }
        Content::Data(it) => {
            let word = u16::from(it.b) << 15 | u16::from(it.e) << 14 | it.sequence & 8191;
            let octets = [&word.to_be_bytes(), it.fragment].concat();
            (octets, it.sequence > 8191)
        }
        Content::Fax(it) => lay_out_fax(it),
        Content::Digits(it) => lay_out_digits(it),
        Content::Signalling(it) => {
            let mut octets = vec![u8::from(it.alarm) << 7 | it.sequence & 127];
            for pair in it.samples.chunks(2) {
                octets.push((pair[1] % 16) * 16 + pair[0] % 16);
            }
            let cut = it.sequence > 127 || it.samples.iter().any(|it| *it > 15);
            (octets, cut)
        }
        Content::Sid(Sid::Empty) => (Vec::new(), false),
        Content::Sid(Sid::Noise {
            sequence,
            noise_level,
        }) => {
            let level = -i32::from(*noise_level);
            let cut = *sequence > 15 || !(0..=63).contains(&level);
            (vec![(sequence % 16) << 4, level as u8 & 63], cut)
        }
    }
}

/// The same of a fax payload. A modulation beyond its bits is cut to 15, which
/// is reserved too.
fn lay_out_fax(fax: &Fax) -> (Vec<u8>, bool) {
    let (number, values) = match fax.command {
        Command::Off => (0, vec![]),
        Command::On {
            hdlc,
            modulation,
            frequency,
        } => {
            let first = u8::from(hdlc) << 7 | modulation.min(15);
            (1, vec![first, frequency as u8, (frequency >> 8) as u8])
        }
        Command::Data => (2, vec![]),
        Command::EndOfFrame => (3, vec![]),
        Command::Abort => (4, vec![]),
    };
    let mut octets = vec![(fax.sequence % 16) << 3 | number];
    let mut cut = fax.sequence > 15;
    if let Some(stamp) = fax.stamp {
        octets[0] |= 128;
        octets.extend([stamp as u8, (stamp >> 8) as u8 & 127]);
        cut |= stamp > 32767;
    }
    octets.extend(values);
    octets.extend(fax.body);
    (octets, cut)
}

/// The same of a digits payload. A type beyond its bits is cut to 7, which is
/// reserved too.
fn lay_out_digits(digits: &Digits) -> (Vec<u8>, bool) {
    let level = (-i32::from(digits.level)).max(0);
    let mut octets = vec![digits.sequence, level as u8 & 31];
    let mut cut = level > 31;
    for window in digits.windows {
        octets.push(window.digit_type.min(7) << 5 | window.edge & 31);
        octets.push(window.code & 31);
        cut |= window.edge > 31 || window.digit_type == 1 && window.code > 31;
    }
    (octets, cut)
}
