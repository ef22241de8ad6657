//! Random payloads, octet by octet, legal or spoiled. They are built from the
//! layouts here and not by the writer, so that the two can be compared.

use super::Random;
use crate::payload::voice::{G727_OCTETS, PCM_OCTETS};
use crate::provisioning::{Record, Syntax};

/// Draws payloads. When it spoils, each field is now and then a wrong one.
pub struct Drawer<'r> {
    random: &'r mut Random,
    spoil: bool,
}

impl<'r> Drawer<'r> {
    /// A drawer of legal payloads, or of payloads that may be spoiled.
    pub fn new(random: &'r mut Random, spoil: bool) -> Self {
        Drawer { random, spoil }
    }

    /// Whether a field is to be wrong this time.
    fn wrong(&mut self) -> bool {
        self.spoil && self.random.one_in(9)
    }

    /// A payload of a type on a sub-channel; when wrong, of another type's layout.
    pub fn payload(&mut self, record: &Record, payload_type: u8) -> Vec<u8> {
        let layout = match self.wrong() && self.random.one_in(2) {
            true => self.random.small(0, 4),
            false => payload_type,
        };
        let mut payload = match (layout, record.syntax) {
            (0, Syntax::Data) => self.data(),
            (0, Syntax::Fax) | (3, _) => self.fax(),
            (0, _) => self.voice(record),
            (1, _) => self.digits(),
            (2, _) => self.random.octets(16),
            (4, _) => self.sid(record.syntax),
            _ => self.any(),
        };
        if self.wrong() {
            self.another_length(&mut payload);
        }
        payload
    }

    /// Any few octets.
    fn any(&mut self) -> Vec<u8> {
        let count = self.random.below(30);
        self.random.octets(count)
    }

    /// Another length: mostly one off.
    fn another_length(&mut self, payload: &mut Vec<u8>) {
        match self.random.below(8) {
            0..=2 => payload.push(self.random.octet()),
            3..=5 => {
                payload.pop();
            }
            6 => payload.truncate(self.random.below(4)),
            _ => {
                let count = self.random.between(1, 40);
                payload.extend(self.random.octets(count));
            }
        }
    }

    /// A voice payload.
    fn voice(&mut self, record: &Record) -> Vec<u8> {
        let coding_type = self.coding_type(record.syntax);
        let mut body = self.voice_body(record, coding_type);
        let front = (record.seq == 1) != self.wrong();
        if front {
            body.insert(0, self.random.small(0, 15) * 16 + coding_type);
        }
        body
    }

    /// A coding type: in its table, or any.
    fn coding_type(&mut self, syntax: Syntax) -> u8 {
        if self.wrong() {
            return self.random.small(0, 15);
        }
        match syntax {
            Syntax::Pcm => self.random.small(0, 13),
            Syntax::G727 => self.random.small(0, 14),
            _ => 0,
        }
    }

    /// A voice transfer structure.
    fn voice_body(&mut self, record: &Record, coding_type: u8) -> Vec<u8> {
        let code = usize::from(coding_type);
        let mut m = usize::from(record.m);
        if self.wrong() {
            m = self.random.below(14);
        }
        let octets = match record.syntax {
            Syntax::Pcm => *PCM_OCTETS.get(code).unwrap_or(&10),
            Syntax::G727 => *G727_OCTETS.get(code).unwrap_or(&10),
            Syntax::G7231 => return self.g7231(),
            _ => 10,
        };
        self.random.octets(m * octets)
    }

    /// A G.723.1 frame: rate and speech flag in the first octet.
    fn g7231(&mut self) -> Vec<u8> {
        let flags = if self.wrong() {
            3
        } else {
            self.random.small(0, 2)
        };
        let low_rate = (flags & 1 == 1) != self.wrong();
        let mut body = self.random.octets(if low_rate { 20 } else { 24 });
        body[0] = body[0] & !3 | flags;
        body
    }

    /// A data payload.
    fn data(&mut self) -> Vec<u8> {
        let count = match self.random.below(12) {
            0 => 1,
            1 => self.random.between(250, 260),
            2 => self.random.between(1, 600),
            _ => self.random.between(1, 40),
        };
        let mut payload = self.random.octets(2 + count);
        payload[0] &= !0x20;
        if self.wrong() {
            payload[0] |= 0x20;
        }
        payload
    }

    /// A fax payload.
    pub fn fax(&mut self) -> Vec<u8> {
        let command = if self.wrong() {
            self.random.small(0, 7)
        } else {
            self.random.small(0, 4)
        };
        let stamp = (command <= 1 || self.random.one_in(2)) != self.wrong();
        let mut payload = vec![self.random.small(0, 15) << 3 | command];
        if stamp {
            payload[0] |= 0x80;
            let high = self.sometimes_set(0x80, 0x7f);
            payload.extend([self.random.octet(), high]);
        }
        let layout = match self.wrong() {
            true => self.random.small(0, 4),
            false => command,
        };
        payload.extend(self.fax_rest(layout));
        payload
    }

    /// Bits drawn from a mask, with the reserved ones set only when wrong.
    fn sometimes_set(&mut self, reserved: u8, free: u8) -> u8 {
        let mut octet = self.random.octet() & free;
        if self.wrong() {
            octet |= reserved & (1 << self.random.below(8) | self.random.octet());
        }
        octet
    }

    /// What goes with a fax command.
    fn fax_rest(&mut self, command: u8) -> Vec<u8> {
        match command {
            0 => Vec::new(),
            1 => self.fax_on(),
            2 => {
                let mut count = self.random.pick(&[3, 12, 24, 36, 48, 60, 72]);
                if self.wrong() {
                    count = self.random.below(80);
                }
                self.random.octets(count)
            }
            _ => self.random.octets(3),
        }
    }

    /// HDLC bit, three zero bits, modulation, frequency.
    fn fax_on(&mut self) -> Vec<u8> {
        let mut modulation = self.random.small(0, 11);
        if self.wrong() {
            modulation = self.random.small(11, 15);
        }
        let first = self.sometimes_set(0x70, 0x80) | modulation;
        let mut on = vec![first, 0, 0];
        if (modulation == 0) != self.wrong() {
            let place = self.random.between(1, 2);
            on[place] = self.random.octet();
            if modulation == 0 {
                on[3 - place] = self.random.octet();
            }
        }
        on
    }

    /// A digits payload.
    fn digits(&mut self) -> Vec<u8> {
        let mut payload = vec![self.random.octet(), self.sometimes_set(0xe0, 0x1f)];
        for _ in 0..3 {
            payload.extend(self.window());
        }
        payload
    }

    /// One window of a digits payload.
    fn window(&mut self) -> [u8; 2] {
        let digit_type = if self.wrong() {
            self.random.small(0, 7)
        } else {
            self.random.small(0, 1)
        };
        let edge = if self.wrong() {
            self.random.small(18, 31)
        } else {
            self.random.pick(&[0, 0, 0, 1, 7, 18, 19])
        };
        let second = if digit_type == 1 && !self.wrong() {
            self.sometimes_set(0xe0, 0x0f)
        } else {
            self.sometimes_set(0xe0, 0x1f)
        };
        [digit_type << 5 | edge, second]
    }

    /// A silence information descriptor; the reserved bits are any.
    fn sid(&mut self, syntax: Syntax) -> Vec<u8> {
        match syntax {
            Syntax::Pcm | Syntax::G727 => self.random.octets(2),
            _ => Vec::new(),
        }
    }
}
