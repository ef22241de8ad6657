//! Random frames and `frame=` lines: sound ones, spoiled and damaged ones, ones
//! at the limits, and lines that no hex line is.

use super::payloads::Drawer;
use super::Random;
use crate::frame::FIELD_OCTETS;
use crate::hex;
use crate::payload::allowed;
use crate::provisioning::{Record, Syntax};

/// A sub-frame of a frame being made.
#[derive(Clone, Debug)]
pub struct Piece {
    pub cid: u8,
    pub payload_type: u8,
    pub payload: Vec<u8>,
    /// Write octet 1a also where the shortest form has none.
    pub long: bool,
}

impl Piece {
    /// Header and payload.
    fn octets(&self, last: bool) -> Vec<u8> {
        let mut octets = vec![self.cid & 0x3f];
        if self.long || self.cid > 63 || self.payload_type != 0 {
            octets[0] |= 0x80;
            octets.push(self.cid & 0xc0 | self.payload_type);
        }
        if !last {
            octets[0] |= 0x40;
            octets.push(self.payload.len() as u8);
        }
        octets.extend(&self.payload);
        octets
    }
}

/// Joins pieces into a field: a piece over 255 octets becomes the last, and so
/// does the last one that fits.
pub fn field_of(pieces: &[Piece]) -> Vec<u8> {
    let mut field = Vec::new();
    for (index, piece) in pieces.iter().enumerate() {
        let next = pieces.get(index + 1);
        let room = field.len() + piece.payload.len() + 3;
        let full = next.map_or(false, |next| room + next.payload.len() + 3 > FIELD_OCTETS);
        let last = next.is_none() || full || piece.payload.len() > 255;
        field.extend(piece.octets(last));
        if last {
            break;
        }
    }
    field
}

/// How many of some pieces, from the first on, fit into one frame of at most so
/// many sub-frames. Each piece has at most 255 octets.
pub fn fitting(pieces: &[Piece], most: usize) -> usize {
    let mut octets = 0;
    let fits = |piece: &&Piece| {
        octets += piece.payload.len() + 3;
        octets <= FIELD_OCTETS
    };
    pieces.iter().take(most).take_while(fits).count()
}

/// A frame line without its LF.
pub fn line_of(field: &[u8]) -> Vec<u8> {
    let mut line = b"frame=".to_vec();
    line.extend(hex::write(field).into_bytes());
    line
}

/// Makes frames and frame lines on some provisioned sub-channels.
pub struct Frames {
    pub random: Random,
    pub records: Vec<Record>,
    /// Which record's turn it is, so that every sub-channel is visited.
    turn: usize,
}

impl Frames {
    /// Frames on these sub-channels.
    pub fn new(random: Random, records: Vec<Record>) -> Self {
        let turn = 0;
        Frames {
            random,
            records,
            turn,
        }
    }

    /// One line without its LF.
    pub fn line(&mut self) -> Vec<u8> {
        match self.random.below(100) {
            0..=24 => self.legal_line(),
            25..=54 => self.spoiled_line(),
            55..=64 => self.damaged_line(),
            65..=70 => self.random_line(),
            71..=82 => self.header_line(),
            83..=90 => self.boundary_line(),
            _ => self.malformed_line(),
        }
    }

    /// The record whose turn it is; made up when none is provisioned.
    fn next_record(&mut self) -> Record {
        self.turn += 1;
        match self.records.len() {
            0 => self.any_record(),
            count => self.records[self.turn % count],
        }
    }

    /// The record whose turn was so many turns before the last one; made up when
    /// none is provisioned.
    pub fn record_before(&mut self, back: usize) -> Record {
        match self.records.len() {
            0 => self.any_record(),
            count => self.records[(self.turn + count - back % count) % count],
        }
    }

    /// A record of any CID, provisioned or not.
    pub fn any_record(&mut self) -> Record {
        Record {
            cid: self.random.small(4, 255),
            syntax: self.random.pick(&Syntax::ALL),
            m: 1,
            seq: self.random.small(0, 1),
        }
    }

    /// A payload type that a sub-channel allows.
    pub fn allowed_type(&mut self, record: &Record) -> u8 {
        loop {
            let payload_type = self.random.pick(&[0, 0, 1, 2, 3, 4]);
            if allowed(record.syntax, payload_type) {
                return payload_type;
            }
        }
    }

    /// A piece that the reader takes, or one that may be spoiled.
    pub fn piece(&mut self, spoil: bool) -> Piece {
        let mut record = self.next_record();
        let mut payload_type = self.allowed_type(&record);
        if spoil && self.random.one_in(12) {
            record = self.any_record();
        }
        if spoil && self.random.one_in(12) {
            payload_type = self.random.small(0, 15);
        }
        let payload = Drawer::new(&mut self.random, spoil).payload(&record, payload_type);
        Piece {
            cid: record.cid,
            payload_type,
            payload,
            long: self.random.one_in(5),
        }
    }

    /// Some pieces: mostly few.
    pub fn pieces(&mut self, spoil: bool) -> Vec<Piece> {
        let count = match self.random.below(10) {
            0..=4 => 1,
            5..=8 => self.random.between(2, 6),
            _ => self.random.between(7, 20),
        };
        (0..count).map(|_| self.piece(spoil)).collect()
    }

    /// A sound frame of payloads that pass.
    pub fn legal_line(&mut self) -> Vec<u8> {
        line_of(&field_of(&self.pieces(false)))
    }

    /// A sound frame of payloads that may be spoiled: 11 to 16.
    pub fn spoiled_line(&mut self) -> Vec<u8> {
        line_of(&field_of(&self.pieces(true)))
    }

    /// A sound frame damaged in a bit, in an octet, cut, or with octets added.
    pub fn damaged_line(&mut self) -> Vec<u8> {
        let mut field = field_of(&self.pieces(false));
        for _ in 0..self.random.between(1, 2) {
            self.damage(&mut field);
        }
        line_of(&field)
    }

    /// Damages a field once.
    fn damage(&mut self, field: &mut Vec<u8>) {
        let place = self.random.below(field.len() + 1);
        let inside = place.min(field.len().saturating_sub(1));
        match self.random.below(6) {
            0 | 1 if !field.is_empty() => field[inside] ^= 1 << self.random.below(8),
            2 if !field.is_empty() => field[inside] = self.random.octet(),
            3 => field.truncate(place),
            4 if !field.is_empty() => {
                field.remove(inside);
            }
            _ => {
                let count = self.random.between(1, 5);
                let added = self.random.octets(count);
                field.splice(place..place, added);
            }
        }
    }

    /// Random octets, many or few, of any values or of values that make headers.
    pub fn random_line(&mut self) -> Vec<u8> {
        let count = match self.random.below(10) {
            0 => self.random.between(1, 1600),
            1..=4 => self.random.between(1, 12),
            _ => self.random.between(1, 80),
        };
        let mut field = self.random.octets(count);
        if self.random.one_in(2) {
            for octet in &mut field {
                *octet = self
                    .random
                    .pick(&[0x00, 0x01, 0x03, 0x04, 0x05, 0x44, 0x45, 0x85, 0xc5]);
            }
        }
        line_of(&field)
    }

    /// Sound sub-frames with LI, then a header with wrong parts: 3 to 7.
    pub fn header_line(&mut self) -> Vec<u8> {
        let mut field = Vec::new();
        let before = self.random.pick(&[0, 0, 0, 1, 2, 5]);
        for _ in 0..before {
            let piece = self.piece(false);
            if piece.payload.len() <= 255 && field.len() < 1200 {
                field.extend(piece.octets(false));
            }
        }
        let left = self.random.pick(&[0, 1, 2, 3, 8, 10, 16]);
        let mut header = self.header(left);
        header.truncate(self.random.pick(&[1, 2, 3, 3, 3]));
        field.extend(header);
        field.extend(self.random.octets(left));
        line_of(&field)
    }

    /// A header of random parts, each sound or not, before so many octets.
    fn header(&mut self, left: usize) -> Vec<u8> {
        let (ei, li) = (self.random.one_in(2), self.random.one_in(2));
        let low = match self.random.below(3) {
            0 => self.random.small(0, 4),
            _ => self.random.small(0, 63),
        };
        let mut header = vec![low];
        if ei {
            let high = self.random.pick(&[0, 0, 0, 1, 2, 3]) << 6;
            let spare = self.random.pick(&[0, 0, 0, 1, 2, 3]) << 4;
            header[0] |= 0x80;
            header.push(high | spare | self.random.small(0, 15));
        }
        if li {
            let more = self.random.between(0, 2);
            header[0] |= 0x40;
            header.push((left + more).saturating_sub(1) as u8);
        }
        header
    }

    /// A frame at one of the two house limits.
    pub fn boundary_line(&mut self) -> Vec<u8> {
        let field = match self.random.below(6) {
            0 | 1 => self.sub_frames_near_64(),
            2 => self.li_on_the_64th(),
            3 => self.octets_near_1600(),
            4 => self.many_to_1600(),
            _ => self.payload_near_255(),
        };
        line_of(&field)
    }

    /// A piece of a few octets.
    fn short_piece(&mut self) -> Piece {
        let mut piece = self.piece(false);
        piece.payload.truncate(self.random.below(4));
        piece
    }

    /// Sub-frames with LI, each of a few octets.
    fn short_pieces(&mut self, count: usize) -> Vec<u8> {
        let mut field = Vec::new();
        for _ in 0..count {
            field.extend(self.short_piece().octets(false));
        }
        field
    }

    /// 63 to 66 sub-frames.
    fn sub_frames_near_64(&mut self) -> Vec<u8> {
        let count = self.random.between(62, 65);
        let mut field = self.short_pieces(count);
        field.extend(self.short_piece().octets(true));
        field
    }

    /// 64 sub-frames with LI, then nothing (7) or a 65th, whole or cut (8).
    fn li_on_the_64th(&mut self) -> Vec<u8> {
        let mut field = self.short_pieces(64);
        match self.random.below(4) {
            0 => {}
            1 => field.push(0xc5),
            2 => field.push(self.random.octet()),
            _ => field.extend(self.short_piece().octets(true)),
        }
        field
    }

    /// One sub-frame, in all 1,598 to 1,602 octets.
    fn octets_near_1600(&mut self) -> Vec<u8> {
        let count = self.random.between(1598, 1602);
        let mut piece = self.piece(false);
        piece.payload.clear();
        let mut field = piece.octets(true);
        let more = count - field.len();
        field.extend(self.random.octets(more));
        field
    }

    /// Several sub-frames, in all 1,600 or 1,601 octets.
    fn many_to_1600(&mut self) -> Vec<u8> {
        let count = self.random.between(1600, 1601);
        let mut field = Vec::new();
        while field.len() < 1300 {
            let mut piece = self.piece(false);
            piece.payload.truncate(255);
            field.extend(piece.octets(false));
        }
        let mut piece = self.piece(false);
        piece.payload.clear();
        field.extend(piece.octets(true));
        let more = count - field.len();
        field.extend(self.random.octets(more));
        field
    }

    /// A data payload of 254, 255, 256 or 257 octets, with another after it
    /// where the length can be told.
    fn payload_near_255(&mut self) -> Vec<u8> {
        let data = self.records.iter().find(|it| it.syntax == Syntax::Data);
        let cid = data.map_or(5, |record| record.cid);
        let count = self.random.between(254, 257);
        let mut payload = self.random.octets(count);
        payload[0] &= !0x20;
        let long = self.random.one_in(2);
        let piece = Piece {
            cid,
            payload_type: 0,
            payload,
            long,
        };
        field_of(&[piece, self.piece(false)])
    }

    /// A line that no hex line is, or one over 3,200 characters: 9, 2, and 1.
    pub fn malformed_line(&mut self) -> Vec<u8> {
        let line = self.legal_line();
        match self.random.below(12) {
            0 => b"frame=".to_vec(),
            1 => self.odd_count(line),
            2..=6 => self.another_character(line),
            7 | 8 => self.over_3200(),
            9 => self.cut_start(line),
            _ => self.another_start(line),
        }
    }

    /// A character left out or added.
    fn odd_count(&mut self, mut line: Vec<u8>) -> Vec<u8> {
        match self.random.one_in(2) && line.len() > 6 {
            true => drop(line.pop()),
            false => line.push(b'0'),
        }
        line
    }

    /// A character after `frame=` that is not lower-case hex.
    fn another_character(&mut self, mut line: Vec<u8>) -> Vec<u8> {
        let wrong = self
            .random
            .pick(b"ABCDEFgxzG \t\r\0.:=-/`@\x0b\x7f\x80\xff");
        let place = match self.random.below(3) {
            0 => 6,
            1 => line.len(),
            _ => self.random.between(6, line.len()),
        };
        match self.random.below(3) {
            0 => line.insert(place, wrong),
            1 if place < line.len() => line[place] = wrong,
            _ => line.splice(place..place, [wrong, wrong]).for_each(drop),
        }
        line
    }

    /// Over 3,200 characters, or just not.
    pub fn over_3200(&mut self) -> Vec<u8> {
        let count = match self.random.below(10) {
            0 => self.random.between(3203, 9000),
            _ => self.random.between(3199, 3203),
        };
        let mut line = line_of(&self.random.octets(1700));
        line.resize(6 + count, b'0');
        if self.random.one_in(3) {
            let place = self.random.between(6, line.len() - 1);
            line[place] = self.random.pick(b"A \rg\0");
        }
        line
    }

    /// The start cut somewhere.
    fn cut_start(&mut self, line: Vec<u8>) -> Vec<u8> {
        let count = self.random.between(1, 6);
        line[count..].to_vec()
    }

    /// A line that starts otherwise.
    fn another_start(&mut self, line: Vec<u8>) -> Vec<u8> {
        let starts: [&[u8]; 14] = [
            b"",
            b" frame=",
            b"Frame=",
            b"FRAME=",
            b"frame",
            b"frame:",
            b"frame =",
            b"\rframe=",
            b"\0frame=",
            b"cid=",
            b"syntax=",
            b"frames=",
            b"=",
            b"fframe=",
        ];
        let mut other = self.random.pick(&starts).to_vec();
        match self.random.below(4) {
            0 => {}
            1 => other.resize(other.len() + self.random.between(3190, 3210), b'0'),
            _ => other.extend(&line[6..]),
        }
        other
    }
}

#[cfg(test)]
mod tests {
    use super::*;
    use crate::frame::{open_frame, SUB_FRAMES};

    #[test]
    fn what_fits_is_all_in_the_frame() {
        for seed in 0..200 {
            let mut random = Random::new(seed);
            let most = random.between(1, SUB_FRAMES);
            let longest = random.pick(&[4, 30, 80, 255]);
            let pieces: Vec<Piece> = (0..80)
                .map(|_| Piece {
                    cid: random.small(4, 255),
                    payload_type: random.small(0, 4),
                    payload: vec![7; random.below(longest + 1)],
                    long: random.one_in(2),
                })
                .collect();
            let count = fitting(&pieces, most);
            let field = field_of(&pieces[..count]);
            assert!((1..=most).contains(&count) && field.len() <= FIELD_OCTETS);
            assert_eq!(open_frame(&field).unwrap().count(), count);
            // One more would not be sure to fit.
            let octets = |it: &Piece| it.payload.len() + 3;
            let more: usize = pieces[..=count].iter().map(octets).sum();
            assert!(count == most || more > FIELD_OCTETS);
        }
    }
}
