//! `generate follow SEED COUNT`: a recording of COUNT lines for the follow
//! program. The followed sub-channel is the first of the text.

use super::fax_calls::{call, fax_type};
use super::frames::{field_of, fitting, line_of, Frames, Piece};
use super::late::{Kind, Way};
use super::payloads::Drawer;
use super::records::{kinds, record, records};
use super::{print_lines, Random};
use crate::follow::Trunk;
use crate::frame::{open_frame, SUB_FRAMES};
use crate::hex;
use crate::payload::{DIGITS, FAX, PRIMARY, SID, SIGNALLING};
use crate::provisioning::{write_text, Record, Syntax, Table};
use crate::refusal::Refusal;
use crate::senders::{DigitEntry, DigitSender, Samples, SignallingSender};
use std::collections::VecDeque;
use std::io::{self, Write};

/// The most octets of an HDLC frame; a page has half as many blocks.
const MOST_FAX: usize = 10;

/// Prints the recording of a seed.
pub fn run(seed: u64, count: u64, mut output: impl Write) -> io::Result<()> {
    let mut generator = Generator::new(seed)
        .map_err(|number| io::Error::new(io::ErrorKind::Other, format!("refusal {number}")))?;
    output.write_all(&write_text(&generator.frames.records))?;
    // The first line must be a frame line, or it is part of the text.
    let line = generator.frames.legal_line();
    generator.push(line);
    generator.opening();
    print_lines(&mut output, count, seed % 4 == 3, || {
        let lines = generator.lines.split_off(0);
        generator.scene();
        generator.flush();
        lines
    })
}

/// The type of the payloads of a kind.
fn type_of(kind: Kind) -> u8 {
    match kind {
        Kind::Digits => DIGITS,
        Kind::Signalling => SIGNALLING,
    }
}

/// Makes the lines of one seed. It follows them itself, so that it has the
/// numbers that the trunk stands at.
struct Generator {
    /// Frames and the records of the text.
    frames: Frames,
    table: Table,
    /// The followed sub-channel.
    followed: Record,
    /// Its trunk after the lines so far.
    trunk: Trunk,
    /// The lines of the scene, without their LFs.
    lines: Vec<Vec<u8>>,
    /// What of the followed sub-channel waits for the next frame.
    waiting: Vec<Piece>,
    digit_sender: DigitSender,
    signalling_sender: SignallingSender,
    /// The way of digits and that of signalling.
    ways: [Way; 2],
    /// The state of the digit sender: on with a code, or off.
    sounding: Option<u8>,
    /// The last sample of the signalling sender.
    sample: u8,
    /// One payload in so many starts a burst of losses.
    loss_rate: usize,
    /// One payload in so many is kept back, or comes again.
    late_rate: usize,
    /// How many digits and how many signalling payloads are still lost.
    losses: [usize; 2],
    /// The rest of a fax call on another sub-channel.
    other_fax: VecDeque<Piece>,
}

impl Generator {
    /// The generator of a seed; ten seeds have every kind of sub-channel first.
    fn new(seed: u64) -> Result<Self, Refusal> {
        let mut random = Random::new(seed);
        let count = match random.below(4) {
            0 => 1,
            1 => random.between(2, 6),
            _ => random.between(7, 40),
        };
        let mut records = records(&mut random, count);
        let kinds = kinds();
        let kind = kinds[(seed % kinds.len() as u64) as usize];
        let followed = record(&mut random, records[0].cid, kind);
        records[0] = followed;
        let loss_rate = random.pick(&[2, 4, 8, 20, 1000]);
        let late_rate = random.pick(&[3, 4, 6, 12, 40]);
        let sample = random.small(0, 15);
        Ok(Generator {
            table: Table::of(&records),
            frames: Frames::new(random, records),
            followed,
            trunk: Trunk::default(),
            lines: Vec::new(),
            waiting: Vec::new(),
            digit_sender: DigitSender::new(),
            signalling_sender: SignallingSender::new(sample)?,
            ways: Kind::BOTH.map(Way::new),
            sounding: None,
            sample,
            loss_rate,
            late_rate,
            losses: [0; 2],
            other_fax: VecDeque::new(),
        })
    }

    /// The first scene after the first line: late payloads of both kinds, so that
    /// a short recording has them too.
    fn opening(&mut self) {
        for kind in Kind::BOTH {
            self.swap(kind);
        }
        self.flush();
    }

    /// One scene: some lines that belong together.
    fn scene(&mut self) {
        self.mend();
        match self.random().below(100) {
            0..=9 => self.dial(),
            10..=13 => self.digit_gap(),
            14..=22 => self.seizure(),
            23..=26 => self.signalling_gap(),
            27..=28 => self.quiet_run(),
            29..=36 => self.fax_call(),
            37..=49 => self.fax_crowd(),
            50..=57 => self.voices(),
            58..=66 => self.others(),
            67..=70 => self.elsewhere(),
            71..=74 => self.crowd(),
            75..=76 => self.other_sub_channels(),
            77..=78 => self.senders_anew(),
            79..=80 => self.late(Kind::Digits),
            81..=82 => self.late(Kind::Signalling),
            83..=84 => self.swap(Kind::Digits),
            85..=86 => self.swap(Kind::Signalling),
            _ => self.any_lines(),
        }
    }

    /// Where the drawing comes from.
    fn random(&mut self) -> &mut Random {
        &mut self.frames.random
    }

    /// The number that the trunk stands at, if it has taken one.
    fn last(&self, kind: Kind) -> Option<u8> {
        match kind {
            Kind::Digits => self.trunk.digits.last_sequence(),
            Kind::Signalling => self.trunk.signalling.last_sequence(),
        }
    }

    /// A line of the recording, and what it does to the trunk.
    fn push(&mut self, line: Vec<u8>) {
        let field = line.strip_prefix(b"frame=").and_then(hex::read);
        for sub_frame in field.iter().flat_map(|it| open_frame(it)).flatten() {
            if sub_frame.cid == self.followed.cid {
                drop(self.trunk.take(&self.table, &sub_frame));
            }
        }
        self.lines.push(line);
    }

    /// A payload of the followed sub-channel waits for the next frame.
    fn put(&mut self, payload_type: u8, payload: Vec<u8>) {
        // Over 255 octets it must be the last of its frame.
        let over_255 = payload.len() > 255;
        let long = self.random().one_in(5);
        self.waiting.push(Piece {
            cid: self.followed.cid,
            payload_type,
            payload,
            long,
        });
        if over_255 || self.waiting.len() > 3 || !self.random().one_in(6) {
            self.flush();
        }
    }

    /// The frame of what waits, other sub-channels in between at times.
    fn flush(&mut self) {
        if self.waiting.is_empty() {
            return;
        }
        let mut pieces = self.waiting.split_off(0);
        for _ in 0..self.random().pick(&[0, 0, 0, 1, 1, 2, 3]) {
            let other = self.other_piece();
            let last_is_long = pieces.last().map_or(false, |it| it.payload.len() > 255);
            let places = pieces.len() + usize::from(!last_is_long);
            let place = self.random().below(places);
            pieces.insert(place, other);
        }
        self.push(line_of(&field_of(&pieces)));
    }

    /// A piece of at most 255 octets on another sub-channel, now and then
    /// spoiled or on one that is not there.
    fn other_piece(&mut self) -> Piece {
        if self.random().one_in(3) {
            if let Some(piece) = self.other_fax_piece() {
                return piece;
            }
        }
        loop {
            let spoil = self.random().one_in(4);
            let mut piece = self.frames.piece(spoil);
            if piece.cid == self.followed.cid {
                piece.cid = self.random().small(4, 255);
            }
            if piece.cid != self.followed.cid && piece.payload.len() <= 255 {
                return piece;
            }
        }
    }

    /// The next payload of a fax call on another sub-channel, if one takes fax.
    fn other_fax_piece(&mut self) -> Option<Piece> {
        if self.other_fax.is_empty() {
            let cid = self.followed.cid;
            let takes_fax = |it: &&Record| it.cid != cid && it.syntax != Syntax::Data;
            let others: Vec<Record> = self
                .frames
                .records
                .iter()
                .filter(takes_fax)
                .copied()
                .collect();
            if others.is_empty() {
                return None;
            }
            let record = self.random().pick(&others);
            self.other_fax = self.fax_pieces(&record).into();
        }
        self.other_fax.pop_front()
    }

    /// The payloads of a fax call on a sub-channel.
    fn fax_pieces(&mut self, record: &Record) -> Vec<Piece> {
        let mut pieces = Vec::new();
        for payload in call(self.random(), MOST_FAX) {
            pieces.push(Piece {
                cid: record.cid,
                payload_type: fax_type(record.syntax),
                payload,
                long: self.random().one_in(5),
            });
        }
        pieces
    }

    /// Whether what a sender of a kind sends next comes at once, and whether it
    /// comes late.
    fn passage(&mut self, kind: Kind) -> (bool, bool) {
        let (loss_rate, late_rate) = (self.loss_rate, self.late_rate);
        let mut left = self.losses[kind as usize];
        if left == 0 && self.random().one_in(loss_rate) {
            left = kind.burst(self.random());
        }
        self.losses[kind as usize] = left.saturating_sub(1);
        if left > 0 {
            return (false, false);
        }
        let late = self.random().one_in(late_rate);
        (!late || self.random().one_in(3), late)
    }

    /// What a sender sent comes at once, late, or both, as told, and behind it
    /// what comes late now. In place of a lost one other sub-channels go on at
    /// times.
    fn arrive(&mut self, kind: Kind, payload: Option<Vec<u8>>, passage: (bool, bool)) {
        let payload = match payload {
            Some(payload) => payload,
            None => return,
        };
        let due = self.ways[kind as usize].sent(&payload);
        match passage {
            (_, true) => {
                let after = kind.lateness(self.random());
                self.ways[kind as usize].keep_back(after, 1, payload.clone());
            }
            (false, _) if self.random().one_in(20) => self.other_sub_channels(),
            _ => {}
        }
        if passage.0 {
            self.put(type_of(kind), payload);
        }
        for (_, payload) in due {
            self.put(type_of(kind), payload);
        }
    }

    /// So many payloads of a kind are sent and lost; what comes late comes.
    fn lose(&mut self, kind: Kind, payloads: usize) {
        for _ in 0..payloads {
            let due = match self.next_sent(kind) {
                Some(payload) => self.ways[kind as usize].sent(&payload),
                None => continue,
            };
            for (_, payload) in due {
                self.put(type_of(kind), payload);
            }
        }
    }

    /// What a sender gives for a period that it sends: a tone, mostly the same,
    /// or samples that change.
    fn next_sent(&mut self, kind: Kind) -> Option<Vec<u8>> {
        match kind {
            Kind::Digits => {
                let change = self.random().one_in(6);
                let code = match change {
                    true => self.random().small(0, 15),
                    false => self.sounding.unwrap_or(5),
                };
                self.digit(Some(code))
            }
            Kind::Signalling => {
                let samples = self.changing();
                self.period(samples)
            }
        }
    }

    /// A period is sent and its payload comes.
    fn send(&mut self, kind: Kind) {
        let payload = self.next_sent(kind);
        self.arrive(kind, payload, (true, false));
    }

    /// Where the trunk takes all that is sent as older, so many are lost at times
    /// that the next one is fresh.
    fn mend(&mut self) {
        for kind in Kind::BOTH {
            let last = self.last(kind);
            if self.ways[kind as usize].astray(last) && self.random().one_in(3) {
                // The number before it has the step 0, so this one has 1.
                let step = self.ways[kind as usize].next_step(last).unwrap_or(0);
                self.lose(kind, kind.round() + 1 - step);
            }
        }
    }

    /// Payloads that were sent before come late, again, and in any order.
    fn late(&mut self, kind: Kind) {
        self.flush();
        let last = self.last(kind);
        let way = &self.ways[kind as usize];
        for payload in way.some_late(&mut self.frames.random, last) {
            self.put(type_of(kind), payload);
        }
    }

    /// Frames swapped: one to three payloads come behind the one after them, in
    /// any order, perhaps one twice and one not.
    fn swap(&mut self, kind: Kind) {
        let held = self.random().between(1, 3);
        self.send(kind);
        self.lose(kind, held);
        self.send(kind);
        for _ in 0..held {
            let back = self.random().between(1, held);
            if let Some(payload) = self.ways[kind as usize].before_newest(back) {
                self.put(type_of(kind), payload);
            }
        }
        self.send(kind);
    }

    /// What the digit sender gives for a period of a state.
    fn digit(&mut self, state: Option<u8>) -> Option<Vec<u8>> {
        let change = state != self.sounding;
        let edge = match change {
            true => self.random().pick(&[0, 0, 1, 5, 10, 18, 19]),
            false => 0,
        };
        self.sounding = state;
        let entry = DigitEntry {
            on: state.is_some(),
            code: state.unwrap_or(0),
            edge,
            level: self.random().pick(&[-31, -20, -10, -3, 0, 3]),
        };
        let payload = self.digit_sender.enter(&entry).ok()?;
        payload.map(|it| it.to_vec())
    }

    /// So many periods of a state, each payload arriving or lost.
    fn digits(&mut self, periods: usize, state: Option<u8>) {
        for _ in 0..periods {
            let payload = self.digit(state);
            let passage = self.passage(Kind::Digits);
            self.arrive(Kind::Digits, payload, passage);
        }
    }

    /// Dialled digits, silences between them, and voice at times.
    fn dial(&mut self) {
        for _ in 0..self.random().between(1, 6) {
            let code = self.random().small(0, 15);
            let on = self.random().between(1, 8);
            self.digits(on, Some(code));
            if self.random().one_in(6) {
                self.voice();
            }
            if !self.random().one_in(5) {
                let off = self.random().pick(&[1, 2, 3, 4, 5, 9]);
                self.digits(off, None);
            }
        }
    }

    /// An exact step between two digits payloads; something else in between.
    fn digit_gap(&mut self) {
        let step = Kind::Digits.gap(self.random());
        let code = self.random().small(0, 15);
        let first = self.digit(Some(code));
        self.arrive(Kind::Digits, first, (true, false));
        self.between();
        self.lose(Kind::Digits, step - 1);
        let next = self.digit(Some(9));
        self.arrive(Kind::Digits, next, (true, false));
        self.digits(3, None);
    }

    /// What stands between two payloads: often nothing, or voice, accepted or
    /// refused, and other types.
    fn between(&mut self) {
        match self.random().below(6) {
            0 => self.voice(),
            1 => self.spoiled(PRIMARY),
            2 => self.others(),
            _ => {}
        }
    }

    /// What the signalling sender gives for a period.
    fn period(&mut self, samples: Samples) -> Option<Vec<u8>> {
        let alarm = self.random().one_in(6);
        self.sample = samples[9];
        let payload = self.signalling_sender.enter(&samples, alarm).ok()?;
        payload.map(|it| it.to_vec())
    }

    /// A period whose payload arrives or is lost.
    fn send_period(&mut self, samples: Samples) {
        let payload = self.period(samples);
        if payload.is_some() {
            let passage = self.passage(Kind::Signalling);
            self.arrive(Kind::Signalling, payload, passage);
        }
    }

    /// Ten samples that are not quiet.
    fn changing(&mut self) -> Samples {
        let mut samples = [self.sample; 10];
        let place = self.random().below(10);
        match self.random().below(3) {
            0 => samples = samples.map(|_| self.random().small(0, 15)),
            1 => samples[place..].fill(self.frames.random.small(0, 15)),
            _ => {}
        }
        samples[place] ^= self.random().small(1, 15);
        samples
    }

    /// Seizure patterns with quiet runs between.
    fn seizure(&mut self) {
        for _ in 0..self.random().between(1, 8) {
            let samples = self.changing();
            self.send_period(samples);
            if self.random().one_in(4) {
                let periods = self.random().between(1, 30);
                self.quiet(periods);
            }
            if self.random().one_in(12) {
                self.between();
            }
        }
    }

    /// So many quiet periods.
    fn quiet(&mut self, periods: usize) {
        for _ in 0..periods {
            self.send_period([self.sample; 10]);
        }
    }

    /// A quiet run up to static repeats, some of which arrive.
    fn quiet_run(&mut self) {
        let periods = match self.random().below(4) {
            0 => self.random().between(24, 30),
            1 => self.random().between(274, 280),
            _ => self.random().between(526, 1600),
        };
        self.quiet(periods);
        let samples = self.changing();
        self.send_period(samples);
    }

    /// An exact step between two signalling payloads.
    fn signalling_gap(&mut self) {
        let step = Kind::Signalling.gap(self.random());
        self.send(Kind::Signalling);
        self.lose(Kind::Signalling, step - 1);
        self.send(Kind::Signalling);
    }

    /// A fax call, payload by payload; now and then something in between.
    fn fax_call(&mut self) {
        let followed = self.followed;
        for piece in self.fax_pieces(&followed) {
            self.put(piece.payload_type, piece.payload);
            match self.random().below(40) {
                0 => self.digits(2, Some(7)),
                1 => {
                    let samples = self.changing();
                    self.send_period(samples);
                }
                2 => self.between(),
                _ => {}
            }
        }
    }

    /// A fax call in as few frames as it fits into.
    fn fax_crowd(&mut self) {
        self.flush();
        let followed = self.followed;
        let mut pieces = self.fax_pieces(&followed);
        while !pieces.is_empty() {
            // Room is left for the other sub-channels.
            let rest = pieces.split_off(fitting(&pieces, SUB_FRAMES - 3));
            self.waiting = pieces;
            self.flush();
            pieces = rest;
        }
    }

    /// A type 0 payload that is accepted.
    fn voice(&mut self) {
        let followed = self.followed;
        let payload = Drawer::new(self.random(), false).payload(&followed, PRIMARY);
        self.put(PRIMARY, payload);
    }

    /// A payload of a type that may be spoiled.
    fn spoiled(&mut self, payload_type: u8) {
        let followed = self.followed;
        let payload = Drawer::new(self.random(), true).payload(&followed, payload_type);
        self.put(payload_type, payload);
    }

    /// Type 0 payloads, accepted and refused.
    fn voices(&mut self) {
        for _ in 0..self.random().between(1, 4) {
            match self.random().one_in(2) {
                true => self.voice(),
                false => self.spoiled(PRIMARY),
            }
        }
    }

    /// Payloads of the other types: silence, fax, types that are not allowed,
    /// digits and signalling of a wrong length or with a reserved bit.
    fn others(&mut self) {
        for _ in 0..self.random().between(1, 3) {
            let payload_type = match self.random().below(8) {
                0 => SID,
                1 => FAX,
                2 => self.random().small(5, 15),
                3..=5 => DIGITS,
                _ => SIGNALLING,
            };
            self.wrong(payload_type);
        }
    }

    /// A payload of a type, digits and signalling with something wrong in it.
    fn wrong(&mut self, payload_type: u8) {
        let followed = self.followed;
        let mut payload = Drawer::new(self.random(), false).payload(&followed, payload_type);
        let random = &mut self.frames.random;
        let window = random.pick(&[2, 4, 6]);
        match (payload_type, random.below(7)) {
            (DIGITS, 0) => payload[1] |= random.pick(&[32, 64, 128]),
            (DIGITS, 1) => payload[window + 1] |= random.pick(&[32, 64, 128]),
            (DIGITS, 2) => payload[window] |= random.pick(&[64, 128]),
            (DIGITS, 3) => payload[window] |= 20,
            (DIGITS, 4) => {
                payload[window] = 32;
                payload[window + 1] = random.small(16, 31);
            }
            (DIGITS | SIGNALLING, 5) => payload.push(0),
            (DIGITS | SIGNALLING, _) => payload.truncate(random.below(payload.len())),
            _ => return self.spoiled(payload_type),
        }
        self.put(payload_type, payload);
    }

    /// Digits and signalling payloads of other senders: any number, or one at a
    /// step from that of the trunk.
    fn elsewhere(&mut self) {
        self.flush();
        for _ in 0..self.random().between(1, 3) {
            let kind = self.random().pick(&Kind::BOTH);
            let followed = self.followed;
            let payload_type = type_of(kind);
            let mut payload = Drawer::new(self.random(), false).payload(&followed, payload_type);
            if let (Some(last), false) = (self.last(kind), self.random().one_in(3)) {
                let number = kind.number_about(self.random(), last);
                kind.set_number(&mut payload, number);
            }
            self.put(payload_type, payload);
        }
    }

    /// A frame of many sub-frames of the followed sub-channel: payloads in
    /// order, twice, or out of order, voice among them.
    fn crowd(&mut self) {
        self.flush();
        let mut pieces = Vec::new();
        for _ in 0..self.random().between(2, 20) {
            let cid = self.followed.cid;
            for (payload_type, payload) in self.crowd_payloads() {
                if payload.len() <= 255 {
                    pieces.push(Piece {
                        cid,
                        payload_type,
                        payload,
                        long: false,
                    });
                }
            }
        }
        let again = self.random().below(3);
        for _ in 0..again.min(pieces.len()) {
            let place = self.frames.random.below(pieces.len());
            let piece = pieces[place].clone();
            let place = self.frames.random.below(pieces.len());
            pieces.insert(place, piece);
        }
        self.waiting = pieces;
        self.flush();
    }

    /// A payload of the followed sub-channel: its next digits or signalling, what
    /// comes late behind it, one that was sent before, or any that is accepted.
    fn crowd_payloads(&mut self) -> Vec<(u8, Vec<u8>)> {
        let followed = self.followed;
        let kind = self.random().pick(&Kind::BOTH);
        match self.random().below(6) {
            0..=2 => {
                let payload = match self.next_sent(kind) {
                    Some(payload) => payload,
                    None => return Vec::new(),
                };
                let due = self.ways[kind as usize].sent(&payload);
                let mut payloads = vec![(type_of(kind), payload)];
                payloads.extend(due.into_iter().map(|it| (type_of(kind), it.1)));
                payloads
            }
            3 => {
                let back = self.random().below(12);
                let payload = self.ways[kind as usize].before_newest(back);
                payload.into_iter().map(|it| (type_of(kind), it)).collect()
            }
            4 => vec![(
                SID,
                Drawer::new(self.random(), false).payload(&followed, SID),
            )],
            _ => vec![(
                PRIMARY,
                Drawer::new(self.random(), false).payload(&followed, PRIMARY),
            )],
        }
    }

    /// Frames with nothing of the followed sub-channel.
    fn other_sub_channels(&mut self) {
        self.flush();
        let pieces: Vec<Piece> = (0..self.random().between(1, 3))
            .map(|_| self.other_piece())
            .collect();
        self.push(line_of(&field_of(&pieces)));
    }

    /// Senders that start anew while the trunk goes on.
    fn senders_anew(&mut self) {
        let value = self.random().small(0, 15);
        match SignallingSender::new(value) {
            Ok(sender) if self.random().one_in(2) => {
                self.signalling_sender = sender;
                self.ways[Kind::Signalling as usize].anew();
                self.sample = value;
            }
            _ => {
                self.digit_sender = DigitSender::new();
                self.ways[Kind::Digits as usize].anew();
                self.sounding = None;
            }
        }
    }

    /// Any lines of the listing: sound frames on all sub-channels, refused
    /// frames, malformed lines.
    fn any_lines(&mut self) {
        self.flush();
        for _ in 0..self.random().between(1, 6) {
            let line = match self.random().below(6) {
                0 => self.frames.boundary_line(),
                1 => self.frames.malformed_line(),
                _ => self.frames.line(),
            };
            self.push(line);
        }
    }
}

#[cfg(test)]
mod tests {
    use super::*;
    use crate::provisioning::{read_text, Syntax};
    use crate::{follow, histogram};
    use std::collections::{BTreeMap, BTreeSet};

    fn generated(seed: u64, count: u64) -> Vec<u8> {
        let mut input = Vec::new();
        run(seed, count, &mut input).unwrap();
        input
    }

    /// The first sub-channel of a recording, from its first line.
    fn first_cid(input: &[u8]) -> u8 {
        let line = input.split(|octet| *octet == b'\n').next().unwrap();
        let line = std::str::from_utf8(line).unwrap();
        follow::read_cid(line.strip_prefix("cid=").unwrap()).unwrap()
    }

    /// What following the first sub-channel prints.
    fn followed(input: &[u8]) -> String {
        let mut output = Vec::new();
        follow::run(first_cid(input), input, &mut output).unwrap();
        String::from_utf8(output).unwrap()
    }

    /// The numbers that stand after a key.
    fn numbers(output: &str, key: &str) -> BTreeSet<u64> {
        let values = output.lines().filter_map(|line| line.strip_prefix(key));
        values.map(|value| value.parse().unwrap()).collect()
    }

    #[test]
    fn the_count_of_lines_is_right_and_the_text_good() {
        for seed in 0..20 {
            let input = generated(seed, 500);
            let place = input
                .windows(7)
                .position(|it| it == b"\nframe=")
                .map(|it| it + 1);
            let (text, lines) = input.split_at(place.unwrap());
            let table = read_text(text).unwrap();
            assert_eq!(table.records()[0].cid, first_cid(&input), "seed {seed}");
            let ends = lines.iter().filter(|octet| **octet == b'\n').count();
            assert_eq!(ends, 500 - usize::from(seed % 4 == 3), "seed {seed}");
        }
    }

    #[test]
    fn the_same_seed_gives_the_same_recording() {
        assert_eq!(generated(3, 300), generated(3, 300));
        assert_ne!(generated(3, 300), generated(4, 300));
    }

    #[test]
    fn ten_seeds_have_every_kind_first() {
        let kind = |seed| {
            let record = Generator::new(seed).unwrap().followed;
            (record.syntax.word(), record.seq)
        };
        let first: BTreeSet<_> = (0..10).map(kind).collect();
        assert_eq!(first.len(), 10);
        let second: BTreeSet<_> = (10..20).map(kind).collect();
        assert_eq!(first, second);
    }

    #[test]
    fn every_refusal_number_is_reached() {
        let mut seen: BTreeMap<u64, u64> = BTreeMap::new();
        for seed in 0..20 {
            let output = followed(&generated(seed, 2000));
            for (number, count) in histogram::count(output.as_bytes()).unwrap() {
                *seen.entry(number).or_insert(0) += count;
            }
        }
        let numbers: Vec<u64> = seen.keys().copied().collect();
        let wanted = [0, 1, 2, 3, 4, 5, 6, 7, 8, 9, 12, 13, 14, 15, 16, 19, 41, 42];
        assert_eq!(numbers, wanted);
        for (number, count) in seen {
            assert!(count >= 20, "refusal {number} only {count} times");
        }
    }

    /// Which answers each kind of sub-channel and each type gives.
    fn answers(seeds: u64, count: u64) -> BTreeSet<(&'static str, u8, u8, u8)> {
        let mut seen = BTreeSet::new();
        for seed in 0..seeds {
            let Record { syntax, seq, .. } = Generator::new(seed).unwrap().followed;
            let output = followed(&generated(seed, count));
            let mut payload_type = 0;
            for line in output.lines() {
                let (key, value) = line.split_once('=').unwrap();
                match key {
                    "type" => payload_type = value.parse().unwrap(),
                    "answer" => {
                        let answer = value.parse().unwrap();
                        seen.insert((syntax.word(), seq, payload_type, answer));
                    }
                    _ => {}
                }
            }
        }
        seen
    }

    #[test]
    fn every_answer_of_every_layout_is_reached() {
        let seen = answers(20, 6000);
        let reached = |syntax: Syntax, seq: u8, payload_type: u8, wanted: &[u8]| {
            let answers: Vec<u8> = seen
                .iter()
                .filter(|it| (it.0, it.1, it.2) == (syntax.word(), seq, payload_type))
                .map(|it| it.3)
                .collect();
            assert_eq!(answers, wanted, "{syntax:?} seq={seq} type {payload_type}");
        };
        for (syntax, seq) in kinds() {
            match (syntax, seq) {
                (Syntax::Data, _) => reached(syntax, seq, 0, &[0, 13, 14]),
                (Syntax::Fax, _) => reached(syntax, seq, 0, &[0, 13, 14, 41, 42]),
                (Syntax::G7231, 0) => reached(syntax, seq, 0, &[0, 13, 14]),
                (Syntax::G7231, _) => reached(syntax, seq, 0, &[0, 13, 14, 16]),
                (_, 0) => reached(syntax, seq, 0, &[0, 13]),
                _ => reached(syntax, seq, 0, &[0, 13, 16]),
            }
            if syntax == Syntax::Data {
                reached(syntax, seq, 1, &[12]);
                reached(syntax, seq, 2, &[12]);
            } else {
                reached(syntax, seq, 1, &[0, 13, 14, 15, 19]);
                reached(syntax, seq, 2, &[0, 13, 19]);
            }
            if syntax.is_voice() {
                reached(syntax, seq, 3, &[0, 13, 14, 41, 42]);
                reached(syntax, seq, 4, &[0, 13]);
            } else {
                reached(syntax, seq, 3, &[12]);
                reached(syntax, seq, 4, &[12]);
            }
            reached(syntax, seq, 5, &[12]);
            reached(syntax, seq, 15, &[12]);
        }
    }

    /// The outputs of some seeds, split into those of digits and of signalling.
    fn by_kind(seeds: u64, count: u64) -> [String; 2] {
        let mut split = [String::new(), String::new()];
        for seed in 0..seeds {
            let mut kind = 0;
            for line in followed(&generated(seed, count)).lines() {
                match line {
                    "type=1" => kind = 0,
                    "type=2" => kind = 1,
                    _ => {}
                }
                split[kind] += line;
                split[kind] += "\n";
            }
        }
        split
    }

    #[test]
    fn every_kind_of_step_is_reached() {
        let [digits, signalling] = by_kind(30, 3000);
        for (output, farthest) in [(&digits, 127), (&signalling, 63)] {
            let carried = numbers(output, "carried=");
            assert_eq!(carried, BTreeSet::from([0, 1, 2, 3]));
            let filled = numbers(output, "filled=");
            for fill in [0, 1, 2, 3, 6, farthest - 4, farthest - 3] {
                assert!(filled.contains(&fill), "no fill of {fill} in {farthest}");
            }
            assert_eq!(*filled.iter().next_back().unwrap(), farthest - 3);
        }
        assert_eq!(numbers(&signalling, "alarm="), BTreeSet::from([0, 1]));
        let values = numbers(&signalling, "value=");
        assert_eq!(values, (0..16).collect());
    }

    #[test]
    fn a_good_share_is_older_and_a_good_share_is_replayed_of_both_kinds() {
        for output in by_kind(20, 1000) {
            let count = |line: &str| output.lines().filter(|it| *it == line).count();
            let (older, replayed) = (count("answer=19"), count("carried=3") + count("carried=1"));
            assert!(
                older * 8 > replayed && older < replayed,
                "{older} {replayed}"
            );
        }
    }

    #[test]
    fn fills_are_on_and_ended_by_voice() {
        let [digits, _] = by_kind(10, 3000);
        let fills = |with: &str| {
            let mut fills = 0;
            let mut before = "";
            for line in digits.lines() {
                let filled = before.starts_with("filled=") && before != "filled=0";
                fills += usize::from(filled && line.starts_with(with));
                before = line;
            }
            fills
        };
        assert!(fills("with=0100") > 50, "{}", fills("with=0100"));
        assert!(fills("with=000000") > 50, "{}", fills("with=000000"));
    }
    #[test]
    fn fax_calls_reach_every_answer_beside_digits_and_signalling() {
        // Not the data sub-channel, which takes no fax.
        for seed in [0, 1, 2, 3, 4, 5, 6, 7, 9] {
            let output = followed(&generated(seed, 1000));
            let count = |line: &str| output.lines().filter(|it| *it == line).count();
            let lines = [
                "type=1",
                "type=2",
                "did=nothing",
                "did=began",
                "did=stopped",
                "did=added",
                "did=ended",
                "did=aborted",
                "gap=1",
                "answer=41",
                "answer=42",
            ];
            for line in lines {
                assert!(count(line) >= 5, "seed {seed}: {line} {}", count(line));
            }
        }
    }

    #[test]
    fn the_stored_run_shows_fax_beside_late_digits_and_signalling() {
        let input = generated(7, 400);
        let followed_first = Generator::new(7).unwrap().followed;
        assert!(followed_first.syntax.is_voice());
        let output = followed(&input);
        for did in ["nothing", "began", "stopped", "added", "ended", "aborted"] {
            assert!(output.contains(&format!("\ndid={did}\n")), "{did}");
        }
        for line in [
            "type=1\nlen=8\nanswer=19",
            "type=2\nlen=16\nanswer=19",
            "type=3",
            "gap=1",
            "answer=41",
            "answer=42",
        ] {
            assert!(output.contains(&format!("\n{line}\n")), "{line}");
        }
    }

    #[test]
    fn fax_calls_on_other_sub_channels_are_there_too() {
        let mut generator = Generator::new(7).unwrap();
        let followed = generator.followed.cid;
        for _ in 0..500 {
            let piece = generator.other_fax_piece().unwrap();
            let record = generator.table.record(piece.cid).unwrap();
            assert!(piece.cid != followed && piece.payload_type == fax_type(record.syntax));
        }
    }
}
