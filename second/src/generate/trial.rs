//! `generate trial SEED COUNT`: COUNT lines for the trial program.

use super::late::{Kind, Way};
use super::payloads::Drawer;
use super::{print_lines, Random};
use crate::hex;
use crate::provisioning::{Record, Syntax};
use crate::receivers::{DigitReceiver, SignallingReceiver};
use crate::refusal::Refusal;
use crate::senders::{DigitEntry, DigitSender, Samples, SignallingSender};
use std::io::{self, Write};

/// Prints the input of a seed.
pub fn run(seed: u64, count: u64, mut output: impl Write) -> io::Result<()> {
    let mut generator = Generator::new(seed)
        .map_err(|number| io::Error::new(io::ErrorKind::Other, format!("refusal {number}")))?;
    let lf_missing_at_end = generator.lf_missing_at_end;
    generator.opening();
    print_lines(&mut output, count, lf_missing_at_end, || {
        let lines = generator.lines.split_off(0);
        generator.scene();
        lines
    })
}

/// Makes the lines of one seed. It runs the senders and receivers of the trial
/// program itself, so that it has the octets that were sent, to hand them over
/// late, and the number that each receiver stands at.
struct Generator {
    random: Random,
    /// The lines of the scene, without their LFs.
    lines: Vec<Vec<u8>>,
    /// In some seeds the second receiver gets at least what the first gets.
    second_gets_all: bool,
    /// In some of those demand 3 holds: nothing sound comes from elsewhere,
    /// successive fresh arrivals are at most 127 and 63 apart, older ones at most
    /// 128 and 64 behind, and the second receiver's fresh ones include the
    /// first's. So the two records can be compared period by period.
    calm: bool,
    /// One payload in so many starts a burst of losses.
    loss_rate: usize,
    /// One payload in so many is kept back, or comes again.
    late_rate: usize,
    /// Of digits and of signalling, how many each receiver still loses.
    losses: [[usize; 2]; 2],
    /// The way of digits and that of signalling.
    ways: [Way; 2],
    digit_sender: DigitSender,
    signalling_sender: SignallingSender,
    digit_receivers: [DigitReceiver; 2],
    signalling_receivers: [SignallingReceiver; 2],
    /// The state of the digit sender: on with a code, or off.
    sounding: Option<u8>,
    /// The last sample of the signalling sender.
    sample: u8,
    lf_missing_at_end: bool,
}

/// The key of the lines that hand over payloads of a kind.
fn key(kind: Kind) -> &'static str {
    match kind {
        Kind::Digits => "digits",
        Kind::Signalling => "signalling",
    }
}

/// The receivers, 0 or 1, that *who* names.
fn named(who: u8) -> impl Iterator<Item = usize> {
    (0..2).filter(move |receiver| who >> receiver & 1 == 1)
}

impl Generator {
    /// The generator of a seed.
    fn new(seed: u64) -> Result<Self, Refusal> {
        let mut random = Random::new(seed);
        let loss_rate = random.pick(&[2, 4, 8, 20, 1000]);
        let late_rate = random.pick(&[3, 4, 6, 12, 40]);
        Ok(Generator {
            random,
            lines: Vec::new(),
            second_gets_all: seed % 2 == 1,
            calm: seed % 4 == 1,
            loss_rate,
            late_rate,
            losses: [[0; 2]; 2],
            ways: Kind::BOTH.map(Way::new),
            digit_sender: DigitSender::new(),
            signalling_sender: SignallingSender::new(0)?,
            digit_receivers: Default::default(),
            signalling_receivers: Default::default(),
            sounding: None,
            sample: 0,
            lf_missing_at_end: seed % 4 == 3,
        })
    }

    /// The first scene: both kinds are sent and come late, so that a short input
    /// has that too.
    fn opening(&mut self) {
        self.dial();
        self.seizure();
        for kind in Kind::BOTH {
            self.swap(kind);
            self.late(kind);
        }
        if !self.calm {
            self.payloads_from_elsewhere();
        }
    }

    /// One scene: some lines that belong together.
    fn scene(&mut self) {
        self.mend();
        match self.random.below(100) {
            0..=20 => self.dial(),
            21..=23 => self.silence(),
            24..=28 => self.digit_gap(),
            29..=43 => self.seizure(),
            44..=48 => self.signalling_gap(),
            49..=51 => self.quiet_run(),
            52..=56 => self.bad_entries(),
            57..=60 => self.late(Kind::Digits),
            61..=64 => self.late(Kind::Signalling),
            65..=67 => self.swap(Kind::Digits),
            68..=70 => self.swap(Kind::Signalling),
            71..=83 if self.calm => self.dial(),
            71..=74 => self.restart(),
            75..=83 => self.payloads_from_elsewhere(),
            84..=88 => self.voice(),
            89..=92 => self.fresh(),
            _ => self.malformed(),
        }
    }

    /// A line of a key and octets.
    fn push(&mut self, key: &str, octets: &[u8]) {
        let line = format!("{key}={}", hex::write(octets));
        self.lines.push(line.into_bytes());
    }

    /// The number that a receiver of a kind stands at, if it has taken one.
    fn last(&self, kind: Kind, receiver: usize) -> Option<u8> {
        match kind {
            Kind::Digits => self.digit_receivers[receiver].last_sequence(),
            Kind::Signalling => self.signalling_receivers[receiver].last_sequence(),
        }
    }

    /// A payload comes to the receivers, refused or not.
    fn hear(&mut self, kind: Kind, who: u8, payload: &[u8]) {
        for receiver in named(who) {
            match kind {
                Kind::Digits => drop(self.digit_receivers[receiver].accept(payload)),
                Kind::Signalling => drop(self.signalling_receivers[receiver].accept(payload)),
            }
        }
    }

    /// Whether a receiver of a kind takes what is sent next as older.
    fn astray(&self, kind: Kind, receiver: usize) -> bool {
        let last = self.last(kind, receiver);
        self.ways[kind as usize].astray(last)
    }

    /// Where receivers take all that is sent as older, they are fresh at times.
    fn mend(&mut self) {
        for kind in Kind::BOTH {
            for receiver in 0..2 {
                if self.astray(kind, receiver) && self.random.one_in(4) {
                    let both = self.second_gets_all;
                    self.fresh_for(if both { 3 } else { 1 << receiver });
                }
            }
        }
    }

    /// Whether a receiver loses this payload.
    fn loses(&mut self, kind: Kind, receiver: usize) -> bool {
        let mut left = self.losses[kind as usize][receiver];
        if left == 0 && self.random.one_in(self.loss_rate) {
            left = match self.calm {
                true => self.random.pick(&[1, 1, 2, 2, 3, 4, 6, 9]),
                false => kind.burst(&mut self.random),
            };
        }
        self.losses[kind as usize][receiver] = left.saturating_sub(1);
        left > 0
    }

    /// Who gets the next payload of a kind at once, and who late (and perhaps
    /// again).
    fn passage(&mut self, kind: Kind) -> (u8, u8) {
        let first = !self.loses(kind, 0);
        let mut second = !self.loses(kind, 1);
        if self.second_gets_all && first {
            second = true;
        }
        let who = u8::from(first) + 2 * u8::from(second);
        if self.calm && (0..2).any(|receiver| self.must_hear(kind, receiver)) {
            return (3, 0);
        }
        if !self.random.one_in(self.late_rate) {
            return (who, 0);
        }
        let late = match self.second_gets_all {
            true => who,
            false => who & self.random.pick(&[1, 2, 3, 3]),
        };
        match self.random.one_in(3) {
            true => (who, late),
            false => (who & !late, late),
        }
    }

    /// Whether the payload after the next one would be too far ahead for a
    /// receiver that does not get the next one.
    fn must_hear(&self, kind: Kind, receiver: usize) -> bool {
        let last = self.last(kind, receiver);
        let step = self.ways[kind as usize].next_step(last);
        step.map_or(false, |step| step >= kind.half() - 1)
    }

    /// A payload was sent and came to those who get it at once. It comes late to
    /// others; what comes late behind it comes now.
    fn sent(&mut self, kind: Kind, (at_once, late): (u8, u8), payload: &[u8]) {
        self.hear(kind, at_once, payload);
        for (who, payload) in self.ways[kind as usize].sent(payload) {
            self.hand_over(kind, who, &payload);
        }
        if late > 0 {
            let after = kind.lateness(&mut self.random);
            self.ways[kind as usize].keep_back(after, late, payload.to_vec());
        }
    }

    /// A payload comes by a line of its own. In a calm seed it was sent before.
    fn hand_over(&mut self, kind: Kind, mut who: u8, payload: &[u8]) {
        if self.calm {
            who = self.within_bounds(kind, who, payload);
        }
        let mut octets = vec![who];
        octets.extend(payload);
        self.push(key(kind), &octets);
        self.hear(kind, who, payload);
    }

    /// Which of some receivers may get a payload that was sent before so that
    /// demand 3 holds.
    fn within_bounds(&self, kind: Kind, who: u8, payload: &[u8]) -> u8 {
        let newest = kind.after(self.ways[kind as usize].next, kind.round() - 1);
        let back = kind.step(kind.number(payload), newest);
        // Whether it is fresh to a receiver, and whether it is within the bounds:
        // not too far behind its last fresh one, nor a first one too far back.
        let takes = |receiver| match self.last(kind, receiver) {
            None => (true, back + 1 < kind.half()),
            Some(last) => {
                let stands = kind.step(last, newest);
                (back <= stands, back.saturating_sub(stands) <= kind.half())
            }
        };
        let (first, second) = (takes(0), takes(1));
        if !second.1 {
            0
        } else if !first.1 || first.0 && !second.0 {
            who & 2
        } else {
            who
        }
    }

    /// Payloads that were sent before come late, again, and in any order.
    fn late(&mut self, kind: Kind) {
        let receiver = self.random.below(2);
        let last = self.last(kind, receiver);
        let way = &self.ways[kind as usize];
        for payload in way.some_late(&mut self.random, last) {
            let who = self.any_who();
            self.hand_over(kind, who, &payload);
        }
    }

    /// A period that is sent and comes to these receivers.
    fn send_to(&mut self, kind: Kind, who: u8) {
        match kind {
            Kind::Digits => {
                let code = self.random.small(0, 15);
                self.digit((who, 0), Some(code));
            }
            Kind::Signalling => {
                let samples = self.changing();
                self.period((who, 0), samples);
            }
        }
    }

    /// Frames swapped: one to three payloads come behind the one after them, in
    /// any order, perhaps one twice and one not.
    fn swap(&mut self, kind: Kind) {
        let held = self.random.between(1, 3);
        self.send_to(kind, 3);
        for _ in 0..held {
            self.send_to(kind, 0);
        }
        self.send_to(kind, 3);
        for _ in 0..held {
            let back = self.random.between(1, held);
            if let Some(payload) = self.ways[kind as usize].before_newest(back) {
                self.hand_over(kind, 3, &payload);
            }
        }
        self.send_to(kind, 3);
    }

    /// Any who that the seed allows.
    fn any_who(&mut self) -> u8 {
        match self.second_gets_all {
            true => self.random.pick(&[0, 2, 3, 3]),
            false => self.random.small(0, 3),
        }
    }

    /// A level: mostly within range, its ends too.
    fn level(&mut self) -> i8 {
        self.random
            .pick(&[-3, -7, -10, -20, -31, -30, -1, 0, 1, 3, 127])
    }

    /// An entry of the digit sender that it takes: whether it is sent.
    fn digit(&mut self, passage: (u8, u8), state: Option<u8>) -> bool {
        let change = state != self.sounding;
        let edge = match change {
            true => self.random.pick(&[0, 0, 1, 5, 10, 18, 19]),
            false => 0,
        };
        let level = self.level();
        // The code of an off entry is not looked at.
        let off_code = self.random.pick(&[0, 0, 0, 7, 16, 255]);
        let code = state.unwrap_or(off_code);
        let on = state.is_some();
        self.push("digit", &[passage.0, on.into(), code, edge, level as u8]);
        self.sounding = state;
        let entry = DigitEntry {
            on,
            code,
            edge,
            level,
        };
        match self.digit_sender.enter(&entry) {
            Ok(Some(payload)) => self.sent(Kind::Digits, passage, &payload),
            _ => return false,
        }
        true
    }

    /// So many entries of one state.
    fn digits(&mut self, periods: usize, state: Option<u8>) {
        for _ in 0..periods {
            let passage = self.passage(Kind::Digits);
            self.digit(passage, state);
        }
    }

    /// Dialled digits with silences between, or without, and voice at times.
    fn dial(&mut self) {
        for _ in 0..self.random.between(1, 8) {
            let code = self.random.small(0, 15);
            let on = self.random.between(1, 8);
            self.digits(on, Some(code));
            if self.random.one_in(12) {
                self.voice();
            }
            if !self.random.one_in(5) {
                let off = self.random.pick(&[1, 2, 3, 4, 5, 9]);
                self.digits(off, None);
            }
        }
    }

    /// Off for a while.
    fn silence(&mut self) {
        let periods = self.random.between(1, 12);
        self.digits(periods, None);
    }

    /// A step to the next arrival.
    fn gap(&mut self, kind: Kind) -> usize {
        match self.calm {
            true => kind.near_gap(&mut self.random),
            false => kind.gap(&mut self.random),
        }
    }

    /// An exact step for both receivers, voice in the gap at times.
    fn digit_gap(&mut self) {
        let state = match self.random.one_in(4) {
            true => None,
            false => Some(self.random.small(0, 15)),
        };
        if !self.digit((3, 0), state) {
            return;
        }
        let step = self.gap(Kind::Digits);
        let voice_at = self.random.below(2 * step);
        for lost in 1..step {
            if lost == voice_at {
                self.voice();
            }
            let code = match self.random.one_in(6) {
                true => self.random.small(0, 15),
                false => self.sounding.unwrap_or(5),
            };
            self.digit((0, 0), Some(code));
        }
        self.digit((3, 0), Some(9));
        self.digits(3, None);
    }

    /// An entry of the signalling sender that it takes.
    fn period(&mut self, passage: (u8, u8), samples: Samples) {
        let alarm = self.random.one_in(8);
        let mut octets = vec![passage.0, alarm.into()];
        octets.extend(samples);
        self.push("samples", &octets);
        self.sample = samples[9];
        if let Ok(Some(payload)) = self.signalling_sender.enter(&samples, alarm) {
            self.sent(Kind::Signalling, passage, &payload);
        }
    }

    /// An entry whose payload arrives, is lost or comes late.
    fn send_period(&mut self, samples: Samples) {
        let passage = self.passage(Kind::Signalling);
        self.period(passage, samples);
    }

    /// Ten samples of a kind: all any, one edge, a quiet period, or one sample
    /// off from quiet.
    fn samples(&mut self) -> Samples {
        let mut samples = [self.sample; 10];
        let other = self.random.small(0, 15);
        match self.random.below(6) {
            0 => samples = samples.map(|_| self.random.small(0, 15)),
            1 | 2 => {
                let edge = self.random.below(10);
                samples[edge..].fill(other);
            }
            3 => samples = [other; 10],
            4 => samples[self.random.below(10)] = other,
            _ => {}
        }
        samples
    }

    /// Seizure patterns with short quiet runs.
    fn seizure(&mut self) {
        for _ in 0..self.random.between(1, 12) {
            let samples = self.samples();
            self.send_period(samples);
            if self.random.one_in(4) {
                let periods = self.random.between(1, 30);
                self.quiet(periods);
            }
        }
    }

    /// So many quiet periods.
    fn quiet(&mut self, periods: usize) {
        for _ in 0..periods {
            self.send_period([self.sample; 10]);
        }
    }

    /// A quiet run: short ones, ones round 25, 275 and 525, and whole long ones.
    fn quiet_run(&mut self) {
        let periods = match self.random.below(10) {
            0..=2 => self.random.between(1, 24),
            3 | 4 => self.random.between(24, 27),
            5 => self.random.between(273, 278),
            6 => self.random.between(523, 528),
            7 => self.random.between(26, 400),
            _ => self.random.between(530, 1600),
        };
        self.quiet(periods);
        if self.random.one_in(2) {
            let samples = self.samples();
            self.send_period(samples);
        }
    }

    /// An exact step for both receivers.
    fn signalling_gap(&mut self) {
        let step = self.gap(Kind::Signalling);
        for place in 0..=step {
            let who = if place == 0 || place == step { 3 } else { 0 };
            let samples = self.changing();
            self.period((who, 0), samples);
        }
    }

    /// Ten samples that change, so that their period is sent.
    fn changing(&mut self) -> Samples {
        let mut samples = [self.sample; 10];
        samples[self.random.below(10)] ^= self.random.small(1, 15);
        samples
    }

    /// Entries out of range (15) and edges without a change (17).
    fn bad_entries(&mut self) {
        for _ in 0..self.random.between(1, 4) {
            let who = self.any_who();
            match self.random.below(7) {
                0 => self.edge_without_change(who),
                1 => {
                    let edge = self.random.small(20, 255);
                    let on = self.random.small(0, 1);
                    self.push("digit", &[who, on, 5, edge, 0]);
                }
                2 => {
                    let code = self.random.small(16, 255);
                    self.push("digit", &[who, 1, code, 0, 0]);
                }
                3 => {
                    let level = self.random.pick(&[-32i8, -33, -100, -128]) as u8;
                    let on = self.random.small(0, 1);
                    self.push("digit", &[who, on, 3, 0, level]);
                }
                4 => self.two_wrong(who),
                _ => self.sample_out_of_range(who),
            }
        }
    }

    /// 17.
    fn edge_without_change(&mut self, who: u8) {
        let edge = self.random.small(1, 19);
        let code = self.sounding.unwrap_or(self.random.octet());
        let on = u8::from(self.sounding.is_some());
        self.push("digit", &[who, on, code, edge, 0]);
    }

    /// An edge without a change and a value out of range: 15 comes first.
    fn two_wrong(&mut self, who: u8) {
        let code = self.sounding.unwrap_or(0);
        let on = u8::from(self.sounding.is_some());
        let (edge, level) = self
            .random
            .pick(&[(20, 0), (1, -32i8), (31, -128), (19, -33)]);
        self.push("digit", &[who, on, code, edge, level as u8]);
    }

    /// 15.
    fn sample_out_of_range(&mut self, who: u8) {
        let mut octets = vec![who, 0];
        octets.extend([self.sample; 10]);
        octets[2 + self.random.below(10)] = self.random.small(16, 255);
        self.push("samples", &octets);
    }

    /// The signalling sender anew, or a refused start value.
    fn restart(&mut self) {
        if self.random.one_in(3) {
            let value = self.random.small(16, 255);
            self.push("start", &[value]);
            return;
        }
        let value = self.random.small(0, 15);
        self.push("start", &[value]);
        if let Ok(sender) = SignallingSender::new(value) {
            self.signalling_sender = sender;
        }
        self.ways[Kind::Signalling as usize].anew();
        self.sample = value;
        if self.random.one_in(2) {
            let periods = self.random.between(1, 40);
            self.quiet(periods);
        }
    }

    /// Payloads made outside: sound ones and damaged ones, with any sequence or
    /// with one at a step from that of a receiver.
    fn payloads_from_elsewhere(&mut self) {
        for _ in 0..self.random.between(1, 6) {
            let who = self.any_who();
            let spoil = self.random.one_in(2);
            let (kind, payload_type) = self
                .random
                .pick(&[(Kind::Digits, 1), (Kind::Signalling, 2)]);
            let record = Record {
                cid: 4,
                syntax: Syntax::Acelp,
                m: 1,
                seq: 0,
            };
            let mut drawer = Drawer::new(&mut self.random, spoil);
            let mut payload = drawer.payload(&record, payload_type);
            let last = self.last(kind, usize::from(who == 2));
            if let (Some(last), false, 1..) = (last, self.random.one_in(4), payload.len()) {
                let number = kind.number_about(&mut self.random, last);
                kind.set_number(&mut payload, number);
            }
            self.hand_over(kind, who, &payload);
        }
    }

    /// An accepted voice payload. Where the second gets all, both get it.
    fn voice(&mut self) {
        let who = match self.second_gets_all {
            true => 3,
            false => self.any_who(),
        };
        self.push("voice", &[who]);
    }

    /// Fresh receivers. Where the second gets all, both are fresh.
    fn fresh(&mut self) {
        let who = match self.second_gets_all {
            true => 3,
            false => self.any_who(),
        };
        self.fresh_for(who);
    }

    /// These receivers anew, of both kinds.
    fn fresh_for(&mut self, who: u8) {
        self.push("fresh", &[who]);
        for receiver in named(who) {
            self.digit_receivers[receiver] = DigitReceiver::new();
            self.signalling_receivers[receiver] = SignallingReceiver::new();
        }
    }

    /// A malformed line, or one at the limit of 4,000 characters.
    fn malformed(&mut self) {
        let lines: [&[u8]; 34] = [
            b"",
            b"=",
            b"digit",
            b"digit=",
            b"digit=00010500",
            b"digit=000105000000",
            b"digit=0401050000",
            b"digit=0002050000",
            b"digit=00ff050000",
            b"digit=000105000",
            b"digit=00010500 0",
            b"digit=00010500fD",
            b"digit=0001050000\r",
            b"Digit=0001050000",
            b" digit=0001050000",
            b"digit =0001050000",
            b"start=",
            b"start=0000",
            b"start=0",
            b"samples=0000000000000000000000",
            b"samples=00000000000000000000000000",
            b"samples=000200000000000000000000",
            b"samples=040000000000000000000000",
            b"digits=",
            b"digits=04",
            b"digits=0",
            b"signalling=",
            b"signalling=ff00",
            b"voice=",
            b"voice=04",
            b"voice=0303",
            b"fresh=\0\0",
            b"fresh=0303",
            b"voices=03",
        ];
        match self.random.below(8) {
            0 | 1 => self.near_4000(),
            2 => self.no_octets_of_payload(),
            _ => self.lines.push(self.random.pick(&lines).to_vec()),
        }
    }

    /// A payload line of about 4,000 characters, malformed from 4,001 on (and
    /// where the count is odd).
    fn near_4000(&mut self) {
        let key: &[u8] = self.random.pick(&[&b"digits=03"[..], b"signalling=03"]);
        let mut line = key.to_vec();
        let size = match self.random.below(6) {
            0 => self.random.between(4003, 10_000),
            1 | 2 => self.random.between(3997, 4003),
            _ => self.random.pick(&[3999, 4001]),
        };
        line.resize(size, b'0');
        self.lines.push(line);
    }

    /// A payload of no octets: not malformed, but 13.
    fn no_octets_of_payload(&mut self) {
        let who = self.any_who();
        let key = self.random.pick(&["digits", "signalling"]);
        self.push(key, &[who]);
    }
}

#[cfg(test)]
mod tests {
    use super::*;
    use crate::{histogram, trial};
    use std::collections::{BTreeMap, BTreeSet};

    fn generated(seed: u64, count: u64) -> Vec<u8> {
        let mut input = Vec::new();
        run(seed, count, &mut input).unwrap();
        input
    }

    fn tried(input: &[u8]) -> String {
        let mut output = Vec::new();
        trial::run(input, &mut output).unwrap();
        String::from_utf8(output).unwrap()
    }

    /// The numbers that stand after a key.
    fn numbers(output: &str, key: &str) -> BTreeSet<u64> {
        let values = output.lines().filter_map(|line| line.strip_prefix(key));
        values.map(|value| value.parse().unwrap()).collect()
    }

    #[test]
    fn the_count_of_lines_is_right() {
        for seed in 0..8 {
            let input = generated(seed, 777);
            let missing = usize::from(seed % 4 == 3);
            let ends = input.iter().filter(|octet| **octet == b'\n').count();
            assert_eq!(ends, 777 - missing);
        }
    }

    #[test]
    fn every_refusal_and_every_kind_of_step_is_reached() {
        let mut seen: BTreeMap<u64, u64> = BTreeMap::new();
        let (mut filled, mut carried) = (BTreeSet::new(), BTreeSet::new());
        for seed in 0..10 {
            let output = tried(&generated(seed, 20_000));
            for (number, count) in histogram::count(output.as_bytes()).unwrap() {
                *seen.entry(number).or_insert(0) += count;
            }
            filled.extend(numbers(&output, "filled="));
            carried.extend(numbers(&output, "carried="));
        }
        let refusals: Vec<u64> = seen.keys().copied().collect();
        assert_eq!(refusals, [13, 14, 15, 17, 19]);
        assert!(seen.values().all(|count| *count >= 20), "{seen:?}");
        assert_eq!(carried, BTreeSet::from([0, 1, 2, 3]));
        for fill in [0, 1, 2, 3, 4, 59, 60, 123, 124] {
            assert!(filled.contains(&fill), "no fill of {fill}");
        }
        assert!(*filled.iter().next_back().unwrap() == 124);
    }

    /// What one receiver answers to one payload.
    struct Answer {
        kind: Kind,
        receiver: usize,
        /// What `digit=` or `samples=` sent, or what came by a line of its own.
        payload: Vec<u8>,
        /// The refusal, 0 for none.
        number: u64,
        filled: u64,
        /// The carried periods in hex.
        carried: Vec<String>,
    }

    /// What happens line by line.
    enum Event {
        /// A payload was sent.
        Sent(Kind, Vec<u8>),
        Answer(Answer),
        /// These receivers anew.
        Fresh(u8),
    }

    /// Goes through an input and what the trial program prints for it.
    fn events(input: &[u8]) -> Vec<Event> {
        let output = tried(input);
        let mut output = output.lines().peekable();
        let text = String::from_utf8_lossy(input).into_owned();
        let mut events = Vec::new();
        for (number, line) in text.split_terminator('\n').enumerate() {
            if output.peek() == Some(&&format!("malformed={}", number + 1)[..]) {
                output.next();
                continue;
            }
            let (key, octets) = line.split_once('=').unwrap();
            let octets = hex::read(octets.as_bytes()).unwrap();
            let kind = match key {
                "digit" | "digits" => Kind::Digits,
                "samples" | "signalling" => Kind::Signalling,
                "fresh" => {
                    events.push(Event::Fresh(octets[0]));
                    continue;
                }
                "start" => {
                    output.next();
                    continue;
                }
                _ => continue,
            };
            let mut payload = octets[1..].to_vec();
            if let "digit" | "samples" = key {
                match output.next().unwrap().strip_prefix("sent=") {
                    Some(sent) => payload = hex::read(sent.as_bytes()).unwrap(),
                    None => continue,
                }
                events.push(Event::Sent(kind, payload.clone()));
            }
            for receiver in named(octets[0]) {
                let head = format!("receiver={}", receiver + 1);
                assert_eq!(output.next(), Some(&head[..]), "line {}", number + 1);
                let mut answer = Answer {
                    kind,
                    receiver,
                    payload: payload.clone(),
                    number: 0,
                    filled: 0,
                    carried: Vec::new(),
                };
                let mut value = |key: &str| {
                    let line = output.next_if(|line| line.starts_with(key))?;
                    Some(line[key.len()..].to_string())
                };
                match value("refused=") {
                    Some(number) => answer.number = number.parse().unwrap(),
                    None => {
                        answer.filled = value("filled=").unwrap().parse().unwrap();
                        value("with=").unwrap();
                        let carried: usize = value("carried=").unwrap().parse().unwrap();
                        answer
                            .carried
                            .extend(std::iter::from_fn(|| value("period=")));
                        assert_eq!(answer.carried.len(), carried);
                        assert_eq!(value("value=").is_some(), kind == Kind::Signalling);
                        assert_eq!(value("alarm=").is_some(), kind == Kind::Signalling);
                    }
                }
                events.push(Event::Answer(answer));
            }
        }
        assert_eq!(output.next(), None);
        events
    }

    /// The answers of an input.
    fn answers(input: &[u8]) -> Vec<Answer> {
        let answer = |event| match event {
            Event::Answer(answer) => Some(answer),
            _ => None,
        };
        events(input).into_iter().filter_map(answer).collect()
    }

    #[test]
    fn a_good_share_is_older_and_a_good_share_is_replayed_of_both_kinds() {
        for kind in Kind::BOTH {
            let mut counts: BTreeMap<u64, usize> = BTreeMap::new();
            let mut fills: BTreeMap<u64, usize> = BTreeMap::new();
            for seed in 0..20 {
                let answers = answers(&generated(seed, 2000));
                for answer in answers.iter().filter(|it| it.kind == kind) {
                    *counts.entry(answer.number).or_insert(0) += 1;
                    *fills.entry(answer.filled).or_insert(0) += 1;
                }
            }
            let all: usize = counts.values().sum();
            assert!(counts[&19] * 8 > all, "{kind:?}: {counts:?}");
            assert!(counts[&0] * 2 > all, "{kind:?}: {counts:?}");
            let farthest = kind.half() as u64 - 4;
            assert_eq!(fills.keys().next_back(), Some(&farthest));
            for fill in [0, 1, 2, 3, 4, farthest - 1, farthest] {
                assert!(fills[&fill] >= 10, "{kind:?}: {fill} {fills:?}");
            }
        }
    }

    #[test]
    fn payloads_of_the_sender_come_late_and_about_the_bounds() {
        for kind in Kind::BOTH {
            let (half, round) = (kind.half(), kind.round());
            // Late by how many payloads; and how far ahead the next one is that
            // comes as soon as it is sent.
            let (mut late, mut ahead) = (BTreeSet::new(), BTreeSet::new());
            for seed in 0..20 {
                let mut sent: Vec<Vec<u8>> = Vec::new();
                let mut arrived = [None; 2];
                for event in events(&generated(seed, 10_000)) {
                    match event {
                        Event::Sent(of, payload) if of == kind => sent.push(payload),
                        Event::Fresh(who) => named(who).for_each(|it| arrived[it] = None),
                        Event::Answer(answer) if answer.kind == kind => {
                            let place = sent.iter().rev().position(|it| *it == answer.payload);
                            let place = match place {
                                Some(0) => sent.len(),
                                Some(back) => {
                                    late.insert(back);
                                    continue;
                                }
                                None => continue,
                            };
                            let before = arrived[answer.receiver].replace(place);
                            ahead.extend(before.map(|it| place - it));
                        }
                        _ => {}
                    }
                }
            }
            for wanted in (1..=5).chain(half - 4..=half + 6) {
                assert!(late.contains(&wanted), "{kind:?}: none {wanted} late");
            }
            let bounds = (half - 2..=half + 2).chain(round - 2..=round + 2);
            for wanted in (1..=9).chain(bounds) {
                assert!(ahead.contains(&wanted), "{kind:?}: none {wanted} ahead");
            }
        }
    }

    #[test]
    fn the_stored_run_shows_older_payloads_of_both_kinds() {
        let answers = answers(&generated(7, 400));
        for kind in Kind::BOTH {
            let of = |number| {
                let it = answers.iter();
                it.filter(|it| (it.kind, it.number) == (kind, number))
                    .count()
            };
            assert!(of(19) >= 5, "{kind:?}: {}", of(19));
            assert!(of(0) >= 50, "{kind:?}: {}", of(0));
        }
    }

    #[test]
    fn static_repeats_are_reached() {
        let mut repeats = 0;
        for seed in 0..4 {
            let output = tried(&generated(seed, 20_000));
            let mut before = "";
            for line in output.lines() {
                let payload = match line.strip_prefix("sent=") {
                    Some(payload) => payload,
                    None => continue,
                };
                if payload.len() == 32 && before.len() == 32 {
                    repeats += usize::from(
                        payload[2..] == before[2..] && {
                            let number =
                                |hex: &str| u8::from_str_radix(&hex[..2], 16).unwrap() & 127;
                            number(payload) == number(before)
                        },
                    );
                }
                before = payload;
            }
        }
        assert!(repeats > 50, "only {repeats} repeats");
    }

    /// What a receiver of a calm seed has got so far, as places among the sent
    /// periods: the payloads that it took as fresh, the last of them since it was
    /// fresh itself, and the periods that it marked carried.
    #[derive(Default)]
    struct Got {
        fresh: BTreeSet<usize>,
        last: Option<usize>,
        carried: BTreeSet<usize>,
        older: usize,
    }

    impl Got {
        /// A payload comes. Fresh is what is not behind the last fresh one, and
        /// exactly the others are older.
        fn hear(&mut self, place: usize, put: &[String], answer: &Answer) {
            let behind = self.last.map_or(0, |last| last.saturating_sub(place));
            if behind > 0 {
                assert_eq!(answer.number, 19);
                assert!(behind <= answer.kind.half());
                self.older += 1;
                return;
            }
            assert_eq!(answer.number, 0);
            let ahead = self.last.map_or(1, |last| place - last);
            assert!(ahead < answer.kind.half());
            self.last = Some(place);
            self.fresh.insert(place);
            let first = place + 1 - answer.carried.len();
            assert_eq!(answer.carried[..], put[first..=place]);
            self.carried.extend(first..=place);
        }

        /// Demand 3: carried exactly when its own payload or one of the next two
        /// arrived and was taken as fresh.
        fn check(&self) {
            let mut wanted = BTreeSet::new();
            for place in &self.fresh {
                wanted.extend(place - 2..=*place);
            }
            assert_eq!(self.carried, wanted);
        }
    }

    /// The period of a payload itself in hex, as a receiver prints it.
    fn own_period(kind: Kind, payload: &[u8]) -> String {
        match kind {
            Kind::Digits => hex::write(&[payload[2] >> 5, payload[2] & 31, payload[3]]),
            Kind::Signalling => {
                let halves = payload[11..].iter().flat_map(|it| [it & 15, it >> 4]);
                hex::write(&halves.collect::<Vec<u8>>())
            }
        }
    }

    /// Goes through a calm seed: how many periods of a kind are carried and how
    /// many payloads are older. Sent periods are counted from 2, the start state
    /// standing at 0 and 1.
    fn check_calm(kind: Kind, input: &[u8]) -> (usize, usize) {
        let start = match kind {
            Kind::Digits => hex::write(&[0; 3]),
            Kind::Signalling => hex::write(&[0; 10]),
        };
        let mut put = vec![start; 2];
        let mut newest = None;
        let mut got = [Got::default(), Got::default()];
        for event in events(input) {
            match event {
                Event::Sent(of, payload) if of == kind => {
                    // A static repeat has the place of the last payload.
                    let number = Some(kind.number(&payload));
                    if number != newest {
                        put.push(own_period(kind, &payload));
                    }
                    newest = number;
                }
                Event::Fresh(who) => named(who).for_each(|it| got[it].last = None),
                Event::Answer(answer) if answer.kind == kind && answer.number != 13 => {
                    let back = kind.step(kind.number(&answer.payload), newest.unwrap());
                    got[answer.receiver].hear(put.len() - 1 - back, &put, &answer);
                }
                _ => {}
            }
        }
        got[0].check();
        got[1].check();
        assert!(got[0].fresh.is_subset(&got[1].fresh));
        assert!(got[0].carried.is_subset(&got[1].carried));
        let carried = got.iter().map(|it| it.carried.len()).sum();
        (carried, got.iter().map(|it| it.older).sum())
    }

    #[test]
    fn calm_seeds_keep_demand_3_and_the_second_carries_no_less() {
        for seed in (1..80).step_by(4) {
            let input = generated(seed, 10_000);
            for kind in Kind::BOTH {
                let (carried, older) = check_calm(kind, &input);
                assert!(carried > 500, "seed {seed}, {kind:?}: only {carried}");
                assert!(older > 20, "seed {seed}, {kind:?}: only {older} older");
            }
        }
    }

    #[test]
    fn in_odd_seeds_the_second_gets_at_least_what_the_first_gets() {
        for seed in [1, 3, 5, 7] {
            let input = generated(seed, 5000);
            let text = String::from_utf8_lossy(&input).into_owned();
            for line in text.lines() {
                let who = line.split_once('=').map(|(_, rest)| rest.get(..2));
                if !line.starts_with("start=") {
                    assert_ne!(who, Some(Some("01")), "{line}");
                }
            }
        }
    }
}
