//! Fax calls: what an honest sender sends (FRF.11 D.4.1, D.4.2; document 02,
//! wish 1), and what a bad line or a wrong sender makes of it. The payloads are
//! built octet by octet, not by the writer, so that the two can be compared.

use super::payloads::Drawer;
use super::Random;
use crate::payload::fax::{ABORT, DATA, END_OF_FRAME, OFF, ON};
use crate::payload::{FAX, PRIMARY};
use crate::provisioning::Syntax;

/// The first octet, bit 8: a time stamp is there.
const EI1: u8 = 0x80;
/// The octet of the modulation, bit 8.
const HDLC: u8 = 0x80;
/// One more than the most a time stamp holds.
const STAMPS: u16 = 1 << 15;
/// The octets of 40 ms, by modulation (FRF.11 figure D - 5).
const BLOCK_OCTETS: [usize; 12] = [0, 0, 12, 24, 36, 48, 60, 72, 36, 48, 60, 72];

/// An HDLC frame of a run.
#[derive(Clone, Debug)]
pub struct HdlcFrame {
    pub octets: Vec<u8>,
    /// Closed by abort, not by end of frame.
    pub aborted: bool,
}

/// What a run carries.
#[derive(Clone, Debug)]
pub enum Page {
    /// Under HDLC: frames, a payload for each octet.
    Frames(Vec<HdlcFrame>),
    /// Without HDLC: a payload for each block of 40 ms, oldest octet first here.
    Blocks(Vec<Vec<u8>>),
}

/// A run: one modulation from its on to its off.
#[derive(Clone, Debug)]
pub struct Run {
    pub modulation: u8,
    pub frequency: u16,
    pub page: Page,
    /// The number of on: 0 in FRF.11.
    pub on_number: u8,
    pub on_stamp: u16,
    pub off_stamp: u16,
    /// What stands before the first octets: all ones in FRF.11 D.4.1.
    pub filler: u8,
    /// Data, end of frame and abort have a stamp too.
    pub stamped: bool,
    /// How many times off, on, end of frame and abort are sent.
    pub copies: usize,
}

/// What is sent: a payload, and how many times.
#[derive(Clone, Debug, PartialEq, Eq)]
pub struct Sent {
    pub payload: Vec<u8>,
    pub copies: usize,
}

/// How much of a run is lost.
#[derive(Clone, Copy, Debug, PartialEq, Eq)]
pub enum Losses {
    /// Nothing.
    None,
    /// At most two successive data payloads, never all copies of a command: a
    /// run under HDLC is handed on complete.
    Bearable,
    /// Bursts of any length.
    Any,
}

/// The payload type of fax: 0 on a fax sub-channel, 3 on any other.
pub fn fax_type(syntax: Syntax) -> u8 {
    match syntax {
        Syntax::Fax => PRIMARY,
        _ => FAX,
    }
}

/// A payload: first octet, the stamp if there is one, the rest.
fn payload(number: u8, command: u8, stamp: Option<u16>, rest: &[u8]) -> Vec<u8> {
    let mut payload = vec![(number % 16) << 3 | command];
    if let Some(stamp) = stamp {
        payload[0] |= EI1;
        payload.extend((stamp % STAMPS).to_le_bytes());
    }
    payload.extend(rest);
    payload
}

/// The command of a payload, if there is an octet.
fn command_of(payload: &[u8]) -> Option<u8> {
    payload.first().map(|first| first & 7)
}

/// Raises the number of a payload.
fn raise_number(payload: &mut [u8], by: u8) {
    if let Some(first) = payload.first_mut() {
        let number = (*first >> 3 & 15) + by;
        *first = *first & !0x78 | (number % 16) << 3;
    }
}

/// A stamp: its ends more often.
fn stamp(random: &mut Random) -> u16 {
    match random.below(4) {
        0 => random.pick(&[0, 0, 1, 1000, 32767]),
        _ => random.below(usize::from(STAMPS)) as u16,
    }
}

impl Run {
    /// A run of up to so many octets a frame, or half as many blocks.
    pub fn drawn(random: &mut Random, most: usize) -> Self {
        match random.below(12) {
            0..=6 => Run::hdlc(random, most),
            7..=9 => Run::t4(random, most / 2),
            10 => Run::tone(random),
            _ => Run::mismatched(random, most / 4),
        }
    }

    /// A run under HDLC: mostly V.21, now and then any other modulation.
    pub fn hdlc(random: &mut Random, most: usize) -> Self {
        let modulation = match random.one_in(4) {
            true => random.small(0, 11),
            false => 1,
        };
        let count = random.below(8);
        let frames = (0..count).map(|_| hdlc_frame(random, most)).collect();
        Run::of(random, modulation, Page::Frames(frames))
    }

    /// A page without HDLC, of any modulation that has one.
    pub fn t4(random: &mut Random, most: usize) -> Self {
        let modulation = random.small(2, 11);
        let octets = BLOCK_OCTETS[usize::from(modulation)];
        let count = random.below(most + 1);
        let blocks = (0..count).map(|_| random.octets(octets)).collect();
        Run::of(random, modulation, Page::Blocks(blocks))
    }

    /// A single tone: on and off alone.
    pub fn tone(random: &mut Random) -> Self {
        Run::of(random, 0, Page::Blocks(Vec::new()))
    }

    /// Blocks of any size under any modulation: mostly against it.
    fn mismatched(random: &mut Random, most: usize) -> Self {
        let modulation = random.small(0, 11);
        let octets = random.pick(&[3, 12, 24, 36, 48, 60, 72]);
        let count = random.below(most + 1);
        let blocks = (0..count).map(|_| random.octets(octets)).collect();
        Run::of(random, modulation, Page::Blocks(blocks))
    }

    /// A run of a modulation, the rest drawn.
    fn of(random: &mut Random, modulation: u8, page: Page) -> Self {
        let any = random.bits() as u16;
        let frequency = match modulation {
            0 => random.pick(&[1100, 2100, 0, 255, 256, 65535, any]),
            _ => 0,
        };
        let on_stamp = stamp(random);
        Run {
            modulation,
            frequency,
            page,
            on_number: random.pick(&[0, 0, 0, 0, 0, 1, 8, 13, 14, 15]),
            on_stamp,
            off_stamp: match random.one_in(6) {
                true => on_stamp,
                false => stamp(random),
            },
            filler: random.pick(&[0xff, 0xff, 0xff, 0x00, 0x42]),
            stamped: random.one_in(5),
            copies: random.pick(&[3, 3, 3, 3, 4, 5]),
        }
    }

    /// Whether it runs under HDLC.
    pub fn is_hdlc(&self) -> bool {
        matches!(self.page, Page::Frames(_))
    }

    /// All that is sent, in order.
    pub fn sent(&self) -> Vec<Sent> {
        let mut sender = Sender {
            run: self,
            number: self.on_number,
            newest: [self.filler; 3],
            sent: Vec::new(),
        };
        sender.all();
        sender.sent
    }
}

/// A frame of up to so many octets: mostly few, at times none.
fn hdlc_frame(random: &mut Random, most: usize) -> HdlcFrame {
    let count = match random.below(5) {
        0 => random.below(most + 1),
        _ => random.below(most.min(6) + 1),
    };
    HdlcFrame {
        octets: random.octets(count),
        aborted: random.one_in(3),
    }
}

/// Sends a run.
struct Sender<'r> {
    run: &'r Run,
    /// The number of the next payload.
    number: u8,
    /// Under HDLC the newest octet and its two predecessors.
    newest: [u8; 3],
    sent: Vec<Sent>,
}

impl Sender<'_> {
    /// Sends a payload and goes on to the next number.
    fn send(&mut self, command: u8, stamp: Option<u16>, rest: &[u8]) {
        let copies = match command {
            DATA => 1,
            _ => self.run.copies,
        };
        let payload = payload(self.number, command, stamp, rest);
        self.number = (self.number + 1) % 16;
        self.sent.push(Sent { payload, copies });
    }

    /// The stamp of data, end of frame and abort: it goes on, if it is there.
    fn stamp(&self) -> Option<u16> {
        let later = (self.sent.len() as u16).wrapping_mul(27);
        let stamp = self.run.on_stamp.wrapping_add(later) % STAMPS;
        Some(stamp).filter(|_| self.run.stamped)
    }

    /// On, the page, off.
    fn all(&mut self) {
        let run = self.run;
        let hdlc = if run.is_hdlc() { HDLC } else { 0 };
        let [low, high] = run.frequency.to_le_bytes();
        let on = [hdlc | run.modulation, low, high];
        self.send(ON, Some(run.on_stamp), &on);
        match &run.page {
            Page::Frames(frames) => frames.iter().for_each(|frame| self.frame(frame)),
            Page::Blocks(blocks) => blocks.iter().for_each(|block| self.block(block)),
        }
        self.send(OFF, Some(run.off_stamp), &[]);
    }

    /// A payload for each octet of a frame, then its closing.
    fn frame(&mut self, frame: &HdlcFrame) {
        for octet in &frame.octets {
            self.newest = [*octet, self.newest[0], self.newest[1]];
            self.send(DATA, self.stamp(), &self.newest.clone());
        }
        let closing = if frame.aborted { ABORT } else { END_OF_FRAME };
        self.send(closing, self.stamp(), &self.newest.clone());
    }

    /// A block: the newest octet goes first.
    fn block(&mut self, block: &[u8]) {
        let newest_first: Vec<u8> = block.iter().rev().copied().collect();
        self.send(DATA, self.stamp(), &newest_first);
    }
}

/// What arrives of what is sent, copy by copy.
pub fn arriving(random: &mut Random, sent: &[Sent], losses: Losses) -> Vec<Vec<u8>> {
    match losses {
        Losses::None => copies_of(sent),
        Losses::Bearable => arriving_bearable(random, sent),
        Losses::Any => arriving_any(random, copies_of(sent)),
    }
}

/// Every copy of all that is sent.
fn copies_of(sent: &[Sent]) -> Vec<Vec<u8>> {
    let mut payloads = Vec::new();
    for it in sent {
        payloads.extend(vec![it.payload.clone(); it.copies]);
    }
    payloads
}

/// Loses at most two data payloads in a row, and not all copies of a command.
/// Any arrival ends a row.
fn arriving_bearable(random: &mut Random, sent: &[Sent]) -> Vec<Vec<u8>> {
    let rate = random.pick(&[1, 2, 2, 4, 10]);
    let mut payloads = Vec::new();
    let mut lost_in_a_row = 0;
    for it in sent {
        let is_data = command_of(&it.payload) == Some(DATA);
        if is_data && lost_in_a_row < 2 && random.one_in(rate) {
            lost_in_a_row += 1;
            continue;
        }
        lost_in_a_row = 0;
        let copies = random.between(1, it.copies);
        payloads.extend(vec![it.payload.clone(); copies]);
    }
    payloads
}

/// Loses bursts, now and then longer than the number goes round.
fn arriving_any(random: &mut Random, all: Vec<Vec<u8>>) -> Vec<Vec<u8>> {
    let rate = random.pick(&[4, 8, 20]);
    let mut left = 0;
    let mut payloads = Vec::new();
    for payload in all {
        if left == 0 && random.one_in(rate) {
            left = match random.below(8) {
                0 => random.between(5, 20),
                _ => random.between(1, 5),
            };
        }
        if left == 0 {
            payloads.push(payload);
        } else {
            left -= 1;
        }
    }
    payloads
}

/// The payloads of a call as they arrive: some runs in a row, each honest or
/// not, with losses or without; or no run at all.
pub fn call(random: &mut Random, most: usize) -> Vec<Vec<u8>> {
    if random.one_in(4) {
        return wild(random, most);
    }
    let mut payloads = Vec::new();
    for _ in 0..random.between(1, 3) {
        let run = Run::drawn(random, most);
        let losses = random.pick(&[
            Losses::None,
            Losses::Bearable,
            Losses::Bearable,
            Losses::Any,
        ]);
        let mut arriving = arriving(random, &run.sent(), losses);
        let troubles = match random.below(4) {
            0 | 1 => 0,
            2 => 1,
            _ => 1 + arriving.len() / 6,
        };
        for _ in 0..troubles {
            disturb(random, &mut arriving);
        }
        payloads.extend(arriving);
    }
    payloads
}

/// Payloads in no order at all, of few numbers, stamps and modulations, so that
/// they often are repeats, or nearly so.
fn wild(random: &mut Random, most: usize) -> Vec<Vec<u8>> {
    let mut payloads = Vec::new();
    let mut number = random.small(0, 15);
    let mut octets = 3;
    for _ in 0..random.between(1, 2 * most) {
        number += random.pick(&[0, 0, 0, 1, 1, 1, 1, 2, 3, 4, 5, 15]);
        number %= 16;
        let command = random.pick(&[OFF, ON, DATA, DATA, DATA, END_OF_FRAME, ABORT]);
        let stamp = random.pick(&[Some(0), Some(1), None]);
        let (stamp, rest) = match command {
            OFF => (stamp.or(Some(0)), Vec::new()),
            ON => {
                let modulation = random.pick(&[0, 1, 1, 2, 7, 8]);
                let hdlc = if random.one_in(3) { 0 } else { HDLC };
                octets = match hdlc {
                    HDLC => 3,
                    _ => BLOCK_OCTETS[usize::from(modulation)].max(12),
                };
                (stamp.or(Some(0)), vec![hdlc | modulation, 0, 0])
            }
            DATA if !random.one_in(12) => (stamp, random.octets(octets)),
            _ => (stamp, random.octets(3)),
        };
        payloads.push(payload(number, command, stamp, &rest));
    }
    payloads
}

/// One thing goes wrong at some place.
fn disturb(random: &mut Random, payloads: &mut Vec<Vec<u8>>) {
    if payloads.is_empty() {
        return;
    }
    let place = random.below(payloads.len());
    let near_the_end = payloads.len() - random.below(payloads.len().min(4));
    match random.below(20) {
        0 | 1 => again(random, payloads, place),
        2 | 3 => swap(random, payloads, place),
        4 | 5 => flip(random, &mut payloads[place]),
        6 | 7 => another_length(random, &mut payloads[place]),
        8 | 9 => jump(random, &mut payloads[place..]),
        10 => raise_number(&mut payloads[place], random.small(1, 15)),
        11 => another_stamp(random, &mut payloads[place]),
        12 | 13 => another_command(random, &mut payloads[place]),
        14 => another_modulation(random, payloads),
        15 => on_again(random, payloads, place),
        16 => on_again(random, payloads, near_the_end),
        17 => {
            let off = payload(random.small(0, 15), OFF, Some(stamp(random)), &[]);
            payloads.insert(near_the_end, off);
        }
        18 => {
            let any = Drawer::new(random, false).fax();
            payloads.insert(near_the_end, any);
        }
        _ => {
            let spoiled = Drawer::new(random, true).fax();
            payloads.insert(near_the_end, spoiled);
        }
    }
}

/// A payload comes once more, at once or a little later.
fn again(random: &mut Random, payloads: &mut Vec<Vec<u8>>, place: usize) {
    let copy = payloads[place].clone();
    let later = (place + random.between(1, 4)).min(payloads.len());
    payloads.insert(later, copy);
}

/// Two payloads near to each other change places.
fn swap(random: &mut Random, payloads: &mut [Vec<u8>], place: usize) {
    let later = (place + random.between(1, 3)).min(payloads.len() - 1);
    payloads.swap(place, later);
}

/// A bit error, in the first octet more often.
fn flip(random: &mut Random, payload: &mut [u8]) {
    if payload.is_empty() {
        return;
    }
    let place = match random.one_in(2) {
        true => 0,
        false => random.below(payload.len()),
    };
    payload[place] ^= 1 << random.below(8);
}

/// Another length: one off, none at all, or that of another modulation.
fn another_length(random: &mut Random, payload: &mut Vec<u8>) {
    match random.below(5) {
        0 => payload.push(random.octet()),
        1 => drop(payload.pop()),
        2 => payload.truncate(random.below(7)),
        _ => {
            let front = if payload.first() >= Some(&EI1) { 3 } else { 1 };
            let octets = random.pick(&[3, 12, 24, 36, 48, 60, 72]);
            payload.resize(front + octets, random.octet());
        }
    }
}

/// The numbers go on from another one, up to the next on: a step of 0 or of 2
/// and more, all that follows being sound.
fn jump(random: &mut Random, payloads: &mut [Vec<u8>]) {
    let by = random.small(1, 15);
    for payload in payloads {
        if command_of(payload) == Some(ON) {
            return;
        }
        raise_number(payload, by);
    }
}

/// Another stamp; or none where there was one, or one where there was none.
fn another_stamp(random: &mut Random, payload: &mut Vec<u8>) {
    let [low, high] = stamp(random).to_le_bytes();
    match payload.first().copied() {
        Some(first) if first < EI1 => {
            payload[0] |= EI1;
            payload.splice(1..1, [low, high]).for_each(drop);
        }
        Some(first) if payload.len() >= 3 && (first & 7 < DATA || random.one_in(2)) => {
            payload[1] = low;
            payload[2] = high;
        }
        Some(_) if payload.len() >= 3 => {
            payload[0] &= !EI1;
            payload.drain(1..3);
        }
        _ => {}
    }
}

/// Data, end of frame and abort stand for one another.
fn another_command(random: &mut Random, payload: &mut [u8]) {
    if let Some(first) = payload.first_mut() {
        let command = random.pick(&[DATA, END_OF_FRAME, ABORT]);
        if *first & 7 >= DATA {
            *first = *first & !7 | command;
        }
    }
}

/// The place of the modulation in a payload that is an on.
fn modulation_of(payload: &mut [u8]) -> Option<&mut u8> {
    match command_of(payload) {
        Some(ON) => payload.get_mut(3),
        _ => None,
    }
}

/// The on at the start says another modulation, or HDLC where there is none:
/// what follows does not go with it.
fn another_modulation(random: &mut Random, payloads: &mut [Vec<u8>]) {
    let other = random.small(0, 11);
    let hdlc = if random.one_in(2) { HDLC } else { 0 };
    for payload in payloads {
        match modulation_of(payload) {
            Some(modulation) => *modulation = *modulation & 0x70 | hdlc | other,
            None => return,
        }
    }
}

/// An on while on, like the one at the start, or with another number, stamp or
/// modulation.
fn on_again(random: &mut Random, payloads: &mut Vec<Vec<u8>>, place: usize) {
    let mut on = match command_of(&payloads[0]) {
        Some(ON) => payloads[0].clone(),
        _ => payload(0, ON, Some(stamp(random)), &[HDLC | 1, 0, 0]),
    };
    match random.below(5) {
        0 => raise_number(&mut on, random.small(1, 15)),
        1 => another_stamp(random, &mut on),
        2 => {
            if let Some(modulation) = modulation_of(&mut on) {
                *modulation = random.small(1, 11) | if random.one_in(2) { HDLC } else { 0 };
            }
        }
        _ => {}
    }
    payloads.insert(place, on);
}

#[cfg(test)]
mod tests {
    use super::*;
    use crate::fax_replay::{Did, FaxReplay};
    use crate::hex;
    use crate::payload::fax;
    use std::collections::BTreeSet;

    /// What is sent, each payload once, in hex.
    fn sent_hex(run: &Run) -> Vec<String> {
        run.sent()
            .iter()
            .map(|it| hex::write(&it.payload))
            .collect()
    }

    /// A run from number 0 with all ones as fillers, the stamps 1000 and 1500.
    fn plain(modulation: u8, page: Page) -> Run {
        Run {
            modulation,
            frequency: 0,
            page,
            on_number: 0,
            on_stamp: 1000,
            off_stamp: 1500,
            filler: 0xff,
            stamped: false,
            copies: 3,
        }
    }

    #[test]
    fn an_hdlc_run_as_frf_11_has_it() {
        let frames = vec![
            HdlcFrame {
                octets: vec![0x41, 0x42, 0x43, 0x44],
                aborted: false,
            },
            HdlcFrame {
                octets: vec![0x45],
                aborted: true,
            },
        ];
        let mut run = plain(1, Page::Frames(frames));
        let wanted = [
            "81e803810000",
            "0a41ffff",
            "124241ff",
            "1a434241",
            "22444342",
            "2b444342",
            "32454443",
            "3c454443",
            "c0dc05",
        ];
        assert_eq!(sent_hex(&run), wanted);
        let copies: Vec<usize> = run.sent().iter().map(|it| it.copies).collect();
        assert_eq!(copies, [3, 1, 1, 1, 1, 3, 1, 3, 3]);
        run.on_number = 14;
        run.stamped = true;
        run.on_stamp = 32767;
        let sent = sent_hex(&run);
        assert_eq!(sent[0], "f1ff7f810000");
        assert_eq!(sent[1][..6], *"fa1a00");
        assert_eq!(sent[2][..2], *"82");
    }

    #[test]
    fn a_page_and_a_tone_as_frf_11_has_them() {
        let blocks = vec![(1..=12).collect(), (13..=24).collect()];
        let run = plain(2, Page::Blocks(blocks));
        let wanted = [
            "81e803020000",
            "0a0c0b0a090807060504030201",
            "121817161514131211100f0e0d",
            "98dc05",
        ];
        assert_eq!(sent_hex(&run), wanted);
        let mut run = plain(0, Page::Blocks(Vec::new()));
        run.frequency = 1100;
        assert_eq!(sent_hex(&run), ["81e803004c04", "88dc05"]);
    }

    #[test]
    fn bearable_losses_are_within_the_hypothesis() {
        let mut rows = BTreeSet::new();
        for seed in 0..500 {
            let random = &mut Random::new(seed);
            // The octets of data all differ, so that a payload is found again.
            let mut run = Run::hdlc(random, 0);
            run.stamped = true;
            let frame = |first: u8| HdlcFrame {
                octets: (first..first + 20).collect(),
                aborted: false,
            };
            run.page = Page::Frames((0..5).map(|it| frame(it * 20)).collect());
            let sent = run.sent();
            let arrived = arriving(random, &sent, Losses::Bearable);
            let mut lost = 0;
            for it in &sent {
                let copies = arrived.iter().filter(|other| **other == it.payload).count();
                let is_data = command_of(&it.payload) == Some(DATA);
                assert!(copies <= it.copies && (is_data || copies > 0));
                if copies > 0 {
                    rows.insert((is_data, lost));
                }
                lost = if copies > 0 { 0 } else { lost + 1 };
            }
        }
        // Rows of 0, 1 and 2, before data and before a closing.
        let wanted = [false, true].map(|is_data| [0, 1, 2].map(|lost| (is_data, lost)));
        assert_eq!(rows, wanted.concat().into_iter().collect());
    }

    #[test]
    fn other_losses_are_longer() {
        let random = &mut Random::new(5);
        let mut longest = 0;
        for _ in 0..200 {
            let all: Vec<Vec<u8>> = (0..100).map(|it| vec![it]).collect();
            let arrived = arriving_any(random, all);
            for pair in arrived.windows(2) {
                longest = longest.max(pair[1][0] - pair[0][0] - 1);
            }
        }
        assert!(longest >= 20, "{longest}");
    }

    #[test]
    fn calls_reach_every_step_and_refusal() {
        // Each command that acted, whether under HDLC, and its step.
        let mut steps = BTreeSet::new();
        let mut refusals = BTreeSet::new();
        let mut began = BTreeSet::new();
        let random = &mut Random::new(1);
        let mut replay = FaxReplay::new();
        let (mut last, mut under_hdlc) = (0, false);
        for _ in 0..6000 {
            for payload in call(random, 20) {
                let answer = match replay.accept(&payload) {
                    Ok(answer) => answer,
                    Err(number) => {
                        refusals.insert(number);
                        continue;
                    }
                };
                let fax = fax::read(&payload).unwrap();
                if answer.did != Did::Nothing {
                    let step = (fax.sequence + 16 - last) % 16;
                    steps.insert((payload[0] & 7, under_hdlc, step));
                    last = fax.sequence;
                }
                if let Did::Began {
                    hdlc, modulation, ..
                } = answer.did
                {
                    began.insert((hdlc, modulation));
                    under_hdlc = hdlc;
                }
            }
        }
        for step in 0..16 {
            for command in [OFF, ON, DATA, END_OF_FRAME, ABORT] {
                assert!(steps.contains(&(command, true, step)), "{command}, {step}");
            }
            for command in [OFF, ON, DATA] {
                assert!(steps.contains(&(command, false, step)), "{command}, {step}");
            }
        }
        assert_eq!(refusals, BTreeSet::from([13, 14, 41, 42]));
        assert_eq!(began.len(), 24);
    }

    #[test]
    fn stamps_and_numbers_stay_within_their_bits() {
        let random = &mut Random::new(3);
        for _ in 0..500 {
            let run = Run::drawn(random, 30);
            for Sent { payload, .. } in run.sent() {
                let fax = fax::read(&payload);
                assert!(fax.is_ok(), "{payload:?}");
            }
        }
    }
}
