//! The way of digits and signalling payloads through a tunnel that swaps frames
//! now and then (document 02, wish 3): what was sent lately is kept, so that it
//! can come late, again and in any order; and steps at and around the bounds.

use super::Random;
use crate::payload::signalling::AIS;
use crate::receivers::step;
use std::collections::VecDeque;

/// The kinds of payload that have a sender and a receiver.
#[derive(Clone, Copy, Debug, PartialEq, Eq)]
pub enum Kind {
    Digits,
    Signalling,
}

impl Kind {
    /// Both kinds.
    pub const BOTH: [Kind; 2] = [Kind::Digits, Kind::Signalling];

    /// Its count goes round at this.
    pub fn round(self) -> usize {
        match self {
            Kind::Digits => 256,
            Kind::Signalling => 128,
        }
    }

    /// From this step on a payload is older; the one before is the farthest
    /// that is replayed.
    pub fn half(self) -> usize {
        self.round() / 2
    }

    /// The number of a payload that is not empty.
    pub fn number(self, payload: &[u8]) -> u8 {
        match self {
            Kind::Digits => payload[0],
            Kind::Signalling => payload[0] & !AIS,
        }
    }

    /// Gives a payload that is not empty another number.
    pub fn set_number(self, payload: &mut [u8], number: u8) {
        payload[0] = match self {
            Kind::Digits => number,
            Kind::Signalling => payload[0] & AIS | number & !AIS,
        }
    }

    /// The step from one number to another.
    pub fn step(self, from: u8, to: u8) -> usize {
        usize::from(step(to, from, self.round() as u16))
    }

    /// The number so many steps after another.
    pub fn after(self, number: u8, steps: usize) -> u8 {
        ((usize::from(number) + steps) % self.round()) as u8
    }

    /// A step to the next arrival: short, at and around the bound, where the
    /// count goes round, or two rounds.
    pub fn gap(self, random: &mut Random) -> usize {
        match random.below(20) {
            0..=7 => random.between(1, 9),
            8..=15 => random.between(self.half() - 2, self.half() + 2),
            16..=18 => random.between(self.round() - 4, self.round() + 2),
            _ => 2 * self.round(),
        }
    }

    /// A step to the next arrival with which demand 3 holds.
    pub fn near_gap(self, random: &mut Random) -> usize {
        match random.below(3) {
            0 => random.between(self.half() - 2, self.half() - 1),
            _ => random.between(1, 9),
        }
    }

    /// How many periods late a payload comes: mostly a few, as where frames are
    /// swapped, else as many as the bound has, more or less.
    pub fn lateness(self, random: &mut Random) -> usize {
        match random.below(4) {
            0 => random.between(self.half() - 4, self.half() + 6),
            _ => random.between(1, 5),
        }
    }

    /// How many payloads a burst of losses takes: mostly few, else so many that
    /// the next arrival is about the bound or where the count goes round.
    pub fn burst(self, random: &mut Random) -> usize {
        match random.below(60) {
            0 | 1 => random.between(self.half() - 3, self.half() + 2),
            2 => random.between(self.round() - 3, self.round() + 2),
            3..=8 => random.between(5, 40),
            _ => random.between(1, 4),
        }
    }

    /// A number at a step from another: 0 or short, at and around the bound, or a
    /// few behind.
    pub fn number_about(self, random: &mut Random, last: u8) -> u8 {
        let step = match random.below(8) {
            0 | 1 => random.between(0, 6),
            2 => random.between(self.round() - 6, self.round() - 1),
            _ => random.between(self.half() - 2, self.half() + 2),
        };
        self.after(last, step)
    }
}

/// A payload that is kept back.
struct Late {
    /// It comes after so many more payloads were sent.
    after: usize,
    /// The receivers that get it.
    who: u8,
    payload: Vec<u8>,
}

/// The way of one kind of payload from its sender.
pub struct Way {
    pub kind: Kind,
    /// The number of the next period that is sent.
    pub next: u8,
    /// What was sent lately, the newest first.
    sent: VecDeque<Vec<u8>>,
    late: Vec<Late>,
}

impl Way {
    /// The way of a kind, nothing sent.
    pub fn new(kind: Kind) -> Self {
        Way {
            kind,
            next: 0,
            sent: VecDeque::new(),
            late: Vec::new(),
        }
    }

    /// The sender sent a payload. What was kept back and comes now: for whom,
    /// and the payload.
    pub fn sent(&mut self, payload: &[u8]) -> Vec<(u8, Vec<u8>)> {
        self.next = self.kind.after(self.kind.number(payload), 1);
        self.sent.push_front(payload.to_vec());
        self.sent.truncate(self.kind.round());
        let mut due = Vec::new();
        for late in self.late.split_off(0) {
            match late.after {
                0 | 1 => due.push((late.who, late.payload)),
                after => self.late.push(Late {
                    after: after - 1,
                    ..late
                }),
            }
        }
        due
    }

    /// Keeps a payload back until so many more were sent.
    pub fn keep_back(&mut self, after: usize, who: u8, payload: Vec<u8>) {
        self.late.push(Late {
            after,
            who,
            payload,
        });
    }

    /// The sender starts anew.
    pub fn anew(&mut self) {
        self.next = 0;
    }

    /// The payload that was sent so many before the newest one.
    pub fn before_newest(&self, back: usize) -> Option<Vec<u8>> {
        self.sent.get(back).cloned()
    }

    /// The newest payload that was sent with a number.
    pub fn numbered(&self, number: u8) -> Option<Vec<u8>> {
        let has = |it: &&Vec<u8>| self.kind.number(it) == number;
        self.sent.iter().find(has).cloned()
    }

    /// The step that the next payload sent has at a receiver that stands at a
    /// number; none at one that has taken nothing.
    pub fn next_step(&self, last: Option<u8>) -> Option<usize> {
        last.map(|last| self.kind.step(last, self.next))
    }

    /// Whether such a receiver takes the next payload sent as older.
    pub fn astray(&self, last: Option<u8>) -> bool {
        self.next_step(last)
            .map_or(false, |step| step >= self.kind.half())
    }

    /// Some payloads that were sent before: the last few in any order, some of
    /// them twice; one from about the bound before the newest; one from about the
    /// bound behind the number of a receiver; or any.
    pub fn some_late(&self, random: &mut Random, last: Option<u8>) -> Vec<Vec<u8>> {
        let (half, round) = (self.kind.half(), self.kind.round());
        let mut payloads = Vec::new();
        match (random.below(6), last) {
            (0 | 1, _) => {
                for _ in 0..random.between(1, 5) {
                    payloads.push(self.before_newest(random.below(7)));
                }
            }
            (2, _) => {
                let back = random.between(half - 4, half + 6);
                payloads.push(self.before_newest(back));
            }
            (3 | 4, Some(last)) => {
                let back = random.between(half - 2, half + 2);
                payloads.push(self.numbered(self.kind.after(last, round - back)));
            }
            _ => payloads.push(self.before_newest(random.below(round))),
        }
        payloads.into_iter().flatten().collect()
    }
}

#[cfg(test)]
mod tests {
    use super::*;

    #[test]
    fn steps_are_at_and_around_the_bounds() {
        let mut random = Random::new(1);
        for (kind, half, round) in [(Kind::Digits, 128, 256), (Kind::Signalling, 64, 128)] {
            assert_eq!((kind.half(), kind.round()), (half, round));
            let mut gaps: Vec<usize> = (0..5000).map(|_| kind.gap(&mut random)).collect();
            gaps.sort();
            gaps.dedup();
            let mut wanted: Vec<usize> = (1..=9).collect();
            wanted.extend(half - 2..=half + 2);
            wanted.extend(round - 4..=round + 2);
            wanted.push(2 * round);
            assert_eq!(gaps, wanted);
            for _ in 0..5000 {
                assert!((1..half).contains(&kind.near_gap(&mut random)));
            }
        }
    }

    #[test]
    fn what_is_kept_back_comes_after_so_many() {
        let mut way = Way::new(Kind::Signalling);
        assert_eq!(way.sent(&[0x80 | 7]), []);
        assert_eq!(way.next, 8);
        way.keep_back(2, 3, vec![7]);
        way.keep_back(1, 1, vec![9]);
        assert_eq!(way.sent(&[8]), [(1, vec![9])]);
        assert_eq!(way.sent(&[127]), [(3, vec![7])]);
        assert_eq!(way.sent(&[0]), []);
        assert_eq!(way.next, 1);
        assert_eq!(way.before_newest(0), Some(vec![0]));
        assert_eq!(way.before_newest(3), Some(vec![0x87]));
        assert_eq!(way.before_newest(4), None);
        assert_eq!(way.numbered(7), Some(vec![0x87]));
        assert_eq!(way.next_step(Some(127)), Some(2));
        assert!(way.astray(Some(2)) && way.astray(Some(65)));
        assert!(!way.astray(Some(1)) && !way.astray(Some(66)) && !way.astray(None));
    }

    #[test]
    fn the_alarm_bit_is_no_part_of_the_number() {
        let mut payload = [0x85];
        assert_eq!(Kind::Signalling.number(&payload), 5);
        Kind::Signalling.set_number(&mut payload, 0x7f);
        assert_eq!(payload, [0xff]);
        Kind::Digits.set_number(&mut payload, 0x85);
        assert_eq!(Kind::Digits.number(&payload), 0x85);
    }
}
