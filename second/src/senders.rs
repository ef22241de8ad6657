//! Document 01, "Senders, per 20 ms"; FRF.11 sections A.4.1 and B.4.

use crate::payload::digits::{self, Digits, Window, OFF, ON};
use crate::payload::signalling::{self, Signalling};
use crate::refusal::*;

/// How many periods are sent after one that is on or changes.
const PERIODS_AFTER: u8 = 3;
/// How many periods of a quiet run are sent: 500 ms.
const QUIET_SENT: u64 = 25;
/// After those, the last payload is repeated every so many periods: 5 seconds.
const QUIET_REPEAT: u64 = 250;

/// One 20 ms entry for the digit sender.
#[derive(Clone, Copy, Debug, PartialEq, Eq)]
pub struct DigitEntry {
    /// On, or off.
    pub on: bool,
    /// The digit code; not looked at when off.
    pub code: u8,
    /// The edge in ms.
    pub edge: u8,
    /// The level in dBm0; it goes only into this period's own payload.
    pub level: i8,
}

impl DigitEntry {
    /// The window of this period.
    fn window(&self) -> Window {
        digits::without_off_code(Window {
            digit_type: if self.on { ON } else { OFF },
            edge: self.edge,
            code: self.code,
        })
    }
}

/// Whether off, on or the code changes from one window to another.
fn changes(before: &Window, window: &Window) -> bool {
    (before.digit_type, before.code) != (window.digit_type, window.code)
}

/// The digit sender. At the start: off.
#[derive(Clone, Debug, Default, PartialEq, Eq)]
pub struct DigitSender {
    /// The window of the entry before, sent or not.
    before: Window,
    /// The windows of the last two sent periods, the newer first.
    sent: [Window; 2],
    /// How many periods still are among the three after one on or changing.
    after: u8,
    /// The number of the next sent period.
    next_sequence: u8,
}

impl DigitSender {
    /// A sender at its start.
    pub fn new() -> Self {
        DigitSender::default()
    }

    /// Takes one entry: the payload when the period is sent. Refusals 15, 17.
    pub fn enter(&mut self, entry: &DigitEntry) -> Result<Option<[u8; digits::OCTETS]>, Refusal> {
        let window = entry.window();
        digits::check_range(&window)?;
        digits::code_level(entry.level)?;
        let change = changes(&self.before, &window);
        if !change && entry.edge != 0 {
            return Err(EDGE_WITHOUT_CHANGE);
        }
        self.before = window;
        if entry.on || change {
            self.after = PERIODS_AFTER;
        } else if self.after > 0 {
            self.after -= 1;
        } else {
            return Ok(None);
        }
        self.send(window, entry.level).map(Some)
    }

    /// Sends a period: current, recent, previous.
    fn send(&mut self, window: Window, level: i8) -> Result<[u8; digits::OCTETS], Refusal> {
        let [recent, previous] = self.sent;
        let payload = digits::write(&Digits {
            sequence: self.next_sequence,
            level,
            windows: [window, recent, previous],
        })?;
        self.sent = [window, recent];
        self.next_sequence = self.next_sequence.wrapping_add(1);
        Ok(payload)
    }
}

/// Samples of one period.
pub const PERIOD_SAMPLES: usize = 10;
/// The ten samples of one period.
pub type Samples = [u8; PERIOD_SAMPLES];

/// The signalling sender.
#[derive(Clone, Debug, PartialEq, Eq)]
pub struct SignallingSender {
    /// The sample before the next period.
    before: u8,
    /// The samples of the last two sent periods, the newer first.
    sent: [Samples; 2],
    /// How many quiet periods the run has so far.
    quiet: u64,
    /// The number of the next sent period.
    next_sequence: u8,
    /// The last payload.
    last_payload: [u8; signalling::OCTETS],
}

impl SignallingSender {
    /// A sender at its start, from a start value: 15 when it is over four bits.
    pub fn new(start: u8) -> Result<Self, Refusal> {
        signalling::check_samples(&[start])?;
        Ok(SignallingSender {
            before: start,
            sent: [[start; PERIOD_SAMPLES]; 2],
            quiet: 0,
            next_sequence: 0,
            last_payload: [0; signalling::OCTETS],
        })
    }

    /// Takes one entry: the payload when the period is sent or the last payload
    /// is repeated. Refusal 15.
    pub fn enter(
        &mut self,
        samples: &Samples,
        alarm: bool,
    ) -> Result<Option<[u8; signalling::OCTETS]>, Refusal> {
        signalling::check_samples(samples)?;
        let quiet = samples.iter().all(|sample| *sample == self.before);
        self.quiet = if quiet { self.quiet + 1 } else { 0 };
        self.before = samples[PERIOD_SAMPLES - 1];
        if self.quiet <= QUIET_SENT {
            self.send(samples, alarm).map(Some)
        } else if (self.quiet - QUIET_SENT) % QUIET_REPEAT == 0 {
            Ok(Some(self.repeat(alarm)))
        } else {
            Ok(None)
        }
    }

    /// Sends a period: previous, recent, current, oldest sample first.
    fn send(
        &mut self,
        samples: &Samples,
        alarm: bool,
    ) -> Result<[u8; signalling::OCTETS], Refusal> {
        let [recent, previous] = self.sent;
        let mut all = [0; signalling::SAMPLES];
        all[..10].copy_from_slice(&previous);
        all[10..20].copy_from_slice(&recent);
        all[20..].copy_from_slice(samples);
        self.last_payload = signalling::write(&Signalling {
            alarm,
            sequence: self.next_sequence,
            samples: all,
        })?;
        self.sent = [*samples, recent];
        self.next_sequence = (self.next_sequence + 1) % 128;
        Ok(self.last_payload)
    }

    /// Repeats the last payload: sequence unchanged, alarm bit fresh.
    fn repeat(&mut self, alarm: bool) -> [u8; signalling::OCTETS] {
        self.last_payload[0] = signalling::with_alarm(self.last_payload[0], alarm);
        self.last_payload
    }
}

#[cfg(test)]
mod tests {
    use super::*;
    use crate::generate::Random;

    fn off() -> DigitEntry {
        DigitEntry {
            on: false,
            code: 0,
            edge: 0,
            level: 0,
        }
    }

    fn on(code: u8) -> DigitEntry {
        DigitEntry {
            on: true,
            code,
            edge: 0,
            level: 0,
        }
    }

    /// An entry with another edge.
    fn at(edge: u8, entry: DigitEntry) -> DigitEntry {
        DigitEntry { edge, ..entry }
    }

    /// What is sent for some entries.
    fn sent(entries: &[DigitEntry]) -> Vec<Option<[u8; 8]>> {
        let mut sender = DigitSender::new();
        let enter = |entry| sender.enter(entry).unwrap();
        entries.iter().map(enter).collect()
    }

    #[test]
    fn a_dialled_digit() {
        let level = |level, entry| DigitEntry { level, ..entry };
        let entries = [
            off(),
            level(-10, at(3, on(5))),
            level(-11, on(5)),
            level(3, at(7, off())),
            off(),
            off(),
            off(),
            off(),
        ];
        let wanted = [
            None,
            Some([0, 10, 0x23, 5, 0, 0, 0, 0]),
            Some([1, 11, 0x20, 5, 0x23, 5, 0, 0]),
            Some([2, 0, 0x07, 0, 0x20, 5, 0x23, 5]),
            Some([3, 0, 0, 0, 0x07, 0, 0x20, 5]),
            Some([4, 0, 0, 0, 0, 0, 0x07, 0]),
            Some([5, 0, 0, 0, 0, 0, 0, 0]),
            None,
        ];
        assert_eq!(sent(&entries), wanted);
    }

    #[test]
    fn readings_the_first_sent_number_is_0() {
        let payloads = sent(&[off(), off(), on(1)]);
        assert_eq!(payloads[2].unwrap()[0], 0);
    }

    #[test]
    fn readings_the_period_with_the_off_edge_is_sent_and_three_more() {
        let entries = [on(1), off(), off(), off(), off(), off(), off()];
        let is_sent: Vec<bool> = sent(&entries).iter().map(Option::is_some).collect();
        assert_eq!(is_sent, [true, true, true, true, true, false, false]);
    }

    #[test]
    fn readings_off_with_another_code_is_no_change() {
        let mut sender = DigitSender::new();
        let other = DigitEntry { code: 9, ..off() };
        assert_eq!(sender.enter(&other), Ok(None));
        assert_eq!(sender.enter(&at(1, other)), Err(17));
        let any_code = DigitEntry { code: 255, ..off() };
        assert_eq!(sender.enter(&any_code), Ok(None));
        assert_eq!(sender, DigitSender::new());
    }

    #[test]
    fn readings_on_5_to_on_6_is_a_change() {
        let mut sender = DigitSender::new();
        sender.enter(&on(5)).unwrap();
        assert_eq!(sender.clone().enter(&at(9, on(5))), Err(17));
        let payload = sender.enter(&at(9, on(6))).unwrap().unwrap();
        assert_eq!(payload[2..6], [0x29, 6, 0x20, 5]);
    }

    #[test]
    fn readings_a_change_with_edge_0_is_a_change() {
        let payloads = sent(&[on(5), off(), off()]);
        assert!(payloads.iter().all(Option::is_some));
    }

    #[test]
    fn readings_a_refused_entry_is_no_period() {
        let mut sender = DigitSender::new();
        sender.enter(&on(5)).unwrap();
        sender.enter(&off()).unwrap();
        let before = sender.clone();
        for entry in [at(1, off()), at(20, on(1)), on(16)] {
            assert!(sender.enter(&entry).is_err());
            assert_eq!(sender, before);
        }
    }

    #[test]
    fn readings_15_also_in_a_period_that_would_not_be_sent() {
        let mut sender = DigitSender::new();
        assert_eq!(sender.enter(&at(20, off())), Err(15));
        let quiet = DigitEntry {
            level: -32,
            ..off()
        };
        assert_eq!(sender.enter(&quiet), Err(15));
        let least = DigitEntry {
            level: -31,
            ..off()
        };
        assert_eq!(sender.enter(&least), Ok(None));
    }

    #[test]
    fn fifteen_comes_before_17() {
        let mut sender = DigitSender::new();
        assert_eq!(sender.enter(&at(19, off())), Err(17));
        let low = DigitEntry {
            level: -32,
            ..at(19, off())
        };
        assert_eq!(sender.enter(&low), Err(15));
        assert_eq!(sender.enter(&at(20, off())), Err(15));
    }

    #[test]
    fn every_edge_code_and_level() {
        for value in 0..=255u8 {
            let mut sender = DigitSender::new();
            let wanted = if value > 19 { Err(15) } else { Ok(()) };
            assert_eq!(sender.enter(&at(value, on(1))).map(drop), wanted);
            let mut sender = DigitSender::new();
            let wanted = if value > 15 { Err(15) } else { Ok(()) };
            assert_eq!(sender.enter(&on(value)).map(drop), wanted);
            let mut sender = DigitSender::new();
            let level = value as i8;
            let wanted = if level < -31 { Err(15) } else { Ok(()) };
            let entry = DigitEntry { level, ..on(1) };
            assert_eq!(sender.enter(&entry).map(drop), wanted);
        }
    }

    #[test]
    fn readings_windows_go_by_sent_periods_not_by_the_clock() {
        let mut entries = vec![on(1), off(), off(), off(), off()];
        entries.extend([off(); 50]);
        entries.push(at(4, on(2)));
        let payloads = sent(&entries);
        assert!(payloads[5..55].iter().all(Option::is_none));
        assert_eq!(payloads[55], Some([5, 0, 0x24, 2, 0, 0, 0, 0]));
        // With fewer silent periods the old digit still stands in the windows.
        let payloads = sent(&[on(1), off(), on(2)]);
        assert_eq!(payloads[2], Some([2, 0, 0x20, 2, 0, 0, 0x20, 1]));
    }

    #[test]
    fn the_digit_count_goes_round_at_256() {
        let payloads = sent(&[on(1); 600]);
        for (index, payload) in payloads.iter().enumerate() {
            assert_eq!(usize::from(payload.unwrap()[0]), index % 256);
        }
    }

    /// Random digit entries that are taken: for each its window and level.
    fn random_digits(random: &mut Random, count: usize) -> Vec<DigitEntry> {
        let mut entries: Vec<DigitEntry> = Vec::new();
        let mut before = off();
        for _ in 0..count {
            let mut entry = match random.below(8) {
                0 => on(random.small(0, 15)),
                1 | 2 => off(),
                _ => before,
            };
            entry.edge = 0;
            let same = (entry.on, entry.code) == (before.on, before.code);
            if !same {
                entry.edge = random.small(0, 19);
            }
            entry.level = -(random.small(0, 31) as i8);
            before = entry;
            entries.push(entry);
        }
        entries
    }

    #[test]
    fn random_digit_runs_against_the_whole_history() {
        for seed in 0..200 {
            let random = &mut Random::new(seed);
            let entries = random_digits(random, 500);
            let state = |index: usize| entries[index].on.then_some(entries[index].code);
            let active = |index: usize| {
                let before = if index == 0 { None } else { state(index - 1) };
                state(index).is_some() || state(index) != before
            };
            let mut history: Vec<[u8; 2]> = vec![[0, 0], [0, 0]];
            let mut number = 0u8;
            for (index, payload) in sent(&entries).into_iter().enumerate() {
                let first = index.saturating_sub(3);
                let due = (first..=index).any(active);
                assert_eq!(payload.is_some(), due);
                let payload = match payload {
                    Some(payload) => payload,
                    None => continue,
                };
                let entry = entries[index];
                let code = if entry.on { entry.code } else { 0 };
                history.push([u8::from(entry.on) * 32 + entry.edge, code]);
                let count = history.len();
                assert_eq!(payload[0], number);
                assert_eq!(i16::from(payload[1]), -i16::from(entry.level));
                assert_eq!(payload[2..4], history[count - 1]);
                assert_eq!(payload[4..6], history[count - 2]);
                assert_eq!(payload[6..8], history[count - 3]);
                number = number.wrapping_add(1);
            }
        }
    }

    #[test]
    fn readings_samples_and_start_values_over_15_are_15() {
        for value in 0..=255u8 {
            let refused = SignallingSender::new(value).err();
            assert_eq!(refused, (value > 15).then_some(15));
        }
        let mut sender = SignallingSender::new(3).unwrap();
        let before = sender.clone();
        for place in 0..10 {
            let mut samples = [3; 10];
            samples[place] = 16;
            assert_eq!(sender.enter(&samples, true), Err(15));
            assert_eq!(sender, before);
        }
    }

    /// Which of some quiet periods from the start on are sent or repeated, with
    /// the number in the payload.
    fn quiet_run(count: usize) -> Vec<(usize, u8)> {
        let mut sender = SignallingSender::new(7).unwrap();
        let mut sent = Vec::new();
        for period in 1..=count {
            if let Some(payload) = sender.enter(&[7; 10], false).unwrap() {
                assert_eq!(payload[1..], [0x77; 15]);
                sent.push((period, payload[0]));
            }
        }
        sent
    }

    #[test]
    fn readings_quiet_is_counted_from_the_start_value_and_repeats_go_on_for_ever() {
        let mut wanted: Vec<(usize, u8)> = (1..=25).map(|it| (it, it as u8 - 1)).collect();
        wanted.extend((1..400).map(|it| (25 + 250 * it, 24)));
        assert_eq!(quiet_run(100_000), wanted);
        let places: Vec<usize> = quiet_run(800).iter().map(|it| it.0).collect();
        assert_eq!(places[24..], [25, 275, 525, 775]);
    }

    #[test]
    fn readings_a_repeat_changes_only_the_alarm_bit() {
        let mut sender = SignallingSender::new(0).unwrap();
        sender.enter(&[1; 10], true).unwrap();
        let mut last = None;
        for _ in 0..25 {
            last = sender.enter(&[1; 10], true).unwrap();
        }
        let last = last.unwrap();
        assert_eq!(last[0], 0x80 | 25);
        for alarm in [false, true, false, false] {
            for _ in 0..249 {
                assert_eq!(sender.enter(&[1; 10], !alarm), Ok(None));
            }
            let repeat = sender.enter(&[1; 10], alarm).unwrap().unwrap();
            assert_eq!(repeat[0], u8::from(alarm) << 7 | 25);
            assert_eq!(repeat[1..], last[1..]);
        }
    }

    #[test]
    fn after_a_quiet_run_the_numbers_go_on() {
        let mut sender = SignallingSender::new(0).unwrap();
        for _ in 0..400 {
            sender.enter(&[0; 10], false).unwrap();
        }
        let payload = sender.enter(&[0, 0, 0, 0, 0, 0, 0, 0, 0, 5], false);
        let mut wanted = [0; 16];
        wanted[0] = 25;
        wanted[15] = 0x50;
        assert_eq!(payload, Ok(Some(wanted)));
        // Its last sample is 5, so a period of 5 is quiet and one of 0 is not.
        let payload = sender.enter(&[5; 10], false).unwrap().unwrap();
        assert_eq!(payload[0], 26);
        assert_eq!(payload[6..11], [0, 0, 0, 0, 0x50]);
        assert_eq!(payload[11..], [0x55; 5]);
        assert_eq!(sender.quiet, 1);
    }

    #[test]
    fn one_sample_off_is_not_quiet() {
        for place in 0..10 {
            let mut sender = SignallingSender::new(0).unwrap();
            for _ in 0..30 {
                sender.enter(&[0; 10], false).unwrap();
            }
            let mut samples = [0; 10];
            samples[place] = 1;
            assert!(sender.enter(&samples, false).unwrap().is_some());
        }
    }

    #[test]
    fn a_change_of_the_alarm_alone_is_quiet() {
        let mut sender = SignallingSender::new(0).unwrap();
        for _ in 0..25 {
            assert!(sender.enter(&[0; 10], false).unwrap().is_some());
        }
        assert_eq!(sender.enter(&[0; 10], true), Ok(None));
    }

    #[test]
    fn the_signalling_count_goes_round_at_128() {
        let mut sender = SignallingSender::new(0).unwrap();
        for index in 0..400usize {
            let sample = 1 + (index % 2) as u8;
            let payload = sender.enter(&[sample; 10], true).unwrap().unwrap();
            assert_eq!(usize::from(payload[0]), 128 + index % 128);
        }
    }

    #[test]
    fn random_signalling_runs_against_the_whole_history() {
        for seed in 0..60 {
            let random = &mut Random::new(seed);
            let start = random.small(0, 15);
            let mut sender = SignallingSender::new(start).unwrap();
            let mut history: Vec<Samples> = vec![[start; 10]; 2];
            let (mut before, mut run, mut last) = (start, 0usize, Vec::new());
            let mut to_be_quiet = 0;
            for _ in 0..3000 {
                let mut samples = [before; 10];
                if to_be_quiet > 0 {
                    to_be_quiet -= 1;
                } else {
                    samples[random.below(10)] = random.small(0, 15);
                    to_be_quiet = random.pick(&[0, 0, 0, 1, 3, 24, 25, 26, 300, 600]);
                }
                let alarm = random.one_in(2);
                let quiet = samples == [before; 10];
                run = if quiet { run + 1 } else { 0 };
                before = samples[9];
                let payload = sender.enter(&samples, alarm).unwrap();
                if run <= 25 {
                    history.push(samples);
                    last = history[history.len() - 3..].concat();
                } else if !matches!(run, 275 | 525 | 775 | 1025) {
                    assert_eq!(payload, None);
                    continue;
                }
                let payload = signalling::read(&payload.unwrap()).unwrap();
                let number = (history.len() - 3) % 128;
                assert_eq!(usize::from(payload.sequence), number);
                assert_eq!(payload.alarm, alarm);
                assert_eq!(payload.samples[..], last);
            }
        }
    }
}
