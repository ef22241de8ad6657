//! Document 01, "Receivers"; document 02, wish 3, "Late payloads through a
//! tunnel"; FRF.11 sections A.4.2 and B.5.

use crate::payload::digits::{self, Window};
use crate::payload::signalling::{self, Signalling};
use crate::payload::Content;
use crate::refusal::{Refusal, OLDER_PAYLOAD};
use crate::senders::{Samples, PERIOD_SAMPLES};

/// The windows of a payload.
const WINDOWS: usize = 3;

/// A count of payloads: where it goes round, and the steps that are older.
struct Count {
    /// It goes round at this.
    modulus: u16,
    /// A payload of this step or more is taken as older (wish 3).
    older_from: u8,
}

/// The digit count: steps of 128 to 255 are older.
const DIGIT_COUNT: Count = Count {
    modulus: 256,
    older_from: 128,
};

/// The signalling count: steps of 64 to 127 are older.
const SIGNALLING_COUNT: Count = Count {
    modulus: 128,
    older_from: 64,
};

impl Count {
    /// The step from the last payload to a new one that is taken as fresh; no
    /// step where there was none before, as a first payload is never older. 19
    /// for an older payload.
    fn fresh_step(&self, new: u8, last: Option<u8>) -> Result<Option<u8>, Refusal> {
        let step = last.map(|last| step(new, last, self.modulus));
        match step {
            Some(step) if step >= self.older_from => Err(OLDER_PAYLOAD),
            _ => Ok(step),
        }
    }
}

/// How many periods a payload fills and how many it carries.
#[derive(Clone, Copy, Debug, PartialEq, Eq)]
struct Appends {
    filled: u8,
    carried: usize,
}

/// What a payload appends. No step: it is the first payload.
fn appends(step: Option<u8>) -> Appends {
    match step {
        None => Appends {
            filled: 0,
            carried: WINDOWS,
        },
        Some(step @ 0..=3) => Appends {
            filled: 0,
            carried: usize::from(step),
        },
        Some(step) => Appends {
            filled: step - 3,
            carried: WINDOWS,
        },
    }
}

/// New sequence minus last, modulo 256, 128 or, for fax, 16.
pub fn step(new: u8, last: u8, modulus: u16) -> u8 {
    let step = (u16::from(new) + modulus - u16::from(last)) % modulus;
    step as u8
}

/// The answer of the digit receiver; unused places are off.
#[derive(Clone, Copy, Debug, Default, PartialEq, Eq)]
pub struct DigitAnswer {
    /// The fill count.
    pub filled: u8,
    /// The fill content.
    pub with: Window,
    /// The carried count.
    pub carried: usize,
    /// The carried periods, oldest first, from place 0.
    pub periods: [Window; WINDOWS],
}

/// The digit receiver.
#[derive(Clone, Debug, Default, PartialEq, Eq)]
pub struct DigitReceiver {
    /// The sequence of the last payload that was taken, if there was one.
    last_sequence: Option<u8>,
    /// What a fill would hold: the last state with edge 0.
    fill: Window,
}

impl DigitReceiver {
    /// A receiver at its start.
    pub fn new() -> Self {
        DigitReceiver::default()
    }

    /// The sequence of the last payload that was taken, if there was one.
    pub fn last_sequence(&self) -> Option<u8> {
        self.last_sequence
    }

    /// Takes a digits payload: the refusal of its reading, then 19 for an older
    /// one, and then nothing changes; or the answer.
    pub fn accept(&mut self, payload: &[u8]) -> Result<DigitAnswer, Refusal> {
        let digits = digits::read(payload)?;
        let step = DIGIT_COUNT.fresh_step(digits.sequence, self.last_sequence)?;
        let Appends { filled, carried } = appends(step);
        let mut answer = DigitAnswer {
            filled,
            carried,
            ..DigitAnswer::default()
        };
        if filled > 0 {
            answer.with = self.fill;
        }
        for place in 0..carried {
            answer.periods[place] = digits.windows[carried - 1 - place];
        }
        if carried > 0 {
            self.last_sequence = Some(digits.sequence);
            self.fill = Window {
                edge: 0,
                ..digits.windows[0]
            };
        }
        Ok(answer)
    }

    /// An accepted type 0 voice payload ends a sounding tone: later fills are
    /// off until a carried period. Sequence and list stand.
    pub fn accept_voice(&mut self) {
        self.fill = Window::default();
    }

    /// Any accepted payload of the sub-channel that is not digits: only type 0
    /// of a voice syntax does anything.
    pub fn accept_other(&mut self, content: &Content) {
        if let Content::Voice(_) = content {
            self.accept_voice();
        }
    }
}

/// The answer of the signalling receiver; unused places are 0.
#[derive(Clone, Copy, Debug, Default, PartialEq, Eq)]
pub struct SignallingAnswer {
    /// The fill count.
    pub filled: u8,
    /// The fill content: each filled period is ten of this sample.
    pub with: u8,
    /// The carried count.
    pub carried: usize,
    /// The carried periods, oldest first, from place 0.
    pub periods: [Samples; WINDOWS],
}

/// The signalling receiver.
#[derive(Clone, Debug, Default, PartialEq, Eq)]
pub struct SignallingReceiver {
    /// The sequence of the last payload that was taken, if there was one.
    last_sequence: Option<u8>,
    /// The last sample of the record.
    last_sample: u8,
    /// The current value of the signalling bits.
    value: u8,
    /// The alarm.
    alarm: bool,
}

impl SignallingReceiver {
    /// A receiver at its start.
    pub fn new() -> Self {
        SignallingReceiver::default()
    }

    /// The current value.
    pub fn value(&self) -> u8 {
        self.value
    }

    /// The alarm.
    pub fn alarm(&self) -> bool {
        self.alarm
    }

    /// The sequence of the last payload that was taken, if there was one.
    pub fn last_sequence(&self) -> Option<u8> {
        self.last_sequence
    }

    /// Takes a signalling payload: the refusal of its reading, then 19 for an
    /// older one, and then nothing changes; or the answer.
    pub fn accept(&mut self, payload: &[u8]) -> Result<SignallingAnswer, Refusal> {
        let signalling = signalling::read(payload)?;
        let step = SIGNALLING_COUNT.fresh_step(signalling.sequence, self.last_sequence)?;
        let Appends { filled, carried } = appends(step);
        let mut answer = SignallingAnswer {
            filled,
            carried,
            ..SignallingAnswer::default()
        };
        if filled > 0 {
            answer.with = self.last_sample;
        }
        for place in 0..carried {
            answer.periods[place] = period(&signalling, WINDOWS - carried + place);
        }
        self.follow(&signalling, carried);
        Ok(answer)
    }

    /// The state after an accepted payload.
    fn follow(&mut self, signalling: &Signalling, carried: usize) {
        self.alarm = signalling.alarm;
        if carried == 0 {
            self.value = signalling.samples[0];
            return;
        }
        self.last_sequence = Some(signalling.sequence);
        self.last_sample = signalling.samples[signalling::SAMPLES - 1];
        self.value = self.last_sample;
    }
}

/// The ten samples of a period of a payload: 0 previous, 1 recent, 2 current.
fn period(signalling: &Signalling, index: usize) -> Samples {
    let mut samples = [0; PERIOD_SAMPLES];
    let first = index * PERIOD_SAMPLES;
    samples.copy_from_slice(&signalling.samples[first..first + PERIOD_SAMPLES]);
    samples
}

#[cfg(test)]
mod tests {
    use super::*;
    use crate::generate::Random;
    use crate::payload::digits::Digits;
    use crate::payload::fax::{Command, Fax};
    use crate::payload::sid::Sid;
    use crate::payload::voice::Voice;
    use crate::senders::{DigitEntry, DigitSender, SignallingSender};

    const OFF: Window = Window {
        digit_type: 0,
        edge: 0,
        code: 0,
    };

    fn on(code: u8, edge: u8) -> Window {
        Window {
            digit_type: 1,
            edge,
            code,
        }
    }

    /// A digits payload of three windows, current first.
    fn digits_payload(sequence: u8, windows: [Window; 3]) -> [u8; 8] {
        digits::write(&Digits {
            sequence,
            level: 0,
            windows,
        })
        .unwrap()
    }

    /// A digits payload whose windows tell previous, recent and current apart.
    fn digits_numbered(sequence: u8) -> [u8; 8] {
        digits_payload(sequence, [on(3, 3), on(2, 2), on(1, 1)])
    }

    /// A digit receiver that has taken a payload with a number.
    fn digits_at(last: u8) -> DigitReceiver {
        let mut receiver = DigitReceiver::new();
        let first = digits_payload(last, [on(9, 9), OFF, OFF]);
        receiver.accept(&first).unwrap();
        receiver
    }

    /// The fill count and the carried count of a payload with one number after
    /// one with another.
    fn digit_counts_after(last: u8, new: u8) -> Result<(u8, usize), Refusal> {
        let answer = digits_at(last).accept(&digits_numbered(new));
        answer.map(|it| (it.filled, it.carried))
    }

    /// A signalling payload of thirty samples, oldest first.
    fn signalling_payload(sequence: u8, alarm: bool, samples: [u8; 30]) -> [u8; 16] {
        signalling::write(&Signalling {
            alarm,
            sequence,
            samples,
        })
        .unwrap()
    }

    /// Samples that tell previous, recent and current apart.
    fn numbered_samples() -> [u8; 30] {
        let mut samples = [1; 30];
        samples[10..20].fill(2);
        samples[20..].fill(3);
        samples[0] = 11;
        samples[29] = 13;
        samples
    }

    /// A signalling receiver that has taken a payload of samples 9 with a number.
    fn signalling_at(last: u8) -> SignallingReceiver {
        let mut receiver = SignallingReceiver::new();
        let first = signalling_payload(last, false, [9; 30]);
        receiver.accept(&first).unwrap();
        receiver
    }

    /// The fill count and the carried count, as of digits.
    fn signalling_counts_after(last: u8, new: u8) -> Result<(u8, usize), Refusal> {
        let payload = signalling_payload(new, true, numbered_samples());
        let answer = signalling_at(last).accept(&payload);
        answer.map(|it| (it.filled, it.carried))
    }

    #[test]
    fn readings_the_first_payload_appends_three_and_never_fills() {
        for sequence in 0..=255 {
            let answer = DigitReceiver::new().accept(&digits_numbered(sequence));
            let answer = answer.unwrap();
            assert_eq!((answer.filled, answer.carried), (0, 3));
            assert_eq!(answer.periods, [on(1, 1), on(2, 2), on(3, 3)]);
        }
        for sequence in 0..128 {
            let payload = signalling_payload(sequence, false, numbered_samples());
            let answer = SignallingReceiver::new().accept(&payload).unwrap();
            assert_eq!((answer.filled, answer.carried), (0, 3));
            assert_eq!(answer.periods[2][9], 13);
        }
    }

    #[test]
    fn every_digit_step_from_every_number() {
        for last in 0..=255u8 {
            for step in 0..=255u8 {
                let mut receiver = digits_at(last);
                let answer = receiver.accept(&digits_numbered(last.wrapping_add(step)));
                let (filled, carried) = match step {
                    0..=3 => (0, usize::from(step)),
                    4..=127 => (step - 3, 3),
                    _ => {
                        assert_eq!(answer, Err(19));
                        assert_eq!(receiver, digits_at(last));
                        continue;
                    }
                };
                let answer = answer.unwrap();
                assert_eq!((answer.filled, answer.carried), (filled, carried));
                let with = if filled > 0 { on(9, 0) } else { OFF };
                assert_eq!(answer.with, with);
                let newest = [on(1, 1), on(2, 2), on(3, 3)];
                assert_eq!(answer.periods[..carried], newest[3 - carried..]);
                assert!(answer.periods[carried..].iter().all(|it| *it == OFF));
            }
        }
    }

    #[test]
    fn every_signalling_step_from_every_number() {
        for last in 0..128u8 {
            for step in 0..128u8 {
                let mut receiver = signalling_at(last);
                let new = (last + step) % 128;
                let payload = signalling_payload(new, true, numbered_samples());
                let answer = receiver.accept(&payload);
                let (filled, carried) = match step {
                    0..=3 => (0, usize::from(step)),
                    4..=63 => (step - 3, 3),
                    _ => {
                        assert_eq!(answer, Err(19));
                        assert_eq!(receiver, signalling_at(last));
                        continue;
                    }
                };
                let answer = answer.unwrap();
                assert_eq!((answer.filled, answer.carried), (filled, carried));
                assert_eq!(answer.with, if filled > 0 { 9 } else { 0 });
                let newest: Vec<Samples> = numbered_samples()
                    .chunks(10)
                    .map(|it| it.try_into().unwrap())
                    .collect();
                assert_eq!(answer.periods[..carried], newest[3 - carried..]);
                assert!(answer.periods[carried..].iter().all(|it| *it == [0; 10]));
                assert_eq!(receiver.value(), if step == 0 { 11 } else { 13 });
                assert!(receiver.alarm());
            }
        }
    }

    #[test]
    fn wraps_are_no_steps_backward() {
        assert_eq!(digit_counts_after(255, 0), Ok((0, 1)));
        assert_eq!(digit_counts_after(255, 1), Ok((0, 2)));
        assert_eq!(digit_counts_after(254, 2), Ok((1, 3)));
        assert_eq!(signalling_counts_after(127, 0), Ok((0, 1)));
    }

    #[test]
    fn wish_3_127_and_63_ahead_are_replayed_and_128_and_64_are_older() {
        for last in [0, 5, 100, 127, 128, 200, 255u8] {
            let ahead = |step| digit_counts_after(last, last.wrapping_add(step));
            assert_eq!(ahead(126), Ok((123, 3)));
            assert_eq!(ahead(127), Ok((124, 3)));
            assert_eq!(ahead(128), Err(19));
            assert_eq!(ahead(129), Err(19));
        }
        for last in [0, 5, 63, 64, 100, 127u8] {
            let ahead = |step| signalling_counts_after(last, (last + step) % 128);
            assert_eq!(ahead(62), Ok((59, 3)));
            assert_eq!(ahead(63), Ok((60, 3)));
            assert_eq!(ahead(64), Err(19));
            assert_eq!(ahead(65), Err(19));
        }
    }

    #[test]
    fn wish_3_128_and_64_behind_are_older_and_one_more_is_read_as_ahead() {
        for last in [0, 5, 100, 127, 128, 200, 255u8] {
            let behind = |back| digit_counts_after(last, last.wrapping_sub(back));
            assert_eq!(behind(1), Err(19));
            assert_eq!(behind(127), Err(19));
            assert_eq!(behind(128), Err(19));
            assert_eq!(behind(129), Ok((124, 3)));
        }
        for last in [0, 5, 63, 64, 100, 127u8] {
            let behind = |back| signalling_counts_after(last, (last + 128 - back) % 128);
            assert_eq!(behind(1), Err(19));
            assert_eq!(behind(63), Err(19));
            assert_eq!(behind(64), Err(19));
            assert_eq!(behind(65), Ok((60, 3)));
        }
    }

    #[test]
    fn wish_3_a_first_payload_is_never_older() {
        for sequence in 0..=255 {
            // Neither voice nor a refused payload is a first one.
            let mut receiver = DigitReceiver::new();
            receiver.accept_voice();
            assert_eq!(receiver.accept(&[0; 7]), Err(13));
            let answer = receiver.accept(&digits_numbered(sequence)).unwrap();
            assert_eq!((answer.filled, answer.carried), (0, 3));
        }
        for sequence in 0..128 {
            let mut receiver = SignallingReceiver::new();
            assert_eq!(receiver.accept(&[0; 15]), Err(13));
            let payload = signalling_payload(sequence, true, numbered_samples());
            let answer = receiver.accept(&payload).unwrap();
            assert_eq!((answer.filled, answer.carried), (0, 3));
        }
    }

    #[test]
    fn wish_3_tone_and_sequence_stand_on_19() {
        for voice in [false, true] {
            let mut receiver = digits_at(5);
            if voice {
                receiver.accept_voice();
            }
            let before = receiver.clone();
            for older in [4, 5 + 128, 5 + 200, 255] {
                let payload = digits_payload(older, [on(1, 1); 3]);
                assert_eq!(receiver.accept(&payload), Err(19));
                assert_eq!(receiver, before);
            }
            // The fill is the tone of 5, or off after voice.
            let answer = receiver.accept(&digits_numbered(10)).unwrap();
            let with = if voice { OFF } else { on(9, 0) };
            assert_eq!((answer.filled, answer.with, answer.carried), (2, with, 3));
        }
    }

    #[test]
    fn wish_3_alarm_value_and_sequence_stand_on_19() {
        for alarm in [false, true] {
            let mut receiver = SignallingReceiver::new();
            let payload = signalling_payload(5, alarm, numbered_samples());
            receiver.accept(&payload).unwrap();
            let before = receiver.clone();
            for older in [4, 5 + 64, 5 + 100, 127] {
                let payload = signalling_payload(older, !alarm, [6; 30]);
                assert_eq!(receiver.accept(&payload), Err(19));
                assert_eq!(receiver, before);
                assert_eq!((receiver.value(), receiver.alarm()), (13, alarm));
            }
            let answer = receiver.accept(&signalling_payload(10, alarm, [7; 30]));
            let answer = answer.unwrap();
            assert_eq!((answer.filled, answer.with, answer.carried), (2, 13, 3));
        }
    }

    #[test]
    fn wish_3_the_value_that_step_0_set_stands_on_19() {
        let mut receiver = signalling_at(5);
        let same = signalling_payload(5, true, numbered_samples());
        receiver.accept(&same).unwrap();
        let older = signalling_payload(4, false, [6; 30]);
        assert_eq!(receiver.accept(&older), Err(19));
        assert_eq!((receiver.value(), receiver.alarm()), (11, true));
    }

    #[test]
    fn wish_3_step_0_is_not_older_also_where_it_comes_late() {
        let mut receiver = digits_at(5);
        assert_eq!(receiver.accept(&digits_numbered(4)), Err(19));
        let answer = receiver.accept(&digits_numbered(5));
        assert_eq!(answer, Ok(DigitAnswer::default()));
        // A static repeat, then the original behind it: its alarm is followed.
        let mut receiver = signalling_at(4);
        let repeat = signalling_payload(5, true, numbered_samples());
        receiver.accept(&repeat).unwrap();
        let original = signalling_payload(5, false, numbered_samples());
        assert_eq!(receiver.accept(&original), Ok(SignallingAnswer::default()));
        assert_eq!((receiver.value(), receiver.alarm()), (11, false));
    }

    #[test]
    fn wish_3_13_14_and_15_come_before_19() {
        let mut receiver = digits_at(5);
        let older = digits_numbered(4);
        let with = |place: usize, octet: u8| {
            let mut payload = older;
            payload[place] = octet;
            payload
        };
        assert_eq!(receiver.accept(&older[..7]), Err(13));
        assert_eq!(receiver.accept(&[4; 9]), Err(13));
        assert_eq!(receiver.accept(&with(1, 0x80)), Err(14));
        assert_eq!(receiver.accept(&with(2, 0x40)), Err(14));
        assert_eq!(receiver.accept(&with(7, 0x20)), Err(14));
        assert_eq!(receiver.accept(&with(2, 0x20 + 20)), Err(15));
        assert_eq!(receiver.accept(&with(3, 16)), Err(15));
        assert_eq!(receiver.accept(&older), Err(19));
        assert_eq!(receiver, digits_at(5));
        let mut receiver = signalling_at(5);
        let older = signalling_payload(4, true, [6; 30]);
        assert_eq!(receiver.accept(&older[..15]), Err(13));
        assert_eq!(receiver.accept(&[4; 17]), Err(13));
        assert_eq!(receiver.accept(&older), Err(19));
        assert_eq!(receiver, signalling_at(5));
    }

    #[test]
    fn wish_3_reading_never_gives_19() {
        // Only a receiver knows what is older.
        for sequence in 0..=255 {
            assert!(digits::read(&digits_numbered(sequence)).is_ok());
            assert!(signalling::read(&[sequence; 16]).is_ok());
        }
    }

    #[test]
    fn digit_step_0_changes_nothing() {
        let mut receiver = DigitReceiver::new();
        receiver.accept(&digits_numbered(7)).unwrap();
        let before = receiver.clone();
        let other = digits_payload(7, [OFF, on(9, 9), OFF]);
        let answer = receiver.accept(&other).unwrap();
        assert_eq!(answer, DigitAnswer::default());
        assert_eq!(receiver, before);
    }

    #[test]
    fn readings_signalling_step_0_sets_value_and_alarm_and_fills_use_the_record() {
        let mut receiver = SignallingReceiver::new();
        receiver
            .accept(&signalling_payload(5, false, [4; 30]))
            .unwrap();
        let mut samples = [6; 30];
        samples[0] = 12;
        let answer = receiver.accept(&signalling_payload(5, true, samples));
        assert_eq!(answer, Ok(SignallingAnswer::default()));
        assert_eq!((receiver.value(), receiver.alarm()), (12, true));
        let answer = receiver.accept(&signalling_payload(10, false, [7; 30]));
        let answer = answer.unwrap();
        assert_eq!((answer.filled, answer.with), (2, 4));
        assert_eq!((receiver.value(), receiver.alarm()), (7, false));
    }

    #[test]
    fn value_and_alarm_start_at_0() {
        let receiver = SignallingReceiver::new();
        assert_eq!((receiver.value(), receiver.alarm()), (0, false));
    }

    #[test]
    fn a_refused_payload_changes_nothing() {
        let mut receiver = DigitReceiver::new();
        receiver.accept(&digits_numbered(7)).unwrap();
        let before = receiver.clone();
        assert_eq!(receiver.accept(&[0; 7]), Err(13));
        assert_eq!(receiver.accept(&[8, 0x80, 0, 0, 0, 0, 0, 0]), Err(14));
        assert_eq!(receiver.accept(&[8, 0, 31, 0, 0, 0, 0, 0]), Err(15));
        assert_eq!(receiver, before);
        let mut receiver = SignallingReceiver::new();
        let payload = signalling_payload(5, true, [4; 30]);
        receiver.accept(&payload).unwrap();
        let before = receiver.clone();
        assert_eq!(receiver.accept(&payload[..15]), Err(13));
        assert_eq!(receiver.accept(&[0; 17]), Err(13));
        assert_eq!(receiver, before);
    }

    #[test]
    fn readings_voice_makes_later_fills_off_until_a_carried_period() {
        let mut receiver = DigitReceiver::new();
        receiver.accept(&digits_numbered(0)).unwrap();
        receiver.accept_voice();
        // Sequence and list stand; a payload of step 0 carries nothing.
        assert_eq!(receiver.accept(&digits_numbered(0)).unwrap().carried, 0);
        let answer = receiver.accept(&digits_numbered(5)).unwrap();
        assert_eq!((answer.filled, answer.with, answer.carried), (2, OFF, 3));
        // A carried period came: the next fill repeats it.
        let answer = receiver.accept(&digits_numbered(10)).unwrap();
        assert_eq!((answer.filled, answer.with), (2, on(3, 0)));
        receiver.accept_voice();
        receiver.accept(&digits_numbered(11)).unwrap();
        let answer = receiver.accept(&digits_numbered(20)).unwrap();
        assert_eq!((answer.filled, answer.with), (6, on(3, 0)));
    }

    #[test]
    fn voice_before_the_first_payload_does_nothing() {
        let mut receiver = DigitReceiver::new();
        receiver.accept_voice();
        assert_eq!(receiver, DigitReceiver::new());
    }

    #[test]
    fn readings_only_type_0_of_a_voice_syntax_ends_a_tone() {
        let mut receiver = DigitReceiver::new();
        receiver.accept(&digits_numbered(0)).unwrap();
        let before = receiver.clone();
        let noise_level = -3;
        let sids = [
            Sid::Empty,
            Sid::Noise {
                sequence: 0,
                noise_level,
            },
        ];
        for sid in sids {
            receiver.accept_other(&Content::Sid(sid));
        }
        receiver.accept_other(&Content::Fax(Fax {
            sequence: 0,
            stamp: Some(0),
            command: Command::Off,
            body: &[],
        }));
        assert_eq!(receiver, before);
        receiver.accept_other(&Content::Voice(Voice {
            sequence: 0,
            coding_type: 0,
            body: &[],
        }));
        assert_ne!(receiver, before);
        assert_eq!(receiver.accept(&digits_numbered(9)).unwrap().with, OFF);
    }

    #[test]
    fn a_fill_has_edge_0_and_an_off_fill_code_0() {
        let mut receiver = DigitReceiver::new();
        let off_with_edge = Window { edge: 12, ..OFF };
        let payload = digits_payload(0, [off_with_edge, on(5, 0), on(5, 3)]);
        receiver.accept(&payload).unwrap();
        assert_eq!(receiver.accept(&digits_numbered(9)).unwrap().with, OFF);
    }

    /// One period of a record as a receiver has it.
    #[derive(Clone, Copy, Debug, PartialEq, Eq)]
    enum Period<T> {
        Filled(T),
        Carried(T),
    }

    /// Random entries for the digit sender: all that is sent, payload by payload.
    fn digits_sent(random: &mut Random, count: usize) -> Vec<[u8; 8]> {
        let mut sender = DigitSender::new();
        let mut payloads = Vec::new();
        let mut state = None;
        while payloads.len() < count {
            let next = match random.below(6) {
                0 => None,
                1 => Some(random.small(0, 15)),
                _ => state,
            };
            let edge = if next == state {
                0
            } else {
                random.small(0, 19)
            };
            state = next;
            let entry = DigitEntry {
                on: state.is_some(),
                code: state.unwrap_or(0),
                edge,
                level: -5,
            };
            payloads.extend(sender.enter(&entry).unwrap());
        }
        payloads
    }

    /// Which of so many payloads arrive: bursts are lost, but from one arrival
    /// to the next there is never a step over the most.
    fn arrivals(random: &mut Random, count: usize, most: usize) -> Vec<bool> {
        let mut arrived = vec![false; count];
        let mut next = random.below(10);
        while next < count {
            arrived[next] = true;
            next += match random.below(12) {
                0 => random.between(1, most),
                1 => most,
                2 | 3 => random.between(1, 12),
                4 => random.between(3, 5),
                _ => random.between(1, 3),
            };
        }
        arrived
    }

    /// Demand 3 for arrivals in order, restated: from two before the first arrival to the last one, a
    /// period is carried exactly when its own payload or one of the next two
    /// arrived, and then holds what the sender put there; else it is a fill.
    fn wanted<T: Copy>(
        sent: &[T],
        start: T,
        arrived: &[bool],
        fill: impl Fn(T) -> T,
    ) -> Vec<Period<T>> {
        let first = match arrived.iter().position(|it| *it) {
            Some(first) => first,
            None => return Vec::new(),
        };
        let last = arrived.iter().rposition(|it| *it).unwrap();
        let mut record = Vec::new();
        let mut state = start;
        for place in first as isize - 2..=last as isize {
            let came = |it: isize| it >= 0 && arrived.get(it as usize) == Some(&true);
            let put = if place < 0 {
                start
            } else {
                sent[place as usize]
            };
            if (place..=place + 2).any(came) {
                state = fill(put);
                record.push(Period::Carried(put));
            } else {
                record.push(Period::Filled(state));
            }
        }
        record
    }

    /// Appends the answer of a digit receiver to its record.
    fn append_digits(record: &mut Vec<Period<Window>>, answer: &DigitAnswer) {
        for _ in 0..answer.filled {
            record.push(Period::Filled(answer.with));
        }
        for window in &answer.periods[..answer.carried] {
            record.push(Period::Carried(*window));
        }
    }

    /// Appends the answer of a signalling receiver to its record.
    fn append_samples(record: &mut Vec<Period<Samples>>, answer: &SignallingAnswer) {
        for _ in 0..answer.filled {
            record.push(Period::Filled([answer.with; 10]));
        }
        for samples in &answer.periods[..answer.carried] {
            record.push(Period::Carried(*samples));
        }
    }

    /// The record of a digit receiver that gets what arrives.
    fn digit_record(payloads: &[[u8; 8]], arrived: &[bool]) -> Vec<Period<Window>> {
        let mut receiver = DigitReceiver::new();
        let mut record = Vec::new();
        for (payload, _) in payloads.iter().zip(arrived).filter(|it| *it.1) {
            append_digits(&mut record, &receiver.accept(payload).unwrap());
        }
        record
    }

    /// The record of a digit receiver that gets payloads in some order, and which
    /// of them it takes as older.
    fn digits_in_order(payloads: &[[u8; 8]], order: &[usize]) -> (Vec<Period<Window>>, Vec<usize>) {
        let mut receiver = DigitReceiver::new();
        let (mut record, mut older) = (Vec::new(), Vec::new());
        for place in order {
            match receiver.accept(&payloads[*place]) {
                Ok(answer) => append_digits(&mut record, &answer),
                Err(number) => {
                    assert_eq!(number, 19);
                    older.push(*place);
                }
            }
        }
        (record, older)
    }

    /// The same of a signalling receiver.
    fn samples_in_order(
        payloads: &[(usize, [u8; 16])],
        order: &[usize],
    ) -> (Vec<Period<Samples>>, Vec<usize>) {
        let mut receiver = SignallingReceiver::new();
        let (mut record, mut older) = (Vec::new(), Vec::new());
        for place in order {
            match receiver.accept(&payloads[*place].1) {
                Ok(answer) => append_samples(&mut record, &answer),
                Err(number) => {
                    assert_eq!(number, 19);
                    older.push(*place);
                }
            }
        }
        (record, older)
    }

    #[test]
    fn wish_3_0_1_3_2_4_has_the_record_of_0_1_3_4() {
        for seed in 0..50 {
            let random = &mut Random::new(seed);
            let payloads = digits_sent(random, 10);
            let (record, older) = digits_in_order(&payloads, &[0, 1, 3, 2, 4]);
            assert_eq!(older, [2]);
            assert_eq!(record, digits_in_order(&payloads, &[0, 1, 3, 4]).0);
            // All seven periods, from two before the first on, are carried.
            let carried = |it: &Period<Window>| matches!(it, Period::Carried(_));
            assert_eq!(record.iter().filter(|it| carried(it)).count(), 7);
            let payloads = signalling_sent(random, 3, 10);
            let (record, older) = samples_in_order(&payloads, &[0, 1, 3, 2, 4]);
            assert_eq!((record.len(), older), (7, vec![2]));
            assert_eq!(record, samples_in_order(&payloads, &[0, 1, 3, 4]).0);
        }
    }

    #[test]
    fn wish_3_more_arrivals_need_not_carry_more() {
        let carried = |record: &[Period<Window>]| {
            let marks = record.iter().map(|it| matches!(it, Period::Carried(_)));
            let places = marks.enumerate().filter(|it| it.1);
            places.map(|it| it.0).collect::<Vec<usize>>()
        };
        let payloads = digits_sent(&mut Random::new(1), 10);
        // Places of the record, the first two standing before payload 0.
        let (first, older) = digits_in_order(&payloads, &[0, 5]);
        assert_eq!(carried(&first), [0, 1, 2, 5, 6, 7]);
        assert_eq!((first.len(), older), (8, vec![]));
        let (second, older) = digits_in_order(&payloads, &[0, 9, 5]);
        assert_eq!(carried(&second), [0, 1, 2, 9, 10, 11]);
        assert_eq!((second.len(), older), (12, vec![5]));
        let payloads = signalling_sent(&mut Random::new(1), 3, 10);
        let (first, older) = samples_in_order(&payloads, &[0, 5]);
        assert_eq!((first.len(), older), (8, vec![]));
        let (second, older) = samples_in_order(&payloads, &[0, 9, 5]);
        assert_eq!((second.len(), older), (12, vec![5]));
        assert!(second[3..9]
            .iter()
            .all(|it| matches!(it, Period::Filled(_))));
    }

    #[test]
    fn demand_3_digits() {
        for seed in 0..300 {
            let random = &mut Random::new(seed);
            let payloads = digits_sent(random, 1500);
            let arrived = arrivals(random, payloads.len(), 127);
            let own = |it: &[u8; 8]| digits::read(it).unwrap().windows[0];
            let sent: Vec<Window> = payloads.iter().map(own).collect();
            let fill = |it: Window| Window { edge: 0, ..it };
            let wanted = wanted(&sent, OFF, &arrived, fill);
            assert_eq!(digit_record(&payloads, &arrived), wanted, "seed {seed}");
        }
    }

    /// Random periods for the signalling sender: what is sent, and for each
    /// payload the place of its period among the sent ones (a repeat has the
    /// place of the last).
    fn signalling_sent(random: &mut Random, start: u8, count: usize) -> Vec<(usize, [u8; 16])> {
        let mut sender = SignallingSender::new(start).unwrap();
        let mut payloads: Vec<(usize, [u8; 16])> = Vec::new();
        let (mut sample, mut quiet, mut place) = (start, 0, 0);
        let mut number = None;
        while place < count {
            let mut samples = [sample; 10];
            if quiet > 0 {
                quiet -= 1;
            } else {
                samples[random.below(10)] = random.small(0, 15);
                quiet = random.pick(&[0, 0, 0, 0, 1, 2, 30, 300, 600]);
            }
            sample = samples[9];
            let alarm = random.one_in(2);
            let payload = match sender.enter(&samples, alarm).unwrap() {
                Some(payload) => payload,
                None => continue,
            };
            let repeat = number == Some(payload[0] & 127);
            number = Some(payload[0] & 127);
            if !repeat && !payloads.is_empty() {
                place += 1;
            }
            payloads.push((place, payload));
        }
        payloads
    }

    #[test]
    fn demand_3_signalling() {
        for seed in 0..200 {
            let random = &mut Random::new(seed);
            let start = random.small(0, 15);
            let payloads = signalling_sent(random, start, 800);
            let count = payloads.last().unwrap().0 + 1;
            // A period's payload arrives when it or a repeat of it does.
            let arrived = arrivals(random, count, 63);
            let mut sent = vec![[0; 10]; count];
            let mut receiver = SignallingReceiver::new();
            let mut record = Vec::new();
            for (place, payload) in &payloads {
                let signalling = signalling::read(payload).unwrap();
                sent[*place] = period(&signalling, 2);
                if !arrived[*place] {
                    continue;
                }
                append_samples(&mut record, &receiver.accept(payload).unwrap());
                assert_eq!(receiver.alarm(), signalling.alarm);
                assert_eq!(receiver.value(), signalling.samples[29]);
            }
            let wanted = wanted(&sent, [start; 10], &arrived, |it| [it[9]; 10]);
            assert_eq!(record, wanted, "seed {seed}");
        }
    }

    #[test]
    fn one_that_gets_more_carries_all_that_the_other_carries() {
        for seed in 0..200 {
            let random = &mut Random::new(seed);
            let payloads = digits_sent(random, 600);
            let fewer = arrivals(random, payloads.len(), 100);
            let more: Vec<bool> = fewer.iter().map(|it| *it || random.one_in(3)).collect();
            let (small, large) = (
                digit_record(&payloads, &fewer),
                digit_record(&payloads, &more),
            );
            let first = |it: &[bool]| it.iter().position(|it| *it).unwrap();
            let shift = first(&fewer) - first(&more);
            for (place, period) in small.iter().enumerate() {
                if let Period::Carried(_) = period {
                    assert_eq!(large[place + shift], *period);
                }
            }
        }
    }

    #[test]
    fn voice_in_between_changes_only_fills_to_off() {
        for seed in 0..200 {
            let random = &mut Random::new(seed);
            let payloads = digits_sent(random, 800);
            let arrived = arrivals(random, payloads.len(), 127);
            let mut plain = DigitReceiver::new();
            let mut with_voice = DigitReceiver::new();
            for (payload, arrives) in payloads.iter().zip(&arrived) {
                let voice = random.one_in(20);
                if voice {
                    with_voice.accept_voice();
                }
                if !arrives {
                    continue;
                }
                let ended = with_voice.fill == OFF;
                let (one, mut other) = (
                    plain.accept(payload).unwrap(),
                    with_voice.accept(payload).unwrap(),
                );
                if ended {
                    assert_eq!(other.with, OFF);
                    other.with = one.with;
                }
                assert_eq!(one, other);
            }
        }
    }
}
