//! Document 02, wish 1, "Fax at the far end": the fax replay over the payloads
//! of one sub-channel; FRF.11 sections D.3 and D.4.

use crate::payload::fax::{self, Command, Fax};
use crate::receivers::step;
use crate::refusal::*;

/// The sequence number has four bits.
const MODULUS: u16 = 16;
/// The octets of a payload under HDLC: the newest and its two predecessors.
const HDLC_OCTETS: usize = 3;
/// The octets of a T.4 payload, by modulation (FRF.11 figures D - 5 and D - 7).
/// A single frequency tone and V.21 have none.
const T4_OCTETS: [usize; 12] = [0, 0, 12, 24, 36, 48, 60, 72, 36, 48, 60, 72];

/// What an accepted payload did, after its octets were handed on.
#[derive(Clone, Copy, Debug, Default, PartialEq, Eq)]
pub enum Did {
    /// Nothing: a repeat, or off with none on.
    #[default]
    Nothing,
    /// A modulation began.
    Began {
        /// HDLC de-framing is applied.
        hdlc: bool,
        /// 0 to 11.
        modulation: u8,
        /// In Hz, 0 unless the modulation is 0.
        frequency: u16,
        /// When, in ms.
        stamp: u16,
    },
    /// The modulation stopped.
    Stopped {
        /// When, in ms.
        stamp: u16,
    },
    /// Data was taken, and perhaps added some octets.
    Added,
    /// An HDLC frame ended.
    Ended,
    /// An HDLC frame was aborted.
    Aborted,
}

/// The answer of the fax replay.
#[derive(Clone, Debug, Default, PartialEq, Eq)]
pub struct FaxAnswer {
    /// Something before this payload was lost: reported before its octets.
    pub gap: bool,
    /// The octets handed on, oldest first, at most 72.
    pub octets: Vec<u8>,
    /// What the payload did.
    pub did: Did,
}

/// The modulation that is on.
#[derive(Clone, Copy, Debug, PartialEq, Eq)]
struct InForce {
    hdlc: bool,
    modulation: u8,
}

impl InForce {
    /// The octets that a data payload must have; 0 takes none at all.
    fn data_octets(self) -> usize {
        match self.hdlc {
            true => HDLC_OCTETS,
            false => T4_OCTETS[usize::from(self.modulation)],
        }
    }
}

/// What is kept of the payload taken just before: a repeat has the same.
#[derive(Clone, Copy, Debug, PartialEq, Eq)]
struct Taken {
    /// The number of the command.
    command: u8,
    sequence: u8,
    stamp: Option<u16>,
}

/// The fax replay of one sub-channel.
#[derive(Clone, Debug, Default, PartialEq, Eq)]
pub struct FaxReplay {
    /// The modulation that is on, if one is.
    in_force: Option<InForce>,
    /// The payload taken just before, if there was one. Refused payloads,
    /// repeats and an off with none on are not taken.
    before: Option<Taken>,
}

impl FaxReplay {
    /// A replay at its start: no modulation is on.
    pub fn new() -> Self {
        FaxReplay::default()
    }

    /// Takes a fax payload: the refusal of its reading, 41, 42, or the answer.
    /// A refusal changes nothing.
    pub fn accept(&mut self, payload: &[u8]) -> Result<FaxAnswer, Refusal> {
        let fax = fax::read(payload)?;
        self.check(&fax)?;
        let taken = Taken {
            command: fax::number_of(&fax.command),
            sequence: fax.sequence,
            stamp: fax.stamp,
        };
        let repeat = fax.command != Command::Data && self.before == Some(taken);
        let idle_off = fax.command == Command::Off && self.in_force.is_none();
        if repeat || idle_off {
            return Ok(FaxAnswer::default());
        }
        let answer = self.act(&fax);
        self.before = Some(taken);
        Ok(answer)
    }

    /// 41, then 42. Off and on are taken at any time.
    fn check(&self, fax: &Fax) -> Result<(), Refusal> {
        if let Command::Off | Command::On { .. } = fax.command {
            return Ok(());
        }
        let in_force = self.in_force.ok_or(NO_MODULATION_ON)?;
        let right = match fax.command {
            Command::Data => fax.body.len() == in_force.data_octets(),
            _ => in_force.hdlc,
        };
        if right {
            Ok(())
        } else {
            Err(AGAINST_MODULATION)
        }
    }

    /// What a payload does that is no repeat, and no off with none on.
    fn act(&mut self, fax: &Fax) -> FaxAnswer {
        let (gap, count) = self.gap_and_count(fax);
        // The newest octet stands first.
        let octets = fax.body[..count].iter().rev().copied().collect();
        // The reader takes off and on with a stamp alone.
        let stamp = fax.stamp.unwrap_or_default();
        let did = match fax.command {
            Command::Off => {
                self.in_force = None;
                Did::Stopped { stamp }
            }
            Command::On {
                hdlc,
                modulation,
                frequency,
            } => {
                self.in_force = Some(InForce { hdlc, modulation });
                Did::Began {
                    hdlc,
                    modulation,
                    frequency,
                    stamp,
                }
            }
            Command::Data => Did::Added,
            Command::EndOfFrame => Did::Ended,
            Command::Abort => Did::Aborted,
        };
        FaxAnswer { gap, octets, did }
    }

    /// Whether a payload's step shows a gap, and how many of its octets, the
    /// newest, are handed on.
    fn gap_and_count(&self, fax: &Fax) -> (bool, usize) {
        let step = match self.before {
            Some(before) => step(fax.sequence, before.sequence, MODULUS),
            None => 0,
        };
        let hdlc = self.in_force.map_or(false, |it| it.hdlc);
        let new = usize::from(step);
        match fax.command {
            // The number begins anew: there is no step.
            Command::On { .. } => (false, 0),
            Command::Off => (step > 1, 0),
            Command::Data if hdlc => (step > 3, new.min(HDLC_OCTETS)),
            Command::Data if step == 0 => (false, 0),
            Command::Data => (step > 1, fax.body.len()),
            // It has a number of its own, but no octet of its own.
            Command::EndOfFrame | Command::Abort => {
                (step > 4, new.saturating_sub(1).min(HDLC_OCTETS))
            }
        }
    }
}

#[cfg(test)]
mod tests {
    use super::*;
    use crate::generate::fax_calls::{arriving, call, HdlcFrame, Losses, Page, Run, Sent};
    use crate::generate::Random;
    use crate::hex;

    /// Every length that a data payload may have.
    const DATA_LENGTHS: [usize; 7] = [3, 12, 24, 36, 48, 60, 72];

    /// The octets of hex, blanks allowed.
    fn octets(text: &str) -> Vec<u8> {
        hex::read(text.replace(' ', "").as_bytes()).unwrap()
    }

    /// An answer in words: `(41)`, `nothing`, `gap 424344 ended`.
    fn told(answer: &Result<FaxAnswer, Refusal>) -> String {
        let answer = match answer {
            Ok(answer) => answer,
            Err(number) => return format!("({number})"),
        };
        let mut words = Vec::new();
        if answer.gap {
            words.push("gap".to_string());
        }
        if !answer.octets.is_empty() {
            words.push(hex::write(&answer.octets));
        }
        words.push(match answer.did {
            Did::Nothing => "nothing".to_string(),
            Did::Began {
                hdlc,
                modulation,
                frequency,
                stamp,
            } => {
                let hdlc = u8::from(hdlc);
                format!("began {hdlc} {modulation} {frequency} {stamp}")
            }
            Did::Stopped { stamp } => format!("stopped {stamp}"),
            Did::Added => "added".to_string(),
            Did::Ended => "ended".to_string(),
            Did::Aborted => "aborted".to_string(),
        });
        words.join(" ")
    }

    /// What a fresh replay answers to payloads in hex.
    fn replayed(payloads: &[&str]) -> Vec<String> {
        let mut replay = FaxReplay::new();
        let answer = |it: &&str| told(&replay.accept(&octets(it)));
        payloads.iter().map(answer).collect()
    }

    /// The last of the answers.
    fn last_of(payloads: &[&str]) -> String {
        replayed(payloads).pop().unwrap()
    }

    /// A payload from its values.
    fn payload(command: Command, sequence: u8, stamp: Option<u16>, body: &[u8]) -> Vec<u8> {
        fax::write(&Fax {
            sequence: sequence % 16,
            stamp,
            command,
            body,
        })
        .unwrap()
    }

    /// Modulation on at stamp 1000.
    fn on(sequence: u8, hdlc: bool, modulation: u8) -> Vec<u8> {
        let command = Command::On {
            hdlc,
            modulation,
            frequency: 0,
        };
        payload(command, sequence, Some(1000), &[])
    }

    /// The answer to a payload after an on.
    fn after_on(on: &[u8], payload: &[u8]) -> Result<FaxAnswer, Refusal> {
        let mut replay = FaxReplay::new();
        replay.accept(on).unwrap();
        replay.accept(payload)
    }

    /// V.21 with HDLC at 1000 ms, number 0 (bench example 12), and its answer.
    const ON: &str = "81e803810000";
    const BEGAN: &str = "began 1 1 0 1000";

    #[test]
    fn worked_by_hand_nothing_lost() {
        let close = "23434241";
        let off = "a8dc05";
        let sent = [
            ON, ON, ON, "0a41ffff", "124241ff", "1a434241", close, close, close, off, off, off,
        ];
        let wanted = [
            BEGAN,
            "nothing",
            "nothing",
            "41 added",
            "42 added",
            "43 added",
            "ended",
            "nothing",
            "nothing",
            "stopped 1500",
            "nothing",
            "nothing",
        ];
        assert_eq!(replayed(&sent), wanted);
    }

    #[test]
    fn worked_by_hand_bearable_losses() {
        let sent = [ON, "1a434241", "23434241", "a8dc05"];
        let wanted = [BEGAN, "414243 added", "ended", "stopped 1500"];
        assert_eq!(replayed(&sent), wanted);
        let sent = [ON, "0a41ffff", "23434241", "a8dc05"];
        let wanted = [BEGAN, "41 added", "4243 ended", "stopped 1500"];
        assert_eq!(replayed(&sent), wanted);
    }

    #[test]
    fn worked_by_hand_gaps() {
        let sent = [ON, "22444342", "2b444342", "b0dc05"];
        let wanted = [BEGAN, "gap 424344 added", "ended", "stopped 1500"];
        assert_eq!(replayed(&sent), wanted);
        let sent = [ON, "2b444342", "b0dc05"];
        let wanted = [BEGAN, "gap 424344 ended", "stopped 1500"];
        assert_eq!(replayed(&sent), wanted);
    }

    #[test]
    fn worked_by_hand_refusals() {
        let twelve = "0a 0c0b0a090807060504030201";
        let sent = [
            "0a41ffff",
            "23434241",
            "a8dc05",
            ON,
            twelve,
            "81e903020000",
            "0a41ffff",
            "23434241",
        ];
        let wanted = [
            "(41)",
            "(41)",
            "nothing",
            BEGAN,
            "(42)",
            "began 0 2 0 1001",
            "(42)",
            "(42)",
        ];
        assert_eq!(replayed(&sent), wanted);
        // 1,100 Hz.
        let sent = ["81e803004c04", "0a41ffff", "88dc05"];
        let wanted = ["began 0 0 1100 1000", "(42)", "stopped 1500"];
        assert_eq!(replayed(&sent), wanted);
    }

    #[test]
    fn worked_by_hand_a_t4_page() {
        let sent = [
            "81e803020000",
            "0a 0c0b0a090807060504030201",
            "0a eeeeeeeeeeeeeeeeeeeeeeee",
            "1a 1817161514131211100f0e0d",
            "a0dc05",
        ];
        let wanted = [
            "began 0 2 0 1000",
            "0102030405060708090a0b0c added",
            "added",
            "gap 0d0e0f101112131415161718 added",
            "stopped 1500",
        ];
        assert_eq!(replayed(&sent), wanted);
    }

    #[test]
    fn worked_by_hand_repeats() {
        let sent = [ON, "0a41ffff", "1341ffff", "93640041ffff", "a0dc05"];
        let wanted = [BEGAN, "41 added", "ended", "ended", "gap stopped 1500"];
        assert_eq!(replayed(&sent), wanted);
        // The modulation of a repeat is not looked at.
        let sent = [ON, "81e803020000", "0a41ffff"];
        assert_eq!(replayed(&sent), [BEGAN, "nothing", "41 added"]);
    }

    #[test]
    fn every_step_of_hdlc_data_from_every_number() {
        for last in 0..16 {
            for step in 0..16 {
                let data = payload(Command::Data, last + step, None, &[3, 2, 1]);
                let answer = told(&after_on(&on(last, true, 1), &data));
                let wanted = match step {
                    0 => "added",
                    1 => "03 added",
                    2 => "0203 added",
                    3 => "010203 added",
                    _ => "gap 010203 added",
                };
                assert_eq!(answer, wanted, "{last} and {step}");
            }
        }
    }

    #[test]
    fn every_step_of_a_closing_from_every_number() {
        let closings = [(Command::EndOfFrame, "ended"), (Command::Abort, "aborted")];
        for (command, did) in closings {
            for last in 0..16 {
                for step in 0..16 {
                    let closing = payload(command, last + step, None, &[3, 2, 1]);
                    let answer = told(&after_on(&on(last, true, 1), &closing));
                    let before = match step {
                        0 | 1 => "",
                        2 => "03 ",
                        3 => "0203 ",
                        4 => "010203 ",
                        _ => "gap 010203 ",
                    };
                    assert_eq!(answer, format!("{before}{did}"), "{last} and {step}");
                }
            }
        }
    }

    #[test]
    fn every_step_of_t4_data_from_every_number() {
        let body: Vec<u8> = (1..=12).rev().collect();
        let page = "0102030405060708090a0b0c";
        for last in 0..16 {
            for step in 0..16 {
                let data = payload(Command::Data, last + step, None, &body);
                let answer = told(&after_on(&on(last, false, 2), &data));
                let wanted = match step {
                    0 => "added".to_string(),
                    1 => format!("{page} added"),
                    _ => format!("gap {page} added"),
                };
                assert_eq!(answer, wanted, "{last} and {step}");
            }
        }
    }

    #[test]
    fn every_step_of_off_from_every_number() {
        for (hdlc, modulation) in [(true, 1), (true, 0), (false, 0), (false, 1), (false, 7)] {
            for last in 0..16 {
                for step in 0..16 {
                    let off = payload(Command::Off, last + step, Some(7), &[]);
                    let answer = told(&after_on(&on(last, hdlc, modulation), &off));
                    let wanted = match step {
                        0 | 1 => "stopped 7",
                        _ => "gap stopped 7",
                    };
                    assert_eq!(answer, wanted, "{last} and {step}");
                }
            }
        }
    }

    #[test]
    fn a_step_counts_from_any_payload_taken_just_before() {
        // From data, from an end of frame, from an abort, from a second on.
        assert_eq!(last_of(&[ON, "0a41ffff", "1a434241"]), "4243 added");
        assert_eq!(last_of(&[ON, "0b41ffff", "1a434241"]), "4243 added");
        assert_eq!(last_of(&[ON, "0c41ffff", "1a434241"]), "4243 added");
        assert_eq!(last_of(&[ON, "89e903810000", "1a434241"]), "4243 added");
        // From data of step 0, which is taken, and whose number is the same.
        assert_eq!(last_of(&[ON, "0241ffff", "1a434241"]), "414243 added");
        // Round the width: 15, then 0, 1.
        let round = [ON, "7a41ffff", "02424141", "0a434241"];
        assert_eq!(replayed(&round)[2..], ["42 added", "43 added"]);
    }

    #[test]
    fn the_length_of_data_for_every_modulation() {
        let t4 = [
            None,
            None,
            Some(12),
            Some(24),
            Some(36),
            Some(48),
            Some(60),
            Some(72),
            Some(36),
            Some(48),
            Some(60),
            Some(72),
        ];
        for modulation in 0..12 {
            for length in DATA_LENGTHS {
                let body: Vec<u8> = (0..length as u8).collect();
                for stamp in [None, Some(0)] {
                    let data = payload(Command::Data, 1, stamp, &body);
                    let answer = after_on(&on(0, true, modulation), &data);
                    match length {
                        3 => assert_eq!(answer.unwrap().octets, [0]),
                        _ => assert_eq!(answer, Err(42)),
                    }
                    let answer = after_on(&on(0, false, modulation), &data);
                    if t4[usize::from(modulation)] != Some(length) {
                        assert_eq!(answer, Err(42), "{modulation}, {length}");
                        continue;
                    }
                    // The newest stands first; oldest first is handed on.
                    let oldest_first: Vec<u8> = (0..length as u8).rev().collect();
                    assert_eq!(answer.unwrap().octets, oldest_first);
                }
            }
        }
    }

    #[test]
    fn closings_need_hdlc() {
        for command in [Command::EndOfFrame, Command::Abort] {
            for modulation in 0..12 {
                for stamp in [None, Some(9)] {
                    let closing = payload(command, 1, stamp, &[3, 2, 1]);
                    let answer = after_on(&on(0, false, modulation), &closing);
                    assert_eq!(answer, Err(42));
                    assert!(after_on(&on(0, true, modulation), &closing).is_ok());
                }
            }
        }
    }

    #[test]
    fn with_none_on_41_comes_before_42() {
        let mut stopped = FaxReplay::new();
        stopped.accept(&octets(ON)).unwrap();
        stopped.accept(&octets("88dc05")).unwrap();
        for replay in [FaxReplay::new(), stopped] {
            let mut same = replay.clone();
            for length in DATA_LENGTHS {
                let data = payload(Command::Data, 1, None, &vec![7; length]);
                assert_eq!(same.accept(&data), Err(41));
            }
            for command in [Command::EndOfFrame, Command::Abort] {
                let closing = payload(command, 1, Some(0), &[3, 2, 1]);
                assert_eq!(same.accept(&closing), Err(41));
            }
            assert_eq!(same, replay);
        }
    }

    #[test]
    fn what_reading_refuses_comes_first() {
        // No octet, a reserved command, on without a stamp, a wrong length, EI2.
        let refused = [
            ("", 13),
            ("0d", 14),
            ("01810000", 14),
            ("0a41ff", 13),
            ("0a41ffffff", 13),
            ("2343", 13),
            ("a8dc", 13),
            ("8a008041ffff", 14),
            ("93008041ffff", 14),
            ("a8dc85", 14),
            ("81e8038c0000", 14),
            ("81e803810100", 14),
        ];
        let t4 = "81e803020000";
        for before in [&[][..], &[ON], &[t4], &[ON, "88dc05"]] {
            let mut replay = FaxReplay::new();
            for payload in before {
                replay.accept(&octets(payload)).unwrap();
            }
            let same = replay.clone();
            for (payload, number) in refused {
                assert_eq!(replay.accept(&octets(payload)), Err(number), "{payload}");
                assert_eq!(replay, same);
            }
        }
    }

    #[test]
    fn a_refused_payload_changes_nothing_and_the_next_step_shows_it() {
        let twelve = "0a 0c0b0a090807060504030201";
        let answers = replayed(&[ON, twelve, "124241ff"]);
        assert_eq!(answers, [BEGAN, "(42)", "4142 added"]);
        // It does not come between a command and its repeat.
        let answers = replayed(&[ON, twelve, ON, "0a41"]);
        assert_eq!(answers, [BEGAN, "(42)", "nothing", "(13)"]);
        let t4 = "81e803020000";
        let answers = replayed(&[t4, "0b41ffff", "12 0c0b0a090807060504030201"]);
        assert_eq!(answers[1..], ["(42)", "gap 0102030405060708090a0b0c added"]);
    }

    #[test]
    fn each_command_acts_once() {
        let off = "88dc05";
        let cases = [
            (vec![ON], ON),
            (vec![ON, off], off),
            (vec![ON, "0a41ffff", "1341ffff"], "1341ffff"),
            (vec![ON, "0a41ffff", "9464001fffff"], "9464001fffff"),
        ];
        for (payloads, command) in cases {
            let mut replay = FaxReplay::new();
            for payload in &payloads {
                assert_ne!(told(&replay.accept(&octets(payload))), "nothing");
            }
            let same = replay.clone();
            for _ in 0..4 {
                assert_eq!(told(&replay.accept(&octets(command))), "nothing");
                assert_eq!(replay, same);
            }
        }
    }

    #[test]
    fn another_command_number_or_stamp_is_no_repeat() {
        // On: another number, another stamp.
        assert_eq!(last_of(&[ON, "89e803810000"]), BEGAN);
        assert_eq!(last_of(&[ON, "81e903810000"]), "began 1 1 0 1001");
        // A closing: abort for end of frame, another number, another stamp.
        let end = "0b41ffff";
        assert_eq!(last_of(&[ON, end, "0c41ffff"]), "aborted");
        assert_eq!(last_of(&[ON, end, "1341ffff"]), "ended");
        let stamped = "8b010041ffff";
        assert_eq!(last_of(&[ON, stamped, "8b020041ffff"]), "ended");
        assert_eq!(last_of(&[ON, stamped, stamped]), "nothing");
        // The high octet of the stamp counts too.
        assert_eq!(last_of(&[ON, stamped, "8b010141ffff"]), "ended");
        // After an off with none on, off has nothing to stop in any case.
        assert_eq!(last_of(&[ON, "88dc05", "90dd05"]), "nothing");
    }

    #[test]
    fn no_stamp_is_not_stamp_0() {
        let (none, zero) = ("0b41ffff", "8b000041ffff");
        assert_eq!(last_of(&[ON, none, zero]), "ended");
        assert_eq!(last_of(&[ON, zero, none]), "ended");
        assert_eq!(last_of(&[ON, none, none]), "nothing");
        assert_eq!(last_of(&[ON, zero, zero]), "nothing");
    }

    #[test]
    fn the_octets_of_a_repeat_are_not_looked_at() {
        assert_eq!(last_of(&[ON, "0b41ffff", "0b999999"]), "nothing");
        // The frequency of an on neither.
        let tone = "81e803004c04";
        assert_eq!(last_of(&[tone, "81e803003408"]), "nothing");
    }

    #[test]
    fn only_the_payload_just_before_makes_a_repeat() {
        // An on after data begins anew, and so does the number.
        let answers = replayed(&[ON, "1a434241", ON, "0a44ffff"]);
        assert_eq!(answers[2..], [BEGAN, "44 added"]);
        // Data of step 0 adds nothing, but it is taken.
        let answers = replayed(&[ON, "0b41ffff", "0a42ffff", "0b41ffff"]);
        assert_eq!(answers[1..], ["ended", "added", "ended"]);
    }

    #[test]
    fn data_is_never_a_repeat() {
        let mut replay = FaxReplay::new();
        replay.accept(&octets(ON)).unwrap();
        let data = octets("8a010041ffff");
        assert_eq!(told(&replay.accept(&data)), "41 added");
        let same = replay.clone();
        assert_eq!(told(&replay.accept(&data)), "added");
        assert_eq!(replay, same);
        // Nor does data of step 0 make the end of frame a repeat.
        assert_eq!(last_of(&[ON, "0a41ffff", "0b41ffff"]), "ended");
    }

    #[test]
    fn off_with_none_on_changes_nothing() {
        let mut replay = FaxReplay::new();
        for off in ["80e803", "88e803", "80e903", "f8ff7f"] {
            assert_eq!(told(&replay.accept(&octets(off))), "nothing");
            assert_eq!(replay, FaxReplay::new());
        }
        replay.accept(&octets(ON)).unwrap();
        replay.accept(&octets("88dc05")).unwrap();
        let stopped = replay.clone();
        for off in ["88dc05", "90dc05", "88dd05", "80e803", "88dc05"] {
            assert_eq!(told(&replay.accept(&octets(off))), "nothing");
            assert_eq!(replay, stopped);
        }
        // The same on once more is no repeat: off was taken just before it.
        assert_eq!(told(&replay.accept(&octets(ON))), BEGAN);
    }

    #[test]
    fn on_while_on_begins_anew_without_a_gap() {
        for number in 0..16u8 {
            let other = hex::write(&on(number, false, 2)).replacen("e803", "0000", 1);
            let data = hex::write(&payload(Command::Data, number + 1, None, &[9; 12]));
            let answers = replayed(&[ON, "0a41ffff", &other, "0b41ffff", &data]);
            assert_eq!(answers[2], "began 0 2 0 0");
            assert_eq!(answers[3], "(42)");
            assert_eq!(answers[4], format!("{} added", "09".repeat(12)));
        }
    }

    #[test]
    fn off_by_the_number_of_frf_11_stops_without_a_gap() {
        // D.4.1: one more than the last data payload, the number of the closing.
        let answers = replayed(&[ON, "0a41ffff", "1341ffff", "90dc05"]);
        assert_eq!(answers[3], "stopped 1500");
        // After an empty frame it is a step of 15.
        let answers = replayed(&[ON, "0a41ffff", "1341ffff", "1b41ffff", "90dc05"]);
        assert_eq!(answers[3..], ["ended", "gap stopped 1500"]);
    }

    /// What is handed on, in order.
    #[derive(Clone, Copy, Debug, PartialEq, Eq)]
    enum Event {
        Gap,
        Octet(u8),
        Did(Did),
    }

    /// What answers hand on. A refusal fails.
    fn events_of(payloads: &[Vec<u8>]) -> Vec<Event> {
        let mut replay = FaxReplay::new();
        let mut events = Vec::new();
        for payload in payloads {
            let answer = replay.accept(payload).unwrap();
            if answer.gap {
                events.push(Event::Gap);
            }
            events.extend(answer.octets.into_iter().map(Event::Octet));
            if answer.did != Did::Nothing && answer.did != Did::Added {
                events.push(Event::Did(answer.did));
            }
        }
        events
    }

    /// What a run is, to be handed on complete.
    fn events_meant(run: &Run) -> Vec<Event> {
        let mut events = vec![Event::Did(Did::Began {
            hdlc: run.is_hdlc(),
            modulation: run.modulation,
            frequency: run.frequency,
            stamp: run.on_stamp,
        })];
        match &run.page {
            Page::Frames(frames) => {
                for HdlcFrame { octets, aborted } in frames {
                    events.extend(octets.iter().copied().map(Event::Octet));
                    let did = if *aborted { Did::Aborted } else { Did::Ended };
                    events.push(Event::Did(did));
                }
            }
            Page::Blocks(blocks) => {
                events.extend(blocks.iter().flatten().copied().map(Event::Octet));
            }
        }
        let stamp = run.off_stamp;
        events.push(Event::Did(Did::Stopped { stamp }));
        events
    }

    #[test]
    fn an_honest_hdlc_call_with_bearable_losses_is_handed_on_complete() {
        let mut lost = 0;
        for seed in 0..3000 {
            let random = &mut Random::new(seed);
            let (mut payloads, mut meant) = (Vec::new(), Vec::new());
            for _ in 0..random.between(1, 4) {
                let run = Run::hdlc(random, 60);
                let sent = run.sent();
                let arrived = arriving(random, &sent, Losses::Bearable);
                lost += sent.iter().map(|it| it.copies).sum::<usize>() - arrived.len();
                payloads.extend(arrived);
                meant.extend(events_meant(&run));
            }
            assert_eq!(events_of(&payloads), meant, "seed {seed}");
        }
        assert!(lost > 30_000, "{lost}");
    }

    #[test]
    fn an_honest_call_without_losses_is_handed_on_complete() {
        for seed in 0..1000 {
            let random = &mut Random::new(seed);
            let (mut payloads, mut meant) = (Vec::new(), Vec::new());
            for _ in 0..random.between(1, 4) {
                let run = match random.below(3) {
                    0 => Run::hdlc(random, 40),
                    1 => Run::t4(random, 40),
                    _ => Run::tone(random),
                };
                payloads.extend(arriving(random, &run.sent(), Losses::None));
                meant.extend(events_meant(&run));
            }
            assert_eq!(events_of(&payloads), meant, "seed {seed}");
        }
    }

    #[test]
    fn fillers_are_not_page_data() {
        for seed in 0..500 {
            let mut run = Run::hdlc(&mut Random::new(seed), 8);
            let answers = |run: &Run| {
                // The same losses each time.
                let random = &mut Random::new(seed);
                events_of(&arriving(random, &run.sent(), Losses::Bearable))
            };
            run.filler = 0xff;
            let once = answers(&run);
            run.filler = 0x55;
            assert_eq!(answers(&run), once, "seed {seed}");
        }
    }

    #[test]
    fn a_filler_may_show_where_a_closing_is_lost() {
        // Lost: the data 0a41ffff and the end of frame 1341ffff.
        assert_eq!(last_of(&[ON, "1a4241ff"]), "ff4142 added");
    }

    /// A run of one frame of ten octets, 1 to 10, under V.21.
    fn ten_octets() -> Vec<Sent> {
        let mut run = Run::hdlc(&mut Random::new(1), 0);
        run.stamped = false;
        run.page = Page::Frames(vec![HdlcFrame {
            octets: (1..=10).collect(),
            aborted: false,
        }]);
        run.sent()
    }

    /// The octets that are handed on, and how many gaps are reported, when the
    /// data payloads of these octets are lost.
    fn ten_octets_without(lost: std::ops::RangeInclusive<usize>) -> (Vec<u8>, usize) {
        let mut sent = ten_octets();
        // Place 0 is on.
        sent.drain(lost);
        let payloads: Vec<Vec<u8>> = sent.into_iter().map(|it| it.payload).collect();
        let events = events_of(&payloads);
        let octets = events.iter().filter_map(|it| match it {
            Event::Octet(octet) => Some(*octet),
            _ => None,
        });
        let gaps = events.iter().filter(|it| **it == Event::Gap).count();
        (octets.collect(), gaps)
    }

    #[test]
    fn three_lost_in_a_row_are_a_reported_gap() {
        let all: Vec<u8> = (1..=10).collect();
        assert_eq!(ten_octets_without(4..=5), (all.clone(), 0));
        let without_4 = all.iter().copied().filter(|it| *it != 4).collect();
        assert_eq!(ten_octets_without(4..=6), (without_4, 1));
        // At the start and at the end of the frame.
        assert_eq!(ten_octets_without(1..=2), (all.clone(), 0));
        assert_eq!(ten_octets_without(1..=3), ((2..=10).collect(), 1));
        assert_eq!(ten_octets_without(9..=10), (all.clone(), 0));
        // Three before a closing are still in its octets; four are not.
        assert_eq!(ten_octets_without(8..=10), (all.clone(), 0));
        let without_7 = all.into_iter().filter(|it| *it != 7).collect();
        assert_eq!(ten_octets_without(7..=10), (without_7, 1));
    }

    /// The sentences of wish 1 once more, on octets and from the whole history:
    /// what is answered to a payload after those taken so far.
    fn restated(taken: &[Vec<u8>], payload: &[u8]) -> Result<FaxAnswer, Refusal> {
        fax::read(payload)?;
        // EI1, number and command; then the stamp; then the body.
        let front = |it: &[u8]| if it[0] & 0x80 == 0 { 1 } else { 3 };
        let (head, body) = payload.split_at(front(payload));
        let command = head[0] & 7;
        let switch = taken.iter().rev().find(|it| it[0] & 7 < 2);
        let modulation = switch.filter(|it| it[0] & 7 == 1).map(|it| it[3]);
        let hdlc = modulation.map_or(false, |it| it >= 0x80);
        if command >= 2 {
            let octets = match modulation {
                None => return Err(41),
                Some(_) if hdlc => 3,
                Some(2) => 12,
                Some(3) => 24,
                Some(4 | 8) => 36,
                Some(5 | 9) => 48,
                Some(6 | 10) => 60,
                Some(7 | 11) => 72,
                Some(_) => return Err(42),
            };
            if body.len() != octets || command > 2 && !hdlc {
                return Err(42);
            }
        }
        let last = taken.last();
        let repeat = command != 2 && last.map_or(false, |it| &it[..front(it)] == head);
        if repeat || command == 0 && modulation.is_none() {
            return Ok(FaxAnswer::default());
        }
        let step = last.map_or(0, |it| (head[0] >> 3).wrapping_sub(it[0] >> 3) & 15);
        let (most, gap) = match (command, hdlc) {
            (0, _) => (0, step > 1),
            (1, _) => (0, false),
            (2, true) => (usize::from(step), step > 3),
            (2, false) => (72 * usize::from(step), step > 1),
            _ => (usize::from(step.max(1)) - 1, step > 4),
        };
        let count = if command < 2 { 0 } else { most.min(body.len()) };
        let stamp = || u16::from(payload[1]) + 256 * u16::from(payload[2]);
        let did = match command {
            0 => Did::Stopped { stamp: stamp() },
            1 => Did::Began {
                hdlc: body[0] >= 0x80,
                modulation: body[0] & 15,
                frequency: u16::from(body[1]) + 256 * u16::from(body[2]),
                stamp: stamp(),
            },
            2 => Did::Added,
            3 => Did::Ended,
            _ => Did::Aborted,
        };
        let mut octets = body[..count].to_vec();
        octets.reverse();
        Ok(FaxAnswer { gap, octets, did })
    }

    #[test]
    fn random_calls_against_a_restatement_and_nothing_changes_on_a_refusal() {
        let mut seen = [0; 3];
        for seed in 0..400 {
            let random = &mut Random::new(seed);
            let mut replay = FaxReplay::new();
            let mut taken: Vec<Vec<u8>> = Vec::new();
            for _ in 0..10 {
                for payload in call(random, 20) {
                    let before = replay.clone();
                    let answer = replay.accept(&payload);
                    assert_eq!(answer, restated(&taken, &payload), "seed {seed}");
                    match answer {
                        Err(_) => {
                            assert_eq!(replay, before);
                            seen[0] += 1;
                        }
                        Ok(it) if it.did == Did::Nothing => {
                            assert_eq!(replay, before);
                            seen[1] += 1;
                        }
                        Ok(_) => {
                            taken.push(payload);
                            seen[2] += 1;
                        }
                    }
                }
            }
        }
        assert!(seen.iter().all(|it| *it > 10_000), "{seen:?}");
    }
}
