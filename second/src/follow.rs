//! The follow program of docs/FOLLOW.md: what one sub-channel's trunk does with
//! a recording. It streams.

use crate::answers::{print, print_digit_answer, print_fax_answer, print_signalling_answer};
use crate::fax_replay::{FaxAnswer, FaxReplay};
use crate::frame::{open_frame, SubFrame};
use crate::listing::{open_recording, print_frame_refusal, FieldLine, Fields};
use crate::payload::{self, Content};
use crate::provisioning::{read_number, Table};
use crate::receivers::{DigitAnswer, DigitReceiver, SignallingAnswer, SignallingReceiver};
use crate::refusal::Refusal;
use std::io::{self, BufRead, Write};

/// The argument: a number as document 01 has it, at most 255.
pub fn read_cid(word: &str) -> Option<u8> {
    let number = read_number(word.as_bytes())?;
    u8::try_from(number).ok()
}

/// What a trunk does with an accepted payload.
#[derive(Clone, Debug, PartialEq, Eq)]
pub enum Answer {
    /// Digits were replayed.
    Digits(DigitAnswer),
    /// Signalling was replayed.
    Signalling(SignallingAnswer),
    /// Fax was replayed.
    Fax(FaxAnswer),
    /// A payload of another kind.
    Other,
}

/// What the far end keeps for the sub-channel; fresh at the start.
#[derive(Clone, Debug, Default, PartialEq, Eq)]
pub struct Trunk {
    pub digits: DigitReceiver,
    pub signalling: SignallingReceiver,
    fax: FaxReplay,
}

impl Trunk {
    /// Takes a payload of the sub-channel with its type: 11 to 16, after them 19
    /// for digits and signalling, 41 or 42 for fax, and then nothing changes; or
    /// the answer.
    pub fn take(&mut self, table: &Table, sub_frame: &SubFrame) -> Result<Answer, Refusal> {
        let SubFrame {
            cid,
            payload_type,
            payload,
            ..
        } = *sub_frame;
        match payload::read(table, cid, payload_type, payload)? {
            Content::Digits(_) => self.digits.accept(payload).map(Answer::Digits),
            Content::Signalling(_) => self.signalling.accept(payload).map(Answer::Signalling),
            Content::Fax(_) => self.fax.accept(payload).map(Answer::Fax),
            other => {
                self.digits.accept_other(&other);
                Ok(Answer::Other)
            }
        }
    }
}

/// Follows one sub-channel through a recording.
struct Follower {
    cid: u8,
    table: Table,
    trunk: Trunk,
}

impl Follower {
    /// Prints what one line of the recording does.
    fn line(&mut self, output: &mut impl Write, line: &FieldLine) -> io::Result<()> {
        match &line.field {
            Ok(field) => self.frame(output, line.number, field),
            Err(refusal) => {
                print(output, "frame", line.number)?;
                print_frame_refusal(output, *refusal, 0)
            }
        }
    }

    /// Prints each sub-frame of the sub-channel, or the frame's refusal.
    fn frame(&mut self, output: &mut impl Write, number: u64, field: &[u8]) -> io::Result<()> {
        let reader = match open_frame(field) {
            Ok(reader) => reader,
            Err(refusal) => {
                print(output, "frame", number)?;
                return print_frame_refusal(output, refusal.number, refusal.at);
            }
        };
        for sub_frame in reader {
            if sub_frame.cid == self.cid {
                print(output, "frame", number)?;
                self.sub_frame(output, &sub_frame)?;
            }
        }
        Ok(())
    }

    /// Prints one sub-frame of the sub-channel and what the trunk does with it.
    fn sub_frame(&mut self, output: &mut impl Write, sub_frame: &SubFrame) -> io::Result<()> {
        let answer = self.trunk.take(&self.table, sub_frame);
        print(output, "type", sub_frame.payload_type)?;
        print(output, "len", sub_frame.payload.len())?;
        let answer = match answer {
            Ok(answer) => answer,
            Err(refusal) => return print(output, "answer", refusal),
        };
        print(output, "answer", 0)?;
        match answer {
            Answer::Digits(answer) => print_digit_answer(output, &answer),
            Answer::Signalling(answer) => {
                print_signalling_answer(output, &answer, &self.trunk.signalling)
            }
            Answer::Fax(answer) => print_fax_answer(output, &answer),
            Answer::Other => Ok(()),
        }
    }
}

/// Runs the follow program on a sub-channel from an input to an output.
pub fn run(cid: u8, input: impl BufRead, mut output: impl Write) -> io::Result<()> {
    if let Some((table, rest)) = open_recording(input, &mut output)? {
        let trunk = Trunk::default();
        let mut follower = Follower { cid, table, trunk };
        let mut fields = Fields::new(rest);
        while let Some(line) = fields.next_field()? {
            follower.line(&mut output, &line)?;
        }
    }
    output.flush()
}

#[cfg(test)]
mod tests {
    use super::*;
    use std::io::BufReader;

    /// CID 5 acelp, 6 pcm, 7 fax, 8 data.
    const TEXT: &str = "cid=5\nsyntax=acelp\nm=1\nseq=0\n\
                        cid=6\nsyntax=pcm\nm=1\nseq=1\n\
                        cid=7\nsyntax=fax\nm=1\nseq=0\n\
                        cid=8\nsyntax=data\nm=1\nseq=0\n";

    fn followed(cid: u8, input: &[u8]) -> String {
        let mut output = Vec::new();
        run(cid, input, &mut output).unwrap();
        String::from_utf8(output).unwrap()
    }

    /// What is printed for frames in hex, blanks allowed, after a good text.
    fn frames(cid: u8, frames: &[&str]) -> String {
        let line = |it: &&str| format!("frame={}\n", it.replace(' ', ""));
        let lines: String = frames.iter().map(line).collect();
        followed(cid, format!("{TEXT}{lines}").as_bytes())
    }

    /// What is printed for a sub-frame, before the receiver's answer.
    fn printed(frame: usize, payload_type: u8, len: usize, answer: Refusal) -> String {
        format!("frame={frame}\ntype={payload_type}\nlen={len}\nanswer={answer}\n")
    }

    /// A digits payload on CID 5 with a tone on code 5 in all windows.
    fn tone(sequence: u8) -> String {
        format!("8501 {sequence:02x}00 2005 2005 2005")
    }

    /// Ten octets of acelp on CID 5.
    const VOICE: &str = "05 00000000000000000000";

    #[test]
    fn the_example_of_follow() {
        let input = b"cid=5\nsyntax=acelp\nm=1\nseq=0\n\
                      frame=85010000240520050000\nframe=85010300240520052005\n";
        let wanted = "frame=0\ntype=1\nlen=8\nanswer=0\nfilled=0\nwith=000000\ncarried=3\n\
                      period=000000\nperiod=010005\nperiod=010405\n\
                      frame=1\ntype=1\nlen=8\nanswer=0\nfilled=0\nwith=000000\ncarried=3\n\
                      period=010005\nperiod=010005\nperiod=010405\n";
        assert_eq!(followed(5, input), wanted);
    }

    #[test]
    fn the_argument() {
        for cid in 0..=255u8 {
            assert_eq!(read_cid(&cid.to_string()), Some(cid));
        }
        let wrong = [
            "", "00", "05", "005", "256", "999", "1000", "0005", "+5", "-5", "5 ", " 5", "5\n",
            "0x5", "five", "٥",
        ];
        for word in wrong {
            assert_eq!(read_cid(word), None, "{word}");
        }
    }

    #[test]
    fn signalling_is_replayed() {
        let first = "8502 83 1111111111 2222222222 3333333343";
        let same = "8502 03 5111111111 2222222222 3333333343";
        let later = "8502 08 6666666666 6666666666 6666666676";
        let output = frames(5, &[first, same, later]);
        let mut wanted = printed(0, 2, 16, 0);
        wanted += "filled=0\nwith=00\ncarried=3\n";
        wanted += "period=01010101010101010101\nperiod=02020202020202020202\n";
        wanted += "period=03030303030303030304\nvalue=4\nalarm=1\n";
        wanted += &printed(1, 2, 16, 0);
        wanted += "filled=0\nwith=00\ncarried=0\nvalue=1\nalarm=0\n";
        wanted += &printed(2, 2, 16, 0);
        wanted += "filled=2\nwith=04\ncarried=3\n";
        wanted += "period=06060606060606060606\nperiod=06060606060606060606\n";
        wanted += "period=06060606060606060607\nvalue=7\nalarm=0\n";
        assert_eq!(output, wanted);
    }

    #[test]
    fn refused_lines_and_frames_are_numbered_and_reach_no_trunk() {
        let lines = "frame=8501 \nframe=\nother\nframe=05aa85\nframe=850102002005200520050\n";
        let output = followed(5, format!("{TEXT}{lines}").as_bytes());
        let wanted = "frame=0\nrefused=9\nat=0\nframe=1\nrefused=1\nat=0\n\
                      frame=2\nrefused=9\nat=0\nframe=4\nrefused=9\nat=0\n";
        // Line 3 is a sound frame of one sub-frame, which prints its refusal.
        let wanted = wanted.replace("frame=4", &(printed(3, 0, 2, 13) + "frame=4"));
        assert_eq!(output, wanted);
        let refused_between = [
            &tone(0)[..],
            "45 01 aa 8501 0100 2005 2005 2005 ff",
            &tone(2),
        ];
        let output = frames(5, &refused_between);
        assert!(output.ends_with("carried=2\nperiod=010005\nperiod=010005\n"));
        let refused_frame = frames(5, &["c50108 0000200520052005 85"]);
        assert_eq!(refused_frame, "frame=0\nrefused=3\nat=11\n");
    }

    #[test]
    fn other_sub_channels_print_nothing_and_reach_no_trunk() {
        let other = "8601 0700 2005 2005 2005";
        assert_eq!(frames(5, &[other, "8602", "07"]), "");
        let output = frames(5, &[&tone(0), other, &tone(1)]);
        assert!(output.ends_with("carried=1\nperiod=010005\n"));
        assert!(output.contains("frame=2\n") && !output.contains("frame=1\n"));
    }

    #[test]
    fn each_sub_frame_of_the_sub_channel_prints_in_its_order() {
        let frame = "c50108 0000200520052005 c60400 4501aa c50108 0200200520052005 8504";
        let output = frames(5, &[frame]);
        let digits = |carried: usize| {
            let periods = "period=010005\n".repeat(carried);
            format!("filled=0\nwith=000000\ncarried={carried}\n{periods}")
        };
        let wanted = [
            printed(0, 1, 8, 0) + &digits(3),
            printed(0, 0, 1, 13),
            printed(0, 1, 8, 0) + &digits(2),
            printed(0, 4, 0, 0),
        ];
        assert_eq!(output, wanted.concat());
    }

    /// The fill content after a tone, some frames, and a gap.
    fn fill_after(cid: u8, between: &[&str]) -> String {
        let on_cid = |frame: String| frame.replacen("85", &format!("{:02x}", 0x80 | cid), 1);
        let (first, last) = (on_cid(tone(0)), on_cid(tone(9)));
        let mut all = vec![&first[..]];
        all.extend(between);
        all.push(&last);
        let output = frames(cid, &all);
        let mut with = output.lines().filter(|line| line.starts_with("with="));
        with.next_back().unwrap().to_string()
    }

    #[test]
    fn an_accepted_voice_payload_ends_a_sounding_tone() {
        assert_eq!(fill_after(5, &[]), "with=010005");
        assert_eq!(fill_after(5, &[VOICE]), "with=000000");
        assert_eq!(fill_after(5, &[VOICE, &tone(0)]), "with=000000");
        assert_eq!(fill_after(5, &[VOICE, &tone(1)]), "with=010005");
        // In one frame the order counts.
        let after = "c50108 0100200520052005 05 00000000000000000000";
        assert_eq!(fill_after(5, &[after]), "with=000000");
        let before = "450a 00000000000000000000 8501 0100200520052005";
        assert_eq!(fill_after(5, &[before]), "with=010005");
    }

    #[test]
    fn nothing_else_ends_a_tone() {
        let others: [&str; 6] = [
            "05 000000000000000000",
            "8504",
            "8503 800000",
            "8505 00000000000000000000",
            "8501 0100",
            "06 00000000000000000000",
        ];
        for other in others {
            assert_eq!(fill_after(5, &[other]), "with=010005", "{other}");
        }
        // Type 0 of a fax sub-channel is no voice.
        assert_eq!(fill_after(7, &["07 800000"]), "with=010005");
    }

    #[test]
    fn refused_payloads_change_nothing() {
        let refused = [
            ("8501 0100 2005 2005 20", 13),
            ("8501 0100 2005 2005 6005", 14),
            ("8501 0180 2005 2005 2005", 14),
            ("8501 0100 2005 2005 3405", 15),
            ("8502 00", 13),
            ("8505", 12),
            ("850f 0100 2005 2005 2005", 12),
        ];
        for (frame, number) in refused {
            let output = frames(5, &[&tone(0), frame, &tone(2)]);
            assert!(output.contains(&format!("answer={number}\nframe=2\n")));
            assert!(output.ends_with("carried=2\nperiod=010005\nperiod=010005\n"));
        }
        assert_eq!(frames(6, &["06 0e"]), printed(0, 0, 1, 16));
    }

    #[test]
    fn wish_3_an_older_digits_payload_is_answered_by_19_and_changes_nothing() {
        for older in [4, 133, 200, 255] {
            let output = frames(5, &[&tone(5), &tone(older), &tone(6)]);
            let wanted = printed(1, 1, 8, 19) + &printed(2, 1, 8, 0);
            let end = "filled=0\nwith=000000\ncarried=1\nperiod=010005\n";
            assert!(output.ends_with(&(wanted + end)), "{older}");
        }
        let output = frames(5, &[&tone(5), &tone(132)]);
        assert!(output.contains("filled=124\nwith=010005\ncarried=3\n"));
        // A tone that voice ended stays ended.
        assert_eq!(fill_after(5, &[VOICE, &tone(255)]), "with=000000");
        // What is wrong in it comes first.
        let refused = [
            ("8501 0400 2005 2005 20", 13),
            ("8501 0480 2005 2005 2005", 14),
            ("8501 0400 2005 2005 3405", 15),
        ];
        for (frame, number) in refused {
            let output = frames(5, &[&tone(5), frame]);
            assert!(output.ends_with(&format!("answer={number}\n")));
        }
        // Another sub-channel has another trunk.
        let other = tone(4).replacen("85", "86", 1);
        assert!(frames(6, &[&tone(5), &other]).contains("answer=0\n"));
    }

    #[test]
    fn wish_3_an_older_signalling_payload_is_answered_by_19_and_changes_nothing() {
        // On the fax sub-channel, which takes signalling too.
        let samples = |first: u8| format!("8702 {first:02x} 1111111111 2222222222 3333333343");
        for older in [4, 0x84, 69, 100, 127] {
            let output = frames(7, &[&samples(5), &samples(older), &samples(6)]);
            let wanted = printed(1, 2, 16, 19) + &printed(2, 2, 16, 0);
            let end = "filled=0\nwith=00\ncarried=1\nperiod=03030303030303030304\n\
                       value=4\nalarm=0\n";
            assert!(output.ends_with(&(wanted + end)), "{older}");
        }
        let output = frames(7, &[&samples(5), &samples(68)]);
        assert!(output.contains("filled=60\nwith=04\ncarried=3\n"));
        let output = frames(7, &[&samples(5), "8702 04"]);
        assert!(output.ends_with("answer=13\n"));
    }

    #[test]
    fn data_and_fax_sub_channels() {
        let digits = "8801 0000 2005 2005 2005";
        assert_eq!(frames(8, &[digits]), printed(0, 1, 8, 12));
        assert_eq!(frames(8, &["08 c12caa"]), printed(0, 0, 3, 0));
        assert_eq!(frames(7, &["8703 800000"]), printed(0, 3, 3, 12));
        let output = frames(7, &["8701 0000 2005 2005 2005"]);
        assert!(output.starts_with(&(printed(0, 1, 8, 0) + "filled=0\n")));
    }

    /// A frame of one fax payload: type 3 on CID 5 or 6, type 0 on CID 7.
    fn fax(cid: u8, payload: &str) -> String {
        match cid {
            7 => format!("07 {payload}"),
            _ => format!("8{cid}03 {payload}"),
        }
    }

    /// V.21 with HDLC on at 1000 ms, number 0.
    const ON: &str = "81e803810000";

    /// What is printed for one fax payload after others on its sub-channel, from
    /// `answer=` on.
    fn fax_after(cid: u8, before: &[&str], payload: &str) -> String {
        let mut all: Vec<String> = before.iter().map(|it| fax(cid, it)).collect();
        all.push(fax(cid, payload));
        let all: Vec<&str> = all.iter().map(String::as_str).collect();
        let output = frames(cid, &all);
        let place = output.rfind("answer=").unwrap();
        output[place..].to_string()
    }

    #[test]
    fn fax_is_replayed_on_voice_and_fax_sub_channels() {
        for cid in [5, 6, 7] {
            let printed = |before: &[&str], payload| fax_after(cid, before, payload);
            let wanted = "answer=0\ngap=0\noctets=\ndid=began\n\
                          hdlc=1\nmodulation=1\nfrequency=0\nstamp=1000\n";
            assert_eq!(printed(&[], ON), wanted);
            let wanted = "answer=0\ngap=0\noctets=\ndid=nothing\n";
            assert_eq!(printed(&[ON], ON), wanted);
            assert_eq!(printed(&[], "a8dc05"), wanted);
            let wanted = "answer=0\ngap=0\noctets=414243\ndid=added\n";
            assert_eq!(printed(&[ON], "1a434241"), wanted);
            let wanted = "answer=0\ngap=0\noctets=\ndid=added\n";
            assert_eq!(printed(&[ON], "02434241"), wanted);
            let wanted = "answer=0\ngap=1\noctets=424344\ndid=ended\n";
            assert_eq!(printed(&[ON], "2b444342"), wanted);
            let wanted = "answer=0\ngap=0\noctets=4243\ndid=aborted\n";
            assert_eq!(printed(&[ON, "0a41ffff"], "24434241"), wanted);
            let wanted = "answer=0\ngap=1\noctets=\ndid=stopped\nstamp=1500\n";
            assert_eq!(printed(&[ON], "a8dc05"), wanted);
        }
    }

    #[test]
    fn refused_fax_prints_its_number_alone() {
        let twelve = "0a 0c0b0a090807060504030201";
        for cid in [5, 6, 7] {
            assert_eq!(fax_after(cid, &[], "0a41ffff"), "answer=41\n");
            assert_eq!(fax_after(cid, &[], twelve), "answer=41\n");
            assert_eq!(fax_after(cid, &[ON], twelve), "answer=42\n");
            assert_eq!(fax_after(cid, &[], "0a41ff"), "answer=13\n");
            assert_eq!(fax_after(cid, &[], "0d41ffff"), "answer=14\n");
        }
        // A type that is not allowed reaches no replay.
        assert_eq!(frames(7, &["8703 81e803810000"]), printed(0, 3, 6, 12));
        assert_eq!(frames(8, &["8803 81e803810000"]), printed(0, 3, 6, 12));
    }

    #[test]
    fn the_listing_never_gives_41_or_42() {
        for payload in ["0a41ffff", "0a 0c0b0a090807060504030201", "23434241"] {
            let frame = fax(7, payload).replace(' ', "");
            let input = format!("{TEXT}frame={frame}\n");
            let mut output = Vec::new();
            crate::listing::run(input.as_bytes(), &mut output).unwrap();
            assert!(output.ends_with(b"\nanswer=0\n"));
        }
    }

    #[test]
    fn voice_digits_and_signalling_change_nothing_of_the_fax_replay() {
        let signalling = "8502 00 00000000000000000000 0000000000";
        let other_fax = fax(6, "89e903020000");
        for between in [VOICE, &tone(3), signalling, "8504", "85031f", &other_fax] {
            let (on, data) = (fax(5, ON), fax(5, "124241ff"));
            let output = frames(5, &[&on, between, &data]);
            let wanted = printed(2, 3, 4, 0) + "gap=0\noctets=4142\ndid=added\n";
            assert!(output.ends_with(&wanted), "{between}");
            // Nor does it come between a command and its repeat.
            let output = frames(5, &[&on, between, &on]);
            assert!(output.ends_with("did=nothing\n"), "{between}");
        }
    }

    #[test]
    fn fax_changes_nothing_of_the_receivers() {
        let began = fax(5, ON);
        let data = fax(5, "0a41ffff");
        let refused = fax(5, "0a 0c0b0a090807060504030201");
        for between in [&began, &data, &refused] {
            assert_eq!(fill_after(5, &[&began, between]), "with=010005");
        }
        let signalling = |number: u8| format!("8502 {number:02x} 1111111111 2222222222 3333333333");
        let output = frames(5, &[&signalling(9), &began, &data, &signalling(10)]);
        let wanted = "filled=0\nwith=00\ncarried=1\nperiod=03030303030303030303\n\
                      value=3\nalarm=0\n";
        assert!(output.ends_with(wanted));
    }

    #[test]
    fn fax_payloads_of_one_frame_come_in_their_order() {
        let frame = format!("c50306 {ON} c503040a41ffff c5030412 4241ff 850323434241");
        let output = frames(5, &[&frame]);
        let did = |line: &&str| line.starts_with("octets=") || line.starts_with("did=");
        let lines: Vec<&str> = output.lines().filter(did).collect();
        let wanted = [
            "octets=",
            "did=began",
            "octets=41",
            "did=added",
            "octets=42",
            "did=added",
            "octets=43",
            "did=ended",
        ];
        assert_eq!(lines, wanted);
    }

    #[test]
    fn a_sub_channel_that_is_not_provisioned_gets_11() {
        assert_eq!(frames(9, &["09 00", "05"]), printed(0, 0, 1, 11));
        assert_eq!(frames(0, &[VOICE, "00"]), "frame=1\nrefused=4\nat=0\n");
    }

    #[test]
    fn texts_as_in_the_listing() {
        assert_eq!(followed(5, b""), "");
        assert_eq!(followed(5, TEXT.as_bytes()), "");
        assert_eq!(followed(5, b"cid=5\nframe=05\n"), "text=31\nline=2\n");
        let long = "x".repeat(8193);
        assert_eq!(followed(5, long.as_bytes()), "text=34\nline=0\n");
        assert_eq!(followed(5, b"frame=05aa\n"), printed(0, 0, 1, 11));
    }

    #[test]
    fn the_pieces_of_the_input_do_not_matter() {
        let (one, other) = (tone(0).replace(' ', ""), tone(7).replace(' ', ""));
        let input = format!("{TEXT}frame={one}\nframe=\nx\nframe={other}\nframe=05");
        let whole = followed(5, input.as_bytes());
        for piece in [1, 2, 3, 5, 7, 64] {
            let mut output = Vec::new();
            let reader = BufReader::with_capacity(piece, input.as_bytes());
            run(5, reader, &mut output).unwrap();
            assert_eq!(String::from_utf8(output).unwrap(), whole);
        }
    }
}
