//! The unit program of docs/UNIT.md: calls of the voice card, and sub-frames
//! written into a lent frame. It streams.

use crate::answers::print;
use crate::hex;
use crate::lines::{key_and_octets, zero_or_one, LineReader, CHARACTERS};
use crate::listing::open_recording;
use crate::payload::data::Data;
use crate::payload::digits::{Digits, Window, OFF, ON};
use crate::payload::fax::{Command, Fax};
use crate::payload::sid::Sid;
use crate::payload::signalling::Signalling;
use crate::payload::voice::Voice;
use crate::payload::Content;
use crate::provisioning::Table;
use crate::voice_card::{hand, Handed};
use crate::writer::Writer;
use std::io::{self, BufRead, Write};

/// The most octets of a frame, a silence block, a room and a body.
const MOST_OCTETS: usize = 1700;
/// What each octet of a lent frame is at first.
const LENT: u8 = 0xee;
/// The source of the silence block.
const SILENCE: u8 = 255;

/// A line of the input that is not malformed.
#[derive(Clone, Debug, PartialEq, Eq)]
enum Order<'l> {
    /// `frame=`
    Frame(&'l [u8]),
    /// `silence=`
    Silence(&'l [u8]),
    /// `card=`
    Card(u8),
    /// `room=`
    Room(usize),
    /// A line that writes: last, CID and content.
    Write(bool, u8, Content<'l>),
    /// `shown=`
    Shown,
}

/// Reads a key and octets: none when the line is malformed.
fn read_order<'l>(key: &[u8], octets: &'l [u8]) -> Option<Order<'l>> {
    match key {
        b"frame" => body(octets).map(Order::Frame),
        b"silence" => body(octets).map(Order::Silence),
        b"card" => read_card(octets),
        b"room" => read_room(octets),
        b"shown" => octets.is_empty().then_some(Order::Shown),
        _ => read_write(key, octets),
    }
}

/// A body: none when it has over 1,700 octets.
fn body(octets: &[u8]) -> Option<&[u8]> {
    (octets.len() <= MOST_OCTETS).then_some(octets)
}

/// The octets of `card=`: cid.
fn read_card(octets: &[u8]) -> Option<Order<'_>> {
    match *octets {
        [cid] => Some(Order::Card(cid)),
        _ => None,
    }
}

/// The octets of `room=`: high, low.
fn read_room(octets: &[u8]) -> Option<Order<'_>> {
    match *octets {
        [high, low] => {
            let room = usize::from(high) * 256 + usize::from(low);
            (room <= MOST_OCTETS).then_some(Order::Room(room))
        }
        _ => None,
    }
}

/// The octets of a line that writes: last, cid, and those of its content.
fn read_write<'l>(key: &[u8], octets: &'l [u8]) -> Option<Order<'l>> {
    match octets {
        [last, cid, rest @ ..] => {
            let content = read_content(key, rest)?;
            Some(Order::Write(zero_or_one(*last)?, *cid, content))
        }
        _ => None,
    }
}

/// The content of a line that writes.
fn read_content<'l>(key: &[u8], octets: &'l [u8]) -> Option<Content<'l>> {
    match key {
        b"voice" => read_voice(octets).map(Content::Voice),
        b"digits" => read_digits(octets).map(Content::Digits),
        b"signalling" => read_signalling(octets).map(Content::Signalling),
        b"fax" => read_fax(octets).map(Content::Fax),
        b"sid" => read_sid(octets).map(Content::Sid),
        b"data" => read_data(octets).map(Content::Data),
        _ => None,
    }
}

/// The octets of `voice=`: sequence, coding, then the body.
fn read_voice(octets: &[u8]) -> Option<Voice<'_>> {
    match octets {
        [sequence, coding, rest @ ..] => Some(Voice {
            sequence: *sequence,
            coding_type: *coding,
            body: body(rest)?,
        }),
        _ => None,
    }
}

/// The octets of `digits=`: sequence, level, then three times on, edge, code.
fn read_digits(octets: &[u8]) -> Option<Digits> {
    match *octets {
        [sequence, level, a, b, c, d, e, f, g, h, i] => Some(Digits {
            sequence,
            level: level as i8,
            windows: [window(a, b, c)?, window(d, e, f)?, window(g, h, i)?],
        }),
        _ => None,
    }
}

/// One window: on, edge, code.
fn window(on: u8, edge: u8, code: u8) -> Option<Window> {
    let digit_type = if zero_or_one(on)? { ON } else { OFF };
    Some(Window {
        digit_type,
        edge,
        code,
    })
}

/// The octets of `signalling=`: alarm, sequence, thirty samples.
fn read_signalling(octets: &[u8]) -> Option<Signalling> {
    match octets {
        [alarm, sequence, samples @ ..] => Some(Signalling {
            alarm: zero_or_one(*alarm)?,
            sequence: *sequence,
            samples: samples.try_into().ok()?,
        }),
        _ => None,
    }
}

/// The octets of `fax=`: sequence, stamped, stamp high, stamp low, command,
/// hdlc, modulation, frequency high, frequency low, then the body.
fn read_fax(octets: &[u8]) -> Option<Fax<'_>> {
    match octets {
        [sequence, stamped, stamp_high, stamp_low, command, hdlc, modulation, high, low, rest @ ..] =>
        {
            let stamp = u16::from_be_bytes([*stamp_high, *stamp_low]);
            let on = Command::On {
                hdlc: zero_or_one(*hdlc)?,
                modulation: *modulation,
                frequency: u16::from_be_bytes([*high, *low]),
            };
            Some(Fax {
                sequence: *sequence,
                stamp: zero_or_one(*stamped)?.then_some(stamp),
                command: command_of(*command, on)?,
                body: body(rest)?,
            })
        }
        _ => None,
    }
}

/// The command of a number, none when it is over 04; only on has values.
fn command_of(number: u8, on: Command) -> Option<Command> {
    match number {
        0 => Some(Command::Off),
        1 => Some(on),
        2 => Some(Command::Data),
        3 => Some(Command::EndOfFrame),
        4 => Some(Command::Abort),
        _ => None,
    }
}

/// The octets of `sid=`: noise, sequence, level.
fn read_sid(octets: &[u8]) -> Option<Sid> {
    match *octets {
        [noise, sequence, level] => Some(match zero_or_one(noise)? {
            false => Sid::Empty,
            true => Sid::Noise {
                sequence,
                noise_level: level as i8,
            },
        }),
        _ => None,
    }
}

/// The octets of `data=`: begins, ends, sequence high, sequence low, then the
/// body.
fn read_data(octets: &[u8]) -> Option<Data<'_>> {
    match octets {
        [begins, ends, high, low, rest @ ..] => Some(Data {
            b: zero_or_one(*begins)?,
            e: zero_or_one(*ends)?,
            sequence: u16::from_be_bytes([*high, *low]),
            fragment: body(rest)?,
        }),
        _ => None,
    }
}

/// What the unit program has at hand, the lent frame and its writer aside.
struct Unit<R> {
    table: Table,
    lines: LineReader<R>,
    /// The number of the line read last.
    number: u64,
    frame: Vec<u8>,
    silence: Vec<u8>,
}

impl<R: BufRead> Unit<R> {
    /// At the start frame and silence block are empty.
    fn new(table: Table, input: R) -> Self {
        Unit {
            table,
            lines: LineReader::new(input, CHARACTERS),
            number: 0,
            frame: Vec::new(),
            silence: Vec::new(),
        }
    }

    /// Goes through all lines, a lent frame after the other. At the start the
    /// room is 0 octets.
    fn run(&mut self, output: &mut impl Write) -> io::Result<()> {
        let mut room = Some(0);
        while let Some(octets) = room {
            let mut lent = vec![LENT; octets];
            room = self.until_room(output, Writer::new(&mut lent))?;
        }
        Ok(())
    }

    /// Does what the lines say up to the next `room=`, and gives that room; none
    /// at the end of the input.
    fn until_room(
        &mut self,
        output: &mut impl Write,
        mut writer: Writer,
    ) -> io::Result<Option<usize>> {
        while let Some(line) = self.lines.next_line()? {
            self.number += 1;
            let parts = key_and_octets(&line);
            let order = parts
                .as_ref()
                .and_then(|(key, octets)| read_order(key, octets));
            match order {
                None => print(output, "malformed", self.number)?,
                Some(Order::Frame(octets)) => self.frame = octets.to_vec(),
                Some(Order::Silence(octets)) => self.silence = octets.to_vec(),
                Some(Order::Card(cid)) => self.card(output, cid)?,
                Some(Order::Room(octets)) => return Ok(Some(octets)),
                Some(Order::Write(last, cid, content)) => {
                    match writer.write(&self.table, cid, &content, last) {
                        Ok(()) => print_writer(output, &writer)?,
                        Err(number) => print(output, "refused", number)?,
                    }
                }
                Some(Order::Shown) => print(output, "lent", hex::write(writer.room()))?,
            }
        }
        Ok(None)
    }

    /// A call of the voice card with the frame and the silence block at hand.
    fn card(&self, output: &mut impl Write, cid: u8) -> io::Result<()> {
        let (source, octets) = match hand(&self.frame, &self.table, cid, &self.silence) {
            Handed::Part { part, .. } => (0, part),
            Handed::Silence(block) => (SILENCE, block),
            Handed::Refused { number, part } => (number, part),
        };
        print(output, "source", source)?;
        print(output, "octets", hex::write(octets))
    }
}

/// Prints where the writer is.
fn print_writer(output: &mut impl Write, writer: &Writer) -> io::Result<()> {
    print(output, "at", writer.frame().len())?;
    print(output, "count", writer.sub_frames())?;
    print(output, "done", u8::from(writer.last_written()))
}

/// Runs the unit program from an input to an output.
pub fn run(input: impl BufRead, mut output: impl Write) -> io::Result<()> {
    if let Some((table, rest)) = open_recording(input, &mut output)? {
        Unit::new(table, rest).run(&mut output)?;
    }
    output.flush()
}

#[cfg(test)]
mod tests {
    use super::*;
    use std::io::BufReader;

    /// CID 5 acelp with seq, 6 pcm, 7 fax, 8 data, 9 g7231 and 70 acelp without.
    const TEXT: &str = "cid=5\nsyntax=acelp\nm=1\nseq=1\n\
                        cid=6\nsyntax=pcm\nm=1\nseq=1\n\
                        cid=7\nsyntax=fax\nm=1\nseq=0\n\
                        cid=8\nsyntax=data\nm=1\nseq=0\n\
                        cid=9\nsyntax=g7231\nm=1\nseq=0\n\
                        cid=70\nsyntax=acelp\nm=1\nseq=0\n";

    fn done(input: &[u8]) -> String {
        let mut output = Vec::new();
        run(input, &mut output).unwrap();
        String::from_utf8(output).unwrap()
    }

    /// The answers to some lines after a good text and an empty `frame=` line,
    /// blanks in them left out.
    fn lines(lines: &[&str]) -> String {
        let line = |it: &&str| format!("{}\n", it.replace(' ', ""));
        let lines: String = lines.iter().map(line).collect();
        done(format!("{TEXT}frame=\n{lines}").as_bytes())
    }

    /// The answers to some lines in a room of 1,700 octets.
    fn in_room(more: &[&str]) -> String {
        let mut all = vec!["room=06a4"];
        all.extend(more);
        lines(&all)
    }

    /// The refusal of a line that writes, in a room of 1,700 octets.
    fn refused(line: &str) -> u8 {
        let output = in_room(&[line]);
        let number = output.strip_prefix("refused=");
        number.map_or(0, |it| it.trim_end().parse().unwrap())
    }

    /// What a sub-frame looks like when it is written as the last.
    fn written(line: &str) -> String {
        let output = in_room(&[line, "shown="]);
        let lent = output.split("lent=").nth(1).unwrap();
        lent.trim_end().trim_end_matches("ee").to_string()
    }

    #[test]
    fn frame_silence_and_room_print_nothing() {
        assert_eq!(lines(&["frame=05", "silence=0102", "room=0010"]), "");
    }

    #[test]
    fn at_the_start_all_is_empty() {
        assert_eq!(lines(&["shown="]), "lent=\n");
        assert_eq!(lines(&["card=05"]), "source=1\noctets=\n");
        assert_eq!(lines(&["frame=05", "card=05"]), "source=255\noctets=\n");
        assert_eq!(lines(&["sid=0105000000"]), "refused=21\n");
    }

    #[test]
    fn the_voice_card() {
        // A sound payload: its front octet, then ten more.
        let payload = |front: &str| format!("{front}0102030405060708090a");
        let handed = |front: &str| format!("source=0\noctets={}\n", payload(front));
        let block = "source=255\noctets=cafe\n";
        let call = |frame: &str| lines(&["silence=cafe", &format!("frame={frame}"), "card=05"]);
        let last = format!("05 {}", payload("a0"));
        let not_last = |front: &str| format!("450b {}", payload(front));
        assert_eq!(call(&last), handed("a0"));
        // Two good ones, then bad ones before a good one.
        assert_eq!(call(&(not_last("b0") + &last)), handed("b0"));
        assert_eq!(call(&(not_last("b1") + &last)), handed("a0"));
        assert_eq!(call(&format!("4501 00 {last}")), handed("a0"));
        assert_eq!(
            call(&format!("4500 {}", not_last("c0") + &last)),
            handed("c0")
        );
        assert_eq!(call(&format!("c50400 {last}")), handed("a0"));
        assert_eq!(call("8504"), block);
        assert_eq!(call("05 00"), block);
        assert_eq!(call("8646 00000000000000000000"), block);
    }

    #[test]
    fn the_refusals_of_the_voice_card() {
        let call = |frame: &str, cid: &str| lines(&[frame, "silence=cafe", cid]);
        let refused = |number: u8| format!("source={number}\noctets=\n");
        let with_li = "4500".repeat(64);
        let frames = [
            ("".to_string(), 1),
            ("05".repeat(1601), 2),
            ("05".repeat(1700), 2),
            ("85".to_string(), 3),
            ("00".to_string(), 4),
            ("8510".to_string(), 5),
            ("4503aabb".to_string(), 6),
            ("4502aabb".to_string(), 7),
            (with_li + "05", 8),
        ];
        for (frame, number) in frames {
            for cid in ["card=05", "card=08", "card=63"] {
                assert_eq!(call(&format!("frame={frame}"), cid), refused(number));
            }
        }
        for cid in ["card=00", "card=03", "card=04", "card=ff"] {
            assert_eq!(call("frame=05", cid), refused(11));
        }
        assert_eq!(call("frame=05", "card=07"), refused(12));
        assert_eq!(call("frame=05", "card=08"), refused(12));
    }

    #[test]
    fn frame_and_silence_stand_until_the_next() {
        let output = lines(&[
            "silence=01",
            "frame=05",
            "card=05",
            "room=0000",
            "silence=02",
            "card=46",
            "frame=00",
            "card=46",
        ]);
        let wanted = "source=255\noctets=01\nsource=255\noctets=02\nsource=4\noctets=\n";
        assert_eq!(output, wanted);
    }

    #[test]
    fn sub_frames_are_written() {
        let ten = "0102030405060708090a";
        assert_eq!(
            written(&format!("voice=01050f00{ten}")),
            format!("05f0{ten}")
        );
        assert_eq!(
            written(&format!("voice=01460000{ten}")),
            format!("8640{ten}")
        );
        let digits = "digits=01 05 ff fd 01130f 000700 000000";
        assert_eq!(written(digits), "8501ff03330f07000000");
        let samples = "0102030405060708090a0b0c0d0e0f".repeat(2);
        let bits = "21436587a9cbed1f32547698badcfe";
        assert_eq!(
            written(&format!("signalling=0105 01 7f {samples}")),
            format!("8502ff{bits}")
        );
        let on = "fax=0107 00 01 03e8 01 01 01 0000";
        assert_eq!(written(on), "0781e803810000");
        assert_eq!(written(&on.replace("0107", "0105")), "850381e803810000");
        assert_eq!(written("sid=0105 00 00 00"), "8504");
        assert_eq!(written("sid=0106 01 0f c1"), "8604f03f");
        assert_eq!(written("data=0108 01 01 012c aa"), "08c12caa");
    }

    #[test]
    fn at_count_and_done() {
        let output = in_room(&["sid=0005000000", "sid=0046000000", "sid=0146000000"]);
        let wanted = "at=3\ncount=1\ndone=0\nat=6\ncount=2\ndone=0\nat=8\ncount=3\ndone=1\n";
        assert_eq!(output, wanted);
    }

    #[test]
    fn the_lent_frame_is_ee_and_a_room_is_anew() {
        let output = lines(&[
            "room=0004",
            "shown=",
            "sid=0105000000",
            "sid=0105000000",
            "shown=",
            "room=0003",
            "shown=",
            "sid=0105000000",
        ]);
        let wanted = "lent=eeeeeeee\nat=2\ncount=1\ndone=1\nrefused=24\nlent=8504eeee\n\
                      lent=eeeeee\nat=2\ncount=1\ndone=1\n";
        assert_eq!(output, wanted);
    }

    #[test]
    fn the_room_just_holds_or_misses_by_one() {
        let line = "voice=01050000 00010203040506070809";
        let fits = lines(&["room=000c", line, "shown="]);
        let octets = "050000010203040506070809";
        let wanted = format!("at=12\ncount=1\ndone=1\nlent={octets}\n");
        assert_eq!(fits, wanted);
        let misses = lines(&["room=000b", line, "shown="]);
        assert_eq!(misses, format!("refused=21\nlent={}\n", "ee".repeat(11)));
        // Not last, octet 1b takes one more.
        let not_last = line.replace("0105", "0005");
        assert_eq!(lines(&["room=000c", &not_last]), "refused=21\n");
        assert_eq!(lines(&["room=000d", &not_last]), "at=13\ncount=1\ndone=0\n");
    }

    #[test]
    fn the_writers_refusals_leave_all_as_it_was() {
        let refusals = [
            ("sid=0003000000", 4),
            ("sid=0004000000", 11),
            ("sid=0008000000", 12),
            ("data=00050000000000", 12),
            ("voice=0005000000", 13),
            ("fax=0007 00 00 0000 00 00 00 0000", 14),
            ("voice=00051000 00010203040506070809", 15),
            ("voice=00050001 00010203040506070809", 16),
            ("digits=0005 00 00 000000 000000 000000", 21),
        ];
        for (line, number) in refusals {
            let output = lines(&[
                "room=0008",
                "sid=0005000000",
                line,
                "shown=",
                "sid=0105000000",
            ]);
            let wanted = format!(
                "at=3\ncount=1\ndone=0\nrefused={number}\nlent=c50400eeeeeeeeee\n\
                 at=5\ncount=2\ndone=1\n"
            );
            assert_eq!(output, wanted, "{line}");
        }
    }

    #[test]
    fn the_writers_order_22_23_21() {
        let data =
            |last: &str, count: usize| format!("data={last}0800000000{}", "00".repeat(count));
        assert_eq!(refused(&data("00", 253)), 0);
        assert_eq!(refused(&data("00", 254)), 22);
        assert_eq!(refused(&data("00", 1700)), 22);
        assert_eq!(refused(&data("01", 1597)), 0);
        assert_eq!(refused(&data("01", 1598)), 23);
        assert_eq!(refused(&data("01", 1700)), 23);
        assert_eq!(lines(&["room=063f", &data("01", 1597)]), "refused=21\n");
        assert_eq!(
            lines(&["room=0640", &data("01", 1597)]),
            "at=1600\ncount=1\ndone=1\n"
        );
        let many = vec!["sid=0005000000"; 65];
        let output = in_room(&many);
        assert!(output.ends_with("at=192\ncount=64\ndone=0\nrefused=23\n"));
    }

    #[test]
    fn levels_are_signed_octets() {
        let digits = |level: &str| refused(&format!("digits=010500{level}000000000000000000"));
        assert_eq!([digits("e1"), digits("e0"), digits("80")], [0, 15, 15]);
        assert_eq!([digits("00"), digits("03"), digits("7f")], [0, 0, 0]);
        let sid = |level: &str| refused(&format!("sid=01060100{level}"));
        assert_eq!([sid("00"), sid("c1"), sid("c0")], [0, 0, 15]);
        assert_eq!([sid("01"), sid("7f"), sid("80")], [15, 15, 15]);
    }

    #[test]
    fn what_is_not_there_is_not_looked_at() {
        assert_eq!(written("sid=0105 00 ff ff"), "8504");
        // No stamp: its octets say nothing. Not on: no hdlc, modulation, frequency.
        let data = "fax=0107 00 00 ffff 02 01 ff ffff 010203";
        assert_eq!(written(data), "0702010203");
        let off = "fax=0107 00 01 7fff 00 01 ff ffff";
        assert_eq!(written(off), "0780ff7f");
    }

    #[test]
    fn a_body_with_fax_off_or_on_is_13() {
        assert_eq!(refused("fax=0107 00 01 0000 00 00 00 0000 00"), 13);
        assert_eq!(refused("fax=0107 00 01 0000 01 00 00 0000 00"), 13);
        assert_eq!(refused("fax=0107 00 00 0000 01 00 00 0000 00"), 14);
    }

    #[test]
    fn sids_of_the_other_kind() {
        assert_eq!(refused("sid=0106 00 00 00"), 13);
        assert_eq!(refused("sid=0105 01 00 00"), 15);
    }

    #[test]
    fn malformed_lines_are_numbered_and_change_nothing() {
        let malformed = [
            "",
            "=",
            "card",
            "card=",
            "card=0505",
            "card=0",
            "card=0G",
            "card=0A",
            "card=05\r",
            "Card=05",
            " card=05",
            "card==05",
            "cards=05",
            "frame=0",
            "frame=0g",
            "frame:05",
            "silence=0",
            "silence=ZZ",
            "room=",
            "room=06",
            "room=06a5",
            "room=ffff",
            "room=000000",
            "shown",
            "shown=00",
            "voice=",
            "voice=010500",
            "voice=02050000",
            "digits=010500000000000000000000",
            "digits=0105000000000000000000000000",
            "digits=02050000000000000000000000",
            "digits=01050000020000000000000000",
            "digits=01050000000000020000000000",
            "digits=01050000000000000000020000",
            "sid=01050000",
            "sid=010500000000",
            "sid=0205000000",
            "sid=0105020000",
            "fax=01070000000000000000",
            "fax=0207000000000000000000",
            "fax=0107000200000000000000",
            "fax=0107000100000500000000",
            "fax=0107000100000102000000",
            "fax=0107000100000002000000",
            "data=0108000000",
            "data=02080000000000",
            "data=01080200000000",
            "data=01080002000000",
        ];
        let mut input = format!("{TEXT}frame=05\nsilence=aa\nroom=0002\n").into_bytes();
        for line in malformed {
            input.extend(format!("{line}\n").as_bytes());
        }
        input.extend(b"card=05\nshown=\n");
        let numbers = 4..4 + malformed.len();
        let mut wanted: String = numbers.map(|it| format!("malformed={it}\n")).collect();
        wanted += "source=255\noctets=aa\nlent=eeee\n";
        assert_eq!(done(&input), wanted);
    }

    #[test]
    fn signalling_needs_thirty_samples() {
        for count in 0..40 {
            let output = in_room(&[&format!("signalling=01050000{}", "00".repeat(count))]);
            assert_eq!(output.starts_with("malformed=3"), count != 30, "{count}");
        }
        let line = |alarm: &str| format!("signalling=0105{alarm}00{}", "00".repeat(30));
        assert_eq!(in_room(&[&line("02")]), "malformed=3\n");
        assert_eq!(refused(&line("01")), 0);
    }

    #[test]
    fn a_first_frame_line_may_be_malformed() {
        let output = done(format!("{TEXT}frame=0\ncard=05\n").as_bytes());
        assert_eq!(output, "malformed=1\nsource=1\noctets=\n");
        assert_eq!(done(b"frame=\ncard=05\n"), "source=1\noctets=\n");
    }

    #[test]
    fn up_to_1700_octets() {
        let octets = |key: &str, count: usize| format!("{key}{}", "00".repeat(count));
        assert_eq!(
            lines(&[&octets("frame=", 1700), "card=05"]),
            "source=2\noctets=\n"
        );
        assert_eq!(lines(&[&octets("frame=", 1701)]), "malformed=2\n");
        let silence = octets("silence=", 1700);
        let output = lines(&[&silence, "frame=05", "card=05"]);
        assert_eq!(output, format!("source=255\n{}\n", octets("octets=", 1700)));
        assert_eq!(lines(&[&octets("silence=", 1701)]), "malformed=2\n");
        let room = in_room(&["shown="]);
        assert_eq!(room.len(), "lent=\n".len() + 2 * 1700);
        for (key, number) in [
            ("voice=00050000", 13),
            ("data=000800000000", 22),
            ("fax=0007000000000200000000", 13),
        ] {
            assert_eq!(refused(&octets(key, 1700)), number);
            assert_eq!(in_room(&[&octets(key, 1701)]), "malformed=3\n");
        }
        assert_eq!(lines(&[&octets("frame=", 1998)]), "malformed=2\n");
        assert_eq!(lines(&[&octets("frame=", 20_000)]), "malformed=2\n");
    }

    #[test]
    fn a_missing_lf_is_malformed() {
        let unended = |lines: &str| done(format!("{TEXT}{lines}").as_bytes());
        assert_eq!(unended("frame=05"), "malformed=1\n");
        assert_eq!(unended("frame=05\nshown="), "malformed=2\n");
        assert_eq!(unended("frame=05\n\n"), "malformed=2\n");
    }

    #[test]
    fn a_refused_text_prints_and_stops() {
        assert_eq!(done(b""), "");
        assert_eq!(done(TEXT.as_bytes()), "");
        assert_eq!(done(b"cid=5\nframe=05\nshown=\n"), "text=31\nline=2\n");
        assert_eq!(done(b"card=05\nframe=05\n"), "text=31\nline=1\n");
        let cut = format!("{TEXT}shown=\nframe=05\n");
        assert_eq!(done(cut.as_bytes()), "text=31\nline=25\n");
    }

    #[test]
    fn the_pieces_of_the_input_do_not_matter() {
        let input =
            format!("{TEXT}frame=05\ncard=05\nx\nroom=0004\nsid=0105000000\nshown=\nshown=");
        let whole = done(input.as_bytes());
        for piece in [1, 2, 3, 5, 7, 64] {
            let mut output = Vec::new();
            let reader = BufReader::with_capacity(piece, input.as_bytes());
            run(reader, &mut output).unwrap();
            assert_eq!(String::from_utf8(output).unwrap(), whole);
        }
    }
}
