//! The trial program of docs/TRIAL.md: one sender of each kind, two receivers
//! of each kind, lines in, answers out.

use crate::answers::{print, print_digit_answer, print_signalling_answer};
use crate::hex;
use crate::lines::{key_and_octets, zero_or_one, Line, LineReader, CHARACTERS};
use crate::receivers::{DigitReceiver, SignallingReceiver};
use crate::refusal::Refusal;
use crate::senders::{DigitEntry, DigitSender, Samples, SignallingSender, PERIOD_SAMPLES};
use std::io::{self, BufRead, Write};

/// *who*: which receivers get it, 0 none, 1 the first, 2 the second, 3 both.
type Who = u8;

/// A line of the input that is not malformed.
#[derive(Clone, Debug, PartialEq, Eq)]
enum Command {
    /// `digit=`
    Digit(Who, DigitEntry),
    /// `start=`
    Start(u8),
    /// `samples=`
    Samples(Who, bool, Samples),
    /// `digits=`
    Digits(Who, Vec<u8>),
    /// `signalling=`
    Signalling(Who, Vec<u8>),
    /// `voice=`
    Voice(Who),
    /// `fresh=`
    Fresh(Who),
}

/// Reads a line: none when it is malformed.
fn read_line(line: &Line) -> Option<Command> {
    let (key, octets) = key_and_octets(line)?;
    match key {
        b"start" => read_start(&octets),
        b"digit" => read_digit(&octets),
        b"samples" => read_samples(&octets),
        b"digits" => read_payload(&octets).map(|(who, rest)| Command::Digits(who, rest)),
        b"signalling" => read_payload(&octets).map(|(who, rest)| Command::Signalling(who, rest)),
        b"voice" => read_who(&octets).map(Command::Voice),
        b"fresh" => read_who(&octets).map(Command::Fresh),
        _ => None,
    }
}

/// A *who*, none when it is over 03.
fn who(octet: u8) -> Option<Who> {
    (octet <= 3).then_some(octet)
}

/// The octets of `start=`: value.
fn read_start(octets: &[u8]) -> Option<Command> {
    match *octets {
        [value] => Some(Command::Start(value)),
        _ => None,
    }
}

/// The octets of `digit=`: who, type, code, edge, level.
fn read_digit(octets: &[u8]) -> Option<Command> {
    match *octets {
        [first, digit_type, code, edge, level] => {
            let entry = DigitEntry {
                on: zero_or_one(digit_type)?,
                code,
                edge,
                level: level as i8,
            };
            Some(Command::Digit(who(first)?, entry))
        }
        _ => None,
    }
}

/// The octets of `samples=`: who, alarm, ten samples.
fn read_samples(octets: &[u8]) -> Option<Command> {
    match octets {
        [first, alarm, rest @ ..] => {
            let samples = <[u8; PERIOD_SAMPLES]>::try_from(rest).ok()?;
            Some(Command::Samples(
                who(*first)?,
                zero_or_one(*alarm)?,
                samples,
            ))
        }
        _ => None,
    }
}

/// The octets of `digits=` and `signalling=`: who, then any number of octets.
fn read_payload(octets: &[u8]) -> Option<(Who, Vec<u8>)> {
    let (first, rest) = octets.split_first()?;
    Some((who(*first)?, rest.to_vec()))
}

/// The octets of `voice=` and `fresh=`: who.
fn read_who(octets: &[u8]) -> Option<Who> {
    match *octets {
        [first] => who(first),
        _ => None,
    }
}

/// The receivers, 0 or 1, that *who* names, the first before the second.
fn named(who: Who) -> Vec<usize> {
    match who {
        0 => vec![],
        1 => vec![0],
        2 => vec![1],
        _ => vec![0, 1],
    }
}

/// The senders and receivers of the trial program.
struct Trial {
    digit_sender: DigitSender,
    signalling_sender: SignallingSender,
    digit_receivers: [DigitReceiver; 2],
    signalling_receivers: [SignallingReceiver; 2],
}

impl Trial {
    /// All at their start; the signalling sender from the start value 0.
    fn new() -> Result<Self, Refusal> {
        Ok(Trial {
            digit_sender: DigitSender::new(),
            signalling_sender: SignallingSender::new(0)?,
            digit_receivers: [DigitReceiver::new(), DigitReceiver::new()],
            signalling_receivers: [SignallingReceiver::new(), SignallingReceiver::new()],
        })
    }

    /// Does what a line says and prints its answers.
    fn obey(&mut self, output: &mut impl Write, command: &Command) -> io::Result<()> {
        match command {
            Command::Digit(who, entry) => self.digit(output, *who, entry),
            Command::Start(value) => self.start(output, *value),
            Command::Samples(who, alarm, samples) => self.samples(output, *who, *alarm, samples),
            Command::Digits(who, payload) => self.digits(output, *who, payload),
            Command::Signalling(who, payload) => self.signalling(output, *who, payload),
            Command::Voice(who) => {
                self.voice(*who);
                Ok(())
            }
            Command::Fresh(who) => {
                self.fresh(*who);
                Ok(())
            }
        }
    }

    /// An entry for the digit sender; what was sent comes to the receivers.
    fn digit(&mut self, output: &mut impl Write, who: Who, entry: &DigitEntry) -> io::Result<()> {
        match self.digit_sender.enter(entry) {
            Err(number) => print(output, "refused", number),
            Ok(None) => print(output, "unsent", ""),
            Ok(Some(payload)) => {
                print(output, "sent", hex::write(&payload))?;
                self.digits(output, who, &payload)
            }
        }
    }

    /// The signalling sender anew; a refused start value leaves it as it was.
    fn start(&mut self, output: &mut impl Write, value: u8) -> io::Result<()> {
        match SignallingSender::new(value) {
            Err(number) => print(output, "refused", number),
            Ok(sender) => {
                self.signalling_sender = sender;
                print(output, "started", "")
            }
        }
    }

    /// An entry for the signalling sender; what was sent comes to the receivers.
    fn samples(
        &mut self,
        output: &mut impl Write,
        who: Who,
        alarm: bool,
        samples: &Samples,
    ) -> io::Result<()> {
        match self.signalling_sender.enter(samples, alarm) {
            Err(number) => print(output, "refused", number),
            Ok(None) => print(output, "unsent", ""),
            Ok(Some(payload)) => {
                print(output, "sent", hex::write(&payload))?;
                self.signalling(output, who, &payload)
            }
        }
    }

    /// A digits payload for the digit receivers.
    fn digits(&mut self, output: &mut impl Write, who: Who, payload: &[u8]) -> io::Result<()> {
        for index in named(who) {
            print(output, "receiver", index + 1)?;
            match self.digit_receivers[index].accept(payload) {
                Err(number) => print(output, "refused", number)?,
                Ok(answer) => print_digit_answer(output, &answer)?,
            }
        }
        Ok(())
    }

    /// A signalling payload for the signalling receivers.
    fn signalling(&mut self, output: &mut impl Write, who: Who, payload: &[u8]) -> io::Result<()> {
        for index in named(who) {
            print(output, "receiver", index + 1)?;
            let receiver = &mut self.signalling_receivers[index];
            match receiver.accept(payload) {
                Err(number) => print(output, "refused", number)?,
                Ok(answer) => print_signalling_answer(output, &answer, receiver)?,
            }
        }
        Ok(())
    }

    /// An accepted type 0 voice payload comes to the digit receivers.
    fn voice(&mut self, who: Who) {
        for index in named(who) {
            self.digit_receivers[index].accept_voice();
        }
    }

    /// These receivers anew, of both kinds.
    fn fresh(&mut self, who: Who) {
        for index in named(who) {
            self.digit_receivers[index] = DigitReceiver::new();
            self.signalling_receivers[index] = SignallingReceiver::new();
        }
    }
}

/// Runs the trial program from an input to an output.
pub fn run(input: impl BufRead, mut output: impl Write) -> io::Result<()> {
    let mut lines = LineReader::new(input, CHARACTERS);
    let mut trial = Trial::new()
        .map_err(|number| io::Error::new(io::ErrorKind::Other, format!("refusal {number}")))?;
    let mut number: u64 = 0;
    while let Some(line) = lines.next_line()? {
        number += 1;
        match read_line(&line) {
            None => print(&mut output, "malformed", number)?,
            Some(command) => trial.obey(&mut output, &command)?,
        }
    }
    output.flush()
}

#[cfg(test)]
mod tests {
    use super::*;

    fn tried(input: &[u8]) -> String {
        let mut output = Vec::new();
        run(input, &mut output).unwrap();
        String::from_utf8(output).unwrap()
    }

    /// The answers to some lines, each given its LF.
    fn lines(lines: &[&str]) -> String {
        let input: String = lines.iter().map(|line| format!("{line}\n")).collect();
        tried(input.as_bytes())
    }

    #[test]
    fn an_empty_input_prints_nothing() {
        assert_eq!(tried(b""), "");
    }

    #[test]
    fn a_digit_is_sent_and_replayed() {
        let output = lines(&["digit=0000000000", "digit=03010503fd", "digit=0101050000"]);
        let wanted = "unsent=\n\
                      sent=0003230500000000\n\
                      receiver=1\nfilled=0\nwith=000000\ncarried=3\n\
                      period=000000\nperiod=000000\nperiod=010305\n\
                      receiver=2\nfilled=0\nwith=000000\ncarried=3\n\
                      period=000000\nperiod=000000\nperiod=010305\n\
                      sent=0100200523050000\n\
                      receiver=1\nfilled=0\nwith=000000\ncarried=1\nperiod=010005\n";
        assert_eq!(output, wanted);
    }

    #[test]
    fn losses_are_filled_and_voice_ends_a_tone() {
        let mut input = vec!["digit=0301050000"];
        input.extend(["digit=0001050000"; 5]);
        input.push("voice=02");
        input.push("digit=0301050000");
        let output = lines(&input);
        let end = "receiver=1\nfilled=3\nwith=010005\ncarried=3\n\
                   period=010005\nperiod=010005\nperiod=010005\n\
                   receiver=2\nfilled=3\nwith=000000\ncarried=3\n\
                   period=010005\nperiod=010005\nperiod=010005\n";
        assert!(output.ends_with(end), "{output}");
    }

    #[test]
    fn samples_are_sent_and_replayed() {
        let output = lines(&[
            "start=02",
            "samples=010102020202020202020205",
            "samples=000005050505050505050505",
            "signalling=0180111111111111111111111111111111",
        ]);
        let wanted = "started=\n\
                      sent=80222222222222222222222222222252\n\
                      receiver=1\nfilled=0\nwith=00\ncarried=3\n\
                      period=02020202020202020202\nperiod=02020202020202020202\n\
                      period=02020202020202020205\nvalue=5\nalarm=1\n\
                      sent=01222222222222222222525555555555\n\
                      receiver=1\nfilled=0\nwith=00\ncarried=0\nvalue=1\nalarm=1\n";
        assert_eq!(output, wanted);
    }

    #[test]
    fn refusals() {
        assert_eq!(lines(&["digit=0300000100"]), "refused=17\n");
        assert_eq!(lines(&["digit=0301100000"]), "refused=15\n");
        assert_eq!(lines(&["digit=03010000e0"]), "refused=15\n");
        assert_eq!(lines(&["start=10"]), "refused=15\n");
        assert_eq!(lines(&["samples=030010000000000000000000"]), "refused=15\n");
        let both = "receiver=1\nrefused=13\nreceiver=2\nrefused=13\n";
        assert_eq!(lines(&["digits=03"]), both);
        assert_eq!(lines(&["signalling=0300"]), both);
        assert_eq!(
            lines(&["digits=020080000000000000"]),
            "receiver=2\nrefused=14\n"
        );
        assert_eq!(
            lines(&["digits=01000014ff000000ff"]),
            "receiver=1\nrefused=14\n"
        );
        assert_eq!(
            lines(&["digits=010000141f00000000"]),
            "receiver=1\nrefused=15\n"
        );
    }

    /// What the first receiver answers to signalling payloads with these first
    /// octets, 15 octets 00 behind each: of each the lines after `receiver=1`,
    /// the periods left out.
    fn signalling_after(firsts: &[u8]) -> Vec<String> {
        let line = |first: &u8| format!("signalling=01{first:02x}{}", "00".repeat(15));
        answers_of_the_first(firsts.iter().map(line).collect())
    }

    /// The same of digits payloads, 7 octets 00 behind each number.
    fn digits_after(numbers: &[u8]) -> Vec<String> {
        let line = |number: &u8| format!("digits=01{number:02x}{}", "00".repeat(7));
        answers_of_the_first(numbers.iter().map(line).collect())
    }

    fn answers_of_the_first(input: Vec<String>) -> Vec<String> {
        let input: Vec<&str> = input.iter().map(String::as_str).collect();
        let output = lines(&input);
        let mut answers: Vec<String> = Vec::new();
        for line in output.lines().filter(|line| !line.starts_with("period=")) {
            match line {
                "receiver=1" => answers.push(String::new()),
                line => *answers.last_mut().unwrap() += &format!("{line} "),
            }
        }
        answers
    }

    #[test]
    fn wish_3_signalling_line_by_line() {
        let replayed = |filled: u8, carried: u8, alarm: u8| {
            format!("filled={filled} with=00 carried={carried} value=0 alarm={alarm} ")
        };
        let rows = [
            // last and then, or none and then; the answer to it.
            (&[0x05][..], replayed(0, 3, 0)),
            (&[0x05, 0x04], "refused=19 ".into()),
            (&[0x05, 0x84], "refused=19 ".into()),
            (&[0x05, 0x84, 0x05], replayed(0, 0, 0)),
            (&[0x05, 0x05], replayed(0, 0, 0)),
            (&[0x05, 0x44], replayed(60, 3, 0)),
            (&[0x05, 0x45], "refused=19 ".into()),
            (&[100, 0x23], replayed(60, 3, 0)),
            (&[100, 0x24], "refused=19 ".into()),
        ];
        for (firsts, wanted) in rows {
            let answers = signalling_after(firsts);
            assert_eq!(answers[0], replayed(0, 3, 0), "{firsts:?}");
            assert_eq!(answers.last(), Some(&wanted), "{firsts:?}");
        }
        // Number 4 after 5, and only 14 octets behind it: its length comes first.
        let first = format!("signalling=0105{}", "00".repeat(15));
        let short = format!("signalling=0104{}", "00".repeat(14));
        let output = lines(&[&first, &short]);
        assert!(output.ends_with("alarm=0\nreceiver=1\nrefused=13\n"));
    }

    #[test]
    fn wish_3_digits_line_by_line() {
        let replayed =
            |filled: u8, carried: u8| format!("filled={filled} with=000000 carried={carried} ");
        let rows = [
            (&[0x05][..], replayed(0, 3)),
            (&[0x05, 0x84], replayed(124, 3)),
            (&[0x05, 0x85], "refused=19 ".into()),
            (&[0x05, 0x04], "refused=19 ".into()),
            (&[0x05, 0x05], replayed(0, 0)),
        ];
        for (numbers, wanted) in rows {
            assert_eq!(digits_after(numbers).last(), Some(&wanted), "{numbers:?}");
        }
        // Number 4 after 5 with a reserved bit: that comes first.
        let first = "digits=010500000000000000";
        let output = lines(&[first, "digits=010480000000000000"]);
        assert!(output.ends_with("period=000000\nreceiver=1\nrefused=14\n"));
    }

    #[test]
    fn wish_3_a_payload_that_comes_late_is_refused_and_changes_nothing() {
        // Numbers 0, 1, 3, 2, 4 to the first, 0, 1, 3, 4 to the second.
        let output = lines(&[
            "digit=0301010000",
            "digit=0301020000",
            "digit=0001030000",
            "digit=0301040000",
            "digits=010200200320022001",
            "digit=0301050000",
        ]);
        assert_eq!(output.matches("receiver=1\nrefused=19\n").count(), 1);
        assert_eq!(output.matches("refused=").count(), 1);
        let end = |receiver: u8| {
            format!("receiver={receiver}\nfilled=0\nwith=000000\ncarried=1\nperiod=010005\n")
        };
        assert!(output.ends_with(&(end(1) + &end(2))), "{output}");
        // The payload that came late is the one that was sent.
        assert!(output.contains("sent=0200200320022001\n"));
    }

    #[test]
    fn a_refused_start_value_leaves_the_sender_as_it_was() {
        let entry = "samples=000000000000000000000001";
        let output = lines(&[entry, "start=10", entry, "start=00", entry]);
        let sent: Vec<&str> = output.lines().collect();
        assert!(sent[0].starts_with("sent=00"));
        assert_eq!(sent[1], "refused=15");
        assert!(sent[2].starts_with("sent=01"));
        assert_eq!(sent[3], "started=");
        assert!(sent[4].starts_with("sent=00"));
    }

    #[test]
    fn fresh_receivers_start_anew_of_both_kinds() {
        let digits = "digits=030000000000000000";
        let signalling = "signalling=0300000000000000000000000000000000";
        let output = lines(&[digits, signalling, "fresh=02", digits, signalling]);
        let carried: Vec<&str> = output
            .lines()
            .filter(|line| line.starts_with("carried="))
            .collect();
        let (three, none) = ("carried=3", "carried=0");
        assert_eq!(
            carried,
            [three, three, three, three, none, three, none, three]
        );
    }

    #[test]
    fn voice_fresh_and_payloads_for_nobody_print_nothing() {
        let quiet = lines(&["voice=03", "fresh=03", "digits=00", "signalling=00ff"]);
        assert_eq!(quiet, "");
    }

    #[test]
    fn malformed_lines_are_numbered_and_change_nothing() {
        let malformed = [
            "",
            "=",
            "digit",
            "digit=",
            "digit=00010500",
            "digit=000105000000",
            "digit=0401050000",
            "digit=0002050000",
            "digit=000105000",
            "digit=00010500fD",
            "digit=00010500 0",
            "digit=0001050000\r",
            "Digit=0001050000",
            " digit=0001050000",
            "digit==0001050000",
            "other=00",
            "start=",
            "start=0000",
            "samples=0000000000000000000000",
            "samples=00000000000000000000000000",
            "samples=000200000000000000000000",
            "samples=040000000000000000000000",
            "digits=",
            "digits=04",
            "signalling=",
            "signalling=04",
            "voice=",
            "voice=04",
            "voice=0000",
            "fresh=",
            "fresh=04",
            "fresh=0000",
        ];
        let wanted: String = (1..=malformed.len())
            .map(|number| format!("malformed={number}\n"))
            .collect();
        assert_eq!(lines(&malformed), wanted);
    }

    #[test]
    fn a_missing_lf_is_malformed() {
        assert_eq!(tried(b"voice=03"), "malformed=1\n");
        assert_eq!(tried(b"voice=03\nstart=00"), "malformed=2\n");
        assert_eq!(tried(b"\n"), "malformed=1\n");
    }

    #[test]
    fn a_line_of_over_4000_characters_is_malformed() {
        let line = |size: usize| {
            let mut line = b"digits=01".to_vec();
            line.resize(size, b'0');
            line.push(b'\n');
            tried(&line)
        };
        assert_eq!(line(3999), "receiver=1\nrefused=13\n");
        assert_eq!(line(4000), "malformed=1\n");
        assert_eq!(line(4001), "malformed=1\n");
        assert_eq!(line(100_001), "malformed=1\n");
    }
}
