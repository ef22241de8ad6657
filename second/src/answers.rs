//! Printing what the trial, the follow and the unit program answer: a key and a
//! value on each line, and the answers of the receivers and of the fax replay.

use crate::fax_replay::{Did, FaxAnswer};
use crate::hex;
use crate::payload::digits::Window;
use crate::receivers::{DigitAnswer, SignallingAnswer, SignallingReceiver};
use std::fmt::Display;
use std::io::{self, Write};

/// Prints a key and a value.
pub fn print(output: &mut impl Write, key: &str, value: impl Display) -> io::Result<()> {
    writeln!(output, "{key}={value}")
}

/// A digit period in hex: type, edge, code.
fn window_hex(window: &Window) -> String {
    hex::write(&[window.digit_type, window.edge, window.code])
}

/// Prints the answer of a digit receiver.
pub fn print_digit_answer(output: &mut impl Write, answer: &DigitAnswer) -> io::Result<()> {
    print(output, "filled", answer.filled)?;
    print(output, "with", window_hex(&answer.with))?;
    print(output, "carried", answer.carried)?;
    for window in &answer.periods[..answer.carried] {
        print(output, "period", window_hex(window))?;
    }
    Ok(())
}

/// Prints the answer of a signalling receiver, its value and its alarm.
pub fn print_signalling_answer(
    output: &mut impl Write,
    answer: &SignallingAnswer,
    receiver: &SignallingReceiver,
) -> io::Result<()> {
    print(output, "filled", answer.filled)?;
    print(output, "with", hex::write(&[answer.with]))?;
    print(output, "carried", answer.carried)?;
    for samples in &answer.periods[..answer.carried] {
        print(output, "period", hex::write(samples))?;
    }
    print(output, "value", receiver.value())?;
    print(output, "alarm", u8::from(receiver.alarm()))
}

/// The word for what a fax payload did.
fn did_word(did: &Did) -> &'static str {
    match did {
        Did::Nothing => "nothing",
        Did::Began { .. } => "began",
        Did::Stopped { .. } => "stopped",
        Did::Added => "added",
        Did::Ended => "ended",
        Did::Aborted => "aborted",
    }
}

/// Prints the answer of a fax replay.
pub fn print_fax_answer(output: &mut impl Write, answer: &FaxAnswer) -> io::Result<()> {
    print(output, "gap", u8::from(answer.gap))?;
    print(output, "octets", hex::write(&answer.octets))?;
    print(output, "did", did_word(&answer.did))?;
    match answer.did {
        Did::Began {
            hdlc,
            modulation,
            frequency,
            stamp,
        } => {
            print(output, "hdlc", u8::from(hdlc))?;
            print(output, "modulation", modulation)?;
            print(output, "frequency", frequency)?;
            print(output, "stamp", stamp)
        }
        Did::Stopped { stamp } => print(output, "stamp", stamp),
        _ => Ok(()),
    }
}

#[cfg(test)]
mod tests {
    use super::*;

    /// What is printed into a text.
    fn text(print: impl FnOnce(&mut Vec<u8>) -> io::Result<()>) -> String {
        let mut output = Vec::new();
        print(&mut output).unwrap();
        String::from_utf8(output).unwrap()
    }

    #[test]
    fn digits_are_octets_and_counts_decimal() {
        let on = Window {
            digit_type: 1,
            edge: 19,
            code: 15,
        };
        let mut answer = DigitAnswer {
            filled: 124,
            with: Window { edge: 0, ..on },
            carried: 1,
            ..DigitAnswer::default()
        };
        answer.periods[0] = on;
        let printed = text(|output| print_digit_answer(output, &answer));
        let wanted = "filled=124\nwith=01000f\ncarried=1\nperiod=01130f\n";
        assert_eq!(printed, wanted);
    }

    #[test]
    fn signalling_has_its_value_in_decimal() {
        let mut receiver = SignallingReceiver::new();
        let answer = receiver.accept(&[0xff; 16]).unwrap();
        let printed = text(|output| print_signalling_answer(output, &answer, &receiver));
        let period = format!("period={}\n", "0f".repeat(10)).repeat(3);
        let wanted = format!("filled=0\nwith=00\ncarried=3\n{period}value=15\nalarm=1\n");
        assert_eq!(printed, wanted);
    }
    #[test]
    fn fax_says_what_it_did() {
        let printed = |gap, octets: &[u8], did| {
            let octets = octets.to_vec();
            text(|output| print_fax_answer(output, &FaxAnswer { gap, octets, did }))
        };
        let began = Did::Began {
            hdlc: true,
            modulation: 11,
            frequency: 65535,
            stamp: 32767,
        };
        let wanted = "gap=0\noctets=\ndid=began\nhdlc=1\nmodulation=11\n\
                      frequency=65535\nstamp=32767\n";
        assert_eq!(printed(false, &[], began), wanted);
        let wanted = "gap=1\noctets=\ndid=stopped\nstamp=0\n";
        assert_eq!(printed(true, &[], Did::Stopped { stamp: 0 }), wanted);
        let plain = [
            (Did::Nothing, "nothing"),
            (Did::Added, "added"),
            (Did::Ended, "ended"),
            (Did::Aborted, "aborted"),
        ];
        for (did, word) in plain {
            let wanted = format!("gap=1\noctets=0aff42\ndid={word}\n");
            assert_eq!(printed(true, &[0x0a, 0xff, 0x42], did), wanted);
        }
    }
}
