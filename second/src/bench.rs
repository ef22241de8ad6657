//! Document 01, "Bench examples": all fifteen, run on this program.

use crate::frame::{frame_check, join, open_frame, write_header, Piece};
use crate::hex;
use crate::listing;
use crate::payload::digits::code_level;
use crate::payload::fax::{Command, Fax};
use crate::payload::signalling::{self, Signalling};
use crate::payload::voice::Voice;
use crate::payload::{self, data, fax, Content};
use crate::provisioning::{Record, Syntax, Table};
use crate::receivers::SignallingReceiver;
use crate::refusal::*;
use crate::writer::Writer;
use std::fmt::Debug;
use std::io::{self, Write};

/// What an example gave: nothing when it is as document 01 has it, else what differs.
type Outcome = Result<(), String>;

/// Compares what an example gave with what document 01 says.
fn expect<T: PartialEq + Debug>(what: &str, given: T, wanted: T) -> Outcome {
    if given == wanted {
        return Ok(());
    }
    Err(format!("{what}: wanted {wanted:?}, got {given:?}"))
}

/// The octets of a bench example in hex.
fn octets(text: &str) -> Vec<u8> {
    hex::read(text.as_bytes()).unwrap_or_default()
}

/// Examples 1 to 6: the number of a frame.
fn refused(frame: &str, number: Refusal) -> Outcome {
    expect(frame, frame_check(&octets(frame)), number)
}

/// The sub-frames of a frame, as pieces to join again.
fn pieces(field: &[u8]) -> Vec<Piece<'_>> {
    let reader = open_frame(field).into_iter().flatten();
    reader
        .map(|sub| (sub.cid, sub.payload_type, sub.payload))
        .collect()
}

/// Example 7: `8500aa` reads as `05aa`, written `05aa`.
fn example_7() -> Outcome {
    let (long, short) = (octets("8500aa"), octets("05aa"));
    expect("8500aa read", pieces(&long), vec![(5, 0, &[0xaa][..])])?;
    expect("05aa read", pieces(&short), pieces(&long))?;
    expect("8500aa written", join(&pieces(&long)), Some(short))
}

/// Example 8: CID 200, type 0: header `88c0`.
fn example_8() -> Outcome {
    expect(
        "header",
        hex::write(&write_header(200, 0, None)),
        "88c0".into(),
    )
}

/// Example 9: level 3 codes 0, -31 codes 31, -32: 15.
fn example_9() -> Outcome {
    expect("level 3", code_level(3), Ok(0))?;
    expect("level -31", code_level(-31), Ok(31))?;
    expect("level -32", code_level(-32), Err(OUT_OF_RANGE))
}

/// Fill count and carried count of a signalling payload after another one.
fn signalling_after(last: u8, new: u8) -> Result<(u8, usize), Refusal> {
    let mut receiver = SignallingReceiver::new();
    let mut answer = Err(0);
    for sequence in [last, new] {
        let payload = signalling::write(&Signalling {
            alarm: false,
            sequence,
            samples: [0; signalling::SAMPLES],
        })?;
        answer = receiver.accept(&payload);
    }
    answer.map(|answer| (answer.filled, answer.carried))
}

/// Example 10: signalling 126 then 1: three carried; 126 then 2: one filled,
/// three carried.
fn example_10() -> Outcome {
    expect("126 then 1", signalling_after(126, 1), Ok((0, 3)))?;
    expect("126 then 2", signalling_after(126, 2), Ok((1, 3)))
}

/// Example 11: data B, E, sequence 300: `c12c`.
fn example_11() -> Outcome {
    let payload = data::write(&data::Data {
        b: true,
        e: true,
        sequence: 300,
        fragment: &[0xaa],
    });
    expect("data", payload, Ok(octets("c12caa")))
}

/// Example 12: fax on, V.21, HDLC, stamp 1000: `81e803810000`.
fn example_12() -> Outcome {
    let payload = fax::write(&Fax {
        sequence: 0,
        stamp: Some(1000),
        command: Command::On {
            hdlc: true,
            modulation: 1,
            frequency: 0,
        },
        body: &[],
    });
    expect("fax", payload, Ok(octets("81e803810000")))
}

/// A pcm sub-channel, CID 5.
fn pcm(m: u8) -> Table {
    Table::of(&[Record {
        cid: 5,
        syntax: Syntax::Pcm,
        m,
        seq: 1,
    }])
}

/// A pcm payload of a coding type and a count of octets after the front octet.
fn pcm_content(coding_type: u8, body: &[u8]) -> Content<'_> {
    Content::Voice(Voice {
        sequence: 0,
        coding_type,
        body,
    })
}

/// Example 13: pcm code 7, m=4: 81 octets.
fn example_13() -> Outcome {
    let table = pcm(4);
    for length in 0..200 {
        let mut payload = vec![0; length];
        payload.iter_mut().take(1).for_each(|front| *front = 0x07);
        let answer = payload::read(&table, 5, 0, &payload).map(|_| ());
        let wanted = if length == 81 {
            Ok(())
        } else {
            Err(LENGTH_WRONG)
        };
        expect(&format!("{length} octets"), answer, wanted)?;
    }
    Ok(())
}

/// Example 14: pcm code 0, m=12: 481, only as last.
fn example_14() -> Outcome {
    let table = pcm(12);
    let body = [0; 480];
    let content = pcm_content(0, &body);
    let written = payload::write(&table, 5, &content);
    let length = written.map(|(_, payload)| payload.len());
    expect("octets", length, Ok(481))?;
    let mut room = [0; 1600];
    let mut writer = Writer::new(&mut room);
    let not_last = writer.write(&table, 5, &content, false);
    expect("not last", not_last, Err(NOT_LAST_OVER_255))?;
    let last = writer.write(&table, 5, &content, true);
    expect("last", last, Ok(()))?;
    expect("frame", writer.frame().len(), 482)
}

/// Example 15: 1,600 octets pass, 1,601: 2. In the listing too.
fn example_15() -> Outcome {
    expect("1,600 octets", frame_check(&[5; 1600]), 0)?;
    expect("1,601 octets", frame_check(&[5; 1601]), FIELD_TOO_LONG)?;
    let passes = format!("frame={}\n", "05".repeat(1600));
    let wanted = "frame=0\nsubs=1\ncid=5\ntype=0\nlen=1599\nanswer=11\n";
    expect("1,600 octets listed", listed(&passes), wanted.into())?;
    let too_long = format!("frame={}\n", "05".repeat(1601));
    let wanted = "frame=0\nrefused=2\nat=0\n";
    expect("1,601 octets listed", listed(&too_long), wanted.into())
}

/// What the listing program prints.
fn listed(input: &str) -> String {
    let mut output = Vec::new();
    match listing::run(input.as_bytes(), &mut output) {
        Ok(()) => String::from_utf8_lossy(&output).into_owned(),
        Err(error) => error.to_string(),
    }
}

/// Runs one example, 1 to 15.
pub fn example(number: usize) -> Outcome {
    match number {
        1 => refused("", FIELD_EMPTY),
        2 => refused("85", HEADER_OCTET_MISSING),
        3 => refused("4100", CID_RESERVED),
        4 => refused("8510", SPARE_BIT_SET),
        5 => refused("4503aabb", LENGTH_EXCEEDS_FIELD),
        6 => refused("4502aabb", LI_SET_AT_END),
        7 => example_7(),
        8 => example_8(),
        9 => example_9(),
        10 => example_10(),
        11 => example_11(),
        12 => example_12(),
        13 => example_13(),
        14 => example_14(),
        15 => example_15(),
        _ => Err("there is no such example".into()),
    }
}

/// Runs all examples and prints a line each; whether all are well.
pub fn run(mut output: impl Write) -> io::Result<bool> {
    let mut well = true;
    for number in 1..=15 {
        match example(number) {
            Ok(()) => writeln!(output, "bench {number}: ok")?,
            Err(differs) => {
                well = false;
                writeln!(output, "bench {number}: {differs}")?;
            }
        }
    }
    output.flush()?;
    Ok(well)
}

#[cfg(test)]
mod tests {
    use super::*;

    #[test]
    fn every_bench_example() {
        for number in 1..=15 {
            assert_eq!(example(number), Ok(()), "bench {number}");
        }
    }

    #[test]
    fn a_difference_is_told() {
        assert!(refused("85", SPARE_BIT_SET).is_err());
        assert!(example(0).is_err());
        assert!(example(16).is_err());
    }
}
