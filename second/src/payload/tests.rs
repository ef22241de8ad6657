//! The corners that document 01 and READINGS.md name, exhaustive small cases,
//! and round trips.

use super::data::Data;
use super::digits::{Digits, Window};
use super::drawn::{as_it_comes_back, wanted_number, ContentDrawer};
use super::fax::{Command, Fax};
use super::sid::Sid;
use super::signalling::Signalling;
use super::voice::{Voice, G727_OCTETS, PCM_OCTETS};
use super::*;
use crate::generate::payloads::Drawer;
use crate::generate::records::{kinds, record, records};
use crate::generate::Random;
use crate::hex;

/// A table of one sub-channel, CID 5.
fn one(syntax: Syntax, m: u8, seq: u8) -> Table {
    Table::of(&[Record {
        cid: 5,
        syntax,
        m,
        seq,
    }])
}

/// The answer to a payload of a type on a sub-channel: 0 when it passes.
fn answer(table: &Table, payload_type: u8, payload: &[u8]) -> Refusal {
    read(table, 5, payload_type, payload).err().unwrap_or(0)
}

/// The same in hex.
fn answer_hex(table: &Table, payload_type: u8, payload: &str) -> Refusal {
    let payload = hex::read(payload.replace(' ', "").as_bytes()).unwrap();
    answer(table, payload_type, &payload)
}

/// Front octet 00 and so many octets of 0.
fn zeros(count: usize) -> Vec<u8> {
    vec![0; count]
}

#[test]
fn readings_11_comes_before_12_also_for_types_5_to_15() {
    let table = one(Syntax::Acelp, 1, 0);
    for payload_type in 0..16 {
        assert_eq!(read(&table, 6, payload_type, &[]), Err(11));
    }
}

#[test]
fn which_type_is_allowed_where() {
    for syntax in Syntax::ALL {
        let table = one(syntax, 1, syntax.seq_values()[0]);
        let most = match syntax {
            Syntax::Data => 0,
            Syntax::Fax => 2,
            _ => 4,
        };
        for payload_type in 0..16 {
            let refused = answer(&table, payload_type, &zeros(100)) == 12;
            assert_eq!(refused, payload_type > most, "{syntax:?} {payload_type}");
        }
    }
}

#[test]
fn readings_type_3_on_a_fax_sub_channel_is_12() {
    let table = one(Syntax::Fax, 1, 0);
    assert_eq!(answer_hex(&table, 3, "81e803810000"), 12);
    assert_eq!(answer_hex(&table, 0, "81e803810000"), 0);
    assert_eq!(answer_hex(&one(Syntax::Pcm, 1, 1), 3, "81e803810000"), 0);
}

#[test]
fn acelp_and_g728_have_ten_octets_an_m() {
    for (syntax, most) in [(Syntax::Acelp, 6), (Syntax::G728, 12)] {
        for m in 1..=most {
            for seq in 0..=1 {
                let right = 10 * usize::from(m) + usize::from(seq);
                for length in 0..140 {
                    let wanted = if length == right { 0 } else { 13 };
                    assert_eq!(answer(&one(syntax, m, seq), 0, &zeros(length)), wanted);
                }
            }
        }
    }
}

#[test]
fn readings_acelp_and_g728_with_seq_one_octet_01_is_16() {
    for syntax in [Syntax::Acelp, Syntax::G728] {
        let table = one(syntax, 1, 1);
        assert_eq!(answer(&table, 0, &[]), 13);
        for front in 0..=255u8 {
            let wrong = front % 16 != 0;
            assert_eq!(answer(&table, 0, &[front]), if wrong { 16 } else { 13 });
            let mut payload = zeros(11);
            payload[0] = front;
            assert_eq!(answer(&table, 0, &payload), if wrong { 16 } else { 0 });
        }
    }
}

#[test]
fn without_seq_the_first_octet_is_voice() {
    for syntax in [Syntax::Acelp, Syntax::G728] {
        let payload = [0xff; 10];
        let wanted = Voice {
            sequence: 0,
            coding_type: 0,
            body: &payload,
        };
        let content = read(&one(syntax, 1, 0), 5, 0, &payload);
        assert_eq!(content, Ok(Content::Voice(wanted)));
    }
}

/// FRF.11 figure F - 4, "Compression Bit Rate (kbit/s)": pcm by coding type.
const PCM_RATES: [usize; 14] = [64, 56, 48, 64, 56, 48, 40, 32, 24, 16, 40, 32, 24, 16];
/// FRF.11 figure G - 2, the same column: g727 by coding type.
const G727_RATES: [usize; 15] = [16, 8, 16, 24, 24, 32, 40, 24, 8, 16, 32, 40, 32, 8, 40];

#[test]
fn wish_2_the_octets_are_five_times_the_bits_per_sample() {
    // 8,000 samples a second; an interval of 5 ms has 40, five octets for each bit.
    let worked_out = |rates: &[usize]| -> Vec<usize> {
        assert!(rates.iter().all(|rate| rate % 8 == 0));
        rates.iter().map(|rate| 5 * (rate / 8)).collect()
    };
    assert_eq!(PCM_OCTETS.to_vec(), worked_out(&PCM_RATES));
    assert_eq!(G727_OCTETS.to_vec(), worked_out(&G727_RATES));
    assert_eq!((PCM_OCTETS.len(), G727_OCTETS.len()), (14, 15));
}

#[test]
fn wish_2_worked_lengths() {
    // Syntax, m, coding type, octets of the payload with its front octet.
    for (syntax, m, code, octets) in [
        (Syntax::Pcm, 4, 7, 81),
        (Syntax::Pcm, 12, 0, 481),
        (Syntax::Pcm, 1, 13, 11),
        (Syntax::G727, 1, 13, 6),
        (Syntax::G727, 12, 14, 301),
        (Syntax::G727, 1, 0, 11),
        (Syntax::G727, 1, 3, 16),
        (Syntax::G727, 1, 7, 16),
        (Syntax::G727, 1, 12, 21),
    ] {
        let not_in_table = if syntax == Syntax::Pcm { 14 } else { 15 };
        for length in octets - 1..=octets + 1 {
            let of_code = |code| {
                let mut payload = zeros(length);
                payload[0] = code;
                answer(&one(syntax, m, 1), 0, &payload)
            };
            let wanted = if length == octets { 0 } else { 13 };
            assert_eq!(of_code(code), wanted, "{syntax:?} {m} {code} {length}");
            assert_eq!(of_code(not_in_table), 16, "{syntax:?} {m} {length}");
        }
    }
    assert_eq!(answer_hex(&one(Syntax::Pcm, 1, 1), 0, "0e"), 16);
    assert_eq!(answer_hex(&one(Syntax::G727, 1, 1), 0, "0f"), 16);
}

#[test]
fn pcm_and_g727_by_coding_type() {
    // An interval of 5 ms has 5/8 of the rate.
    let (pcm, g727) = (&PCM_RATES[..], &G727_RATES[..]);
    for (syntax, rates) in [(Syntax::Pcm, pcm), (Syntax::G727, g727)] {
        for m in 1..=12 {
            let table = one(syntax, m, 1);
            for code in 0..16u8 {
                let rate = rates.get(usize::from(code));
                for length in 1..500 {
                    let mut payload = zeros(length);
                    payload[0] = 0xa0 | code;
                    let wanted = match rate {
                        None => 16,
                        Some(rate) if length == 1 + rate * 5 / 8 * usize::from(m) => 0,
                        Some(_) => 13,
                    };
                    assert_eq!(answer(&table, 0, &payload), wanted);
                }
            }
            assert_eq!(answer(&table, 0, &[]), 13);
        }
    }
}

#[test]
fn g7231_without_seq() {
    let table = one(Syntax::G7231, 1, 0);
    assert_eq!(answer(&table, 0, &[]), 13);
    for first in 0..=255u8 {
        for length in 1..30 {
            let mut payload = zeros(length);
            payload[0] = first;
            let wanted = match (first % 4, length) {
                (3, _) => 14,
                (0 | 2, 24) | (1, 20) => 0,
                _ => 13,
            };
            assert_eq!(answer(&table, 0, &payload), wanted);
        }
    }
}

#[test]
fn readings_g7231_with_seq() {
    let table = one(Syntax::G7231, 1, 1);
    for first in 0..=255u8 {
        assert_eq!(answer(&table, 0, &[first]), 13);
    }
    assert_eq!(answer_hex(&table, 0, ""), 13);
    assert_eq!(answer_hex(&table, 0, "0103"), 16);
    assert_eq!(answer_hex(&table, 0, "0003"), 14);
    assert_eq!(answer_hex(&table, 0, "0000"), 13);
    for first in 0..=255u8 {
        for length in 2..30 {
            let mut payload = zeros(length);
            payload[1] = first;
            let wanted = match (first % 4, length) {
                (3, _) => 14,
                (0 | 2, 25) | (1, 21) => 0,
                _ => 13,
            };
            assert_eq!(answer(&table, 0, &payload), wanted);
        }
    }
}

#[test]
fn readings_no_other_bit_of_a_voice_body_is_looked_at() {
    // Octet 13 of the high rate has the unused bit.
    let mut payload = [0xff; 24];
    payload[0] = 0xfc;
    assert_eq!(answer(&one(Syntax::G7231, 1, 0), 0, &payload), 0);
    assert_eq!(answer(&one(Syntax::Acelp, 1, 0), 0, &[0xff; 10]), 0);
}

#[test]
fn sid_under_pcm_and_g727() {
    for syntax in [Syntax::Pcm, Syntax::G727] {
        let table = one(syntax, 3, 1);
        for length in [0, 1, 3, 4] {
            assert_eq!(answer(&table, 4, &zeros(length)), 13);
        }
        for first in 0..=255u8 {
            for second in 0..=255u8 {
                let wanted = Sid::Noise {
                    sequence: first / 16,
                    noise_level: -((second % 64) as i8),
                };
                let payload = [first, second];
                let content = read(&table, 5, 4, &payload);
                assert_eq!(content, Ok(Content::Sid(wanted)));
            }
        }
    }
}

#[test]
fn readings_sid_under_the_others_is_empty_also_with_seq() {
    for syntax in [Syntax::Acelp, Syntax::G728, Syntax::G7231] {
        for seq in [0, 1] {
            let table = one(syntax, 1, seq);
            assert_eq!(read(&table, 5, 4, &[]), Ok(Content::Sid(Sid::Empty)));
            for length in 1..5 {
                assert_eq!(answer(&table, 4, &zeros(length)), 13);
            }
        }
    }
}

#[test]
fn readings_data_under_three_octets_is_13_before_14() {
    let table = one(Syntax::Data, 1, 0);
    for payload in ["", "20", "2000", "0000"] {
        assert_eq!(answer_hex(&table, 0, payload), 13);
    }
    assert_eq!(answer_hex(&table, 0, "200000"), 14);
    assert_eq!(answer_hex(&table, 0, "000000"), 0);
    let content = read(&table, 5, 0, &[0xc1, 0x2c, 7]).unwrap();
    let wanted = Data {
        b: true,
        e: true,
        sequence: 300,
        fragment: &[7],
    };
    assert_eq!(content, Content::Data(wanted));
}

#[test]
fn data_bits() {
    let table = one(Syntax::Data, 1, 0);
    for first in 0..=255u8 {
        let payload = [first, 0xff, 1];
        let wanted = match first / 32 % 2 {
            1 => Err(14),
            _ => Ok(Content::Data(Data {
                b: first >= 128,
                e: first / 64 % 2 == 1,
                sequence: u16::from(first % 32) * 256 + 255,
                fragment: &[1],
            })),
        };
        assert_eq!(read(&table, 5, 0, &payload), wanted);
    }
}

#[test]
fn readings_fax_commands_and_lengths() {
    let table = one(Syntax::Fax, 1, 0);
    assert_eq!(answer(&table, 0, &[]), 13);
    for first in 0..=255u8 {
        let (command, ei1) = (first % 8, first >= 128);
        for length in 1..90 {
            let mut payload = zeros(length);
            payload[0] = first;
            let data = [3, 12, 24, 36, 48, 60, 72];
            let more = if ei1 { 3 } else { 1 };
            let wanted = match command {
                5..=7 => 14,
                0 | 1 if !ei1 => 14,
                0 if length == 3 => 0,
                1 if length == 6 => 0,
                2 if data.iter().any(|it| it + more == length) => 0,
                3 | 4 if length == 3 + more => 0,
                _ => 13,
            };
            assert_eq!(answer(&table, 0, &payload), wanted, "{first} {length}");
        }
    }
}

#[test]
fn readings_fax_reserved_bits_after_the_length() {
    let table = one(Syntax::Acelp, 1, 0);
    for (payload, wanted) in [
        ("80e803", 0),
        ("80e883", 14),
        ("80e88300", 13),
        ("81e883810000", 14),
        ("81e8830100", 13),
        ("82e883000000", 14),
        ("82e803000000", 0),
        ("83e883000000", 14),
        ("84e883000000", 14),
        ("84e803000000", 0),
        ("04000000", 0),
        ("81e803910000", 14),
        ("81e803a10000", 14),
        ("81e803c10000", 14),
        ("81e803010100", 14),
        ("81e803010001", 14),
        ("81e803000101", 0),
        ("81e80380ffff", 0),
    ] {
        assert_eq!(answer_hex(&table, 3, payload), wanted, "{payload}");
    }
}

#[test]
fn readings_fax_modulation_12_to_15_is_14_reading_and_writing() {
    let table = one(Syntax::Fax, 1, 0);
    for modulation in 0..16u8 {
        let payload = [0x81, 0, 0, modulation, 0, 0];
        let wanted = if modulation > 11 { 14 } else { 0 };
        assert_eq!(answer(&table, 0, &payload), wanted);
        let content = Content::Fax(Fax {
            sequence: 0,
            stamp: Some(0),
            command: Command::On {
                hdlc: false,
                modulation,
                frequency: 0,
            },
            body: &[],
        });
        let written = write(&table, 5, &content);
        assert_eq!(written.err().unwrap_or(0), wanted);
    }
}

#[test]
fn fax_fields() {
    let table = one(Syntax::Fax, 1, 0);
    let payload = hex::read(b"f9ff7f800102").unwrap();
    let wanted = Fax {
        sequence: 15,
        stamp: Some(32767),
        command: Command::On {
            hdlc: true,
            modulation: 0,
            frequency: 0x0201,
        },
        body: &[],
    };
    assert_eq!(read(&table, 5, 0, &payload), Ok(Content::Fax(wanted)));
    let payload = hex::read(b"2a010203").unwrap();
    let wanted = Fax {
        sequence: 5,
        stamp: None,
        command: Command::Data,
        body: &[1, 2, 3],
    };
    assert_eq!(read(&table, 5, 0, &payload), Ok(Content::Fax(wanted)));
}

#[test]
fn digits_lengths() {
    for syntax in Syntax::ALL.into_iter().filter(|it| *it != Syntax::Data) {
        let table = one(syntax, 1, syntax.seq_values()[0]);
        for length in 0..20 {
            let wanted = if length == 8 { 0 } else { 13 };
            assert_eq!(answer(&table, 1, &zeros(length)), wanted);
        }
    }
}

#[test]
fn each_reserved_bit_of_digits_is_14() {
    let table = one(Syntax::Fax, 1, 0);
    for place in [1, 3, 5, 7] {
        for bit in [0x20, 0x40, 0x80] {
            let mut payload = zeros(8);
            payload[place] = bit;
            assert_eq!(answer(&table, 1, &payload), 14);
        }
    }
    for place in [2, 4, 6] {
        for digit_type in 0..8u8 {
            let mut payload = zeros(8);
            payload[place] = digit_type << 5;
            let wanted = if digit_type > 1 { 14 } else { 0 };
            assert_eq!(answer(&table, 1, &payload), wanted);
        }
    }
}

#[test]
fn edges_and_codes_of_every_window() {
    let table = one(Syntax::Pcm, 1, 1);
    for place in [2, 4, 6] {
        for on in [0u8, 1] {
            for edge in 0..32u8 {
                for code in 0..32u8 {
                    let mut payload = zeros(8);
                    payload[place] = on << 5 | edge;
                    payload[place + 1] = code;
                    let wrong = edge > 19 || on == 1 && code > 15;
                    let wanted = if wrong { 15 } else { 0 };
                    assert_eq!(answer(&table, 1, &payload), wanted);
                }
            }
        }
    }
}

#[test]
fn readings_the_code_of_an_off_window() {
    // Three bits checked, five bits ignored and handed out as 0, edge checked.
    let off = |second: u8, edge: u8| digits::read(&[0, 0, edge, second, 0, 0, 0, 0]);
    assert_eq!(off(0x20, 0), Err(14));
    assert_eq!(off(0x1f, 20), Err(15));
    let window = Window {
        digit_type: 0,
        edge: 19,
        code: 0,
    };
    assert_eq!(off(0x1f, 19).unwrap().windows[0], window);
}

#[test]
fn readings_every_14_of_digits_comes_before_any_15() {
    // The first window out of range, the last one reserved.
    assert_eq!(digits::read(&[0, 0, 31, 0, 0, 0, 0x40, 0]), Err(14));
    assert_eq!(digits::read(&[0, 0, 31, 0, 0, 0, 0, 0x80]), Err(14));
    assert_eq!(digits::read(&[0, 0, 0x20, 0x1f, 0, 0, 0, 0]), Err(15));
    let windows = [
        Window {
            edge: 31,
            ..Window::default()
        },
        Window::default(),
        Window {
            digit_type: 2,
            ..Window::default()
        },
    ];
    let digits = Digits {
        sequence: 0,
        level: -32,
        windows,
    };
    assert_eq!(digits::write(&digits), Err(14));
}

#[test]
fn readings_windows_that_contradict_each_other_are_not_refused() {
    // An edge with no change, and changes with none.
    assert!(digits::read(&[0, 0, 0x25, 5, 0x25, 5, 0x25, 5]).is_ok());
    assert!(digits::read(&[0, 0, 0x20, 5, 0x00, 0, 0x20, 6]).is_ok());
}

#[test]
fn digits_fields_current_first() {
    let digits = digits::read(&[200, 31, 0x21, 7, 0x13, 0, 0x20, 15]).unwrap();
    assert_eq!((digits.sequence, digits.level), (200, -31));
    let window = |digit_type, edge, code| Window {
        digit_type,
        edge,
        code,
    };
    let wanted = [window(1, 1, 7), window(0, 19, 0), window(1, 0, 15)];
    assert_eq!(digits.windows, wanted);
}

#[test]
fn every_level() {
    for level in -128..=127i8 {
        let wanted = match level {
            1..=127 => Ok(0),
            -31..=0 => Ok((-i16::from(level)) as u8),
            _ => Err(15),
        };
        assert_eq!(digits::code_level(level), wanted);
    }
    for code in 0..32u8 {
        let digits = digits::read(&[0, code, 0, 0, 0, 0, 0, 0]).unwrap();
        assert_eq!(i16::from(digits.level), -i16::from(code));
    }
}

#[test]
fn signalling_layout() {
    let mut payload = zeros(16);
    payload[0] = 0x80 | 77;
    payload[1] = 0x21;
    payload[15] = 0xfe;
    let signalling = signalling::read(&payload).unwrap();
    assert!(signalling.alarm);
    assert_eq!(signalling.sequence, 77);
    assert_eq!(signalling.samples[..3], [1, 2, 0]);
    assert_eq!(signalling.samples[28..], [14, 15]);
    for length in (0..40).filter(|it| *it != 16) {
        assert_eq!(signalling::read(&zeros(length)), Err(13));
    }
}

#[test]
fn readings_a_value_that_would_not_be_written_is_refused() {
    let body = [0; 10];
    let voice = |sequence, coding_type| {
        Content::Voice(Voice {
            sequence,
            coding_type,
            body: &body,
        })
    };
    let plain = one(Syntax::Acelp, 1, 0);
    assert_eq!(write(&plain, 5, &voice(0, 0)), Ok((0, body.to_vec())));
    assert_eq!(write(&plain, 5, &voice(1, 0)), Err(15));
    assert_eq!(write(&plain, 5, &voice(0, 1)), Err(16));
    assert_eq!(write(&plain, 5, &voice(1, 1)), Err(16));
    let front = one(Syntax::Acelp, 1, 1);
    assert_eq!(write(&front, 5, &voice(16, 0)), Err(15));
    assert!(write(&front, 5, &voice(15, 0)).is_ok());
    let noise = Content::Sid(Sid::Noise {
        sequence: 0,
        noise_level: 0,
    });
    assert_eq!(write(&plain, 5, &noise), Err(15));
    let empty = Content::Sid(Sid::Empty);
    assert_eq!(write(&plain, 5, &empty), Ok((4, vec![])));
    assert_eq!(write(&one(Syntax::Pcm, 1, 1), 5, &empty), Err(13));
}

#[test]
fn readings_a_noise_level_above_0_or_below_63_is_15() {
    let table = one(Syntax::G727, 1, 1);
    for noise_level in -128..=127i8 {
        let content = Content::Sid(Sid::Noise {
            sequence: 9,
            noise_level,
        });
        let wanted = match noise_level {
            -63..=0 => Ok((4, vec![0x90, (-i16::from(noise_level)) as u8])),
            _ => Err(15),
        };
        assert_eq!(write(&table, 5, &content), wanted);
    }
}

#[test]
fn readings_content_of_another_kind_is_12() {
    let voice = Content::Voice(Voice {
        sequence: 0,
        coding_type: 0,
        body: &[],
    });
    let data = Content::Data(Data {
        b: true,
        e: true,
        sequence: 0,
        fragment: &[1],
    });
    let fax = Content::Fax(Fax {
        sequence: 0,
        stamp: Some(0),
        command: Command::Off,
        body: &[],
    });
    let sid = Content::Sid(Sid::Empty);
    let digits = Content::Digits(Digits::default());
    for syntax in Syntax::ALL {
        let table = one(syntax, 1, syntax.seq_values()[0]);
        let refused = |content: &Content| write(&table, 5, content) == Err(12);
        let (is_data, is_fax) = (syntax == Syntax::Data, syntax == Syntax::Fax);
        assert_eq!(refused(&voice), is_data || is_fax);
        assert_eq!(refused(&data), !is_data);
        assert_eq!(refused(&fax), is_data);
        assert_eq!(refused(&sid), is_data || is_fax);
        assert_eq!(refused(&digits), is_data);
        assert_eq!(write(&table, 6, &voice), Err(11));
    }
}

#[test]
fn readings_fax_is_type_0_on_a_fax_sub_channel_and_3_on_a_voice_one() {
    let fax = Content::Fax(Fax {
        sequence: 0,
        stamp: Some(0),
        command: Command::Off,
        body: &[],
    });
    let written = |syntax| write(&one(syntax, 1, 0), 5, &fax);
    assert_eq!(written(Syntax::Fax), Ok((0, vec![0x80, 0, 0])));
    assert_eq!(written(Syntax::Acelp), Ok((3, vec![0x80, 0, 0])));
}

#[test]
fn writing_signalling_out_of_range() {
    let mut signalling = Signalling {
        alarm: true,
        sequence: 127,
        samples: [15; 30],
    };
    assert_eq!(signalling::write(&signalling), Ok([0xff; 16]));
    signalling.sequence = 128;
    assert_eq!(signalling::write(&signalling), Err(15));
    signalling.sequence = 0;
    signalling.samples[29] = 16;
    assert_eq!(signalling::write(&signalling), Err(15));
}

#[test]
fn writing_fax_off_and_on_with_a_body_is_13() {
    let on = Command::On {
        hdlc: true,
        modulation: 12,
        frequency: 1,
    };
    for command in [Command::Off, on] {
        for count in 1..100 {
            // 13 comes after the 14 of the missing stamp, before all else.
            let body = &zeros(count);
            let fax = |stamp| Fax {
                sequence: 16,
                stamp,
                command,
                body,
            };
            assert_eq!(fax::write(&fax(None)), Err(14));
            assert_eq!(fax::write(&fax(Some(0))), Err(13));
            assert_eq!(fax::write(&fax(Some(32768))), Err(13));
        }
    }
}

/// A record of any kind from a seed, CID 5.
fn any_record(random: &mut Random) -> Record {
    let kind = random.pick(&kinds());
    record(random, 5, kind)
}

#[test]
fn legal_content_comes_back() {
    let mut kinds_seen = [0; 6];
    for seed in 0..20_000 {
        let random = &mut Random::new(seed);
        let record = any_record(random);
        let table = Table::of(&[record]);
        let spoil = false;
        let content = ContentDrawer { random, spoil }.content(&record);
        let (payload_type, octets) = write(&table, 5, &content).unwrap();
        let back = read(&table, 5, payload_type, &octets);
        assert_eq!(back, Ok(as_it_comes_back(&content)), "seed {seed}");
        kinds_seen[match content {
            Content::Voice(_) => 0,
            Content::Data(_) => 1,
            Content::Fax(_) => 2,
            Content::Digits(_) => 3,
            Content::Signalling(_) => 4,
            Content::Sid(_) => 5,
        }] += 1;
    }
    assert!(kinds_seen.iter().all(|it| *it > 500), "{kinds_seen:?}");
}

#[test]
fn what_is_written_agrees_with_what_is_read() {
    let mut numbers = [0; 17];
    for seed in 0..60_000 {
        let random = &mut Random::new(seed);
        let record = any_record(random);
        let table = Table::of(&[record]);
        let spoil = true;
        let content = ContentDrawer { random, spoil }.any_kind(&record);
        let cid = if seed % 50 == 0 { 6 } else { 5 };
        let number = write(&table, cid, &content).err().unwrap_or(0);
        let wanted = wanted_number(&table, cid, &content);
        assert_eq!(number, wanted, "seed {seed}: {record:?} {content:?}");
        numbers[usize::from(number)] += 1;
    }
    for number in [0, 11, 12, 13, 14, 15, 16] {
        assert!(numbers[number] > 100, "{numbers:?}");
    }
}

#[test]
fn legal_payloads_are_read_and_written_again() {
    for seed in 0..300 {
        let random = &mut Random::new(seed);
        let records = records(random, 10);
        let table = Table::of(&records);
        for record in records {
            for payload_type in (0..5).filter(|it| allowed(record.syntax, *it)) {
                let payload = Drawer::new(random, false).payload(&record, payload_type);
                let content = read(&table, record.cid, payload_type, &payload).unwrap();
                let (same_type, again) = write(&table, record.cid, &content).unwrap();
                assert_eq!(same_type, payload_type);
                assert_eq!(again.len(), payload.len());
                let back = read(&table, record.cid, payload_type, &again).unwrap();
                assert_eq!(back, content);
                // Only what is ignored on reading may be written otherwise.
                if payload_type != DIGITS && payload_type != SID {
                    assert_eq!(again, payload);
                }
            }
        }
    }
}
