//! Document 01, "Frame and sub-frame": what the voice card is handed for a call.

use crate::frame::open_frame;
use crate::payload::{self, PRIMARY};
use crate::provisioning::Table;
use crate::refusal::*;

/// What the voice card is handed.
#[derive(Clone, Copy, Debug, PartialEq, Eq)]
pub enum Handed<'f, 's> {
    /// A payload, whole, its front octet included: a part of the frame, and
    /// where in the frame it begins.
    Part {
        /// The payload.
        part: &'f [u8],
        /// Its place in the frame.
        place: usize,
    },
    /// The lent silence block, whole.
    Silence(&'s [u8]),
    /// A refusal, with an empty part of the frame.
    Refused {
        /// The frame's number, 11 or 12.
        number: Refusal,
        /// Empty.
        part: &'f [u8],
    },
}

/// What refuses the whole request, if anything: the frame's number, then 11,
/// then 12 on a data or fax sub-channel.
fn refusal(frame: &[u8], table: &Table, cid: u8) -> Option<Refusal> {
    if let Err(refusal) = open_frame(frame) {
        return Some(refusal.number);
    }
    match table.record(cid) {
        None => Some(CID_NOT_PROVISIONED),
        Some(record) if !record.syntax.is_voice() => Some(TYPE_NOT_ALLOWED),
        Some(_) => None,
    }
}

/// The first type 0 payload on the sub-channel that passes its checks or, where
/// there is none, the silence block.
pub fn hand<'f, 's>(frame: &'f [u8], table: &Table, cid: u8, silence: &'s [u8]) -> Handed<'f, 's> {
    if let Some(number) = refusal(frame, table, cid) {
        let part = &frame[..0];
        return Handed::Refused { number, part };
    }
    for sub_frame in open_frame(frame).into_iter().flatten() {
        let wanted = sub_frame.cid == cid && sub_frame.payload_type == PRIMARY;
        if wanted && payload::read(table, cid, PRIMARY, sub_frame.payload).is_ok() {
            return Handed::Part {
                part: sub_frame.payload,
                place: sub_frame.place,
            };
        }
    }
    Handed::Silence(silence)
}

#[cfg(test)]
mod tests {
    use super::*;
    use crate::generate::Random;
    use crate::hex;
    use crate::provisioning::read_text;

    const SILENCE: &[u8] = &[9, 9, 9];

    /// CID 5 acelp with seq, 6 data, 7 fax, 8 acelp without seq.
    fn table() -> Table {
        let text = b"cid=5\nsyntax=acelp\nm=1\nseq=1\ncid=6\nsyntax=data\nm=1\nseq=0\n\
                     cid=7\nsyntax=fax\nm=1\nseq=0\ncid=8\nsyntax=acelp\nm=1\nseq=0\n";
        read_text(text).unwrap()
    }

    /// A frame in hex, blanks allowed.
    fn frame(text: &str) -> Vec<u8> {
        hex::read(text.replace(' ', "").as_bytes()).unwrap()
    }

    fn refused(frame: &[u8], cid: u8) -> Refusal {
        match hand(frame, &table(), cid, SILENCE) {
            Handed::Refused { number, part } => {
                assert!(part.is_empty());
                number
            }
            other => panic!("{other:?}"),
        }
    }

    #[test]
    fn the_whole_payload_is_handed_on_with_its_place() {
        let frame = frame("4501ff 450b3000010203040506070809 05401112131415161718191a");
        let wanted = Handed::Part {
            part: &frame[5..16],
            place: 5,
        };
        assert_eq!(hand(&frame, &table(), 5, SILENCE), wanted);
    }

    #[test]
    fn readings_payloads_that_fail_their_checks_are_passed_over() {
        let frame =
            frame("450b3100010203040506070809 450a30000102030405060708 05401112131415161718191a");
        let (part, place) = match hand(&frame, &table(), 5, SILENCE) {
            Handed::Part { part, place } => (part, place),
            _ => panic!(),
        };
        assert_eq!((part[0], part.len(), place), (0x40, 11, frame.len() - 11));
    }

    #[test]
    fn where_there_is_none_the_silence_block() {
        let silence = Handed::Silence(SILENCE);
        assert_eq!(hand(&frame("05"), &table(), 5, SILENCE), silence);
        assert_eq!(hand(&frame("08"), &table(), 5, SILENCE), silence);
        let other_channel = frame("0800010203040506070809");
        assert_eq!(hand(&other_channel, &table(), 5, SILENCE), silence);
    }

    #[test]
    fn readings_a_sid_and_other_types_never_count() {
        let silence = Handed::Silence(SILENCE);
        assert_eq!(hand(&frame("8504"), &table(), 5, SILENCE), silence);
        let digits = frame("8501 0000200000000000");
        assert_eq!(hand(&digits, &table(), 5, SILENCE), silence);
        let after_sid = frame("c50400 053000010203040506070809");
        let answer = hand(&after_sid, &table(), 5, SILENCE);
        assert!(matches!(answer, Handed::Part { place: 4, .. }));
    }

    #[test]
    fn readings_the_silence_block_may_be_empty() {
        let answer = hand(&[5], &table(), 5, &[]);
        assert_eq!(answer, Handed::Silence(&[]));
    }

    #[test]
    fn readings_the_frames_number_then_11_then_12() {
        assert_eq!(refused(&[], 99), 1);
        assert_eq!(refused(&[0x85], 6), 3);
        assert_eq!(refused(&[5; 1601], 5), 2);
        assert_eq!(refused(&[5], 99), 11);
        for cid in 0..4 {
            assert_eq!(refused(&[5], cid), 11);
        }
        assert_eq!(refused(&[5], 6), 12);
        assert_eq!(refused(&[5], 7), 12);
    }

    #[test]
    fn random_frames_against_a_plain_restatement() {
        let table = table();
        for seed in 0..3000 {
            let mut random = Random::new(seed);
            let mut field = Vec::new();
            for _ in 0..random.below(4) {
                let count = random.pick(&[0, 10, 11, 12]);
                field.extend([0x40 | random.pick(&[5, 8]), count as u8]);
                let mut payload = random.octets(count);
                payload.iter_mut().take(1).for_each(|it| *it &= 0xf1);
                field.extend(payload);
            }
            field.extend([8, 1, 2]);
            let mut wanted = Handed::Silence(SILENCE);
            for sub in open_frame(&field).unwrap() {
                let good = sub.payload.len() == 11 && sub.payload[0] % 16 == 0;
                if sub.cid == 5 && good && wanted == Handed::Silence(SILENCE) {
                    let (part, place) = (sub.payload, sub.place);
                    wanted = Handed::Part { part, place };
                }
            }
            assert_eq!(hand(&field, &table, 5, SILENCE), wanted);
        }
    }
}
