//! Document 01, "Payload types": acelp, pcm, g727, g728, g7231 with and without
//! the front octet; FRF.11 annexes E to I.

use crate::provisioning::{Record, Syntax};
use crate::refusal::*;

/// Octets of one encoding interval of pcm by coding type (FRF.11 figure F - 4).
pub const PCM_OCTETS: [usize; 14] = [40, 35, 30, 40, 35, 30, 25, 20, 15, 10, 25, 20, 15, 10];
/// Octets of one encoding interval of g727 by coding type (FRF.11 figure G - 2).
pub const G727_OCTETS: [usize; 15] = [10, 5, 10, 15, 15, 20, 25, 15, 5, 10, 20, 25, 20, 5, 25];

/// The first octet of a G.723.1 frame, bit 1: the rate (FRF.11 RATEFLAG).
const RATE: u8 = 0b01;
/// The first octet of a G.723.1 frame, bit 2: the speech flag (FRF.11 VADFLAG).
const SPEECH_FLAG: u8 = 0b10;

/// A voice payload.
#[derive(Clone, Copy, Debug, PartialEq, Eq)]
pub struct Voice<'p> {
    /// Four bits of the front octet; 0 where there is none.
    pub sequence: u8,
    /// Four bits of the front octet; 0 where there is none.
    pub coding_type: u8,
    /// The voice transfer structure. Only the rate and the speech flag of
    /// g7231 are looked at.
    pub body: &'p [u8],
}

/// 13 when the octet of the body that decides the length is missing; only
/// g7231 has one.
fn check_deciding_octet(record: &Record, body: &[u8]) -> Result<(), Refusal> {
    if record.syntax == Syntax::G7231 && body.is_empty() {
        return Err(LENGTH_WRONG);
    }
    Ok(())
}

/// 16 when the coding type is not in its table, or not 0 under E, H, I.
fn check_coding_type(record: &Record, coding_type: u8) -> Result<(), Refusal> {
    let codes = match record.syntax {
        Syntax::Pcm => PCM_OCTETS.len(),
        Syntax::G727 => G727_OCTETS.len(),
        _ => 1,
    };
    if usize::from(coding_type) < codes {
        Ok(())
    } else {
        Err(CODING_TYPE_WRONG)
    }
}

/// 14 when both flags of g7231 are set.
fn check_flags(record: &Record, body: &[u8]) -> Result<(), Refusal> {
    let both = RATE | SPEECH_FLAG;
    if record.syntax == Syntax::G7231 && body[0] & both == both {
        return Err(RESERVED);
    }
    Ok(())
}

/// How many octets the body has.
fn body_octets(record: &Record, coding_type: u8, body: &[u8]) -> usize {
    let code = usize::from(coding_type);
    let m = usize::from(record.m);
    match record.syntax {
        Syntax::Pcm => m * PCM_OCTETS[code],
        Syntax::G727 => m * G727_OCTETS[code],
        Syntax::G7231 if body[0] & RATE == 0 => 24,
        Syntax::G7231 => 20,
        _ => m * 10,
    }
}

/// The checks that reading and writing share: 13 (a deciding octet missing),
/// 16, 14 (both flags), 13.
fn check(record: &Record, voice: &Voice) -> Result<(), Refusal> {
    check_deciding_octet(record, voice.body)?;
    check_coding_type(record, voice.coding_type)?;
    check_flags(record, voice.body)?;
    if voice.body.len() != body_octets(record, voice.coding_type, voice.body) {
        return Err(LENGTH_WRONG);
    }
    Ok(())
}

/// Reads a type 0 payload of a voice syntax.
pub fn read<'p>(record: &Record, payload: &'p [u8]) -> Result<Voice<'p>, Refusal> {
    let (front, body) = match record.seq {
        0 => (0, payload),
        _ => match payload {
            [] => return Err(LENGTH_WRONG),
            [front, body @ ..] => (*front, body),
        },
    };
    let voice = Voice {
        sequence: front / 16,
        coding_type: front % 16,
        body,
    };
    check(record, &voice)?;
    Ok(voice)
}

/// Writes a type 0 payload of a voice syntax. Last comes 15: a sequence beyond
/// its four bits, or one that is not 0 where there is no front octet.
pub fn write(record: &Record, voice: &Voice) -> Result<Vec<u8>, Refusal> {
    check(record, voice)?;
    let most_sequence = if record.seq == 0 { 0 } else { 15 };
    if voice.sequence > most_sequence {
        return Err(OUT_OF_RANGE);
    }
    let mut octets = Vec::new();
    if record.seq != 0 {
        octets.push(voice.sequence * 16 + voice.coding_type);
    }
    octets.extend_from_slice(voice.body);
    Ok(octets)
}
