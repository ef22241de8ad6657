//! Document 01, "Payload types": signalling; FRF.11 section B.3.

use crate::refusal::*;

/// Octets of a signalling payload.
pub const OCTETS: usize = 16;
/// Samples of a payload: three periods of ten.
pub const SAMPLES: usize = 30;
/// The first octet, bit 8: the alarm indication signal.
pub const AIS: u8 = 0b1000_0000;
/// The most a 7-bit sequence holds.
const MOST_SEQUENCE: u8 = 127;
/// The most a sample of four bits D C B A holds.
const MOST_SAMPLE: u8 = 15;

/// A signalling payload.
#[derive(Clone, Copy, Debug, PartialEq, Eq)]
pub struct Signalling {
    /// The AIS bit.
    pub alarm: bool,
    /// The signalling count, seven bits.
    pub sequence: u8,
    /// Thirty samples, oldest first.
    pub samples: [u8; SAMPLES],
}

/// 15 for a sample over four bits.
pub fn check_samples(samples: &[u8]) -> Result<(), Refusal> {
    match samples.iter().any(|sample| *sample > MOST_SAMPLE) {
        true => Err(OUT_OF_RANGE),
        false => Ok(()),
    }
}

/// Reads a type 2 payload: 13.
pub fn read(payload: &[u8]) -> Result<Signalling, Refusal> {
    if payload.len() != OCTETS {
        return Err(LENGTH_WRONG);
    }
    let mut samples = [0; SAMPLES];
    for (index, octet) in payload[1..].iter().enumerate() {
        samples[2 * index] = octet % 16;
        samples[2 * index + 1] = octet / 16;
    }
    Ok(Signalling {
        alarm: payload[0] & AIS != 0,
        sequence: payload[0] & !AIS,
        samples,
    })
}

/// Writes a type 2 payload: 15.
pub fn write(signalling: &Signalling) -> Result<[u8; OCTETS], Refusal> {
    check_samples(&signalling.samples)?;
    if signalling.sequence > MOST_SEQUENCE {
        return Err(OUT_OF_RANGE);
    }
    let mut octets = [0; OCTETS];
    octets[0] = with_alarm(signalling.sequence, signalling.alarm);
    for (index, pair) in signalling.samples.chunks(2).enumerate() {
        octets[1 + index] = pair[0] + pair[1] * 16;
    }
    Ok(octets)
}

/// The first octet with its AIS bit set as told.
pub fn with_alarm(first: u8, alarm: bool) -> u8 {
    match alarm {
        true => first | AIS,
        false => first & !AIS,
    }
}
