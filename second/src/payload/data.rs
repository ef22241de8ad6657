//! Document 01, "Payload types": data; FRF.11 section C.3.

use crate::refusal::*;

/// The first octet, bit 8: beginning of the data frame.
const B: u8 = 0b1000_0000;
/// The first octet, bit 7: end of the data frame.
const E: u8 = 0b0100_0000;
/// The first octet, bit 6: always 0.
const THIRD_BIT: u8 = 0b0010_0000;
/// The first octet, bits 5 to 1: the upper five bits of the sequence.
const SEQUENCE_UPPER: u8 = 0b0001_1111;
/// The most a 13-bit sequence holds.
const MOST_SEQUENCE: u16 = 8191;

/// A data payload.
#[derive(Clone, Copy, Debug, PartialEq, Eq)]
pub struct Data<'p> {
    /// The B bit.
    pub b: bool,
    /// The E bit.
    pub e: bool,
    /// 13 bits.
    pub sequence: u16,
    /// The payload fragment, at least one octet.
    pub fragment: &'p [u8],
}

/// Reads a type 0 payload of a data sub-channel: 13, 14.
pub fn read(payload: &[u8]) -> Result<Data<'_>, Refusal> {
    if payload.len() < 3 {
        return Err(LENGTH_WRONG);
    }
    let first = payload[0];
    if first & THIRD_BIT != 0 {
        return Err(RESERVED);
    }
    Ok(Data {
        b: first & B != 0,
        e: first & E != 0,
        sequence: u16::from(first & SEQUENCE_UPPER) * 256 + u16::from(payload[1]),
        fragment: &payload[2..],
    })
}

/// Writes a type 0 payload of a data sub-channel: 13, 15.
pub fn write(data: &Data) -> Result<Vec<u8>, Refusal> {
    if data.fragment.is_empty() {
        return Err(LENGTH_WRONG);
    }
    if data.sequence > MOST_SEQUENCE {
        return Err(OUT_OF_RANGE);
    }
    let mut octets = data.sequence.to_be_bytes().to_vec();
    if data.b {
        octets[0] |= B;
    }
    if data.e {
        octets[0] |= E;
    }
    octets.extend_from_slice(data.fragment);
    Ok(octets)
}
