//! Document 01, "Payload types": SID; FRF.11 section F.4.

use crate::provisioning::Syntax;
use crate::refusal::*;

/// A silence information descriptor.
#[derive(Clone, Copy, Debug, PartialEq, Eq)]
pub enum Sid {
    /// Under acelp, g728, g7231 (house).
    Empty,
    /// Under pcm and g727.
    Noise {
        /// Four bits.
        sequence: u8,
        /// 0 to -63 dBm0.
        noise_level: i8,
    },
}

/// Whether a SID has its two octets under this syntax.
fn has_octets(syntax: Syntax) -> bool {
    matches!(syntax, Syntax::Pcm | Syntax::G727)
}

/// Reads a type 4 payload; the six reserved bits are ignored.
pub fn read(syntax: Syntax, payload: &[u8]) -> Result<Sid, Refusal> {
    match payload {
        [] if !has_octets(syntax) => Ok(Sid::Empty),
        [first, second] if has_octets(syntax) => Ok(Sid::Noise {
            sequence: first / 16,
            noise_level: -((second % 64) as i8),
        }),
        _ => Err(LENGTH_WRONG),
    }
}

/// Writes a type 4 payload; the six reserved bits are written 0. An empty SID
/// under pcm or g727 would have the wrong length, 13; values under the others
/// would not be written, 15.
pub fn write(syntax: Syntax, sid: &Sid) -> Result<Vec<u8>, Refusal> {
    match sid {
        Sid::Empty if has_octets(syntax) => Err(LENGTH_WRONG),
        Sid::Empty => Ok(Vec::new()),
        Sid::Noise { .. } if !has_octets(syntax) => Err(OUT_OF_RANGE),
        Sid::Noise {
            sequence,
            noise_level,
        } => write_noise(*sequence, *noise_level),
    }
}

/// Writes the two octets: 15 for a value beyond its bits.
fn write_noise(sequence: u8, noise_level: i8) -> Result<Vec<u8>, Refusal> {
    if sequence > 15 || !(-63..=0).contains(&noise_level) {
        return Err(OUT_OF_RANGE);
    }
    Ok(vec![sequence * 16, noise_level.unsigned_abs()])
}
