//! Document 01, "Payload types": which type is allowed where, and every layout
//! read (refusals 11 to 16) and written (11 to 16).

pub mod data;
pub mod digits;
pub mod fax;
pub mod sid;
pub mod signalling;
pub mod voice;

#[cfg(test)]
pub mod drawn;
#[cfg(test)]
mod tests;

use crate::provisioning::{Record, Syntax, Table};
use crate::refusal::*;
use data::Data;
use digits::Digits;
use fax::Fax;
use sid::Sid;
use signalling::Signalling;
use voice::Voice;

/// Payload type 0: the provisioned syntax (FRF.11: primary payload).
pub const PRIMARY: u8 = 0;
/// Payload type 1: dialled digits (annex A).
pub const DIGITS: u8 = 1;
/// Payload type 2: signalling bits (annex B).
pub const SIGNALLING: u8 = 2;
/// Payload type 3: fax relay (annex D) on a voice sub-channel.
pub const FAX: u8 = 3;
/// Payload type 4: silence information descriptor.
pub const SID: u8 = 4;

/// What a payload says.
#[derive(Clone, Copy, Debug, PartialEq, Eq)]
pub enum Content<'p> {
    /// Type 0 of a voice syntax.
    Voice(Voice<'p>),
    /// Type 0 of a data sub-channel.
    Data(Data<'p>),
    /// Type 0 of a fax sub-channel, type 3 of a voice one.
    Fax(Fax<'p>),
    /// Type 1.
    Digits(Digits),
    /// Type 2.
    Signalling(Signalling),
    /// Type 4.
    Sid(Sid),
}

/// Whether a sub-channel of this syntax allows this payload type: data 0 only,
/// fax 0, 1, 2, the others 0 to 4.
pub fn allowed(syntax: Syntax, payload_type: u8) -> bool {
    match syntax {
        Syntax::Data => payload_type == PRIMARY,
        Syntax::Fax => payload_type <= SIGNALLING,
        _ => payload_type <= SID,
    }
}

/// Reads a payload: 11, 12, then the order of its layout.
pub fn read<'p>(
    table: &Table,
    cid: u8,
    payload_type: u8,
    payload: &'p [u8],
) -> Result<Content<'p>, Refusal> {
    let record = table.record(cid).ok_or(CID_NOT_PROVISIONED)?;
    if !allowed(record.syntax, payload_type) {
        return Err(TYPE_NOT_ALLOWED);
    }
    match payload_type {
        PRIMARY => read_primary(record, payload),
        DIGITS => digits::read(payload).map(Content::Digits),
        SIGNALLING => signalling::read(payload).map(Content::Signalling),
        FAX => fax::read(payload).map(Content::Fax),
        SID => sid::read(record.syntax, payload).map(Content::Sid),
        _ => Err(TYPE_NOT_ALLOWED),
    }
}

/// Reads a type 0 payload, which is of the provisioned syntax.
fn read_primary<'p>(record: &Record, payload: &'p [u8]) -> Result<Content<'p>, Refusal> {
    match record.syntax {
        Syntax::Data => data::read(payload).map(Content::Data),
        Syntax::Fax => fax::read(payload).map(Content::Fax),
        _ => voice::read(record, payload).map(Content::Voice),
    }
}

/// The payload type that content has on a sub-channel: 12 when it is of another
/// kind than the record's syntax, or its type is not allowed there.
pub fn type_of(record: &Record, content: &Content) -> Result<u8, Refusal> {
    let payload_type = match content {
        Content::Voice(_) if record.syntax.is_voice() => PRIMARY,
        Content::Data(_) if record.syntax == Syntax::Data => PRIMARY,
        Content::Fax(_) if record.syntax == Syntax::Fax => PRIMARY,
        Content::Voice(_) | Content::Data(_) => return Err(TYPE_NOT_ALLOWED),
        Content::Fax(_) => FAX,
        Content::Digits(_) => DIGITS,
        Content::Signalling(_) => SIGNALLING,
        Content::Sid(_) => SID,
    };
    if allowed(record.syntax, payload_type) {
        Ok(payload_type)
    } else {
        Err(TYPE_NOT_ALLOWED)
    }
}

/// Writes a payload: its type and its octets, or a refusal, in the reader's order.
pub fn write(table: &Table, cid: u8, content: &Content) -> Result<(u8, Vec<u8>), Refusal> {
    let record = table.record(cid).ok_or(CID_NOT_PROVISIONED)?;
    let payload_type = type_of(record, content)?;
    let octets = match content {
        Content::Voice(voice) => voice::write(record, voice)?,
        Content::Data(data) => data::write(data)?,
        Content::Fax(fax) => fax::write(fax)?,
        Content::Digits(digits) => digits::write(digits)?.to_vec(),
        Content::Signalling(signalling) => signalling::write(signalling)?.to_vec(),
        Content::Sid(sid) => sid::write(record.syntax, sid)?,
    };
    Ok((payload_type, octets))
}
