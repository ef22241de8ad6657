//! Document 01, "Payload types": fax; FRF.11 section D.3.

use crate::refusal::*;

/// The first octet, bit 8: the time stamp is there.
const EI1: u8 = 0b1000_0000;
/// The third octet, bit 8: reserved, 0.
const EI2: u8 = 0b1000_0000;
/// The octet of the modulation, bit 8: HDLC.
const HDLC: u8 = 0b1000_0000;
/// The octet of the modulation, bits 7 to 5: reserved, 0.
const RESERVED_BITS: u8 = 0b0111_0000;
/// The octet of the modulation, bits 4 to 1.
const MODULATION: u8 = 0b0000_1111;

/// Relay command 0: modulation off.
pub const OFF: u8 = 0;
/// Relay command 1: modulation on.
pub const ON: u8 = 1;
/// Relay command 2: data.
pub const DATA: u8 = 2;
/// Relay command 3: HDLC end of frame.
pub const END_OF_FRAME: u8 = 3;
/// Relay command 4: HDLC frame abort; 5 to 7 are reserved.
pub const ABORT: u8 = 4;

/// Modulation 0: single frequency tone, the only one with a frequency.
const SINGLE_FREQUENCY_TONE: u8 = 0;
/// The highest modulation; 12 to 15 are reserved.
const MOST_MODULATION: u8 = 11;
/// The most a 15-bit time stamp holds.
const MOST_STAMP: u16 = 32767;
/// The octets a data payload may hold.
const DATA_OCTETS: [usize; 7] = [3, 12, 24, 36, 48, 60, 72];

/// A fax payload.
#[derive(Clone, Copy, Debug, PartialEq, Eq)]
pub struct Fax<'p> {
    /// Four bits.
    pub sequence: u8,
    /// The time stamp, 15 bits, present exactly when EI1 is 1.
    pub stamp: Option<u16>,
    /// The relay command and its values.
    pub command: Command,
    /// The octets of data, end of frame and abort. Off and on have none: when
    /// writing, any make the length wrong.
    pub body: &'p [u8],
}

/// A relay command (FRF.11 figure D - 6).
#[derive(Clone, Copy, Debug, PartialEq, Eq)]
pub enum Command {
    /// Modulation off.
    Off,
    /// Modulation on.
    On {
        /// HDLC de-framing is applied.
        hdlc: bool,
        /// 0 to 11 (FRF.11 figure D - 7).
        modulation: u8,
        /// In Hz, 0 unless the modulation is 0.
        frequency: u16,
    },
    /// Data: a body of 3, 12, 24, 36, 48, 60 or 72 octets.
    Data,
    /// HDLC end of frame: a body of 3 octets.
    EndOfFrame,
    /// HDLC frame abort: a body of 3 octets.
    Abort,
}

/// 14 for a reserved command, and for off and on without EI1.
fn check_command(command: u8, ei1: bool) -> Result<(), Refusal> {
    let needs_stamp = command == OFF || command == ON;
    if command > ABORT || needs_stamp && !ei1 {
        return Err(RESERVED);
    }
    Ok(())
}

/// 13 unless this many octets may stand after the first octet and the stamp.
fn check_length(command: u8, octets: usize) -> Result<(), Refusal> {
    let right = match command {
        OFF => octets == 0,
        DATA => DATA_OCTETS.contains(&octets),
        _ => octets == 3,
    };
    if right {
        Ok(())
    } else {
        Err(LENGTH_WRONG)
    }
}

/// 14 for a reserved modulation, and for a frequency with another than 0.
fn check_modulation(modulation: u8, frequency: u16) -> Result<(), Refusal> {
    let no_frequency = modulation != SINGLE_FREQUENCY_TONE;
    if modulation > MOST_MODULATION || no_frequency && frequency != 0 {
        return Err(RESERVED);
    }
    Ok(())
}

/// Reads a fax payload: 13 when it is empty, 14 for the command, 13, any other 14.
pub fn read(payload: &[u8]) -> Result<Fax<'_>, Refusal> {
    let first = *payload.first().ok_or(LENGTH_WRONG)?;
    let command = first & 0b111;
    let ei1 = first & EI1 != 0;
    check_command(command, ei1)?;
    let header = if ei1 { 3 } else { 1 };
    if payload.len() < header {
        return Err(LENGTH_WRONG);
    }
    let (header, rest) = payload.split_at(header);
    check_length(command, rest.len())?;
    Ok(Fax {
        sequence: first >> 3 & 0b1111,
        stamp: read_stamp(header)?,
        command: read_command(command, rest)?,
        body: if command == ON { &[] } else { rest },
    })
}

/// Reads the time stamp of a header of three octets: 14 when EI2 is set. A
/// header of one octet has none.
fn read_stamp(header: &[u8]) -> Result<Option<u16>, Refusal> {
    match header {
        [_, low, high] if high & EI2 == 0 => Ok(Some(u16::from_le_bytes([*low, *high]))),
        [_, _, _] => Err(RESERVED),
        _ => Ok(None),
    }
}

/// Reads a command and its values; its length is right.
fn read_command(command: u8, rest: &[u8]) -> Result<Command, Refusal> {
    match command {
        OFF => Ok(Command::Off),
        ON => read_on(rest),
        DATA => Ok(Command::Data),
        END_OF_FRAME => Ok(Command::EndOfFrame),
        _ => Ok(Command::Abort),
    }
}

/// Reads the three octets of modulation on: 14.
fn read_on(rest: &[u8]) -> Result<Command, Refusal> {
    let first = rest[0];
    let modulation = first & MODULATION;
    let frequency = u16::from_le_bytes([rest[1], rest[2]]);
    if first & RESERVED_BITS != 0 {
        return Err(RESERVED);
    }
    check_modulation(modulation, frequency)?;
    Ok(Command::On {
        hdlc: first & HDLC != 0,
        modulation,
        frequency,
    })
}

/// The number of a command.
pub fn number_of(command: &Command) -> u8 {
    match command {
        Command::Off => OFF,
        Command::On { .. } => ON,
        Command::Data => DATA,
        Command::EndOfFrame => END_OF_FRAME,
        Command::Abort => ABORT,
    }
}

/// The octets that a command's values take: three for on.
fn value_octets(command: &Command) -> usize {
    match command {
        Command::On { .. } => 3,
        _ => 0,
    }
}

/// The octets of a command's values: 14 for a modulation or its frequency.
fn write_values(command: &Command) -> Result<Vec<u8>, Refusal> {
    match *command {
        Command::On {
            hdlc,
            modulation,
            frequency,
        } => {
            check_modulation(modulation, frequency)?;
            let [low, high] = frequency.to_le_bytes();
            let hdlc = if hdlc { HDLC } else { 0 };
            Ok(vec![hdlc | modulation, low, high])
        }
        _ => Ok(Vec::new()),
    }
}

/// Writes a fax payload: 14 for the command, 13, any other 14, 15.
pub fn write(fax: &Fax) -> Result<Vec<u8>, Refusal> {
    let number = number_of(&fax.command);
    check_command(number, fax.stamp.is_some())?;
    check_length(number, value_octets(&fax.command) + fax.body.len())?;
    let values = write_values(&fax.command)?;
    if fax.sequence > 15 || fax.stamp.map_or(false, |stamp| stamp > MOST_STAMP) {
        return Err(OUT_OF_RANGE);
    }
    let mut octets = vec![fax.sequence << 3 | number];
    if let Some(stamp) = fax.stamp {
        octets[0] |= EI1;
        octets.extend(stamp.to_le_bytes());
    }
    octets.extend(values);
    octets.extend_from_slice(fax.body);
    Ok(octets)
}
