//! Document 01, "Payload types": digits; FRF.11 section A.3.

use crate::refusal::*;

/// Octets of a digits payload.
pub const OCTETS: usize = 8;
/// Digit type 0: off.
pub const OFF: u8 = 0;
/// Digit type 1: on; 2 to 7 are reserved.
pub const ON: u8 = 1;
/// The last millisecond of a period in which an edge can be.
const MOST_EDGE: u8 = 19;
/// The highest DTMF digit code.
const MOST_CODE: u8 = 15;
/// The lowest signal level, dBm0.
const LEAST_LEVEL: i8 = -31;

/// One window: what one period of 20 ms holds.
#[derive(Clone, Copy, Debug, Default, PartialEq, Eq)]
pub struct Window {
    /// Off or on.
    pub digit_type: u8,
    /// The edge location in ms, 0 to 19.
    pub edge: u8,
    /// The digit code, 0 to 15; 0 when off.
    pub code: u8,
}

/// A digits payload.
#[derive(Clone, Copy, Debug, Default, PartialEq, Eq)]
pub struct Digits {
    /// The digit count, eight bits.
    pub sequence: u8,
    /// The signal level in dBm0, handed out as 0 to -31.
    pub level: i8,
    /// Three windows, current first.
    pub windows: [Window; 3],
}

/// The code of a signal level: above zero 0, 0 to -31 the magnitude, below 15.
pub fn code_level(level: i8) -> Result<u8, Refusal> {
    if level < LEAST_LEVEL {
        Err(OUT_OF_RANGE)
    } else if level > 0 {
        Ok(0)
    } else {
        Ok(level.unsigned_abs())
    }
}

/// 14 for a reserved digit type.
fn check_type(window: &Window) -> Result<(), Refusal> {
    match window.digit_type {
        OFF | ON => Ok(()),
        _ => Err(RESERVED),
    }
}

/// 15 for an edge over 19, or a code over 15 when on.
pub fn check_range(window: &Window) -> Result<(), Refusal> {
    let code_wrong = window.digit_type == ON && window.code > MOST_CODE;
    if window.edge > MOST_EDGE || code_wrong {
        return Err(OUT_OF_RANGE);
    }
    Ok(())
}

/// The window with the code of an off one set to 0.
pub fn without_off_code(window: Window) -> Window {
    match window.digit_type {
        OFF => Window { code: 0, ..window },
        _ => window,
    }
}

/// The two octets of a window as they stand, unchecked.
fn split_window(first: u8, second: u8) -> Window {
    Window {
        digit_type: first >> 5,
        edge: first & 0b11111,
        code: second & 0b11111,
    }
}

/// Reads a type 1 payload: 13, every 14, every 15.
pub fn read(payload: &[u8]) -> Result<Digits, Refusal> {
    if payload.len() != OCTETS {
        return Err(LENGTH_WRONG);
    }
    // The level's octet and each window's second begin with 000.
    for place in [1, 3, 5, 7] {
        if payload[place] >> 5 != 0 {
            return Err(RESERVED);
        }
    }
    let windows = [2, 4, 6].map(|place| split_window(payload[place], payload[place + 1]));
    for window in &windows {
        check_type(window)?;
    }
    for window in &windows {
        check_range(window)?;
    }
    Ok(Digits {
        sequence: payload[0],
        level: -(payload[1] as i8),
        windows: windows.map(without_off_code),
    })
}

/// Writes a type 1 payload: every 14, every 15.
pub fn write(digits: &Digits) -> Result<[u8; OCTETS], Refusal> {
    for window in &digits.windows {
        check_type(window)?;
    }
    for window in &digits.windows {
        check_range(window)?;
    }
    let mut octets = [0; OCTETS];
    octets[0] = digits.sequence;
    octets[1] = code_level(digits.level)?;
    for (index, window) in digits.windows.iter().enumerate() {
        let window = without_off_code(*window);
        octets[2 + 2 * index] = window.digit_type << 5 | window.edge;
        octets[3 + 2 * index] = window.code;
    }
    Ok(octets)
}
