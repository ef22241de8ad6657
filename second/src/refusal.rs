//! Document 01, "Refusal numbers": the table, a name for each number; and those
//! of document 02 (19: wish 3; 41 and 42: wish 1).

/// A refusal number. 0 stands for "none" where a number is printed.
pub type Refusal = u8;

/// 1: field empty.
pub const FIELD_EMPTY: Refusal = 1;
/// 2: field over 1,600 octets.
pub const FIELD_TOO_LONG: Refusal = 2;
/// 3: octet 1a or 1b missing.
pub const HEADER_OCTET_MISSING: Refusal = 3;
/// 4: CID 0 to 3.
pub const CID_RESERVED: Refusal = 4;
/// 5: a spare bit set.
pub const SPARE_BIT_SET: Refusal = 5;
/// 6: length exceeds the octets left.
pub const LENGTH_EXCEEDS_FIELD: Refusal = 6;
/// 7: LI set, payload ends the field.
pub const LI_SET_AT_END: Refusal = 7;
/// 8: a 65th sub-frame begins.
pub const TOO_MANY_SUB_FRAMES: Refusal = 8;
/// 9: listing: hex line malformed.
pub const HEX_LINE_MALFORMED: Refusal = 9;
/// 11: CID not provisioned.
pub const CID_NOT_PROVISIONED: Refusal = 11;
/// 12: payload type not allowed there.
pub const TYPE_NOT_ALLOWED: Refusal = 12;
/// 13: payload length wrong.
pub const LENGTH_WRONG: Refusal = 13;
/// 14: reserved bit or code.
pub const RESERVED: Refusal = 14;
/// 15: value out of range.
pub const OUT_OF_RANGE: Refusal = 15;
/// 16: coding type not in its table, or not 0 under E, H, I.
pub const CODING_TYPE_WRONG: Refusal = 16;
/// 17: sender: edge not 0 without a change.
pub const EDGE_WITHOUT_CHANGE: Refusal = 17;
/// 19: digit and signalling receiver: older payload.
pub const OLDER_PAYLOAD: Refusal = 19;
/// 21: writer: lent room too small.
pub const ROOM_TOO_SMALL: Refusal = 21;
/// 22: writer: over 255 octets and not last.
pub const NOT_LAST_OVER_255: Refusal = 22;
/// 23: writer: frame would pass 1,600 octets or 64 sub-frames.
pub const FRAME_WOULD_PASS: Refusal = 23;
/// 24: writer: last sub-frame already written.
pub const LAST_ALREADY_WRITTEN: Refusal = 24;
/// 31: provisioning: wrong key, malformed number, missing LF, or a cut block.
pub const TEXT_LINE_MALFORMED: Refusal = 31;
/// 32: provisioning: value not listed.
pub const TEXT_VALUE_NOT_LISTED: Refusal = 32;
/// 33: provisioning: CID not above the one before.
pub const TEXT_CID_NOT_RISING: Refusal = 33;
/// 34: provisioning: over 8,192 octets.
pub const TEXT_TOO_LONG: Refusal = 34;
/// 41: fax replay: data, end of frame or abort while no modulation is on.
pub const NO_MODULATION_ON: Refusal = 41;
/// 42: fax replay: data length against the modulation, or end of frame or abort
/// without HDLC.
pub const AGAINST_MODULATION: Refusal = 42;
