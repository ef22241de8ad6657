//! Document 01, "Frame and sub-frame"; FRF.11 section 3.2.

use crate::refusal::*;

/// The most octets of an information field (house).
pub const FIELD_OCTETS: usize = 1600;
/// The most sub-frames of a frame (house).
pub const SUB_FRAMES: usize = 64;

/// Octet 1, bit 8: extension indication, octet 1a is present.
const EI: u8 = 0b1000_0000;
/// Octet 1, bit 7: length indication, octet 1b is present.
const LI: u8 = 0b0100_0000;
/// Octet 1, bits 6 to 1: the low six bits of the CID.
const CID_LOW: u8 = 0b0011_1111;
/// Octet 1a, bits 8 and 7: the high bits of the CID.
const CID_HIGH: u8 = 0b1100_0000;
/// Octet 1a, bits 6 and 5: spare and zero.
const SPARE: u8 = 0b0011_0000;
/// Octet 1a, bits 4 to 1: the payload type.
const PAYLOAD_TYPE: u8 = 0b0000_1111;

/// A sub-frame header (FRF.11 figure 3-2).
#[derive(Clone, Copy, Debug, PartialEq, Eq)]
pub struct Header {
    /// Sub-channel identification.
    pub cid: u8,
    /// Payload type, 0 to 15.
    pub payload_type: u8,
    /// Octet 1b, present exactly when LI is 1.
    pub payload_length: Option<u8>,
    /// How many octets the header itself has, 1 to 3.
    pub octets: usize,
}

/// Reads the header at the start of the octets: refusals 3, 4, 5, in that order.
pub fn read_header(octets: &[u8]) -> Result<Header, Refusal> {
    let octet_1 = *octets.first().ok_or(HEADER_OCTET_MISSING)?;
    let ei = octet_1 & EI != 0;
    let li = octet_1 & LI != 0;
    let count = 1 + usize::from(ei) + usize::from(li);
    if octets.len() < count {
        return Err(HEADER_OCTET_MISSING);
    }
    let octet_1a = if ei { octets[1] } else { 0 };
    let cid = octet_1 & CID_LOW | octet_1a & CID_HIGH;
    if cid <= 3 {
        return Err(CID_RESERVED);
    }
    if octet_1a & SPARE != 0 {
        return Err(SPARE_BIT_SET);
    }
    Ok(Header {
        cid,
        payload_type: octet_1a & PAYLOAD_TYPE,
        payload_length: li.then(|| octets[count - 1]),
        octets: count,
    })
}

/// Writes a header in its shortest form: EI only when the CID exceeds 63 or
/// the type is not 0, LI only with a length.
pub fn write_header(cid: u8, payload_type: u8, payload_length: Option<u8>) -> Vec<u8> {
    let mut octets = vec![cid & CID_LOW];
    if cid > 63 || payload_type != 0 {
        octets[0] |= EI;
        octets.push(cid & CID_HIGH | payload_type & PAYLOAD_TYPE);
    }
    if let Some(length) = payload_length {
        octets[0] |= LI;
        octets.push(length);
    }
    octets
}

/// A sub-frame as it stands in a lent frame.
#[derive(Clone, Copy, Debug, PartialEq, Eq)]
pub struct SubFrame<'f> {
    /// Sub-channel identification.
    pub cid: u8,
    /// Payload type, 0 to 15.
    pub payload_type: u8,
    /// The payload, a part of the frame.
    pub payload: &'f [u8],
    /// Where in the frame the payload begins.
    pub place: usize,
}

/// Reads the sub-frame that begins at an offset of the field, and says where
/// the next one begins, if one does: refusals 3 to 7, in that order.
fn read_sub_frame(field: &[u8], at: usize) -> Result<(SubFrame<'_>, Option<usize>), Refusal> {
    let header = read_header(&field[at..])?;
    let place = at + header.octets;
    let left = field.len() - place;
    let (payload, next) = match header.payload_length.map(usize::from) {
        None => (&field[place..], None),
        Some(length) if length > left => return Err(LENGTH_EXCEEDS_FIELD),
        Some(length) if length == left => return Err(LI_SET_AT_END),
        Some(length) => (&field[place..place + length], Some(place + length)),
    };
    let sub_frame = SubFrame {
        cid: header.cid,
        payload_type: header.payload_type,
        payload,
        place,
    };
    Ok((sub_frame, next))
}

/// What refuses a whole frame: the number, and the offset of the offending
/// sub-frame's first octet (0 for 1 and 2).
#[derive(Clone, Copy, Debug, PartialEq, Eq)]
pub struct FrameRefusal {
    /// 1 to 8.
    pub number: Refusal,
    /// The offset.
    pub at: usize,
}

/// Holds the lent frame and its place in it, and yields its sub-frames in order.
#[derive(Clone, Debug, PartialEq, Eq)]
pub struct FrameReader<'f> {
    field: &'f [u8],
    next: Option<usize>,
}

impl<'f> Iterator for FrameReader<'f> {
    type Item = SubFrame<'f>;

    fn next(&mut self) -> Option<SubFrame<'f>> {
        let (sub_frame, next) = read_sub_frame(self.field, self.next?).ok()?;
        self.next = next;
        Some(sub_frame)
    }
}

/// Opens a frame, checking all its headers: 1, 2, then per sub-frame
/// 8, 3, 4, 5, 6, 7.
pub fn open_frame(field: &[u8]) -> Result<FrameReader<'_>, FrameRefusal> {
    if field.is_empty() {
        let number = FIELD_EMPTY;
        return Err(FrameRefusal { number, at: 0 });
    }
    if field.len() > FIELD_OCTETS {
        let number = FIELD_TOO_LONG;
        return Err(FrameRefusal { number, at: 0 });
    }
    let mut next = Some(0);
    let mut sub_frames = 0;
    while let Some(at) = next {
        if sub_frames == SUB_FRAMES {
            let number = TOO_MANY_SUB_FRAMES;
            return Err(FrameRefusal { number, at });
        }
        (_, next) = read_sub_frame(field, at).map_err(|number| FrameRefusal { number, at })?;
        sub_frames += 1;
    }
    let next = Some(0);
    Ok(FrameReader { field, next })
}

/// The frame check for the host program: the refusal number, 0 if sound
/// ("Receivers", last paragraph).
pub fn frame_check(field: &[u8]) -> Refusal {
    match open_frame(field) {
        Ok(_) => 0,
        Err(refusal) => refusal.number,
    }
}

/// A sub-frame before it is joined: CID, payload type, payload.
pub type Piece<'p> = (u8, u8, &'p [u8]);

/// Joins headers in shortest form and payloads into a field, LI on all but the
/// last. It stands below the checks; the one thing it cannot state is a payload
/// over 255 octets that is not last, and then there is no field.
pub fn join(pieces: &[Piece]) -> Option<Vec<u8>> {
    let mut field = Vec::new();
    for (index, (cid, payload_type, payload)) in pieces.iter().enumerate() {
        let last = index + 1 == pieces.len();
        let length = if last {
            None
        } else {
            Some(u8::try_from(payload.len()).ok()?)
        };
        field.extend(write_header(*cid, *payload_type, length));
        field.extend_from_slice(payload);
    }
    Some(field)
}

#[cfg(test)]
mod tests {
    use super::*;
    use crate::generate::Random;
    use crate::hex;

    /// The refusal of a frame in hex: number and offset.
    fn refusal(text: &str) -> Option<(Refusal, usize)> {
        let field = hex::read(text.as_bytes()).unwrap();
        open_frame(&field).err().map(|it| (it.number, it.at))
    }

    /// CID, type, payload and place of each sub-frame of a sound frame in hex.
    fn sound(text: &str) -> Vec<(u8, u8, Vec<u8>, usize)> {
        let field = hex::read(text.as_bytes()).unwrap();
        let reader = open_frame(&field).unwrap();
        reader
            .map(|it| (it.cid, it.payload_type, it.payload.to_vec(), it.place))
            .collect()
    }

    #[test]
    fn sound_frames() {
        assert_eq!(sound("05"), [(5, 0, vec![], 1)]);
        assert_eq!(sound("05aabb"), [(5, 0, vec![0xaa, 0xbb], 1)]);
        assert_eq!(sound("8040"), [(64, 0, vec![], 2)]);
        assert_eq!(sound("bfcf01"), [(255, 15, vec![1], 2)]);
        let two = [(5, 0, vec![0xaa], 2), (6, 0, vec![0xbb], 4)];
        assert_eq!(sound("4501aa06bb"), two);
        let empty_first = [(5, 0, vec![], 2), (6, 1, vec![7], 4)];
        assert_eq!(sound("4500860107"), empty_first);
        let example = sound("c50108000a23070000000006aa");
        assert_eq!(example[0].0, 5);
        assert_eq!(example[0].2.len(), 8);
        assert_eq!(example[1], (6, 0, vec![0xaa], 12));
    }

    #[test]
    fn readings_a_header_octet_missing_is_3() {
        assert_eq!(refusal("81"), Some((3, 0)));
        assert_eq!(refusal("c13f"), Some((3, 0)));
        assert_eq!(refusal("45"), Some((3, 0)));
        assert_eq!(refusal("c5"), Some((3, 0)));
    }

    #[test]
    fn readings_3_comes_before_4_and_5() {
        assert_eq!(refusal("c000"), Some((3, 0)));
        assert_eq!(refusal("c530"), Some((3, 0)));
        assert_eq!(refusal("c03000"), Some((4, 0)));
    }

    #[test]
    fn readings_4500_is_7() {
        assert_eq!(refusal("4500"), Some((7, 0)));
        assert_eq!(refusal("c5010100"), Some((7, 0)));
        assert_eq!(refusal("4501"), Some((6, 0)));
    }

    #[test]
    fn cids_0_to_3_are_reserved_in_either_form() {
        for cid in 0..4u8 {
            assert_eq!(open_frame(&[cid]).unwrap_err().number, 4);
            assert_eq!(open_frame(&[0x80 | cid, 0]).unwrap_err().number, 4);
            assert_eq!(open_frame(&[0x80 | cid, 0x0f]).unwrap_err().number, 4);
            assert!(open_frame(&[0x80 | cid, 0x40]).is_ok());
        }
        assert!(open_frame(&[4]).is_ok());
        assert!(open_frame(&[0x84, 0]).is_ok());
    }

    #[test]
    fn each_spare_bit_is_5() {
        for spare in [0x10, 0x20, 0x30] {
            assert_eq!(open_frame(&[0x85, spare]).unwrap_err().number, 5);
        }
    }

    #[test]
    fn the_offset_is_that_of_the_offending_sub_frame() {
        assert_eq!(refusal("4501aa85"), Some((3, 3)));
        assert_eq!(refusal("4501aa01"), Some((4, 3)));
        assert_eq!(refusal("4501aa8510"), Some((5, 3)));
        assert_eq!(refusal("4501aa4502aa"), Some((6, 3)));
        assert_eq!(refusal("4501aa4501aa"), Some((7, 3)));
    }

    #[test]
    fn lengths_1600_and_1601() {
        assert_eq!(refusal(""), Some((1, 0)));
        assert!(open_frame(&[5; 1600]).is_ok());
        let refusal = open_frame(&[5; 1601]).unwrap_err();
        assert_eq!((refusal.number, refusal.at), (2, 0));
        assert_eq!(open_frame(&[0; 1601]).unwrap_err().number, 2);
    }

    #[test]
    fn readings_64_sub_frames_pass_and_a_65th_is_8_at_its_own_first_octet() {
        let with_li = [0x45, 0x00].repeat(64);
        let refused = |more: &[u8]| {
            let field = [&with_li, more].concat();
            open_frame(&field).err().map(|it| (it.number, it.at))
        };
        assert_eq!(refused(&[]), Some((7, 126)));
        assert_eq!(refused(&[0x05]), Some((8, 128)));
        assert_eq!(refused(&[0xc5]), Some((8, 128)));
        assert_eq!(refused(&[0x00]), Some((8, 128)));
        let sixty_four = [&with_li[..126], &[0x05]].concat();
        assert_eq!(open_frame(&sixty_four).unwrap().count(), 64);
    }

    /// Every field of one, two and three octets against a plain restatement.
    #[test]
    fn every_field_of_up_to_three_octets() {
        for first in 0..=255u32 {
            assert_eq!(frame_check(&[first as u8]), plain(&[first]));
            for second in 0..=255u32 {
                let field = [first as u8, second as u8];
                assert_eq!(frame_check(&field), plain(&[first, second]));
                for third in [0, 1, 2, 3, 0x10, 0x45, 0x80, 0xff] {
                    let field = [first as u8, second as u8, third as u8];
                    assert_eq!(frame_check(&field), plain(&[first, second, third]));
                }
            }
        }
    }

    /// The number of a short field, by arithmetic on each sub-frame in turn.
    fn plain(field: &[u32]) -> u8 {
        let (mut rest, mut number) = (field, 0);
        while number == 0 {
            let (ei, li) = (rest[0] / 128, rest[0] / 64 % 2);
            let header = (1 + ei + li) as usize;
            if rest.len() < header {
                return 3;
            }
            let extension = if ei == 1 { rest[1] } else { 0 };
            let cid = extension / 64 * 64 + rest[0] % 64;
            let length = rest[header - 1] as usize;
            let left = rest.len() - header;
            number = match () {
                _ if cid < 4 => 4,
                _ if extension / 16 % 4 != 0 => 5,
                _ if li == 0 => return 0,
                _ if length > left => 6,
                _ if length == left => 7,
                _ => 0,
            };
            if number == 0 {
                rest = &rest[header + length..];
            }
        }
        number
    }

    #[test]
    fn every_header_comes_back() {
        for cid in 4..=255 {
            for payload_type in 0..16 {
                for length in [None, Some(0), Some(1), Some(200), Some(255)] {
                    let octets = write_header(cid, payload_type, length);
                    let header = read_header(&octets).unwrap();
                    assert_eq!(header.cid, cid);
                    assert_eq!(header.payload_type, payload_type);
                    assert_eq!(header.payload_length, length);
                    assert_eq!(header.octets, octets.len());
                    let ei = usize::from(cid > 63 || payload_type != 0);
                    assert_eq!(octets.len(), 1 + ei + usize::from(length.is_some()));
                }
            }
        }
    }

    #[test]
    fn what_is_joined_is_read() {
        for seed in 0..500 {
            let mut random = Random::new(seed);
            let mut lists = Vec::new();
            for _ in 0..random.between(1, 64) {
                let count = random.below(20);
                let payload = random.octets(count);
                lists.push((random.small(4, 255), random.small(0, 15), payload));
            }
            let pieces: Vec<Piece> = lists.iter().map(|it| (it.0, it.1, &it.2[..])).collect();
            let field = join(&pieces).unwrap();
            let read: Vec<Piece> = open_frame(&field)
                .unwrap()
                .map(|it| (it.cid, it.payload_type, it.payload))
                .collect();
            assert_eq!(read, pieces);
        }
    }

    #[test]
    fn a_joined_payload_over_255_must_be_last() {
        let long = [0; 256];
        assert!(join(&[(5, 0, &long), (6, 0, &[])]).is_none());
        assert!(join(&[(6, 0, &[]), (5, 0, &long)]).is_some());
        assert!(join(&[(5, 0, &long[1..]), (6, 0, &[])]).is_some());
    }

    #[test]
    fn the_payload_stands_at_its_place() {
        for seed in 0..200 {
            let mut random = Random::new(seed);
            let count = random.between(1, 40);
            let field = random.octets(count);
            for sub_frame in open_frame(&field).into_iter().flatten() {
                let end = sub_frame.place + sub_frame.payload.len();
                assert_eq!(sub_frame.payload, &field[sub_frame.place..end]);
            }
        }
    }

    #[test]
    fn the_frame_check_gives_0_for_a_sound_frame() {
        assert_eq!(frame_check(&[5]), 0);
        assert_eq!(frame_check(&[]), 1);
    }
}
