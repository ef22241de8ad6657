//! Document 01, "Refusal numbers": the writer, one sub-frame at a time into a
//! lent room.

use crate::frame::{write_header, FIELD_OCTETS, SUB_FRAMES};
use crate::payload::{self, Content};
use crate::provisioning::Table;
use crate::refusal::*;

/// A frame being written into a lent room.
#[derive(Debug, PartialEq, Eq)]
pub struct Writer<'r> {
    room: &'r mut [u8],
    written: usize,
    sub_frames: usize,
    last_written: bool,
}

impl<'r> Writer<'r> {
    /// A writer at the start of a lent room.
    pub fn new(room: &'r mut [u8]) -> Self {
        Writer {
            room,
            written: 0,
            sub_frames: 0,
            last_written: false,
        }
    }

    /// What stands written so far.
    pub fn frame(&self) -> &[u8] {
        &self.room[..self.written]
    }

    /// The whole lent room, written or not.
    pub fn room(&self) -> &[u8] {
        self.room
    }

    /// How many sub-frames stand written so far.
    pub fn sub_frames(&self) -> usize {
        self.sub_frames
    }

    /// Whether the last sub-frame is written.
    pub fn last_written(&self) -> bool {
        self.last_written
    }

    /// Writes one sub-frame, told last or not: 24, 4, 11 to 16, 22, 23, 21.
    /// On a refusal nothing changes.
    pub fn write(
        &mut self,
        table: &Table,
        cid: u8,
        content: &Content,
        last: bool,
    ) -> Result<(), Refusal> {
        if self.last_written {
            return Err(LAST_ALREADY_WRITTEN);
        }
        if cid <= 3 {
            return Err(CID_RESERVED);
        }
        let (payload_type, payload) = payload::write(table, cid, content)?;
        let sub_frame = sub_frame(cid, payload_type, &payload, last)?;
        self.append(&sub_frame)?;
        self.last_written = last;
        Ok(())
    }

    /// Appends a whole sub-frame: 23, 21.
    fn append(&mut self, sub_frame: &[u8]) -> Result<(), Refusal> {
        let end = self.written + sub_frame.len();
        if end > FIELD_OCTETS || self.sub_frames == SUB_FRAMES {
            return Err(FRAME_WOULD_PASS);
        }
        if end > self.room.len() {
            return Err(ROOM_TOO_SMALL);
        }
        self.room[self.written..end].copy_from_slice(sub_frame);
        self.written = end;
        self.sub_frames += 1;
        Ok(())
    }
}

/// Header and payload: 22 when octet 1b is due and cannot hold the length.
fn sub_frame(cid: u8, payload_type: u8, payload: &[u8], last: bool) -> Result<Vec<u8>, Refusal> {
    let length = match last {
        true => None,
        false => Some(u8::try_from(payload.len()).map_err(|_| NOT_LAST_OVER_255)?),
    };
    let mut octets = write_header(cid, payload_type, length);
    octets.extend_from_slice(payload);
    Ok(octets)
}

#[cfg(test)]
mod tests {
    use super::*;
    use crate::frame::open_frame;
    use crate::generate::records::records;
    use crate::generate::Random;
    use crate::payload::data::Data;
    use crate::payload::drawn::{as_it_comes_back, wanted_number, ContentDrawer};
    use crate::payload::sid::Sid;
    use crate::provisioning::{read_text, Record};

    /// CID 5 data, 70 acelp.
    fn table() -> Table {
        let text = b"cid=5\nsyntax=data\nm=1\nseq=0\ncid=70\nsyntax=acelp\nm=1\nseq=0\n";
        read_text(text).unwrap()
    }

    fn data(fragment: &[u8]) -> Content<'_> {
        Content::Data(Data {
            b: false,
            e: false,
            sequence: 0,
            fragment,
        })
    }

    const SID: Content = Content::Sid(Sid::Empty);

    #[test]
    fn a_frame_is_written() {
        let mut room = [0xee; 20];
        let mut writer = Writer::new(&mut room);
        assert_eq!(writer.write(&table(), 70, &SID, false), Ok(()));
        assert_eq!(writer.write(&table(), 5, &data(&[7]), true), Ok(()));
        assert_eq!(writer.frame(), [0xc6, 0x44, 0x00, 0x05, 0, 0, 7]);
        assert_eq!(room[7..], [0xee; 13]);
    }

    #[test]
    fn after_the_last_24_comes_first() {
        let mut room = [0; 4];
        let mut writer = Writer::new(&mut room);
        assert_eq!(writer.write(&table(), 70, &SID, true), Ok(()));
        for (cid, content) in [(0, &SID), (99, &SID), (5, &SID), (5, &data(&[0; 2000]))] {
            assert_eq!(writer.write(&table(), cid, content, false), Err(24));
            assert_eq!(writer.write(&table(), cid, content, true), Err(24));
        }
    }

    #[test]
    fn readings_4_comes_before_11() {
        let mut room = [0; 4];
        let mut writer = Writer::new(&mut room);
        for cid in 0..4 {
            assert_eq!(writer.write(&table(), cid, &SID, true), Err(4));
        }
        assert_eq!(writer.write(&table(), 4, &SID, true), Err(11));
        assert_eq!(writer.write(&table(), 5, &SID, true), Err(12));
    }

    #[test]
    fn readings_22_counts_payload_octets_alone() {
        let mut room = [0; 600];
        let mut writer = Writer::new(&mut room);
        let (fits, over) = ([0; 253], [0; 254]);
        assert_eq!(writer.write(&table(), 5, &data(&over), false), Err(22));
        assert_eq!(writer.write(&table(), 5, &data(&fits), false), Ok(()));
        assert_eq!(writer.write(&table(), 5, &data(&over), true), Ok(()));
        assert_eq!(writer.frame().len(), 2 + 255 + 1 + 256);
    }

    #[test]
    fn the_order_22_23_21() {
        let mut room = [0; 10];
        let mut writer = Writer::new(&mut room);
        let (long, full) = ([0; 1598], [0; 1597]);
        assert_eq!(writer.write(&table(), 5, &data(&long), false), Err(22));
        assert_eq!(writer.write(&table(), 5, &data(&long), true), Err(23));
        assert_eq!(writer.write(&table(), 5, &data(&full), true), Err(21));
    }

    #[test]
    fn exactly_1600_octets_and_a_room_that_just_holds() {
        let full = [0; 1597];
        for (size, wanted) in [(1600, Ok(())), (1599, Err(21)), (0, Err(21))] {
            let mut room = vec![0; size];
            let mut writer = Writer::new(&mut room);
            assert_eq!(writer.write(&table(), 5, &data(&full), true), wanted);
        }
        let mut room = [0; 3000];
        let mut writer = Writer::new(&mut room);
        let over = [0; 1598];
        assert_eq!(writer.write(&table(), 5, &data(&over), true), Err(23));
    }

    #[test]
    fn readings_a_64th_that_is_not_last_is_taken_and_then_23() {
        let mut room = [0; 3000];
        let mut writer = Writer::new(&mut room);
        for _ in 0..64 {
            assert_eq!(writer.write(&table(), 70, &SID, false), Ok(()));
        }
        assert_eq!(writer.write(&table(), 70, &SID, true), Err(23));
        assert_eq!(writer.write(&table(), 70, &SID, false), Err(23));
    }

    #[test]
    fn readings_one_that_ends_at_1600_and_is_not_last_is_taken_and_then_23() {
        let mut room = [0; 3000];
        let mut writer = Writer::new(&mut room);
        let fragment = [0; 198];
        for _ in 0..7 {
            assert_eq!(writer.write(&table(), 5, &data(&fragment), false), Ok(()));
        }
        let rest = [0; 1600 - 7 * 202 - 4];
        assert_eq!(writer.write(&table(), 5, &data(&rest), false), Ok(()));
        assert_eq!(writer.frame().len(), 1600);
        assert_eq!(writer.write(&table(), 70, &SID, true), Err(23));
    }

    /// The number a call must get, restated from document 01's order.
    fn restated(writer: &Writer, table: &Table, cid: u8, content: &Content, last: bool) -> Refusal {
        let number = wanted_number(table, cid, content);
        if writer.last_written || cid < 4 || number != 0 {
            return match () {
                _ if writer.last_written => 24,
                _ if cid < 4 => 4,
                _ => number,
            };
        }
        let (payload_type, payload) = payload::write(table, cid, content).unwrap();
        let ei = usize::from(cid > 63 || payload_type > 0);
        let octets = 1 + ei + usize::from(!last) + payload.len();
        match () {
            _ if payload.len() > 255 && !last => 22,
            _ if writer.written + octets > 1600 || writer.sub_frames == 64 => 23,
            _ if octets > writer.room.len() - writer.written => 21,
            _ => 0,
        }
    }

    #[test]
    fn random_calls_against_a_restatement_and_nothing_changes_on_a_refusal() {
        let mut numbers = [0; 25];
        for seed in 0..1500 {
            let mut random = Random::new(seed);
            let records = records(&mut random, 12);
            let table = Table::of(&records);
            let mut room = vec![0xee; random.pick(&[0, 30, 300, 1000, 1600, 2000])];
            let mut writer = Writer::new(&mut room);
            for _ in 0..80 {
                let record = random.pick(&records);
                let spoil = random.one_in(3);
                let random_content = &mut random;
                let mut drawer = ContentDrawer {
                    random: random_content,
                    spoil,
                };
                let content = drawer.any_kind(&record);
                let cid = match random.one_in(20) {
                    true => random.octet() % 8,
                    false => record.cid,
                };
                let last = random.one_in(40);
                let wanted = restated(&writer, &table, cid, &content, last);
                let (octets, written) = (writer.room.to_vec(), writer.written);
                let (sub_frames, was_last) = (writer.sub_frames, writer.last_written);
                let number = writer.write(&table, cid, &content, last).err().unwrap_or(0);
                assert_eq!(number, wanted);
                numbers[usize::from(number)] += 1;
                if number != 0 {
                    assert_eq!(*writer.room, octets);
                    assert_eq!(writer.written, written);
                    assert_eq!(
                        (writer.sub_frames, writer.last_written),
                        (sub_frames, was_last)
                    );
                }
            }
        }
        for number in [0, 4, 11, 12, 13, 14, 15, 16, 21, 22, 23, 24] {
            assert!(numbers[number] > 20, "{number}: {numbers:?}");
        }
    }

    /// A legal list: taken by the writer to its last. It comes back whole.
    fn round_trip(seed: u64) {
        let mut random = Random::new(seed);
        let records = records(&mut random, 20);
        let table = Table::of(&records);
        let mut room = [0; 1600];
        let mut writer = Writer::new(&mut room);
        let mut list: Vec<(Record, Content)> = Vec::new();
        let count = random.between(1, 64);
        while !writer.last_written {
            let record = random.pick(&records);
            let random = &mut random;
            let spoil = false;
            let content = ContentDrawer { random, spoil }.content(&record);
            let last = list.len() + 1 >= count || writer.written > 1000;
            if writer.write(&table, record.cid, &content, last).is_ok() {
                list.push((record, content));
            }
        }
        let sub_frames: Vec<_> = open_frame(writer.frame()).unwrap().collect();
        assert_eq!(sub_frames.len(), list.len());
        for (sub_frame, (record, content)) in sub_frames.iter().zip(&list) {
            assert_eq!(sub_frame.cid, record.cid);
            let payload_type = sub_frame.payload_type;
            let back = payload::read(&table, record.cid, payload_type, sub_frame.payload);
            assert_eq!(back, Ok(as_it_comes_back(content)));
        }
    }

    #[test]
    fn legal_lists_come_back() {
        for seed in 0..2000 {
            round_trip(seed);
        }
    }
}
