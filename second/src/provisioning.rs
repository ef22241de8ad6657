//! Document 01, "Provisioning text".

use crate::refusal::*;

/// The most octets of a provisioning text.
pub const TEXT_OCTETS: usize = 8192;

/// The syntax words.
#[derive(Clone, Copy, Debug, PartialEq, Eq)]
pub enum Syntax {
    /// CS-ACELP, FRF.11 annex E.
    Acelp,
    /// Generic PCM/ADPCM, annex F.
    Pcm,
    /// G.727 discard-eligible EADPCM, annex G.
    G727,
    /// G.728 LD-CELP, annex H.
    G728,
    /// G.723.1 MP-MLQ, annex I.
    G7231,
    /// Data transfer, annex C.
    Data,
    /// Fax relay, annex D.
    Fax,
}

impl Syntax {
    /// All seven, in document 01's order.
    pub const ALL: [Syntax; 7] = [
        Syntax::Acelp,
        Syntax::Pcm,
        Syntax::G727,
        Syntax::G728,
        Syntax::G7231,
        Syntax::Data,
        Syntax::Fax,
    ];

    /// The word that stands in the text.
    pub fn word(self) -> &'static str {
        match self {
            Syntax::Acelp => "acelp",
            Syntax::Pcm => "pcm",
            Syntax::G727 => "g727",
            Syntax::G728 => "g728",
            Syntax::G7231 => "g7231",
            Syntax::Data => "data",
            Syntax::Fax => "fax",
        }
    }

    /// Whether it is one of the five voice syntaxes.
    pub fn is_voice(self) -> bool {
        !matches!(self, Syntax::Data | Syntax::Fax)
    }

    /// The largest m; the smallest is 1.
    pub fn most_m(self) -> u8 {
        match self {
            Syntax::Acelp => 6,
            Syntax::Pcm | Syntax::G727 | Syntax::G728 => 12,
            Syntax::G7231 | Syntax::Data | Syntax::Fax => 1,
        }
    }

    /// The values that seq may have.
    pub fn seq_values(self) -> &'static [u8] {
        match self {
            Syntax::Acelp | Syntax::G728 | Syntax::G7231 => &[0, 1],
            Syntax::Pcm | Syntax::G727 => &[1],
            Syntax::Data | Syntax::Fax => &[0],
        }
    }
}

/// One block: a provisioned sub-channel.
#[derive(Clone, Copy, Debug, PartialEq, Eq)]
pub struct Record {
    /// 4 to 255.
    pub cid: u8,
    /// The syntax of payload type 0.
    pub syntax: Syntax,
    /// The packing factor.
    pub m: u8,
    /// Whether a sequence octet stands in front.
    pub seq: u8,
}

/// The provisioned sub-channels, by CID.
#[derive(Clone, Debug, PartialEq, Eq)]
pub struct Table {
    records: Vec<Option<Record>>,
}

impl Table {
    /// A table with no sub-channel.
    pub fn empty() -> Self {
        let records = vec![None; 256];
        Table { records }
    }

    /// A table of these records.
    pub fn of(records: &[Record]) -> Self {
        let mut table = Table::empty();
        for record in records {
            table.records[usize::from(record.cid)] = Some(*record);
        }
        table
    }

    /// The record of a CID, if it is provisioned.
    pub fn record(&self, cid: u8) -> Option<&Record> {
        self.records[usize::from(cid)].as_ref()
    }

    /// All records, CIDs rising.
    pub fn records(&self) -> Vec<Record> {
        self.records.iter().flatten().copied().collect()
    }
}

/// What refuses a text: the number and the line, from 1 (0 for 34).
#[derive(Clone, Copy, Debug, PartialEq, Eq)]
pub struct TextRefusal {
    /// 31 to 34.
    pub number: Refusal,
    /// The first bad line.
    pub line: usize,
}

/// The lines of a text not yet read, and the number of the one read last.
struct Lines<'t> {
    rest: &'t [u8],
    number: usize,
}

impl<'t> Lines<'t> {
    /// A refusal at the line read last.
    fn refuse(&self, number: Refusal) -> TextRefusal {
        let line = self.number;
        TextRefusal { number, line }
    }

    /// The value on the next line: 31 when there is no line (a cut block), when
    /// its LF is missing or when its key is wrong.
    fn value(&mut self, key: &str) -> Result<&'t [u8], TextRefusal> {
        self.number += 1;
        let end = self.rest.iter().position(|&octet| octet == b'\n');
        let end = end.ok_or(self.refuse(TEXT_LINE_MALFORMED))?;
        let line = &self.rest[..end];
        self.rest = &self.rest[end + 1..];
        let value = line.strip_prefix(key.as_bytes());
        value.ok_or(self.refuse(TEXT_LINE_MALFORMED))
    }

    /// The number on the next line: 31 when it is malformed.
    fn number(&mut self, key: &str) -> Result<u16, TextRefusal> {
        let value = self.value(key)?;
        read_number(value).ok_or(self.refuse(TEXT_LINE_MALFORMED))
    }
}

/// A number of one to three digits with no leading zero (0 itself allowed).
pub fn read_number(value: &[u8]) -> Option<u16> {
    let leading_zero = value.len() > 1 && value[0] == b'0';
    if value.is_empty() || value.len() > 3 || leading_zero {
        return None;
    }
    let mut number = 0;
    for character in value {
        if !character.is_ascii_digit() {
            return None;
        }
        number = number * 10 + u16::from(character - b'0');
    }
    Some(number)
}

/// The `cid=` line: 31, 32, 33.
fn read_cid(lines: &mut Lines, before: Option<u8>) -> Result<u8, TextRefusal> {
    let number = lines.number("cid=")?;
    let cid = match u8::try_from(number) {
        Ok(cid) if cid >= 4 => cid,
        _ => return Err(lines.refuse(TEXT_VALUE_NOT_LISTED)),
    };
    match before {
        Some(before) if cid <= before => Err(lines.refuse(TEXT_CID_NOT_RISING)),
        _ => Ok(cid),
    }
}

/// The `syntax=` line: 31, 32.
fn read_syntax(lines: &mut Lines) -> Result<Syntax, TextRefusal> {
    let value = lines.value("syntax=")?;
    let found = Syntax::ALL
        .into_iter()
        .find(|syntax| syntax.word().as_bytes() == value);
    found.ok_or(lines.refuse(TEXT_VALUE_NOT_LISTED))
}

/// The `m=` line: 31, 32.
fn read_m(lines: &mut Lines, syntax: Syntax) -> Result<u8, TextRefusal> {
    let number = lines.number("m=")?;
    match u8::try_from(number) {
        Ok(m) if m >= 1 && m <= syntax.most_m() => Ok(m),
        _ => Err(lines.refuse(TEXT_VALUE_NOT_LISTED)),
    }
}

/// The `seq=` line: 31, 32.
fn read_seq(lines: &mut Lines, syntax: Syntax) -> Result<u8, TextRefusal> {
    let number = lines.number("seq=")?;
    match u8::try_from(number) {
        Ok(seq) if syntax.seq_values().contains(&seq) => Ok(seq),
        _ => Err(lines.refuse(TEXT_VALUE_NOT_LISTED)),
    }
}

/// One block of four lines.
fn read_block(lines: &mut Lines, before: Option<u8>) -> Result<Record, TextRefusal> {
    let cid = read_cid(lines, before)?;
    let syntax = read_syntax(lines)?;
    let m = read_m(lines, syntax)?;
    let seq = read_seq(lines, syntax)?;
    Ok(Record {
        cid,
        syntax,
        m,
        seq,
    })
}

/// Reads a provisioning text: 34 at line 0, then the first bad line.
pub fn read_text(text: &[u8]) -> Result<Table, TextRefusal> {
    if text.len() > TEXT_OCTETS {
        return Err(TextRefusal {
            number: TEXT_TOO_LONG,
            line: 0,
        });
    }
    let mut lines = Lines {
        rest: text,
        number: 0,
    };
    let mut records: Vec<Record> = Vec::new();
    while !lines.rest.is_empty() {
        let before = records.last().map(|record| record.cid);
        records.push(read_block(&mut lines, before)?);
    }
    Ok(Table::of(&records))
}

/// Writes the text of some records, in the order given.
pub fn write_text(records: &[Record]) -> Vec<u8> {
    let mut text = String::new();
    for record in records {
        text += &format!("cid={}\n", record.cid);
        text += &format!("syntax={}\n", record.syntax.word());
        text += &format!("m={}\n", record.m);
        text += &format!("seq={}\n", record.seq);
    }
    text.into_bytes()
}

#[cfg(test)]
mod tests {
    use super::*;
    use crate::generate::records::records;
    use crate::generate::Random;

    /// The refusal of a text: number and line.
    fn refusal(text: &str) -> Option<(Refusal, usize)> {
        let refusal = read_text(text.as_bytes()).err();
        refusal.map(|it| (it.number, it.line))
    }

    /// A block of given values after a legal first block of CID 10.
    fn second_block(cid: &str, syntax: &str, m: &str, seq: &str) -> Option<(Refusal, usize)> {
        let first = "cid=10\nsyntax=fax\nm=1\nseq=0\n";
        refusal(&format!(
            "{first}cid={cid}\nsyntax={syntax}\nm={m}\nseq={seq}\n"
        ))
    }

    #[test]
    fn no_blocks_at_all_is_legal() {
        assert_eq!(read_text(b"").unwrap(), Table::empty());
    }

    #[test]
    fn a_block_is_read() {
        let table = read_text(b"cid=5\nsyntax=acelp\nm=6\nseq=1\n").unwrap();
        let record = Record {
            cid: 5,
            syntax: Syntax::Acelp,
            m: 6,
            seq: 1,
        };
        assert_eq!(table.record(5), Some(&record));
        assert_eq!(table.records(), [record]);
        assert_eq!(table.record(6), None);
    }

    #[test]
    fn every_syntax_m_and_seq() {
        let listed = [
            ("acelp", 6, "01"),
            ("pcm", 12, "1"),
            ("g727", 12, "1"),
            ("g728", 12, "01"),
            ("g7231", 1, "01"),
            ("data", 1, "0"),
            ("fax", 1, "0"),
        ];
        for (word, most, seqs) in listed {
            let good_seq = &seqs[..1];
            for m in 0..=20 {
                let wanted = (m < 1 || m > most).then_some((32, 7));
                assert_eq!(
                    second_block("11", word, &m.to_string(), good_seq),
                    wanted,
                    "{word} m={m}"
                );
            }
            for seq in 0..=9 {
                let good = seqs.contains(&seq.to_string());
                let wanted = (!good).then_some((32, 8));
                assert_eq!(
                    second_block("11", word, "1", &seq.to_string()),
                    wanted,
                    "{word} seq={seq}"
                );
            }
        }
    }

    #[test]
    fn every_cid_number() {
        for cid in 0..1100 {
            let wanted = match cid {
                11..=255 => None,
                4..=10 => Some((33, 5)),
                0..=3 | 256..=999 => Some((32, 5)),
                _ => Some((31, 5)),
            };
            assert_eq!(second_block(&cid.to_string(), "fax", "1", "0"), wanted);
        }
    }

    #[test]
    fn malformed_numbers_are_31() {
        let malformed = [
            "", "00", "01", "011", "000", "0011", "1111", "+1", "-1", " 1", "1 ", "1\r", "x", "1x",
            "1.", "٣",
        ];
        for number in malformed {
            assert_eq!(second_block(number, "fax", "1", "0"), Some((31, 5)));
            assert_eq!(second_block("11", "fax", number, "0"), Some((31, 7)));
            assert_eq!(second_block("11", "fax", "1", number), Some((31, 8)));
        }
    }

    #[test]
    fn readings_a_syntax_word_that_is_not_listed_is_32() {
        for word in ["", "acelp ", " acelp", "acelp\r", "ACELP", "g723", "acel"] {
            assert_eq!(second_block("11", word, "1", "0"), Some((32, 6)));
        }
    }

    #[test]
    fn readings_numbers_of_cid() {
        assert_eq!(refusal("cid=1000\n"), Some((31, 1)));
        assert_eq!(refusal("cid=256\n"), Some((32, 1)));
        assert_eq!(refusal("cid=3\n"), Some((32, 1)));
        assert_eq!(refusal("cid=05\n"), Some((31, 1)));
        assert_eq!(second_block("3", "fax", "1", "0"), Some((32, 5)));
        assert_eq!(second_block("010", "fax", "1", "0"), Some((31, 5)));
    }

    #[test]
    fn a_wrong_key_is_31() {
        assert_eq!(refusal("\n"), Some((31, 1)));
        assert_eq!(refusal("CID=5\n"), Some((31, 1)));
        assert_eq!(refusal(" cid=5\n"), Some((31, 1)));
        assert_eq!(refusal("cid 5\n"), Some((31, 1)));
        assert_eq!(refusal("cid=5\nm=1\n"), Some((31, 2)));
        assert_eq!(refusal("cid=5\nsyntax=fax\nseq=0\n"), Some((31, 3)));
        assert_eq!(refusal("cid=5\nsyntax=fax\nm=1\nseq=0\n\n"), Some((31, 5)));
    }

    #[test]
    fn readings_a_missing_lf_is_31_at_its_own_line_whatever_else_is_wrong() {
        assert_eq!(refusal("cid=5"), Some((31, 1)));
        assert_eq!(refusal("cid=3"), Some((31, 1)));
        assert_eq!(refusal("cid=5\nsyntax=none"), Some((31, 2)));
        assert_eq!(refusal("cid=5\nsyntax=fax\nm=9"), Some((31, 3)));
        assert_eq!(refusal("cid=5\nsyntax=fax\nm=1\nseq=0"), Some((31, 4)));
        assert_eq!(refusal("c"), Some((31, 1)));
    }

    #[test]
    fn readings_a_cut_block_is_31_at_the_line_after() {
        assert_eq!(refusal("cid=5\n"), Some((31, 2)));
        assert_eq!(refusal("cid=5\nsyntax=fax\n"), Some((31, 3)));
        assert_eq!(refusal("cid=5\nsyntax=fax\nm=1\n"), Some((31, 4)));
        let block = "cid=5\nsyntax=fax\nm=1\nseq=0\n";
        assert_eq!(refusal(&format!("{block}cid=6\n")), Some((31, 6)));
    }

    #[test]
    fn the_first_bad_line_counts() {
        assert_eq!(refusal("cid=3\nsyntax=none\n"), Some((32, 1)));
        assert_eq!(refusal("cid=5\nsyntax=none\nm=x\n"), Some((32, 2)));
        assert_eq!(second_block("10", "none", "x", "x"), Some((33, 5)));
    }

    #[test]
    fn readings_34_comes_before_anything_else_and_8192_passes_it() {
        assert_eq!(refusal(&"x".repeat(8192)), Some((31, 1)));
        assert_eq!(refusal(&"x".repeat(8193)), Some((34, 0)));
        assert_eq!(refusal(&"\n".repeat(8192)), Some((31, 1)));
        let long_word = format!("cid=5\nsyntax={}\n", "a".repeat(8178));
        assert_eq!(long_word.len(), 8192);
        assert_eq!(refusal(&long_word), Some((32, 2)));
    }

    #[test]
    fn the_longest_legal_text_has_7710_octets() {
        let record = |cid| Record {
            cid,
            syntax: Syntax::G728,
            m: 12,
            seq: 1,
        };
        let records: Vec<Record> = (4..=255).map(record).collect();
        let text = write_text(&records);
        assert_eq!(text.len(), 7710);
        assert_eq!(read_text(&text).unwrap().records(), records);
        // No other kind of block is longer.
        for syntax in Syntax::ALL {
            for seq in syntax.seq_values() {
                let (cid, m, seq) = (255, syntax.most_m(), *seq);
                let other = Record {
                    cid,
                    syntax,
                    m,
                    seq,
                };
                let longest = write_text(&[record(255)]);
                assert!(write_text(&[other]).len() <= longest.len());
            }
        }
    }

    #[test]
    fn all_252_cids_fit() {
        for seed in 0..20 {
            let records = records(&mut Random::new(seed), 252);
            let text = write_text(&records);
            assert!(text.len() <= TEXT_OCTETS);
            assert_eq!(read_text(&text).unwrap().records(), records);
        }
    }
}
