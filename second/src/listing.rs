//! Document 01, "Listing program". It streams: the text is held, and one line.

use crate::frame::{open_frame, FIELD_OCTETS};
use crate::hex;
use crate::lines::{Line, LineReader};
use crate::payload;
use crate::provisioning::{read_text, Table, TextRefusal, TEXT_OCTETS};
use crate::refusal::*;
use std::io::{self, BufRead, Chain, Cursor, Read, Write};

/// How a frame line starts.
const FRAME: &[u8] = b"frame=";
/// The most characters after `frame=`.
const CHARACTERS: usize = 2 * FIELD_OCTETS;

/// Runs the listing program from an input to an output.
pub fn run(input: impl BufRead, mut output: impl Write) -> io::Result<()> {
    if let Some((table, rest)) = open_recording(input, &mut output)? {
        list_frames(rest, &mut output, &table)?;
    }
    output.flush()
}

/// What of an input comes after its text.
pub type Rest<R> = Chain<Cursor<Vec<u8>>, R>;

/// Reads the text of a recording: the table and the lines from the first
/// `frame=` line on. A refused text is printed, and there is nothing more.
pub fn open_recording<R: BufRead>(
    mut input: R,
    output: &mut impl Write,
) -> io::Result<Option<(Table, Rest<R>)>> {
    let mut start = read_start(&mut input)?;
    let after_text = start.split_off(text_end(&start));
    match read_text(&start) {
        Err(refusal) => {
            print_text_refusal(output, &refusal)?;
            Ok(None)
        }
        Ok(table) => Ok(Some((table, Cursor::new(after_text).chain(input)))),
    }
}

/// The start of the input: enough octets to see whether a line at octet 8,192
/// still starts with `frame=`, or the whole input when it is shorter.
fn read_start(input: &mut impl BufRead) -> io::Result<Vec<u8>> {
    let enough = TEXT_OCTETS + FRAME.len();
    let mut start = Vec::with_capacity(enough);
    input.take(enough as u64).read_to_end(&mut start)?;
    Ok(start)
}

/// Where the text ends: before the first line that starts with `frame=`. When
/// none starts by octet 8,192, all that was read stands for the text: it is the
/// whole input, or longer than 8,192 octets.
fn text_end(start: &[u8]) -> usize {
    let mut line_starts = true;
    for (place, octet) in start.iter().enumerate() {
        if line_starts && start[place..].starts_with(FRAME) {
            return place;
        }
        line_starts = *octet == b'\n';
    }
    start.len()
}

/// Prints the refusal of a text.
fn print_text_refusal(output: &mut impl Write, refusal: &TextRefusal) -> io::Result<()> {
    writeln!(output, "text={}", refusal.number)?;
    writeln!(output, "line={}", refusal.line)
}

/// A line of a recording after its text.
pub struct FieldLine {
    /// The number, from 0; refused lines count.
    pub number: u64,
    /// The field, or what refuses the line: 2 or 9, at 0.
    pub field: Result<Vec<u8>, Refusal>,
}

/// Yields the lines of a recording from the first `frame=` line on.
pub struct Fields<R> {
    lines: LineReader<R>,
    number: u64,
}

impl<R: BufRead> Fields<R> {
    /// The fields of what comes after the text.
    pub fn new(input: R) -> Self {
        let lines = LineReader::new(input, FRAME.len() + CHARACTERS);
        Fields { lines, number: 0 }
    }

    /// The next line, or none when nothing is left.
    pub fn next_field(&mut self) -> io::Result<Option<FieldLine>> {
        let line = match self.lines.next_line()? {
            Some(line) => line,
            None => return Ok(None),
        };
        let number = self.number;
        self.number += 1;
        let field = read_line(&line);
        Ok(Some(FieldLine { number, field }))
    }
}

/// Prints the answer to every line from the first `frame=` line on.
fn list_frames(input: impl BufRead, output: &mut impl Write, table: &Table) -> io::Result<()> {
    let mut fields = Fields::new(input);
    while let Some(line) = fields.next_field()? {
        writeln!(output, "frame={}", line.number)?;
        match line.field {
            Ok(field) => print_frame(output, table, &field)?,
            Err(refusal) => print_frame_refusal(output, refusal, 0)?,
        }
    }
    Ok(())
}

/// The field on a line: 2 when over 3,200 characters follow `frame=`, then 9.
fn read_line(line: &Line) -> Result<Vec<u8>, Refusal> {
    let characters = line.kept.strip_prefix(FRAME).ok_or(HEX_LINE_MALFORMED)?;
    if line.octets > (FRAME.len() + CHARACTERS) as u64 {
        return Err(FIELD_TOO_LONG);
    }
    if !line.ended {
        return Err(HEX_LINE_MALFORMED);
    }
    hex::read(characters).ok_or(HEX_LINE_MALFORMED)
}

/// Prints the sub-frames of a field, or its refusal.
fn print_frame(output: &mut impl Write, table: &Table, field: &[u8]) -> io::Result<()> {
    let reader = match open_frame(field) {
        Ok(reader) => reader,
        Err(refusal) => return print_frame_refusal(output, refusal.number, refusal.at),
    };
    writeln!(output, "subs={}", reader.clone().count())?;
    for sub_frame in reader {
        let (cid, payload_type) = (sub_frame.cid, sub_frame.payload_type);
        let answer = payload::read(table, cid, payload_type, sub_frame.payload);
        writeln!(output, "cid={cid}")?;
        writeln!(output, "type={payload_type}")?;
        writeln!(output, "len={}", sub_frame.payload.len())?;
        writeln!(output, "answer={}", answer.err().unwrap_or(0))?;
    }
    Ok(())
}

/// Prints the refusal of a frame.
pub fn print_frame_refusal(output: &mut impl Write, number: Refusal, at: usize) -> io::Result<()> {
    writeln!(output, "refused={number}")?;
    writeln!(output, "at={at}")
}

#[cfg(test)]
mod tests {
    use super::*;
    use std::io::BufReader;

    fn listed(input: &[u8]) -> String {
        let mut output = Vec::new();
        run(input, &mut output).unwrap();
        String::from_utf8(output).unwrap()
    }

    const ACELP: &str = "cid=5\nsyntax=acelp\nm=1\nseq=0\n";

    /// What is printed for lines after a good text.
    fn after_text(lines: &str) -> String {
        listed(format!("{ACELP}{lines}").as_bytes())
    }

    /// A frame that is refused at 0.
    fn refused(frame: usize, number: Refusal) -> String {
        format!("frame={frame}\nrefused={number}\nat=0\n")
    }

    #[test]
    fn the_example_of_document_01() {
        let wanted = "frame=0\nsubs=2\ncid=5\ntype=1\nlen=8\nanswer=0\n\
                      cid=6\ntype=0\nlen=1\nanswer=11\n";
        assert_eq!(after_text("frame=c50108000a23070000000006aa\n"), wanted);
    }

    #[test]
    fn readings_good_text_with_no_frame_line_prints_nothing() {
        assert_eq!(after_text(""), "");
        assert_eq!(listed(b""), "");
    }

    #[test]
    fn no_text_and_a_frame() {
        let wanted = "frame=0\nsubs=1\ncid=5\ntype=0\nlen=1\nanswer=11\n";
        assert_eq!(listed(b"frame=05aa\n"), wanted);
    }

    #[test]
    fn readings_nothing_between_is_1_and_without_lf_9() {
        assert_eq!(after_text("frame=\n"), refused(0, 1));
        assert_eq!(after_text("frame="), refused(0, 9));
        assert_eq!(after_text("frame=05aa"), refused(0, 9));
    }

    #[test]
    fn readings_over_3200_characters_is_2_whatever_else_is_wrong() {
        let long = |count: usize, end: &str| {
            let characters = "05".repeat(1700)[..count].to_string();
            after_text(&format!("frame={characters}{end}"))
        };
        assert!(long(3200, "\n").starts_with("frame=0\nsubs=1\n"));
        assert_eq!(long(3199, "\n"), refused(0, 9));
        for end in ["\n", "", " \n", "G\n", "\r\n", "\0"] {
            assert_eq!(long(3201, end), refused(0, 2));
            assert_eq!(long(3202, end), refused(0, 2));
        }
        assert_eq!(long(3200, ""), refused(0, 9));
        assert_eq!(long(3200, "\r\n"), refused(0, 2));
        assert_eq!(long(3199, "\r\n"), refused(0, 9));
    }

    #[test]
    fn readings_other_characters_are_9() {
        for hex in [
            "0", "05a", "05AA", "05 ", " 05", "05\r", "0\0", "g5", "==", "é",
        ] {
            assert_eq!(after_text(&format!("frame={hex}\n")), refused(0, 9));
        }
    }

    #[test]
    fn readings_after_9_the_program_goes_on_and_every_line_is_numbered() {
        let sound = "subs=1\ncid=5\ntype=0\nlen=10\nanswer=0\n";
        let good = "frame=0500000000000000000000\n";
        let lines = format!(
            "{good}\ncid=6\n frame=05\n{good}{}\nframe=",
            "x".repeat(4000)
        );
        let wanted = format!(
            "frame=0\n{sound}{}{}{}frame=4\n{sound}{}{}",
            refused(1, 9),
            refused(2, 9),
            refused(3, 9),
            refused(5, 9),
            refused(6, 9),
        );
        assert_eq!(after_text(&lines), wanted);
    }

    #[test]
    fn a_refused_frame_prints_its_offset() {
        assert_eq!(after_text("frame=4501aa85\n"), "frame=0\nrefused=3\nat=3\n");
    }

    #[test]
    fn readings_cid_type_and_len_are_printed_as_read() {
        let wanted = "frame=0\nsubs=2\ncid=200\ntype=15\nlen=2\nanswer=11\n\
                      cid=5\ntype=9\nlen=0\nanswer=12\n";
        assert_eq!(after_text("frame=c8cf0200008509\n"), wanted);
    }

    #[test]
    fn refused_text_prints_and_stops() {
        assert_eq!(
            listed(b"cid=3\nsyntax=acelp\nm=1\nseq=0\nframe=05aa\n"),
            "text=32\nline=1\n"
        );
        assert_eq!(listed(b"cid=5\nframe=05aa\n"), "text=31\nline=2\n");
        assert_eq!(listed(b"frame\n"), "text=31\nline=1\n");
        assert_eq!(listed(b"fram"), "text=31\nline=1\n");
        assert_eq!(listed(b"\nframe=05\n"), "text=31\nline=1\n");
    }

    #[test]
    fn readings_34_counts_the_octets_of_the_text_only() {
        for (size, wanted) in [(8192, "text=31\nline=1\n"), (8193, "text=34\nline=0\n")] {
            let text = format!("{}\n", "x".repeat(size - 1));
            let more = "frame=05aa\n".repeat(1000);
            assert_eq!(listed(text.as_bytes()), wanted);
            assert_eq!(listed((text + &more).as_bytes()), wanted);
        }
        let unended = "x".repeat(8192);
        assert_eq!(listed(unended.as_bytes()), "text=31\nline=1\n");
        let glued = format!("{unended}frame=05\n");
        assert_eq!(listed(glued.as_bytes()), "text=34\nline=0\n");
        let cut_start = format!("{}\nframe", "x".repeat(8191));
        assert_eq!(listed(cut_start.as_bytes()), "text=34\nline=0\n");
        let far = "x\n".repeat(100_000);
        assert_eq!(listed(far.as_bytes()), "text=34\nline=0\n");
    }

    #[test]
    fn a_small_text_and_a_long_input() {
        let lines = "frame=0500000000000000000000\n".repeat(20_000);
        let output = after_text(&lines);
        assert_eq!(output.matches("answer=0\n").count(), 20_000);
        assert!(output.contains("frame=19999\n"));
    }

    #[test]
    fn the_pieces_of_the_input_do_not_matter() {
        let input = format!(
            "{ACELP}frame=4501aa85\nframe=\nframe=05{}\nx",
            "00".repeat(10)
        );
        let whole = listed(input.as_bytes());
        for piece in [1, 2, 3, 5, 7, 11, 64] {
            let mut output = Vec::new();
            let reader = BufReader::with_capacity(piece, input.as_bytes());
            run(reader, &mut output).unwrap();
            assert_eq!(String::from_utf8(output).unwrap(), whole);
        }
    }
}
