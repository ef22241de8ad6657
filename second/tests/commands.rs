//! The command line, run as a program.

use std::io::Write;
use std::process::{Command, Output, Stdio};
use std::thread;

/// Runs the program with some words and an input.
fn second(words: &[&str], input: &[u8]) -> Output {
    let mut child = Command::new(env!("CARGO_BIN_EXE_second"))
        .args(words)
        .stdin(Stdio::piped())
        .stdout(Stdio::piped())
        .stderr(Stdio::piped())
        .spawn()
        .unwrap();
    let mut stdin = child.stdin.take().unwrap();
    let input = input.to_vec();
    // The program may stop before it has read all of its input.
    let writer = thread::spawn(move || drop(stdin.write_all(&input)));
    let output = child.wait_with_output().unwrap();
    writer.join().unwrap();
    output
}

/// What the program prints when all is well.
fn printed(words: &[&str], input: &[u8]) -> Vec<u8> {
    let output = second(words, input);
    assert!(output.status.success(), "{words:?}");
    assert_eq!(output.stderr, b"", "{words:?}");
    output.stdout
}

#[test]
fn the_example_of_document_01() {
    let input = b"cid=5\nsyntax=acelp\nm=1\nseq=0\nframe=c50108000a23070000000006aa\n";
    let wanted: &[u8] = b"frame=0\nsubs=2\ncid=5\ntype=1\nlen=8\nanswer=0\n\
                          cid=6\ntype=0\nlen=1\nanswer=11\n";
    assert_eq!(printed(&["list"], input), wanted);
}

#[test]
fn the_bench() {
    let wanted: String = (1..=15).map(|it| format!("bench {it}: ok\n")).collect();
    assert_eq!(printed(&["bench"], b""), wanted.as_bytes());
}

#[test]
fn the_trial() {
    let output = printed(&["trial"], b"digit=0001050000\nx\n");
    assert_eq!(output, b"sent=0000200500000000\nmalformed=2\n");
}

#[test]
fn the_unit() {
    let input = b"cid=5\nsyntax=acelp\nm=1\nseq=0\n\
                  frame=05\nsilence=0102\ncard=05\nroom=0003\nsid=0105000000\nshown=\nx\n";
    let wanted: &[u8] = b"source=255\noctets=0102\nat=2\ncount=1\ndone=1\nlent=8504ee\n\
                          malformed=7\n";
    assert_eq!(printed(&["unit"], input), wanted);
}

#[test]
fn the_example_of_follow() {
    let input = b"cid=5\nsyntax=acelp\nm=1\nseq=0\n\
                  frame=85010000240520050000\nframe=85010300240520052005\n";
    let head = |frame: u8| {
        format!("frame={frame}\ntype=1\nlen=8\nanswer=0\nfilled=0\nwith=000000\ncarried=3\n")
    };
    let first = "period=000000\nperiod=010005\nperiod=010405\n";
    let second = "period=010005\nperiod=010005\nperiod=010405\n";
    let wanted = format!("{}{first}{}{second}", head(0), head(1));
    assert_eq!(printed(&["follow", "5"], input), wanted.as_bytes());
    assert_eq!(printed(&["follow", "6"], input), b"");
    assert_eq!(printed(&["follow", "0"], input), b"");
}

#[test]
fn fax_is_followed() {
    let input = b"cid=5\nsyntax=fax\nm=1\nseq=0\n\
                  frame=050a41ffff\nframe=0581e803810000\nframe=051a434241\nframe=05a0dc05\n";
    let wanted: &[u8] = b"frame=0\ntype=0\nlen=4\nanswer=41\n\
                          frame=1\ntype=0\nlen=6\nanswer=0\ngap=0\noctets=\ndid=began\n\
                          hdlc=1\nmodulation=1\nfrequency=0\nstamp=1000\n\
                          frame=2\ntype=0\nlen=4\nanswer=0\ngap=0\noctets=414243\ndid=added\n\
                          frame=3\ntype=0\nlen=3\nanswer=0\ngap=0\noctets=\ndid=stopped\n\
                          stamp=1500\n";
    assert_eq!(printed(&["follow", "5"], input), wanted);
}

#[test]
fn the_generators_give_the_same_every_time() {
    let commands: [&[&str]; 7] = [
        &["generate", "list", "7", "500"],
        &["generate", "text", "12"],
        &["generate", "trial", "7", "500"],
        &["generate", "unit", "7", "500"],
        &["generate", "codings", "7"],
        &["generate", "follow", "7", "500"],
        &["generate", "fax", "7", "100"],
    ];
    for words in commands {
        let once = printed(words, b"");
        assert!(!once.is_empty());
        assert_eq!(printed(words, b""), once);
    }
}

/// The numbers that the histogram of an output counts.
fn counted(output: &[u8]) -> Vec<u64> {
    let counts = String::from_utf8(printed(&["histogram"], output)).unwrap();
    counts
        .lines()
        .map(|line| line.split(' ').next().unwrap().parse().unwrap())
        .collect()
}

#[test]
fn generated_input_is_listed_and_counted() {
    let input = printed(&["generate", "list", "2", "3000"], b"");
    let output = printed(&["list"], &input);
    let wanted = [0, 1, 2, 3, 4, 5, 6, 7, 8, 9, 11, 12, 13, 14, 15, 16];
    assert_eq!(counted(&output), wanted);
}

#[test]
fn generated_input_of_the_unit_is_answered_and_counted() {
    let input = printed(&["generate", "unit", "2", "20000"], b"");
    let output = printed(&["unit"], &input);
    let wanted = [
        0, 1, 2, 3, 4, 5, 6, 7, 8, 11, 12, 13, 14, 15, 16, 21, 22, 23, 24,
    ];
    assert_eq!(counted(&output), wanted);
}

/// What following the first sub-channel of the recordings of some seeds prints.
fn followed(kind: &str, seeds: std::ops::Range<u64>, count: &str) -> Vec<u8> {
    let mut all = Vec::new();
    for seed in seeds {
        let input = printed(&["generate", kind, &seed.to_string(), count], b"");
        let text = String::from_utf8_lossy(&input).into_owned();
        let cid = text.lines().next().unwrap().strip_prefix("cid=").unwrap();
        all.extend(printed(&["follow", cid], &input));
    }
    all
}

#[test]
fn a_generated_recording_is_followed_by_its_first_cid_and_counted() {
    let wanted = [0, 1, 2, 3, 4, 5, 6, 7, 8, 9, 12, 13, 14, 15, 16, 19, 41, 42];
    assert_eq!(counted(&followed("follow", 0..10, "3000")), wanted);
}

#[test]
fn a_generated_fax_recording_is_followed_by_its_first_cid_and_counted() {
    let counts = counted(&followed("fax", 0..4, "300"));
    for number in [0, 13, 14, 41, 42] {
        assert!(counts.contains(&number), "{number}");
    }
}

#[test]
fn a_wrong_command_line_is_told() {
    let wrong: [&[&str]; 22] = [
        &[],
        &["lists"],
        &["generate", "list", "x", "1"],
        &["generate", "text"],
        &["generate", "unit", "1"],
        &["generate", "codings"],
        &["generate", "codings", "1", "1"],
        &["generate", "follow", "1", "1", "1"],
        &["generate", "fax", "1"],
        &["generate", "fax", "1", "-1"],
        &["bench", "1"],
        &["unit", "5"],
        &["follow"],
        &["follow", "5", "6"],
        &["follow", ""],
        &["follow", "05"],
        &["follow", "256"],
        &["follow", "1000"],
        &["follow", "-5"],
        &["follow", "+5"],
        &["follow", "5 "],
        &["follow", "five"],
    ];
    for words in wrong {
        let output = second(words, b"frame=05\n");
        assert_eq!(output.status.code(), Some(2), "{words:?}");
        assert!(output.stderr.starts_with(b"usage: second list"));
        assert_eq!(output.stdout, b"");
    }
}

#[test]
#[cfg(unix)]
fn an_argument_that_is_no_text_is_told() {
    use std::os::unix::ffi::OsStrExt;
    let output = Command::new(env!("CARGO_BIN_EXE_second"))
        .arg("follow")
        .arg(std::ffi::OsStr::from_bytes(b"5\xff"))
        .stdin(Stdio::null())
        .output()
        .unwrap();
    assert_eq!(output.status.code(), Some(2));
    assert!(output.stderr.starts_with(b"usage: second list"));
    assert_eq!(output.stdout, b"");
}
