//! The command line of the second program.

#![forbid(unsafe_code)]

use second::{bench, follow, generate, histogram, listing, trial, unit};
use std::io::{self, BufReader, BufWriter, Stdin, Stdout};
use std::process::ExitCode;

/// Standard input is read and standard output written in pieces of this size.
const PIECE: usize = 1 << 18;

const USAGE: &str = "usage: second list
       second trial
       second unit
       second follow CID
       second generate list SEED COUNT
       second generate text SEED
       second generate trial SEED COUNT
       second generate unit SEED COUNT
       second generate codings SEED
       second generate follow SEED COUNT
       second generate fax SEED COUNT
       second histogram
       second bench";

/// Standard input.
fn input() -> BufReader<Stdin> {
    BufReader::with_capacity(PIECE, io::stdin())
}

/// Standard output.
fn output() -> BufWriter<Stdout> {
    BufWriter::with_capacity(PIECE, io::stdout())
}

/// A seed or a count.
fn number(word: &str) -> io::Result<u64> {
    word.parse().map_err(|_| usage())
}

/// The error of a wrong command line.
fn usage() -> io::Error {
    io::Error::new(io::ErrorKind::InvalidInput, USAGE)
}

/// Does what the command line says; whether all is well.
fn run(words: &[&str]) -> io::Result<bool> {
    match words {
        ["list"] => listing::run(input(), output())?,
        ["trial"] => trial::run(input(), output())?,
        ["unit"] => unit::run(input(), output())?,
        ["follow", cid] => {
            let cid = follow::read_cid(cid).ok_or_else(usage)?;
            follow::run(cid, input(), output())?
        }
        ["generate", "list", seed, count] => {
            generate::list::run(number(seed)?, number(count)?, output())?
        }
        ["generate", "text", seed] => generate::text::run(number(seed)?, output())?,
        ["generate", "trial", seed, count] => {
            generate::trial::run(number(seed)?, number(count)?, output())?
        }
        ["generate", "unit", seed, count] => {
            generate::unit::run(number(seed)?, number(count)?, output())?
        }
        ["generate", "codings", seed] => generate::codings::run(number(seed)?, output())?,
        ["generate", "follow", seed, count] => {
            generate::follow::run(number(seed)?, number(count)?, output())?
        }
        ["generate", "fax", seed, count] => {
            generate::fax::run(number(seed)?, number(count)?, output())?
        }
        ["histogram"] => histogram::run(input(), output())?,
        ["bench"] => return bench::run(output()),
        _ => return Err(usage()),
    }
    Ok(true)
}

fn main() -> ExitCode {
    // An argument that is no text is no word of the usage either.
    let arguments: Vec<String> = std::env::args_os()
        .skip(1)
        .map(|argument| argument.to_string_lossy().into_owned())
        .collect();
    let words: Vec<&str> = arguments.iter().map(String::as_str).collect();
    match run(&words) {
        Ok(true) => ExitCode::SUCCESS,
        Ok(false) => ExitCode::FAILURE,
        // What reads the output stopped early, as a listing may: nothing is wrong.
        Err(error) if error.kind() == io::ErrorKind::BrokenPipe => ExitCode::SUCCESS,
        Err(error) => {
            eprintln!("{error}");
            ExitCode::from(2)
        }
    }
}
