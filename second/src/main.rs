//! A second program for the rules of NEM12 and NEM13 metering files, written for plainness and not for speed.
//! It answers the probe's cases and writes files as tables, so that its answers can be held against another program's,
//! and makes cases and files.

#![forbid(unsafe_code)]

mod block;
mod cases;
mod check;
mod day;
mod fields;
mod find;
mod keys;
mod month;
mod notes;
mod probe;
mod records;
mod refusal;
mod replace;
#[cfg(test)]
mod settled;
mod split;
mod store;
mod table;
mod tenants;
mod total;
mod units;
mod walk;
mod write;

use refusal::Refusal;
use std::fs;
use std::io::{self, BufWriter, Read, Write};
use std::path::Path;
use std::process::ExitCode;

const USAGE: &str = "usage: second probe [--tally] | second cases SEED COUNT | second stores SEED COUNT | \
                     second maps SEED COUNT | second splits SEED COUNT | second months SEED COUNT | \
                     second files SEED COUNT FOLDER | second csv FILE | second daily FILE";

fn main() -> ExitCode {
    let arguments: Vec<String> = std::env::args().skip(1).collect();
    let words: Vec<&str> = arguments.iter().map(String::as_str).collect();
    let outcome = match words[..] {
        ["probe"] => answer_probe(false),
        ["probe", "--tally"] => answer_probe(true),
        ["cases", seed, count] => match (seed.parse(), count.parse()) {
            (Ok(seed), Ok(count)) => make_cases(cases::of_number, seed, count),
            _ => return usage(),
        },
        ["stores", seed, count] => match (seed.parse(), count.parse()) {
            (Ok(seed), Ok(count)) => make_cases(cases::store_sequence, seed, count),
            _ => return usage(),
        },
        ["maps", seed, count] => match (seed.parse(), count.parse()) {
            (Ok(seed), Ok(count)) => make_cases(cases::map_sequence, seed, count),
            _ => return usage(),
        },
        ["splits", seed, count] => match (seed.parse(), count.parse()) {
            (Ok(seed), Ok(count)) => make_cases(cases::split_sequence, seed, count),
            _ => return usage(),
        },
        ["months", seed, count] => match (seed.parse(), count.parse()) {
            (Ok(seed), Ok(count)) => make_cases(cases::month, seed, count),
            _ => return usage(),
        },
        ["files", seed, count, folder] => match (seed.parse(), count.parse()) {
            (Ok(seed), Ok(count)) => make_files(seed, count, Path::new(folder)),
            _ => return usage(),
        },
        ["csv", file] => write_table(table::csv, file),
        ["daily", file] => write_table(table::daily, file),
        _ => return usage(),
    };
    match outcome {
        Ok(()) => ExitCode::SUCCESS,
        Err(error) => {
            eprintln!("second: {error}");
            ExitCode::FAILURE
        }
    }
}

fn usage() -> ExitCode {
    eprintln!("{USAGE}");
    ExitCode::from(2)
}

fn answer_probe(with_tally: bool) -> io::Result<()> {
    let mut input = Vec::new();
    io::stdin().lock().read_to_end(&mut input)?;
    let mut output = BufWriter::new(io::stdout().lock());
    let tally = probe::run(&input, &mut output)?;
    output.flush()?;
    if with_tally {
        eprint!("{}", tally.lines());
    }
    Ok(())
}

/// Writes the cases of each number from 0 on.
fn make_cases(of_number: fn(u64, u64) -> Vec<Vec<u8>>, seed: u64, count: u64) -> io::Result<()> {
    let mut output = BufWriter::new(io::stdout().lock());
    for index in 0..count {
        for case in of_number(seed, index) {
            output.write_all(&case)?;
        }
    }
    output.flush()
}

fn make_files(seed: u64, count: u64, folder: &Path) -> io::Result<()> {
    for index in 0..count {
        fs::write(folder.join(format!("{}.csv", index + 1)), cases::file(seed, index))?;
    }
    Ok(())
}

/// Writes a file's table, and nothing of a refused file. `-` is standard input.
fn write_table(table: fn(&[u8]) -> Result<Vec<u8>, Refusal>, name: &str) -> io::Result<()> {
    let mut file = Vec::new();
    if name == "-" {
        io::stdin().lock().read_to_end(&mut file)?;
    } else {
        file = fs::read(name)?;
    }
    let table = table(&file).map_err(|refusal| io::Error::other(format!("refused {}", refusal.number)))?;
    io::stdout().lock().write_all(&table)
}
