//! A second implementation of document 01 and of document 02's first five requests, as far as they
//! change an answer, written from the papers and from the same list of readings
//! (docs/DECISIONS.md), sharing no code with the model, with a generator of random scripts in the
//! console's language and a runner that holds another console to it.

mod again;
mod arbiter;
mod compare;
mod console;
mod cover;
mod cover_again;
mod cover_deletes;
mod cover_doorbells;
mod cover_numbers;
mod cover_replay;
mod cover_turns;
mod creates;
mod deletes;
mod entry;
mod generate;
mod line;
mod model;
mod noise;
mod pieces;
mod random;
mod records;
mod replay;
mod replays;
mod ring;
mod shrink;
mod traced;
mod traced_again;
mod traced_arbiter;
mod traced_deletes;
mod traced_doorbells;
mod traced_limit;
mod traced_numbers;
mod traced_replay;
mod traffic;
mod walk;

use std::io::{self, Read, Write};
use std::process::ExitCode;

const USAGE: &str = "oracle console
oracle generate SEED LINES
oracle cover < SCRIPT
oracle compare PROGRAM SEED LINES [FILE]
oracle compare-script PROGRAM SCRIPT [FILE]
oracle selftest";

fn number(word: &str) -> Result<u64, String> {
    word.parse().map_err(|_| format!("{word} is no number"))
}

fn generated(seed: &str, lines: &str) -> Result<Vec<u8>, String> {
    Ok(generate::script(number(seed)?, number(lines)? as usize))
}

fn selftest() -> bool {
    let faults = traced::faults();
    faults.iter().for_each(|fault| println!("{fault}"));
    println!("{} faults", faults.len());
    faults.is_empty()
}

/// Does what the words say; answers whether all was well.
fn act(words: &[&str]) -> Result<bool, String> {
    let told = |error: io::Error| error.to_string();
    match words {
        ["console"] => console::run(io::stdin().lock(), io::stdout().lock()).map_err(told)?,
        ["generate", seed, lines] => {
            io::stdout().write_all(&generated(seed, lines)?).map_err(told)?
        }
        ["cover"] => {
            let mut script = Vec::new();
            io::stdin().read_to_end(&mut script).map_err(told)?;
            print!("{}", cover::table(&script));
        }
        ["compare", program, seed, lines, file @ ..] if file.len() < 2 => {
            return compare::compare(program, &generated(seed, lines)?, file.first().copied());
        }
        ["compare-script", program, script, file @ ..] if file.len() < 2 => {
            let script = std::fs::read(script).map_err(told)?;
            return compare::compare(program, &script, file.first().copied());
        }
        ["selftest"] => return Ok(selftest()),
        _ => return Err(USAGE.to_string()),
    }
    Ok(true)
}

fn main() -> ExitCode {
    let words: Vec<String> = std::env::args().skip(1).collect();
    let words: Vec<&str> = words.iter().map(String::as_str).collect();
    match act(&words) {
        Ok(true) => ExitCode::SUCCESS,
        Ok(false) => ExitCode::FAILURE,
        Err(error) => {
            eprintln!("{error}");
            ExitCode::from(2)
        }
    }
}
