//! Runs another console on a script and holds its answers against the oracle's.

use crate::console::{answers, lines, Console, Outcome};
use crate::shrink::{shrink, shrink_traces};
use std::io::{BufRead, BufReader, Read, Write};
use std::process::{Child, Command, Stdio};
use std::sync::mpsc::{channel, RecvTimeoutError};
use std::thread;
use std::time::Duration;

/// What the other console wrote, and how it ended where not with status 0.
struct Reply {
    answers: Vec<u8>,
    end: Option<String>,
}

/// The first answer that is not the oracle's.
struct Difference {
    /// The number of the line that it answers; the last line's where there is none.
    line: usize,
    ours: String,
    theirs: String,
}

impl Difference {
    /// Prints both answers, of long ones the part where they begin to differ.
    fn print(&self) {
        let same = self.ours.chars().zip(self.theirs.chars()).take_while(|(a, b)| a == b).count();
        println!("  oracle:  {}", from_about(&self.ours, same));
        println!("  program: {}", from_about(&self.theirs, same));
    }
}

/// An answer as it can be shown: of a long one the part around this place.
fn from_about(answer: &str, place: usize) -> String {
    if answer.len() <= 400 {
        return answer.to_string();
    }
    let part: String = answer.chars().skip(place.saturating_sub(100)).take(300).collect();
    format!(".. {part} ..")
}

/// The program is a path, with its own words after it, if any.
fn begin(program: &str) -> Result<Child, String> {
    let mut words = program.split_whitespace();
    let path = words.next().ok_or("no program")?;
    let piped = Command::new(path).args(words).stdin(Stdio::piped()).stdout(Stdio::piped()).spawn();
    piped.map_err(|error| format!("{path}: {error}"))
}

/// Longer than any script needs, yet an end to one that hangs.
fn limit(script: &[u8]) -> Duration {
    Duration::from_secs(5 + script.len() as u64 / 250_000)
}

/// Gives the program the whole script and takes all that it writes.
fn run(program: &str, script: &[u8]) -> Result<Reply, String> {
    let mut child = begin(program)?;
    let (mut input, mut output) =
        (child.stdin.take().ok_or("no input")?, child.stdout.take().ok_or("no output")?);
    let (sender, receiver) = channel();
    let reader = thread::spawn(move || {
        let mut answers = Vec::new();
        let end = output.read_to_end(&mut answers);
        let _ = sender.send(());
        end.map(|_| answers).unwrap_or_default()
    });
    let lent = script.to_vec();
    // A program that stops reading is found by its answers.
    let writer = thread::spawn(move || drop(input.write_all(&lent)));
    let late = receiver.recv_timeout(limit(script)) == Err(RecvTimeoutError::Timeout);
    if late {
        let _ = child.kill();
    }
    let status = child.wait().map_err(|error| error.to_string())?;
    let answers = reader.join().unwrap_or_default();
    let _ = writer.join();
    let end = match (late, status.success()) {
        (true, _) => Some("it did not end".to_string()),
        (false, false) => Some(format!("it ended with {status}")),
        (false, true) => None,
    };
    Ok(Reply { answers, end })
}

/// "Lines are answered as they are read, so that another program may hold a conversation".
fn converses(program: &str) -> Result<bool, String> {
    let mut child = begin(program)?;
    let mut input = child.stdin.take().ok_or("no input")?;
    let output = child.stdout.take().ok_or("no output")?;
    let (sender, receiver) = channel();
    let reader = thread::spawn(move || {
        for line in BufReader::new(output).lines().map_while(Result::ok) {
            let _ = sender.send(line);
        }
    });
    let mut holds = true;
    for bytes in [4096, 0, 1_048_576] {
        let line = format!("lend {bytes}");
        holds &= input.write_all(format!("{line}\n").as_bytes()).is_ok();
        holds &= receiver.recv_timeout(Duration::from_secs(5)) == Ok(line);
    }
    drop(input);
    if !holds {
        let _ = child.kill();
    }
    let status = child.wait().map_err(|error| error.to_string())?;
    let _ = reader.join();
    Ok(holds && status.success())
}

/// The number of the line that gave the answer of this number, counted from 0.
fn line_of_answer(script: &[u8], answer: usize) -> usize {
    let mut console = Console::new();
    let mut given = 0;
    let mut number = 0;
    for (line, ended) in lines(script) {
        number += 1;
        if !matches!(console.take(line, ended), Outcome::Silent) {
            given += 1;
        }
        if given > answer {
            break;
        }
    }
    number
}

fn difference(program: &str, script: &[u8]) -> Result<Option<Difference>, String> {
    let ours = answers(script);
    let theirs = run(program, script)?;
    if ours == theirs.answers && theirs.end.is_none() {
        return Ok(None);
    }
    let split = |all: &[u8]| -> Vec<String> {
        let lines = all.split_inclusive(|byte| *byte == b'\n');
        lines.map(|line| String::from_utf8_lossy(line).trim_end_matches('\n').to_string()).collect()
    };
    let (ours, mut theirs_lines) = (split(&ours), split(&theirs.answers));
    theirs_lines.extend(theirs.end.map(|end| format!("({end})")));
    let same = ours.iter().zip(&theirs_lines).take_while(|(a, b)| a == b).count();
    let shown = |all: &[String]| all.get(same).cloned().unwrap_or("(no answer)".to_string());
    Ok(Some(Difference {
        line: line_of_answer(script, same),
        ours: shown(&ours),
        theirs: shown(&theirs_lines),
    }))
}

/// A line as it can be shown: odd bytes spelt out, a long line cut.
fn shown(line: &[u8]) -> String {
    let text = line.strip_suffix(b"\n").unwrap_or(line).escape_ascii().to_string();
    if text.len() <= 400 {
        return text;
    }
    format!("{} .. ({} bytes)", &text[..400], line.len())
}

/// Compares on a script; answers whether there was no difference. The script cut down is
/// also written to `file` where one is named, byte for byte.
pub fn compare(program: &str, script: &[u8], file: Option<&str>) -> Result<bool, String> {
    if !converses(program)? {
        println!("lines are not answered as they are read, or the end is not status 0");
        return Ok(false);
    }
    let all: Vec<&[u8]> = script.split_inclusive(|byte| *byte == b'\n').collect();
    let Some(first) = difference(program, script)? else {
        println!("{} lines, no difference", all.len());
        return Ok(true);
    };
    println!(
        "first difference at line {} of {}: {}",
        first.line,
        all.len(),
        shown(all[first.line - 1])
    );
    first.print();
    let head = &all[..first.line];
    let mut still = |part: &[u8]| matches!(difference(program, part), Ok(Some(_)));
    // A difference that shows only at the end of the input needs the whole script.
    let from = if still(&head.concat()) { head } else { all.as_slice() };
    let shorter = shrink_traces(&shrink(from, &mut still), &mut still);
    let shorter: Vec<&[u8]> = shorter.iter().map(Vec::as_slice).collect();
    let least = shrink(&shorter, &mut still);
    let least_script = least.concat();
    if let Some(file) = file {
        std::fs::write(file, &least_script).map_err(|error| format!("{file}: {error}"))?;
    }
    println!("cut down to {} lines:", least.len());
    least.iter().for_each(|line| println!("{}", shown(line)));
    if let Some(last) = difference(program, &least_script)? {
        println!("difference there at line {}:", last.line);
        last.print();
    }
    Ok(false)
}
