//! Cuts a script down to the fewest lines that still show something, and its traces to the
//! fewest records.

use crate::console::replay_words;
use crate::line::words;
use crate::replay::RECORD;

/// Removes chunks, large ones first, then single lines, as long as `still` holds of what is
/// left. `still` must hold of all the lines; at the end it fails if any one line goes.
pub fn shrink<'a>(lines: &[&'a [u8]], still: &mut dyn FnMut(&[u8]) -> bool) -> Vec<&'a [u8]> {
    let mut kept = lines.to_vec();
    let mut chunk = kept.len().div_ceil(2).max(1);
    loop {
        let removed = pass(&mut kept, chunk, still);
        if chunk == 1 && !removed {
            return kept;
        }
        chunk = (chunk / 2).max(1);
    }
}

/// Tries to do without each chunk in turn; answers whether one went.
fn pass(kept: &mut Vec<&[u8]>, chunk: usize, still: &mut dyn FnMut(&[u8]) -> bool) -> bool {
    let before = kept.len();
    let mut at = 0;
    while at < kept.len() {
        let end = (at + chunk).min(kept.len());
        let rest = [&kept[..at], &kept[end..]].concat();
        if still(&rest.concat()) {
            *kept = rest;
        } else {
            at = end;
        }
    }
    kept.len() < before
}

/// Cuts records out of the traces of a script's lines, as long as `still` holds.
pub fn shrink_traces(lines: &[&[u8]], still: &mut dyn FnMut(&[u8]) -> bool) -> Vec<Vec<u8>> {
    let mut kept: Vec<Vec<u8>> = lines.iter().map(|line| line.to_vec()).collect();
    for place in 0..kept.len() {
        let (before, after) = (kept[..place].concat(), kept[place + 1..].concat());
        let mut holds = |line: &[u8]| still(&[&before, line, &after].concat());
        if let Some(line) = shrink_trace(&kept[place], &mut holds) {
            kept[place] = line;
        }
    }
    kept
}

/// The `replay` line with the records that have to be there; nothing where it is another line,
/// or shows nothing when it is written with a word for each record.
fn shrink_trace(line: &[u8], holds: &mut dyn FnMut(&[u8]) -> bool) -> Option<Vec<u8>> {
    let said = words(line.strip_suffix(b"\n")?, true)?;
    let (room, trace) = replay_words(said.strip_prefix(&[b"replay".as_slice()])?)?;
    // A line has no room for spaces between so many records.
    let space = if trace.len() < 1900 { " " } else { "" };
    let digits = |byte: &u8| format!("{byte:02x}");
    let word = |record: &[u8]| record.iter().map(digits).collect::<String>() + space;
    let records: Vec<Vec<u8>> = trace.chunks(RECORD).map(|part| word(part).into_bytes()).collect();
    let written = |words: &[u8]| [format!("replay {room} ").as_bytes(), words, b"\n"].concat();
    if !holds(&written(&records.concat())) {
        return None;
    }
    let records: Vec<&[u8]> = records.iter().map(Vec::as_slice).collect();
    let least = shrink(&records, &mut |part| holds(&written(part)));
    Some(written(&least.concat()))
}
