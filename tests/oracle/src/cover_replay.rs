//! What a replay reaches: how its line is written, its room, its records and their answers.

use crate::console::{replay_words, Console};
use crate::entry::get;
use crate::line::words;
use crate::replay::{needed, Call, MALFORMED, RECORD, SHORT};
use crate::ring;

/// The events that are not counted for each length or place.
const EVENTS: [&str; 22] = [
    "replay: 10 for the head held",
    "replay: 10 for the tail held",
    "replay: 11 before 10 for the tail held",
    "replay: 10 for a value that is right in its low byte",
    "replay: 128 records",
    "replay: 14 for a tag above 63",
    "replay: 21 where a call would be accepted",
    "replay: 30 for a call that is right but for its highest bit",
    "replay: 30 for an unknown call",
    "replay: 31 before 30",
    "replay: call accepted after a 30",
    "replay: digits of both cases",
    "replay: empty trace",
    "replay: finish of what the trace started",
    "replay: more room than needed",
    "replay: room 0",
    "replay: room for the whole records alone",
    "replay: room is exact",
    "replay: room is one byte short",
    "replay: slot above 255 posted",
    "replay: value above 255 written",
    "replay: words cut within a record",
];

/// A record that is right but for this byte.
fn spare(place: usize) -> String {
    let of_a_start = if place < 4 { " of a start" } else { "" };
    format!("replay: 30 for byte {place:>2}{of_a_start} alone")
}

fn short(length: usize) -> String {
    format!("replay: short record of {length:>2} bytes")
}

/// Every event that is counted.
pub fn events() -> Vec<String> {
    let counted = (1..RECORD).flat_map(|number| [spare(number), short(number)]);
    EVENTS.into_iter().map(str::to_string).chain(counted).collect()
}

/// The name under which a replayed call is counted.
pub fn name(call: u8) -> &'static str {
    NAMES[if call < 5 { usize::from(call) } else { 0 }]
}

pub const NAMES: [&str; 5] =
    ["replayed unknown", "replayed tail", "replayed head", "replayed start", "replayed finish"];

/// Those of the rows that were reached.
pub fn reached<const COUNT: usize>(rows: [(&str, bool); COUNT]) -> Vec<String> {
    rows.into_iter().filter(|(_, reached)| *reached).map(|(event, _)| event.to_string()).collect()
}

/// The words and the meaning of a good `replay` line.
pub struct Replay<'a> {
    words: Vec<&'a [u8]>,
    room: usize,
    pub trace: Vec<u8>,
}

impl<'a> Replay<'a> {
    pub fn of(line: &'a [u8], ended: bool) -> Option<Replay<'a>> {
        let words = words(line, ended)?;
        let rest = words.strip_prefix(&[b"replay".as_slice()])?;
        let (room, trace) = replay_words(rest)?;
        Some(Replay { words: rest[1..].to_vec(), room, trace })
    }

    /// How the line is written, and what room it gives for answers.
    pub fn line_events(&self) -> Vec<String> {
        let (length, needed) = (self.trace.len(), needed(&self.trace));
        let whole = length / RECORD * RECORD;
        let digits = self.words.concat();
        let (upper, lower) = (u8::is_ascii_uppercase, u8::is_ascii_lowercase);
        let cut = self.words.iter().rev().skip(1).any(|word| word.len() % (2 * RECORD) != 0);
        reached([
            ("replay: 128 records", needed == 128 * RECORD),
            ("replay: digits of both cases", digits.iter().any(upper) && digits.iter().any(lower)),
            ("replay: empty trace", length == 0),
            ("replay: more room than needed", self.room > needed),
            ("replay: room 0", self.room == 0 && needed > 0),
            ("replay: room for the whole records alone", self.room == whole && whole < length),
            ("replay: room is exact", self.room == needed && needed > 0),
            ("replay: room is one byte short", self.room + 1 == needed),
            ("replay: words cut within a record", cut),
        ])
    }

    /// What the records and their answers have to do with those before them.
    pub fn answer_events(&self, answers: &[u8]) -> Vec<String> {
        let mut started = [false; 256];
        let (mut malformed, mut after_30, mut own_finish) = (false, false, false);
        for (record, answer) in self.trace.chunks(RECORD).zip(answers.chunks(RECORD)) {
            let accepted = answer[1] == 0;
            malformed |= u64::from(answer[1]) == MALFORMED;
            after_30 |= malformed && accepted;
            own_finish |= accepted && record[0] == 4 && started[usize::from(record[1])];
            if accepted && record[0] == 3 {
                started[usize::from(answer[2])] = true;
            }
        }
        reached([
            ("replay: call accepted after a 30", after_30),
            ("replay: finish of what the trace started", own_finish),
        ])
    }

    /// Whether a replay that was refused held back a call that would have been accepted.
    pub fn held_back(&self, console: &Console) -> Vec<String> {
        let mut copy = console.clone();
        let answers = copy.replay(needed(&self.trace), &self.trace).bytes();
        let accepted = answers.chunks(RECORD).any(|answer| answer[1] == 0);
        reached([("replay: 21 where a call would be accepted", accepted)])
    }
}

/// What one record and its answer reach, in the state that the record meets.
pub fn record_events(before: &Console, record: &[u8], answer: &[u8]) -> Vec<String> {
    let (call, id) = (record[0], record.get(1).copied().unwrap_or(0));
    let refusal = u64::from(answer[1]);
    let result = get(answer, 2, 2);
    let unknown = !(1..=4).contains(&call);
    let (tail_held, head_held) = value_held(before, record);
    let mut events = reached([
        ("replay: 10 for the head held", head_held && refusal == 10),
        ("replay: 10 for the tail held", tail_held && refusal == 10),
        ("replay: 11 before 10 for the tail held", tail_held && refusal == 11),
        ("replay: 10 for a value that is right in its low byte", low_byte_right(before, record)),
        ("replay: 14 for a tag above 63", call == 4 && id > 63 && refusal == 14),
        (
            "replay: 30 for a call that is right but for its highest bit",
            refusal == MALFORMED && unknown && Call::of(&with(record, 0, call ^ 0x80)).is_ok(),
        ),
        ("replay: 30 for an unknown call", refusal == MALFORMED && unknown),
        ("replay: 31 before 30", refusal == SHORT && unknown),
        ("replay: slot above 255 posted", call == 4 && result > 255),
        ("replay: value above 255 written", call < 3 && result > 255),
    ]);
    if refusal == SHORT {
        events.push(short(record.len()));
    }
    if refusal == MALFORMED && !unknown {
        let alone = (1..RECORD).find(|place| Call::of(&with(record, *place, 0)).is_ok());
        events.extend(alone.map(spare));
    }
    events
}

/// The record with another byte in one place.
fn with(record: &[u8], place: usize, byte: u8) -> Vec<u8> {
    let mut changed = record.to_vec();
    changed[place] = byte;
    changed
}

/// Whether the record writes the tail that its SQ holds, or the head that its CQ holds.
fn value_held(before: &Console, record: &[u8]) -> (bool, bool) {
    let controller = &before.controller;
    match Call::of(record) {
        Ok(Call::Tail { sq, value }) => (controller.sq(sq).is_some_and(|q| q.tail == value), false),
        Ok(Call::Head { cq, value }) => (false, controller.cq(cq).is_some_and(|q| q.head == value)),
        _ => (false, false),
    }
}

/// Whether a doorbell value above 255 is wrong, and its low byte by itself would be right.
fn low_byte_right(before: &Console, record: &[u8]) -> bool {
    let controller = &before.controller;
    match Call::of(record) {
        Ok(Call::Tail { sq, value }) => controller.sq(sq).is_some_and(|q| {
            let valid = |value| !q.marked && ring::tail_is_valid(q.size, q.head, q.tail, value);
            !valid(value) && valid(value % 256)
        }),
        Ok(Call::Head { cq, value }) => controller.cq(cq).is_some_and(|q| {
            let valid = |value| ring::head_is_valid(q.size, q.head, q.tail, value);
            !valid(value) && valid(value % 256)
        }),
        _ => false,
    }
}
