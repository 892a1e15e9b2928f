//! The console's language over the oracle's own controller.

use crate::entry::{put, Completion, Submission};
use crate::line::{bytes, number, words, LONGEST};
use crate::model::Controller;
use crate::replay::{replay, RECORD};
use crate::ring;
use crate::walk::{walk, Rooms};
use std::io::{self, Read, Write};
use std::ops::Range;

/// "A memory of 1,048,576 bytes".
pub const MEMORY: usize = 1_048_576;

const ANY: u64 = u64::MAX;
const B8: u64 = 0xFF;
const B16: u64 = 0xFFFF;
const B32: u64 = 0xFFFF_FFFF;

/// A command: its word, the highest allowed number for each word after it, and, for the two
/// that take "as many as the line holds", that of all further ones.
pub struct Form {
    pub name: &'static str,
    limits: &'static [u64],
    further: Option<u64>,
}

const fn form(name: &'static str, limits: &'static [u64]) -> Form {
    Form { name, limits, further: None }
}

/// The room for answer records; the words of the trace come after it.
const REPLAY: Form = form("replay", &[2048]);

pub const FORMS: [Form; 27] = [
    form("controller", &[ANY, B32]),
    form("lend", &[MEMORY as u64]),
    Form { name: "poke", limits: &[ANY, B8], further: Some(B8) },
    Form { name: "poke64", limits: &[ANY, ANY], further: Some(ANY) },
    form("fill", &[ANY, ANY, B8]),
    form("peek", &[ANY, 1024]),
    form("create-cq", &[ANY; 3]),
    form("create-sq", &[ANY; 5]),
    form("delete-cq", &[ANY]),
    form("delete-sq", &[ANY]),
    form("tail", &[ANY; 2]),
    form("head", &[ANY; 2]),
    form("start", &[]),
    form("finish", &[ANY, ANY, B32]),
    REPLAY,
    form(
        "write-sqe",
        &[ANY, ANY, B8, ANY, ANY, B16, B32, ANY, ANY, ANY, ANY, B16, B16, B32, B32, B32],
    ),
    form("read-sqe", &[ANY; 2]),
    form("write-cqe", &[ANY, ANY, B32, B16, B16, B16, ANY, ANY]),
    form("read-cqe", &[ANY; 2]),
    form("waiting", &[ANY; 5]),
    form("check-tail", &[ANY; 4]),
    form("check-head", &[ANY; 4]),
    form("walk", &[ANY, ANY, ANY, ANY, 65_536, 65_536]),
    form("show-sq", &[15]),
    form("show-cq", &[15]),
    form("show-tag", &[63]),
    form("show-arbiter", &[]),
];

impl Form {
    /// The numbers after the command's word, or nothing for "a word too few or too many; a
    /// bad number or one above its range".
    fn numbers(&self, words: &[&[u8]]) -> Option<Vec<u64>> {
        if words.len() < self.limits.len() {
            return None;
        }
        let mut numbers = Vec::with_capacity(words.len());
        for (place, word) in words.iter().enumerate() {
            let limit = self.limits.get(place).copied().or(self.further)?;
            numbers.push(number(word).filter(|number| *number <= limit)?);
        }
        Some(numbers)
    }
}

/// The room and the trace of a `replay`, of the words after it; nothing where one is bad.
pub fn replay_words(words: &[&[u8]]) -> Option<(usize, Vec<u8>)> {
    let (room, trace) = words.split_first()?;
    let room = REPLAY.numbers(&[room])?[0] as usize;
    let trace: Option<Vec<Vec<u8>>> = trace.iter().map(|word| bytes(word)).collect();
    Some((room, trace?.concat()))
}

/// What became of a line.
pub enum Outcome {
    /// "A line with no word on it gives no answer."
    Silent,
    /// A bad line, with its number.
    Bad(u64),
    /// The command's word and the numbers after it.
    Numbers(&'static str, Vec<u64>),
    /// The same with bytes behind the numbers, for `peek` and `replay`.
    Bytes(&'static str, Vec<u64>, Vec<u8>),
}

impl Outcome {
    /// The bytes behind the numbers.
    pub fn bytes(self) -> Vec<u8> {
        match self {
            Outcome::Bytes(_, _, bytes) => bytes,
            _ => Vec::new(),
        }
    }

    /// "the command's word, then numbers in decimal, one space between, LF".
    pub fn write(&self, out: &mut Vec<u8>) {
        match self {
            Outcome::Silent => return,
            Outcome::Bad(line) => write_numbers("?", &[*line], out),
            Outcome::Numbers(name, numbers) => write_numbers(name, numbers, out),
            Outcome::Bytes(name, numbers, bytes) => {
                write_numbers(name, numbers, out);
                write_bytes(bytes, out);
            }
        }
        out.push(b'\n');
    }
}

fn write_numbers(name: &str, numbers: &[u64], out: &mut Vec<u8>) {
    out.extend_from_slice(name.as_bytes());
    numbers.iter().for_each(|number| write_number(*number, out));
}

fn write_number(number: u64, out: &mut Vec<u8>) {
    out.push(b' ');
    let mut digits = [0; 20];
    let mut at = digits.len();
    let mut left = number;
    loop {
        at -= 1;
        digits[at] = b'0' + (left % 10) as u8;
        left /= 10;
        if left == 0 {
            break;
        }
    }
    out.extend_from_slice(&digits[at..]);
}

/// "two lowercase hexadecimal digits a byte, no spaces between"; nothing for no bytes.
fn write_bytes(bytes: &[u8], out: &mut Vec<u8>) {
    if !bytes.is_empty() {
        out.push(b' ');
    }
    for byte in bytes {
        for half in [byte >> 4, byte & 15] {
            out.push(b"0123456789abcdef"[half as usize]);
        }
    }
}

/// A refusal, or 0, and nothing else.
fn refusal(answer: Result<(), u64>) -> Vec<u64> {
    vec![answer.err().unwrap_or(0)]
}

/// 0 and the numbers; "On a refusal every number after it is 0."
fn refusal_and<const COUNT: usize>(answer: Result<[u64; COUNT], u64>) -> Vec<u64> {
    let (refusal, numbers) = match answer {
        Ok(numbers) => (0, numbers),
        Err(refusal) => (refusal, [0; COUNT]),
    };
    let mut all = vec![refusal];
    all.extend(numbers);
    all
}

#[derive(Clone)]
pub struct Console {
    memory: Vec<u8>,
    /// How many bytes, from the first on, are lent.
    pub lent: usize,
    pub controller: Controller,
    /// How many lines have come.
    lines: u64,
}

impl Console {
    pub fn new() -> Console {
        let (_, controller) = Controller::new(0, 0);
        Console { memory: vec![0; MEMORY], lent: MEMORY, controller, lines: 0 }
    }

    /// The memory that is lent.
    pub fn memory(&self) -> &[u8] {
        &self.memory[..self.lent]
    }

    /// Takes one line, without its LF; `ended` says whether it had one.
    pub fn take(&mut self, line: &[u8], ended: bool) -> Outcome {
        self.lines += 1;
        let Some(words) = words(line, ended) else {
            return Outcome::Bad(self.lines);
        };
        let [name, rest @ ..] = words.as_slice() else {
            return Outcome::Silent;
        };
        self.command(name, rest).unwrap_or(Outcome::Bad(self.lines))
    }

    fn command(&mut self, name: &[u8], words: &[&[u8]]) -> Option<Outcome> {
        let form = FORMS.iter().find(|form| form.name.as_bytes() == name)?;
        if form.name == REPLAY.name {
            let (room, trace) = replay_words(words)?;
            return Some(self.replay(room, &trace));
        }
        let numbers = form.numbers(words)?;
        if form.name == "peek" {
            let part = self.part(numbers[0], numbers[1])?;
            return Some(Outcome::Bytes(form.name, Vec::new(), self.memory[part].to_vec()));
        }
        Some(Outcome::Numbers(form.name, self.call(form.name, &numbers)?))
    }

    /// Replays the trace on the lent memory: the refusal, how many answer records there are,
    /// and their bytes.
    pub fn replay(&mut self, room: usize, trace: &[u8]) -> Outcome {
        let memory = &mut self.memory[..self.lent];
        let (refusal, answers) = match replay(&mut self.controller, memory, trace, room) {
            Ok(answers) => (0, answers),
            Err(refusal) => (refusal, Vec::new()),
        };
        let records = (answers.len() / RECORD) as u64;
        Outcome::Bytes(REPLAY.name, vec![refusal, records], answers)
    }

    /// "AT and ROOM (or a COUNT of bytes) name the part of the lent memory from AT on; it may
    /// be empty, and AT may then be the lent memory's length." Nothing where it lies outside.
    fn part(&self, at: u64, room: u64) -> Option<Range<usize>> {
        let end = at.checked_add(room)?;
        if end > self.lent as u64 {
            return None;
        }
        Some(at as usize..end as usize)
    }

    /// Makes the call that the line names; nothing where a part lies outside the lent memory.
    fn call(&mut self, name: &str, n: &[u64]) -> Option<Vec<u64>> {
        let lent = self.lent;
        Some(match name {
            "controller" => {
                let (refusal, new) = Controller::new(n[0], n[1]);
                self.controller = new;
                vec![refusal]
            }
            "lend" => {
                self.lent = n[0] as usize;
                vec![n[0]]
            }
            "poke" | "poke64" => {
                vec![self.poke(n[0], &n[1..], if name == "poke" { 1 } else { 8 })?]
            }
            "fill" => {
                let part = self.part(n[0], n[1])?;
                self.memory[part].fill(n[2] as u8);
                vec![n[1]]
            }
            "create-cq" => refusal(self.controller.create_cq(lent, n[0], n[1], n[2])),
            "create-sq" => refusal(self.controller.create_sq(lent, n[0], n[1], n[2], n[3], n[4])),
            "delete-cq" => refusal(self.controller.delete_cq(n[0])),
            "delete-sq" => refusal(self.controller.delete_sq(n[0])),
            "tail" => refusal(self.controller.write_tail(n[0], n[1])),
            "head" => refusal(self.controller.write_head(n[0], n[1])),
            "start" => self.start(),
            "finish" => {
                let memory = &mut self.memory[..lent];
                let finished = self.controller.finish(memory, n[0], n[1], n[2]);
                refusal_and(finished.map(|finished| [finished.slot, finished.number]))
            }
            "waiting" => {
                let part = self.part(n[0], n[1])?;
                let count = ring::waiting(&self.memory[part], n[2], n[3], n[4]);
                refusal_and(count.map(|count| [count]))
            }
            "check-tail" => refusal(ring::check_tail(n[0], n[1], n[2], n[3])),
            "check-head" => refusal(ring::check_head(n[0], n[1], n[2], n[3])),
            "walk" => self.walk(n),
            "show-sq" => self.show_sq(n[0]),
            "show-cq" => self.show_cq(n[0]),
            "show-tag" => self.show_tag(n[0]),
            "show-arbiter" => self.controller.arbiter().numbers(),
            _ => self.entry(name, n)?,
        })
    }

    /// Puts numbers of the given width one after another and answers how many they were.
    fn poke(&mut self, at: u64, numbers: &[u64], width: usize) -> Option<u64> {
        let count = numbers.len() as u64;
        let part = self.part(at, count * width as u64)?;
        for (place, number) in numbers.iter().enumerate() {
            put(&mut self.memory, part.start + place * width, width, *number);
        }
        Some(count)
    }

    fn start(&mut self) -> Vec<u64> {
        let started = self.controller.start(&self.memory[..self.lent]);
        refusal_and(started.map(|s| {
            let [sq, tag, second_tag] = [s.sq, s.tag, s.second_tag].map(|number| number as u64);
            [sq, s.count, tag, second_tag, s.slot, s.verdict, s.number]
        }))
    }

    /// The four commands on entries.
    fn entry(&mut self, name: &str, n: &[u64]) -> Option<Vec<u64>> {
        let part = self.part(n[0], n[1])?;
        let room = &mut self.memory[part];
        Some(match name {
            "write-sqe" => refusal(submission(&n[2..]).write(room)),
            "read-sqe" => {
                refusal_and(Submission::read(room).map(|entry| submission_numbers(&entry)))
            }
            "write-cqe" => refusal(completion(&n[2..]).write(room)),
            _ => refusal_and(Completion::read(room).map(|entry| completion_numbers(&entry))),
        })
    }

    /// "As many pairs as PAGES; `walk REFUSAL 0 0` on a refusal".
    fn walk(&self, n: &[u64]) -> Vec<u64> {
        let rooms = Rooms { addresses: n[4], counts: n[5] };
        match walk(self.memory(), n[0], n[1], n[2], n[3], rooms) {
            Err(refusal) => vec![refusal, 0, 0],
            Ok(found) => {
                let mut answer = vec![0, found.pages.len() as u64, found.reads];
                for (address, count) in found.pages {
                    answer.extend([address, count]);
                }
                answer
            }
        }
    }

    fn show_sq(&self, id: u64) -> Vec<u64> {
        match self.controller.sq(id) {
            None => vec![0; 8],
            Some(q) => {
                let cq = q.cq as u64;
                vec![1, q.base, q.size, q.head, q.tail, cq, q.class, u64::from(q.marked)]
            }
        }
    }

    fn show_cq(&self, id: u64) -> Vec<u64> {
        match self.controller.cq(id) {
            None => vec![0; 6],
            Some(q) => vec![1, q.base, q.size, q.head, q.tail, q.phase],
        }
    }

    fn show_tag(&self, tag: u64) -> Vec<u64> {
        match &self.controller.tags[tag as usize] {
            None => vec![0; 5],
            Some(c) => vec![1, c.sq as u64, c.cid, c.verdict, c.number],
        }
    }
}

fn submission(n: &[u64]) -> Submission {
    Submission {
        opc: n[0],
        fuse: n[1],
        psdt: n[2],
        cid: n[3],
        nsid: n[4],
        mptr: n[5],
        prp1: n[6],
        prp2: n[7],
        slba: n[8],
        nlb: n[9],
        cdw12_upper: n[10],
        cdw13: n[11],
        cdw14: n[12],
        cdw15: n[13],
    }
}

/// The fields in the order of the console's `write-sqe` and `read-sqe`.
pub fn submission_numbers(e: &Submission) -> [u64; 14] {
    [
        e.opc,
        e.fuse,
        e.psdt,
        e.cid,
        e.nsid,
        e.mptr,
        e.prp1,
        e.prp2,
        e.slba,
        e.nlb,
        e.cdw12_upper,
        e.cdw13,
        e.cdw14,
        e.cdw15,
    ]
}

fn completion(n: &[u64]) -> Completion {
    Completion { result: n[0], sqhd: n[1], sqid: n[2], cid: n[3], status: n[4], tag: n[5] }
}

fn completion_numbers(e: &Completion) -> [u64; 6] {
    [e.result, e.sqhd, e.sqid, e.cid, e.status, e.tag]
}

/// The lines of a script, each with whether it ended in an LF. "a last line without one counts".
pub fn lines(script: &[u8]) -> impl Iterator<Item = (&[u8], bool)> {
    script.split_inclusive(|byte| *byte == b'\n').map(|line| match line {
        [rest @ .., b'\n'] => (rest, true),
        rest => (rest, false),
    })
}

/// All answers to a whole script.
pub fn answers(script: &[u8]) -> Vec<u8> {
    let mut console = Console::new();
    let mut out = Vec::new();
    for (line, ended) in lines(script) {
        console.take(line, ended).write(&mut out);
    }
    out
}

/// Speaks the language until the input ends. All that has been read is answered before more
/// is waited for.
pub fn run(mut input: impl Read, mut output: impl Write) -> io::Result<()> {
    let mut console = Console::new();
    let mut pending = Vec::new();
    let mut out = Vec::new();
    let mut buffer = vec![0; 1 << 16];
    loop {
        let count = match input.read(&mut buffer) {
            Err(error) if error.kind() == io::ErrorKind::Interrupted => continue,
            read => read?,
        };
        if count == 0 {
            break;
        }
        for (piece, ended) in lines(&buffer[..count]) {
            // One byte more than allowed is enough to know that a line is too long.
            let room = LONGEST + 1 - pending.len();
            pending.extend_from_slice(&piece[..piece.len().min(room)]);
            if ended {
                console.take(&pending, true).write(&mut out);
                pending.clear();
            }
        }
        output.write_all(&out)?;
        output.flush()?;
        out.clear();
    }
    if !pending.is_empty() {
        console.take(&pending, false).write(&mut out);
    }
    output.write_all(&out)?;
    output.flush()
}
