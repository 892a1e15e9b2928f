//! Script lines that replay traces, written in every way that a line allows, and bad ones.

use crate::entry::{get, Submission};
use crate::generate::{Generator, Mood};
use crate::line::LONGEST;
use crate::model::Cq;
use crate::replay::{needed, RECORD};
use crate::traffic::joined;

/// The highest number of bytes of room that a line may name.
const ROOM: usize = 2048;

impl Generator {
    /// Replays a trace, and looks at what it left.
    pub fn replay(&mut self, mood: Mood) {
        if self.random.chance(60) {
            self.put_behind_a_tail();
        }
        let any = self.random.within(41, 128);
        let count = match self.random.weighted(&[4, 52, 30, 12, 2]) {
            0 => 0,
            1 => self.random.within(1, 4),
            2 => self.random.within(5, 12),
            3 => self.random.within(13, 40),
            _ => self.random.pick(&[127, 128, any]),
        };
        let trace = self.trace(mood, count);
        let written = self.written(&trace);
        if self.random.chance(12) {
            self.bad_replay(&trace, &written);
        }
        let room = self.answer_room(&trace);
        let accepted = self.say(&format!("replay {room}{written}"));
        if !accepted && self.random.chance(50) {
            self.say(&format!("replay {}{written}", needed(&trace)));
        }
        for _ in 0..self.random.below(3) {
            self.look();
        }
    }

    /// Sends commands through a large CQ by long traces, until slots above 255 are posted.
    pub fn long_replays(&mut self) {
        for _ in 0..10 {
            let sqs = self.unmarked_sqs().into_iter().filter_map(|id| self.sq(id));
            let cqs = sqs.filter_map(|sq| self.console.controller.cqs[sq.cq].as_ref());
            let large: Vec<&Cq> = cqs.filter(|cq| cq.size > 300).collect();
            if large.is_empty() || large.iter().any(|cq| cq.tail > 256) {
                return;
            }
            let trace = self.trace(Mood::Through, 120);
            let written = self.written(&trace);
            self.say(&format!("replay {ROOM}{written}"));
        }
    }

    /// Writes commands into an SQ that a replayed tail write may submit.
    fn put_behind_a_tail(&mut self) {
        let Some(id) = self.random.choose(&self.open_sqs()) else { return };
        let most = self.random.within(1, 16).min(self.room(id));
        let entries = self.batch(id, most);
        let Some(sq) = self.sq(id) else { return };
        let (base, tail) = (sq.base, sq.tail);
        let before_wrap = entries.len().min((sq.size - tail) as usize);
        let (first, second) = entries.split_at(before_wrap);
        self.poke_entries(base + 64 * tail, first);
        self.poke_entries(base, second);
    }

    /// Pokes entries one behind the other, with what a start looks at and nothing else.
    fn poke_entries(&mut self, at: u64, entries: &[Submission]) {
        let mut bytes = vec![0; 64 * entries.len()];
        for (entry, slot) in entries.iter().zip(bytes.chunks_mut(64)) {
            let Submission { opc, fuse, psdt, cid, nsid, slba, nlb, .. } = *entry;
            let plain =
                Submission { opc, fuse, psdt, cid, nsid, slba, nlb, ..Submission::default() };
            let _ = plain.write(slot);
        }
        let numbers: Vec<u64> = bytes.chunks(8).map(|part| get(part, 0, 8)).collect();
        if !numbers.is_empty() {
            self.say(&format!("poke64 {at}{}", joined(&numbers)));
        }
    }

    /// A trace of which each record is made for the state that those before it lead to, now
    /// and then with a short record at its end.
    fn trace(&mut self, mood: Mood, count: u64) -> Vec<u8> {
        let before = self.console.clone();
        let mut trace = Vec::new();
        for _ in 0..count {
            let record = self.record(mood);
            self.console.replay(RECORD, &record);
            trace.extend(record);
        }
        self.console = before;
        if self.random.chance(25) {
            self.add_short_record(&mut trace);
        }
        let longest = (LONGEST - "replay 2048 ".len()) / 2;
        trace.truncate(longest);
        trace
    }

    /// The first bytes of a record that would be good, or not.
    fn add_short_record(&mut self, trace: &mut Vec<u8>) {
        let mut last = self.record(Mood::Normal);
        if self.random.chance(30) {
            self.damage_record(&mut last);
        }
        let length = self.random.within(1, RECORD as u64 - 1) as usize;
        trace.extend(&last[..length]);
    }

    /// The bytes of room for the answers: just enough, more, or too few.
    fn answer_room(&mut self, trace: &[u8]) -> usize {
        let exact = needed(trace);
        let any = self.random.below(ROOM as u64) as usize;
        let room = match self.random.weighted(&[65, 18, 17]) {
            0 => exact,
            1 => self.random.pick(&[exact + 1, exact + 15, exact + 16, exact + any, ROOM]),
            _ => {
                let less = any % exact.max(1);
                let whole = trace.len() / RECORD * RECORD;
                let short = [1, 1, 15, 16].map(|bytes| exact.saturating_sub(bytes));
                self.random.pick(&[short[0], short[1], short[2], short[3], whole, whole, 0, less])
            }
        };
        room.min(ROOM)
    }

    /// The trace's words, each after a space: one, one for each record, or cut anywhere; in
    /// lower case, upper case or both.
    fn written(&mut self, trace: &[u8]) -> String {
        let words: Vec<&[u8]> = match self.random.weighted(&[50, 30, 20]) {
            1 if trace.len() < 1900 => trace.chunks(RECORD).collect(),
            2 if trace.len() < 1900 => self.cut_anywhere(trace),
            _ if trace.is_empty() => Vec::new(),
            _ => vec![trace],
        };
        let mut text = String::new();
        let case = self.random.weighted(&[60, 20, 20]);
        for word in words {
            text.push(' ');
            for byte in word {
                let upper = case == 1 || case == 2 && self.random.chance(50);
                let digits = if upper { format!("{byte:02X}") } else { format!("{byte:02x}") };
                text.push_str(&digits);
            }
        }
        text
    }

    fn cut_anywhere<'a>(&mut self, trace: &'a [u8]) -> Vec<&'a [u8]> {
        let mut words = Vec::new();
        let mut rest = trace;
        while !rest.is_empty() {
            let most = self.random.pick(&[1, 3, 20, 200]).min(rest.len() as u64);
            let (word, after) = rest.split_at(self.random.within(1, most) as usize);
            words.push(word);
            rest = after;
        }
        words
    }

    /// A line with the same trace that is bad in one place.
    fn bad_replay(&mut self, trace: &[u8], written: &str) {
        let room = needed(trace).min(ROOM);
        let line = match self.random.below(8) {
            0 => format!("replay {}{written}", self.random.pick(&["2049", "65536", "0x801"])),
            1 => format!("replay{written}"),
            2 => format!("replay {room}{written}0"),
            3 => format!("replay {room}{written} {}", self.random.below(10)),
            4 => format!("replay {room} 0{}{}", self.random.pick(&["x", "X"]), written.trim()),
            5 => format!("replay {room}{}", self.with_no_digit(written)),
            6 => format!("replay {}{written}", self.random.pick(&["-1", "0x", "16h", "x10"])),
            _ => {
                format!("replay {room}{written} {}", self.random.pick(&["0x03", "030", "g0", "0-"]))
            }
        };
        self.raw(line.as_bytes());
    }

    /// The words with a digit replaced by what is none.
    fn with_no_digit(&mut self, written: &str) -> String {
        let mut text = written.to_string();
        let place = self.random.below(text.len() as u64) as usize;
        let wrong = self.random.pick(&["g", "G", "x", "/", ":", "@", "`", "-"]);
        if text.get(place..=place).is_some_and(|digit| digit != " ") {
            text.replace_range(place..=place, wrong);
        } else {
            text.push_str(wrong);
        }
        text
    }

    /// Looks at a queue, a tag, turns and credits or the bytes of a completion.
    fn look(&mut self) {
        let sqs = self.unmarked_sqs();
        let cqs = self.cqs();
        match self.random.below(5) {
            0 => match self.random.choose(&sqs) {
                Some(id) => drop(self.say(&format!("show-sq {id}"))),
                None => self.show(),
            },
            1 => match self.random.choose(&self.outstanding()) {
                Some(tag) => drop(self.say(&format!("show-tag {tag}"))),
                None => self.show(),
            },
            2 => match self.random.choose(&cqs) {
                Some(id) => drop(self.say(&format!("show-cq {id}"))),
                None => self.show(),
            },
            3 => self.show_turns(100),
            _ => {
                let cq = self.random.choose(&cqs);
                self.show_last_posting(cq);
            }
        }
    }
}
