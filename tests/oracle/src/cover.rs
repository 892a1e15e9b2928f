//! Counts what a script reaches. The answers are the oracle's own.

use crate::arbiter::Candidates;
use crate::console::{lines, Console, Outcome, FORMS};
use crate::cover_again;
use crate::cover_deletes::{self, Deletions, Line};
use crate::cover_doorbells::{self, Doorbells};
use crate::cover_numbers::{self, Numbers};
use crate::cover_replay::{self, record_events, Replay};
use crate::cover_turns::{self, Turns};
use crate::entry::Submission;
use crate::line::{number, words};
use crate::model::{Sq, CID_CONFLICT, FAILED_FUSED, INVALID_FIELD, MISSING_FUSED, TAGS};
use crate::replay::{Call, MALFORMED, RECORD, SHORT};
use crate::ring;
use crate::walk::{read_list, touched, Listed};
use std::collections::BTreeMap;
use std::fmt::Write;

/// Everything counted under a name, for mechanism 0 and for mechanism 1.
const EVENTS: [&str; 50] = [
    "completion writer: status and room are wrong",
    "create: 7 alone, SQ 0 on another CQ",
    "create: 7 alone, another SQ on CQ 0",
    "create: accepted",
    "create: two or more faults at once",
    "finish: 02h posted",
    "finish: 03h posted",
    "finish: 09h posted for a failed first half",
    "finish: 0Ah posted",
    "finish: CQ wraps",
    "finish: first half",
    "finish: given status posted",
    "finish: second half, first half's tag held by another",
    "finish: status overruled by a verdict",
    "reader: over the wrap",
    "reader: some waiting",
    "start: 13 with no tag free",
    "start: 13 with one tag free",
    "start: alone, a CID in use is apart by its highest bit",
    "start: alone, a CID in use has the same low byte",
    "start: candidates in two levels",
    "start: credits refilled",
    "start: first of a controller, SQ 0 and another wait",
    "start: four candidates or more",
    "start: FUSE 3 behind FUSE 1",
    "start: pair over the wrap",
    "start: pair with a verdict",
    "start: pair, CIDs apart by their highest bit",
    "start: pair, CIDs with the same low byte",
    "start: pair, first opcode 85h",
    "start: pair, NLBs apart by their highest bit",
    "start: pair, NSIDs apart by their highest bit",
    "start: pair, second opcode 08h",
    "start: pair, second opcode 81h",
    "start: pair, SLBAs apart by their highest bit",
    "start: pair, verdict 0",
    "start: ring of 1,024 entries",
    "start: SQ wraps",
    "start: verdict 0",
    "start: verdict 02h",
    "start: verdict 03h",
    "start: verdict 0Ah",
    "start: weight byte of 80h or more, two levels wait",
    "tail: marks",
    "walk: 18 for PRP1 before 21",
    "walk: 18 for an entry that is a multiple of 4,096",
    "walk: 18 for a pointer that is a multiple of 4,096",
    "walk: 20 before 22",
    "walk: 22 before 18 for PRP1",
    "walk: list goes on past a multiple of 4,096 in its page",
];

/// Starts under each burst number of the feature word.
const BURSTS: [&str; 8] = [
    "start: burst 0",
    "start: burst 1",
    "start: burst 2",
    "start: burst 3",
    "start: burst 4",
    "start: burst 5",
    "start: burst 6",
    "start: burst 7",
];

/// Walks over a pointer with each page size number.
const POINTERS: [&str; 5] = [
    "walk: pointer read, pages of 4,096",
    "walk: pointer read, pages of 8,192",
    "walk: pointer read, pages of 16,384",
    "walk: pointer read, pages of 32,768",
    "walk: pointer read, pages of 65,536",
];

#[derive(Default)]
struct Cover {
    console: Option<Console>,
    lines: u64,
    bad: u64,
    silent: u64,
    /// For each command the calls made and those accepted.
    calls: BTreeMap<&'static str, [u64; 2]>,
    /// For each refusal number and command the count.
    refusals: BTreeMap<u64, BTreeMap<&'static str, u64>>,
    events: BTreeMap<String, [u64; 2]>,
    /// For each second half outstanding the tag that its first half was given.
    firsts: BTreeMap<u64, u64>,
    /// Whether the controller has started nothing.
    fresh: bool,
    doorbells: Doorbells,
    numbers: Numbers,
    deletions: Deletions,
    turns: Turns,
}

/// The table for a script.
pub fn table(script: &[u8]) -> String {
    let mut cover = Cover { console: Some(Console::new()), ..Cover::default() };
    cover.events = events().into_iter().map(|event| (event, [0; 2])).collect();
    for (line, ended) in lines(script) {
        cover.take(line, ended);
    }
    cover.print()
}

/// Every event that is counted.
fn events() -> Vec<String> {
    let named = EVENTS.into_iter().chain(BURSTS).chain(POINTERS).chain(cover_numbers::EVENTS);
    let named = named.chain(cover_again::EVENTS).chain(cover_turns::EVENTS).map(str::to_string);
    let made = cover_doorbells::events().into_iter().chain(cover_replay::events());
    named.chain(made).chain(cover_deletes::events()).collect()
}

/// The numbers after the command's word, of a line that was no bad one.
fn arguments(line: &[u8], ended: bool) -> Vec<u64> {
    let words = words(line, ended).unwrap_or_default();
    words.iter().skip(1).filter_map(|word| number(word)).collect()
}

impl Cover {
    fn count(&mut self, console: &Console, event: &str) {
        let counts = self.events.entry(event.to_string()).or_default();
        counts[console.controller.arbiter().mechanism() as usize] += 1;
    }

    fn take(&mut self, line: &[u8], ended: bool) {
        let Some(mut console) = self.console.take() else { return };
        self.lines += 1;
        let replay = Replay::of(line, ended).map(|replay| (replay, console.clone()));
        match self.make(&mut console, line, ended, false) {
            Outcome::Silent => self.silent += 1,
            Outcome::Bad(_) => self.bad += 1,
            Outcome::Bytes(name, numbers, bytes) => {
                self.call(name, numbers.first().copied().unwrap_or(0));
                if let Some((replay, before)) = replay {
                    self.replayed(&replay, before, &bytes);
                }
            }
            Outcome::Numbers(name, answer) => {
                let plain = name.starts_with("show")
                    || name.starts_with("poke")
                    || name == "lend"
                    || name == "fill";
                self.call(name, if plain { 0 } else { answer[0] });
            }
        }
        self.console = Some(console);
    }

    /// Gives the console a line, a script's or that of a replayed call, and counts what it reaches.
    fn make(&mut self, console: &mut Console, line: &[u8], ended: bool, replayed: bool) -> Outcome {
        let asked = arguments(line, ended);
        self.before(console, line, &asked);
        let free = console.controller.free_tags().count();
        let credits: u64 = console.controller.arbiter().credits().iter().sum();
        let candidates = console.controller.candidates();
        let verdict = asked.first().and_then(|tag| verdict(console, *tag));
        let before = console.controller.clone();
        let outcome = console.take(line, ended);
        let Outcome::Numbers(name, answer) = &outcome else { return outcome };
        let mut events = self.doorbells.events(&before, name, &asked, answer[0]);
        events.extend(self.numbers.events(&before, name, &asked, answer, replayed));
        let line = Line { before: &before, after: console, name, asked: &asked, answer };
        events.extend(self.deletions.events(&line));
        events.extend(self.turns.events(&line));
        events.iter().for_each(|event| self.count(console, event));
        match *name {
            "start" => {
                self.started(console, answer, free);
                self.arbitrated(console, answer, credits, candidates);
            }
            "tail" if answer[0] == 10 => self.count(console, "tail: marks"),
            "finish" if answer[0] == 0 => self.finished(console, &asked, answer[1], verdict),
            "waiting" if answer[0] == 0 => self.read(console, &asked, answer[1]),
            "walk" => self.walked(console, &asked, answer),
            "write-cqe" if answer[0] == 15 && asked[1] < 16 => {
                self.count(console, "completion writer: status and room are wrong")
            }
            "create-cq" | "create-sq" if answer[0] == 0 => self.count(console, "create: accepted"),
            "controller" => {
                self.firsts.clear();
                self.fresh = true;
            }
            _ => {}
        }
        outcome
    }

    /// Counts what a replay reaches. The calls that it stands for are made one by one on the
    /// console as it was before.
    fn replayed(&mut self, replay: &Replay, mut before: Console, answers: &[u8]) {
        let mut events = replay.line_events();
        events.extend(replay.answer_events(answers));
        if answers.is_empty() {
            events.extend(replay.held_back(&before));
        }
        events.iter().for_each(|event| self.count(&before, event));
        for (record, answer) in replay.trace.chunks(RECORD).zip(answers.chunks(RECORD)) {
            self.call(cover_replay::name(answer[0]), u64::from(answer[1]));
            for event in record_events(&before, record, answer) {
                self.count(&before, &event);
            }
            if let Ok(call) = Call::of(record) {
                self.make(&mut before, line_of(&call).as_bytes(), true, true);
            }
        }
    }

    fn call(&mut self, name: &'static str, refusal: u64) {
        let counts = self.calls.entry(name).or_default();
        counts[0] += 1;
        if refusal == 0 {
            counts[1] += 1;
        } else {
            *self.refusals.entry(refusal).or_default().entry(name).or_default() += 1;
        }
    }

    /// What can only be told from the state before the call.
    fn before(&mut self, console: &Console, line: &[u8], asked: &[u64]) {
        let controller = &console.controller;
        let faults = match (line, asked) {
            ([b'c', b'r', ..], [id, size, base]) => {
                controller.create_cq_faults(console.lent, *id, *size, *base)
            }
            ([b'c', b'r', ..], [id, size, base, cq, class]) => {
                controller.create_sq_faults(console.lent, *id, *size, *base, *cq, *class)
            }
            _ => return,
        };
        let applying = faults.iter().filter(|(_, applies)| *applies).map(|(number, _)| *number);
        match applying.collect::<Vec<u64>>()[..] {
            [7] if controller.cq(asked[3]).is_none() => {}
            [7] if asked[0] == 0 => self.count(console, "create: 7 alone, SQ 0 on another CQ"),
            [7] => self.count(console, "create: 7 alone, another SQ on CQ 0"),
            [_, _, ..] => self.count(console, "create: two or more faults at once"),
            _ => {}
        }
    }

    fn started(&mut self, console: &Console, answer: &[u64], free: usize) {
        let [refusal, id, count, tag, second, slot, verdict, _] = *answer else { return };
        if refusal == 13 {
            let event = if free == 0 {
                "start: 13 with no tag free"
            } else {
                "start: 13 with one tag free"
            };
            self.count(console, event);
        }
        let Some(sq) = console.controller.sq(id).filter(|_| refusal == 0) else { return };
        let burst = console.controller.arbiter().word() % 8;
        self.count(console, BURSTS[burst as usize]);
        if sq.head < slot {
            self.count(console, "start: SQ wraps");
        }
        if sq.size == 1024 {
            self.count(console, "start: ring of 1,024 entries");
        }
        match verdict {
            INVALID_FIELD => self.count(console, "start: verdict 02h"),
            CID_CONFLICT => self.count(console, "start: verdict 03h"),
            MISSING_FUSED => self.count(console, "start: verdict 0Ah"),
            _ => self.count(console, "start: verdict 0"),
        }
        self.taken(console, sq, answer);
        if count == 2 {
            self.firsts.insert(second, tag);
            let sound =
                if verdict == 0 { "start: pair, verdict 0" } else { "start: pair with a verdict" };
            self.count(console, sound);
            if slot == sq.size - 1 {
                self.count(console, "start: pair over the wrap");
            }
        }
    }

    /// What the choice was made from.
    fn arbitrated(
        &mut self,
        console: &Console,
        answer: &[u64],
        credits: u64,
        candidates: Candidates,
    ) {
        if answer[0] != 0 {
            return;
        }
        if candidates.iter().flatten().count() >= 4 {
            self.count(console, "start: four candidates or more");
        }
        if self.fresh && candidates[0].is_some() && candidates[1..].iter().any(Option::is_some) {
            self.count(console, "start: first of a controller, SQ 0 and another wait");
        }
        self.fresh = false;
        let levels = (1..=3).filter(|class| candidates[1..].contains(&Some(*class))).count();
        if levels >= 2 {
            self.count(console, "start: candidates in two levels");
            let word = console.controller.arbiter().word();
            if candidates[answer[1] as usize].is_some_and(|class| weight_byte(word, class) >= 0x80)
            {
                self.count(console, "start: weight byte of 80h or more, two levels wait");
            }
        }
        if console.controller.arbiter().credits().iter().sum::<u64>() > credits {
            self.count(console, "start: credits refilled");
        }
    }

    /// What stood in the slots taken, beside the queue's other commands.
    fn taken(&mut self, console: &Console, sq: &Sq, answer: &[u64]) {
        let [_, id, count, tag, _, slot, verdict, _] = *answer else { return };
        let after = ring::next(sq.size, slot);
        let entries = [slot, after].map(|slot| sq.entry(console.memory(), slot));
        let [Ok(first), Ok(second)] = entries else { return };
        if count == 2 {
            return self.paired(console, &first, &second, verdict);
        }
        if id != 0 && first.fuse == 1 && after != sq.tail && second.fuse == 3 {
            self.count(console, "start: FUSE 3 behind FUSE 1");
        }
        let commands = console.controller.tags.iter().enumerate();
        let others = commands.filter(|(other, _)| *other != tag as usize && verdict == 0);
        let cids = others.flat_map(|(_, other)| other).filter(|other| other.sq == id as usize);
        for cid in cids.map(|other| other.cid) {
            if cid ^ first.cid == 0x8000 {
                self.count(console, "start: alone, a CID in use is apart by its highest bit");
            }
            if cid % 256 == first.cid % 256 {
                self.count(console, "start: alone, a CID in use has the same low byte");
            }
        }
    }

    /// A pair of which at most one thing is wrong, by its highest bit or nearly so.
    fn paired(&mut self, console: &Console, a: &Submission, b: &Submission, verdict: u64) {
        let wrong = [
            a.opc != 0x05,
            b.opc != 0x01,
            a.nsid != b.nsid,
            a.slba != b.slba,
            a.nlb != b.nlb,
            a.psdt != 0,
            b.psdt != 0,
        ];
        let alone = wrong.into_iter().filter(|wrong| *wrong).count() == 1;
        let rows = [
            ("start: pair, first opcode 85h", alone && a.opc == 0x85),
            ("start: pair, second opcode 81h", alone && b.opc == 0x81),
            ("start: pair, second opcode 08h", alone && b.opc == 0x08),
            ("start: pair, NSIDs apart by their highest bit", alone && a.nsid ^ b.nsid == 1 << 31),
            ("start: pair, SLBAs apart by their highest bit", alone && a.slba ^ b.slba == 1 << 63),
            ("start: pair, NLBs apart by their highest bit", alone && a.nlb ^ b.nlb == 1 << 15),
            (
                "start: pair, CIDs apart by their highest bit",
                verdict == 0 && a.cid ^ b.cid == 1 << 15,
            ),
            (
                "start: pair, CIDs with the same low byte",
                verdict == 0 && a.cid % 256 == b.cid % 256,
            ),
        ];
        for (event, _) in rows.into_iter().filter(|(_, reached)| *reached) {
            self.count(console, event);
        }
    }

    /// A walk over a pointer or over 4,096 bytes of a list page, or one that stopped in its
    /// list at an offset of whole 4,096s.
    fn walked(&mut self, console: &Console, asked: &[u64], answer: &[u64]) {
        let [prp1, prp2, length, number, room_a, _] = *asked else { return };
        match answer[0] {
            18 if prp1 % 4 != 0 && room_a < 8 => self.count(console, "walk: 18 for PRP1 before 21"),
            20 if number > 4 => self.count(console, "walk: 20 before 22"),
            22 if prp1 % 4 != 0 => self.count(console, "walk: 22 before 18 for PRP1"),
            _ => {}
        }
        if answer[0] == 0 && answer[2] >= answer[1] {
            self.count(console, POINTERS[number as usize]);
        }
        if !matches!(answer[0], 0 | 18) || prp1 % 4 != 0 {
            return;
        }
        let page = 4096 << number;
        let n = touched(prp1, length, page);
        let mut entries = Vec::new();
        if n < 3 {
            return;
        }
        if read_list(console.memory(), prp2, page, n, &mut entries).is_ok() {
            let next = |pair: &[Listed]| !pair[0].points && pair[1].at % 4096 == 0;
            if entries.windows(2).any(next) {
                self.count(console, "walk: list goes on past a multiple of 4,096 in its page");
            }
            return;
        }
        if let Some(last) = entries.last().filter(|last| last.value % 4096 == 0) {
            let event = if last.points {
                "walk: 18 for a pointer that is a multiple of 4,096"
            } else {
                "walk: 18 for an entry that is a multiple of 4,096"
            };
            self.count(console, event);
        }
    }

    fn finished(
        &mut self,
        console: &Console,
        asked: &[u64],
        slot: u64,
        verdict: Option<(usize, u64)>,
    ) {
        let [tag, status, _] = *asked else { return };
        let Some((sq, verdict)) = verdict else { return };
        self.count(
            console,
            match verdict {
                INVALID_FIELD => "finish: 02h posted",
                CID_CONFLICT => "finish: 03h posted",
                FAILED_FUSED => "finish: 09h posted for a failed first half",
                MISSING_FUSED => "finish: 0Ah posted",
                _ => "finish: given status posted",
            },
        );
        if verdict != 0 && status != 0 {
            self.count(console, "finish: status overruled by a verdict");
        }
        let cq = console.controller.sqs[sq]
            .as_ref()
            .and_then(|sq| console.controller.cqs[sq.cq].as_ref());
        if cq.is_some_and(|cq| slot == cq.size - 1) {
            self.count(console, "finish: CQ wraps");
        }
        if self.firsts.values().any(|first| *first == tag) {
            self.count(console, "finish: first half");
        }
        if let Some(first) = self.firsts.remove(&tag) {
            if console.controller.tags[first as usize].is_some() {
                self.count(console, "finish: second half, first half's tag held by another");
            }
        }
    }

    fn read(&mut self, console: &Console, asked: &[u64], count: u64) {
        if count > 0 {
            self.count(console, "reader: some waiting");
        }
        if asked[3] + count > asked[2] {
            self.count(console, "reader: over the wrap");
        }
    }

    fn print(&self) -> String {
        let mut out = String::new();
        let _ =
            writeln!(out, "lines {}, bad {}, without a word {}", self.lines, self.bad, self.silent);
        let _ = writeln!(out, "\n{:<16} {:>9} {:>9}", "command", "calls", "accepted");
        let mut all = [0; 2];
        for name in FORMS.iter().map(|form| form.name) {
            let counts = self.calls_row(&mut out, name);
            all = [all[0] + counts[0], all[1] + counts[1]];
        }
        let _ = writeln!(out, "{:<16} {:>9} {:>9}", "all", all[0], all[1]);
        for name in cover_replay::NAMES {
            self.calls_row(&mut out, name);
        }
        let _ = writeln!(out, "\nrefusal      count  given by");
        // 32 wants more starts than a script can have.
        for refusal in (1..=23).chain([MALFORMED, SHORT, 33, 34, 35]) {
            let by = self.refusals.get(&refusal).cloned().unwrap_or_default();
            let total: u64 = by.values().sum();
            let names: Vec<String> =
                by.iter().map(|(name, count)| format!("{name} {count}")).collect();
            let _ = writeln!(out, "{refusal:>7} {total:>10}  {}", names.join(", "));
        }
        let _ = writeln!(out, "\n{:<60} {:>11} {:>11}", "event", "mechanism 0", "mechanism 1");
        for (event, [round_robin, weighted]) in &self.events {
            let _ = writeln!(out, "{event:<60} {round_robin:>11} {weighted:>11}");
        }
        out
    }

    /// Prints how often this was called and accepted.
    fn calls_row(&self, out: &mut String, name: &'static str) -> [u64; 2] {
        let [calls, accepted] = self.calls.get(name).copied().unwrap_or_default();
        let _ = writeln!(out, "{name:<16} {calls:>9} {accepted:>9}");
        [calls, accepted]
    }
}

/// The console's line for a replayed call.
fn line_of(call: &Call) -> String {
    match call {
        Call::Tail { sq, value } => format!("tail {sq} {value}"),
        Call::Head { cq, value } => format!("head {cq} {value}"),
        Call::Start => "start".to_string(),
        Call::Finish { tag, status } => format!("finish {tag} {status} 0"),
    }
}

/// The feature word's byte for the level of a class; 0 for the urgent class.
fn weight_byte(word: u64, class: u64) -> u64 {
    match class {
        1..=3 => word >> (32 - 8 * class) & 0xFF,
        _ => 0,
    }
}

/// The SQ and the verdict, with 09h from a failed first half on, of an outstanding command.
fn verdict(console: &Console, tag: u64) -> Option<(usize, u64)> {
    let tag = usize::try_from(tag).ok().filter(|tag| *tag < TAGS)?;
    let command = console.controller.tags[tag].as_ref()?;
    Some((command.sq, command.verdict))
}
