//! What is seen of start numbers: document 02's fourth request. An event is counted where an answer
//! shows a number, so not in a replay, whose answer records have none.

use crate::cover_replay::reached;
use crate::model::{Controller, Part};
use std::collections::BTreeSet;

/// Every event that is counted.
pub const EVENTS: [&str; 24] = [
    "finish: number above 255",
    "finish: number is not the lowest outstanding",
    "finish: number of a command that a replay started",
    "finish: number of a second half",
    "finish: number of a tag that was taken before",
    "show-tag: number above 255",
    "show-tag: number of a command that a replay started",
    "show-tag: number of a first half",
    "show-tag: number of a second half, first half finished",
    "show-tag: number of a second half, first half outstanding",
    "show-tag: number of a tag that was taken before",
    "start: number 0, another controller gave some before",
    "start: number above 255",
    "start: number after a 12",
    "start: number after a 13",
    "start: number after a 5",
    "start: number after a pair with a verdict",
    "start: number after a pair, verdict 0",
    "start: number after a refusal in a replay",
    "start: number after a replay that took a pair",
    "start: number after a replay that took commands",
    "start: number of a pair, tags apart",
    "start: number of a pair, tags that were taken before",
    "start: number of a tag that was taken before",
];

/// The last start that took something.
#[derive(Clone, Copy, Default)]
struct Taken {
    pair: bool,
    verdict: u64,
    replayed: bool,
}

/// What the calls so far tell of a controller's start numbers.
#[derive(Default)]
pub struct Numbers {
    /// Whether a controller before this one took commands.
    other_before: bool,
    last: Option<Taken>,
    /// The refusals of starts since then, each with whether it was in a replay.
    refused: BTreeSet<(u64, bool)>,
    /// The tags that were taken, and those that were taken once more.
    once: BTreeSet<u64>,
    again: BTreeSet<u64>,
    /// The tags that a replay took last.
    by_replay: BTreeSet<u64>,
    /// Whether a replay took a pair since the last start outside.
    replayed_pair: bool,
}

impl Numbers {
    /// The events of a line, with the controller that it met and its answer; the line of a replayed
    /// call has none, but is remembered.
    pub fn events(
        &mut self,
        controller: &Controller,
        name: &str,
        asked: &[u64],
        answer: &[u64],
        replayed: bool,
    ) -> Vec<String> {
        match (name, answer) {
            ("controller", _) => {
                let other_before = self.other_before || self.last.is_some();
                *self = Numbers { other_before, ..Numbers::default() };
                Vec::new()
            }
            ("start", [0, ..]) => self.started(answer, replayed),
            ("start", [refusal, ..]) => {
                self.refused.insert((*refusal, replayed));
                Vec::new()
            }
            ("finish", [0, _, number]) if !replayed => self.finished(controller, asked[0], *number),
            ("show-tag", [1, _, _, _, number]) => self.shown(controller, asked[0], *number),
            _ => Vec::new(),
        }
    }

    fn started(&mut self, answer: &[u64], replayed: bool) -> Vec<String> {
        let [_, _, count, tag, second, _, verdict, number] = *answer else { return Vec::new() };
        let pair = count == 2;
        let tags = if pair { vec![tag, second] } else { vec![tag] };
        let last = self.last.unwrap_or_default();
        let after_pair = last.pair && !last.replayed;
        let before = |tag: &u64| self.once.contains(tag);
        let after = |refusal: u64| self.refused.contains(&(refusal, false));
        let in_replay = self.refused.iter().any(|(_, replayed)| *replayed);
        let events = reached([
            (
                "start: number 0, another controller gave some before",
                number == 0 && self.other_before,
            ),
            ("start: number above 255", number > 255),
            ("start: number after a 12", after(12)),
            ("start: number after a 13", after(13)),
            ("start: number after a 5", after(5)),
            ("start: number after a pair with a verdict", after_pair && last.verdict != 0),
            ("start: number after a pair, verdict 0", after_pair && last.verdict == 0),
            ("start: number after a refusal in a replay", in_replay),
            ("start: number after a replay that took a pair", self.replayed_pair),
            ("start: number after a replay that took commands", last.replayed),
            ("start: number of a pair, tags apart", pair && second != tag + 1),
            (
                "start: number of a pair, tags that were taken before",
                pair && tags.iter().all(before),
            ),
            ("start: number of a tag that was taken before", before(&tag)),
        ]);
        for tag in tags {
            if !self.once.insert(tag) {
                self.again.insert(tag);
            }
            if replayed {
                self.by_replay.insert(tag);
            } else {
                self.by_replay.remove(&tag);
            }
        }
        self.last = Some(Taken { pair, verdict, replayed });
        self.replayed_pair = replayed && (pair || self.replayed_pair);
        self.refused.clear();
        if replayed {
            Vec::new()
        } else {
            events
        }
    }

    fn finished(&self, controller: &Controller, tag: u64, number: u64) -> Vec<String> {
        let mut outstanding = controller.tags.iter().flatten();
        let second = part(controller, tag) == Some(Part::SecondReady);
        reached([
            ("finish: number above 255", number > 255),
            (
                "finish: number is not the lowest outstanding",
                outstanding.any(|other| other.number < number),
            ),
            ("finish: number of a command that a replay started", self.by_replay.contains(&tag)),
            ("finish: number of a second half", second),
            ("finish: number of a tag that was taken before", self.again.contains(&tag)),
        ])
    }

    fn shown(&self, controller: &Controller, tag: u64, number: u64) -> Vec<String> {
        let part = part(controller, tag);
        reached([
            ("show-tag: number above 255", number > 255),
            ("show-tag: number of a command that a replay started", self.by_replay.contains(&tag)),
            ("show-tag: number of a first half", matches!(part, Some(Part::First(_)))),
            (
                "show-tag: number of a second half, first half finished",
                part == Some(Part::SecondReady),
            ),
            (
                "show-tag: number of a second half, first half outstanding",
                part == Some(Part::SecondWaiting),
            ),
            ("show-tag: number of a tag that was taken before", self.again.contains(&tag)),
        ])
    }
}

/// What the command of this tag is in its pair.
fn part(controller: &Controller, tag: u64) -> Option<Part> {
    controller.tags[tag as usize].as_ref().map(|command| command.part)
}
