//! What deletions reach: document 02's fifth request. What comes after them is counted in
//! `cover_again` and in `cover_turns`.

use crate::console::Console;
use crate::cover_replay::reached;
use crate::model::{Command, Controller, Cq, Part, Sq};
use crate::ring::{self, Extent};
use std::collections::{BTreeMap, BTreeSet};

/// The events that are counted for either kind of queue.
const OF_BOTH: [&str; 10] = [
    "1, its low byte is 0",
    "1, its low byte names one that could go",
    "35 alone",
    "35 before 33 or 34",
    "35 before 9",
    "9, deleted before",
    "9, never there",
    "accepted, 33 or 34 before",
    "accepted, deleted before too",
    "accepted, its ring is not lent",
];

const OF_SQS: [&str; 11] = [
    "delete-sq: 33 for a second half alone",
    "delete-sq: 33 for one command",
    "delete-sq: 33 for several commands",
    "delete-sq: 33, marked",
    "delete-sq: 33, nothing unstarted",
    "delete-sq: accepted, commands of others outstanding",
    "delete-sq: accepted, holds a turn with some left",
    "delete-sq: accepted, idle",
    "delete-sq: accepted, its CQ has entries unread",
    "delete-sq: accepted, marked",
    "delete-sq: accepted, unstarted entries",
];

const OF_CQS: [&str; 8] = [
    "delete-cq: 34 for a marked SQ alone",
    "delete-cq: 34 for one SQ",
    "delete-cq: 34 for several SQs",
    "delete-cq: 34, another SQ of it deleted before",
    "delete-cq: accepted, entries unread",
    "delete-cq: accepted, full",
    "delete-cq: accepted, next phase tag 0",
    "delete-cq: accepted, nothing unread",
];

/// Every event that is counted.
pub fn events() -> Vec<String> {
    let names = ["delete-cq", "delete-sq"];
    let of_both = names.iter().flat_map(|name| OF_BOTH.map(|event| format!("{name}: {event}")));
    of_both.chain(OF_SQS.into_iter().chain(OF_CQS).map(str::to_string)).collect()
}

/// A line with the controller that it met, the console that it left, and its answer.
pub struct Line<'a> {
    pub before: &'a Controller,
    pub after: &'a Console,
    pub name: &'static str,
    pub asked: &'a [u64],
    pub answer: &'a [u64],
}

impl Line<'_> {
    pub fn refusal(&self) -> u64 {
        self.answer[0]
    }

    pub fn accepted(&self) -> bool {
        self.answer[0] == 0
    }

    pub fn is_lent(&self, ring: Extent) -> bool {
        ring.lies_in(self.after.lent)
    }
}

/// What became of the queues of one kind.
pub struct Past<Q> {
    /// Those that were deleted and are not there, as they were.
    pub gone: BTreeMap<u64, Q>,
    /// For those that are there again what they were before.
    pub old: BTreeMap<u64, Q>,
    /// Those of which a deletion was refused with 33 or 34.
    refused: BTreeSet<u64>,
}

impl<Q> Default for Past<Q> {
    fn default() -> Past<Q> {
        Past { gone: BTreeMap::new(), old: BTreeMap::new(), refused: BTreeSet::new() }
    }
}

/// What is asked of a deletion of either kind.
struct Deletion {
    there: bool,
    /// Whether it has outstanding commands, or is named.
    stopped: bool,
    lent: bool,
    /// Whether a queue with the low byte of its id could be deleted.
    low_goes: bool,
}

impl<Q: Clone> Past<Q> {
    /// Remembers the answer to a deletion, which met this queue, or to a create, which met none.
    fn answered(&mut self, line: &Line, queue: Option<&Q>) {
        let id = line.asked[0];
        match (line.refusal(), queue) {
            (0, Some(queue)) => {
                self.gone.insert(id, queue.clone());
                self.old.remove(&id);
                self.refused.remove(&id);
            }
            (0, None) => self.old.extend(self.gone.remove(&id).map(|queue| (id, queue))),
            (33 | 34, _) => drop(self.refused.insert(id)),
            _ => {}
        }
    }

    fn deletion(&self, line: &Line, found: Deletion) -> Vec<String> {
        let (id, refusal, accepted) = (line.asked[0], line.refusal(), line.accepted());
        let gone = self.gone.contains_key(&id);
        let events = reached([
            ("1, its low byte is 0", refusal == 1 && id % 256 == 0),
            ("1, its low byte names one that could go", refusal == 1 && found.low_goes),
            ("35 alone", refusal == 35 && found.there && !found.stopped),
            ("35 before 33 or 34", refusal == 35 && found.stopped),
            ("35 before 9", refusal == 35 && !found.there),
            ("9, deleted before", refusal == 9 && gone),
            ("9, never there", refusal == 9 && !gone),
            ("accepted, 33 or 34 before", accepted && self.refused.contains(&id)),
            ("accepted, deleted before too", accepted && self.old.contains_key(&id)),
            ("accepted, its ring is not lent", accepted && !found.lent),
        ]);
        events.into_iter().map(|event| format!("{}: {event}", line.name)).collect()
    }
}

/// What the calls so far tell of a controller's queues.
#[derive(Default)]
pub struct Deletions {
    pub sqs: Past<Sq>,
    pub cqs: Past<Cq>,
}

impl Deletions {
    /// The events of a line.
    pub fn events(&mut self, line: &Line) -> Vec<String> {
        let events = match line.name {
            "delete-sq" => self.sq_deletion(line),
            "delete-cq" => self.cq_deletion(line),
            _ => self.later(line),
        };
        let id = line.asked.first().copied().unwrap_or(0);
        match line.name {
            "controller" => *self = Deletions::default(),
            "create-sq" | "delete-sq" => self.sqs.answered(line, line.before.sq(id)),
            "create-cq" | "delete-cq" => self.cqs.answered(line, line.before.cq(id)),
            _ => {}
        }
        events
    }

    fn sq_deletion(&self, line: &Line) -> Vec<String> {
        let (before, id) = (line.before, line.asked[0]);
        let sq = before.sq(id);
        let commands: Vec<&Command> = before.commands_of(id).collect();
        let mut events = self.sqs.deletion(
            line,
            Deletion {
                there: sq.is_some(),
                stopped: !commands.is_empty(),
                lent: sq.is_none_or(|sq| line.is_lent(sq.extent())),
                low_goes: before.clone().delete_sq(id % 256).is_ok(),
            },
        );
        let Some(sq) = sq else { return events };
        let (refused, accepted) = (line.refusal() == 33, line.accepted());
        let second = commands.iter().all(|command| command.part == Part::SecondReady);
        let empty = sq.head == sq.tail;
        let unread = before.cqs[sq.cq].as_ref().is_some_and(|cq| cq.head != cq.tail);
        let others = before.tags.iter().any(Option::is_some);
        let holds = before.arbiter().holder(sq.class) == (id as usize, true);
        events.extend(reached([
            ("delete-sq: 33 for a second half alone", refused && second),
            ("delete-sq: 33 for one command", refused && commands.len() == 1),
            ("delete-sq: 33 for several commands", refused && commands.len() > 1),
            ("delete-sq: 33, marked", refused && sq.marked),
            ("delete-sq: 33, nothing unstarted", refused && empty),
            ("delete-sq: accepted, commands of others outstanding", accepted && others),
            ("delete-sq: accepted, holds a turn with some left", accepted && holds),
            ("delete-sq: accepted, idle", accepted && empty && !sq.marked),
            ("delete-sq: accepted, its CQ has entries unread", accepted && unread),
            ("delete-sq: accepted, marked", accepted && sq.marked),
            ("delete-sq: accepted, unstarted entries", accepted && !empty && !sq.marked),
        ]));
        events
    }

    fn cq_deletion(&self, line: &Line) -> Vec<String> {
        let (before, id) = (line.before, line.asked[0]);
        let cq = before.cq(id);
        let sqs: Vec<&Sq> = before.sqs_on(id).collect();
        let mut events = self.cqs.deletion(
            line,
            Deletion {
                there: cq.is_some(),
                stopped: !sqs.is_empty(),
                lent: cq.is_none_or(|cq| line.is_lent(cq.extent())),
                low_goes: before.clone().delete_cq(id % 256).is_ok(),
            },
        );
        let Some(cq) = cq else { return events };
        let (refused, accepted) = (line.refusal() == 34, line.accepted());
        let another = self.sqs.gone.values().any(|sq| sq.cq as u64 == id);
        let marked = sqs.len() == 1 && sqs[0].marked;
        let unread = cq.head != cq.tail;
        let full = ring::is_full(cq.size, cq.head, cq.tail);
        events.extend(reached([
            ("delete-cq: 34 for a marked SQ alone", refused && marked),
            ("delete-cq: 34 for one SQ", refused && sqs.len() == 1),
            ("delete-cq: 34 for several SQs", refused && sqs.len() > 1),
            ("delete-cq: 34, another SQ of it deleted before", refused && another),
            ("delete-cq: accepted, entries unread", accepted && unread),
            ("delete-cq: accepted, full", accepted && full),
            ("delete-cq: accepted, next phase tag 0", accepted && cq.phase == 0),
            ("delete-cq: accepted, nothing unread", accepted && !unread),
        ]));
        events
    }
}
