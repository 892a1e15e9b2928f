//! What is reached after deletions: queues that are not there any more, queues that are created
//! again, and the bytes that others leave them.

use crate::cover_deletes::{Deletions, Line};
use crate::cover_replay::reached;
use crate::entry::{Completion, COMPLETION, SUBMISSION};
use crate::model::{Cq, Sq};
use crate::ring::{self, Extent};

/// Every event that is counted.
pub const EVENTS: [&str; 44] = [
    "create-cq: 2 for one created again",
    "create-cq: 6 for a ring created again",
    "create-cq: again, another place",
    "create-cq: again, another size in the same place",
    "create-cq: again, entries were unread",
    "create-cq: again, next phase tag was 0",
    "create-cq: again, old phase tags",
    "create-cq: again, phase tags clear",
    "create-cq: again, the same bytes",
    "create-cq: on bytes of a deleted SQ",
    "create-sq: 2 for one created again",
    "create-sq: 6 for a ring created again",
    "create-sq: 7 for a CQ that was deleted",
    "create-sq: again, another CQ",
    "create-sq: again, another class",
    "create-sq: again, another place",
    "create-sq: again, another size in the same place",
    "create-sq: again, the same bytes",
    "create-sq: again, unstarted entries were dropped",
    "create-sq: again, was marked",
    "create-sq: on bytes of a deleted CQ",
    "finish: CQ created again",
    "finish: CQ created again wraps",
    "finish: CQ created again, first posting, next phase tag was 0",
    "finish: CQ created again, first posting, tail was not 0",
    "finish: SQ created again",
    "finish: a deleted ring is not lent",
    "head: 10 for the value held, created again",
    "head: 9 for a CQ that was deleted",
    "head: accepted, held before the deletion",
    "reader: CQ created again, old phase tags counted",
    "reader: CQ created again, some waiting",
    "show-cq: deleted",
    "show-sq: deleted",
    "start: 12, unstarted entries were dropped",
    "start: SQ created again",
    "start: SQ created again, unstarted entries were dropped",
    "start: SQ created again, was marked",
    "start: a deleted ring is not lent",
    "tail: 10 for the value held, created again",
    "tail: 9 for an SQ that was deleted",
    "tail: accepted, created again and was marked",
    "tail: accepted, held before the deletion",
    "tail: marks one created again",
];

/// Whether nothing was submitted to the SQ since it was created.
fn is_new_sq(sq: &Sq) -> bool {
    (sq.head, sq.tail) == (0, 0)
}

/// Whether the CQ is as it was created.
fn is_new_cq(cq: &Cq) -> bool {
    (cq.head, cq.tail, cq.phase) == (0, 0, 1)
}

/// Whether a start would have found entries in it.
fn waits(sq: &Sq) -> bool {
    !sq.marked && sq.head != sq.tail
}

impl Deletions {
    /// The events of a line that is no deletion.
    pub fn later(&self, line: &Line) -> Vec<String> {
        match (line.name, line.asked) {
            ("create-cq", [_, size, base]) => {
                self.cq_created(line, Extent::new(*base, *size, COMPLETION))
            }
            ("create-sq", [_, size, base, cq, _]) => {
                self.sq_created(line, Extent::new(*base, *size, SUBMISSION), *cq)
            }
            ("tail", [id, value]) => self.tail_written(line, *id, *value),
            ("head", [id, value]) => self.head_written(line, *id, *value),
            ("start", []) => self.started(line),
            ("finish", [tag, _, _]) if line.accepted() => self.finished(line, *tag as usize),
            ("waiting", [at, _, size, head, tag]) if line.accepted() => {
                self.read(line, (*at, *size, *head, *tag % 2))
            }
            ("show-sq", [id]) => reached([("show-sq: deleted", self.sqs.gone.contains_key(id))]),
            ("show-cq", [id]) => reached([("show-cq: deleted", self.cqs.gone.contains_key(id))]),
            _ => Vec::new(),
        }
    }

    /// The rings of queues that are not there.
    fn gone_rings(&self) -> impl Iterator<Item = Extent> + '_ {
        let sqs = self.sqs.gone.values().map(Sq::extent);
        sqs.chain(self.cqs.gone.values().map(Cq::extent))
    }

    /// Whether these bytes are in part those of a queue that was created again.
    fn meets_one_again(&self, line: &Line, new: &Extent) -> bool {
        let sqs = self.sqs.old.keys().filter_map(|id| line.before.sq(*id)).map(Sq::extent);
        let cqs = self.cqs.old.keys().filter_map(|id| line.before.cq(*id)).map(Cq::extent);
        sqs.chain(cqs).any(|ring| ring.shares_a_byte(new))
    }

    fn cq_created(&self, line: &Line, new: Extent) -> Vec<String> {
        let (id, refusal) = (line.asked[0], line.refusal());
        let mut deleted = self.sqs.gone.values().chain(self.sqs.old.values()).map(Sq::extent);
        let on_sq = line.accepted() && deleted.any(|ring| ring.shares_a_byte(&new));
        let mut events = reached([
            ("create-cq: 2 for one created again", refusal == 2 && self.cqs.old.contains_key(&id)),
            (
                "create-cq: 6 for a ring created again",
                refusal == 6 && self.meets_one_again(line, &new),
            ),
            ("create-cq: on bytes of a deleted SQ", on_sq),
        ]);
        let again = self.cqs.gone.get(&id).zip(line.after.controller.cq(id));
        events.extend(again.into_iter().flat_map(|(old, cq)| cq_again(line, old, cq)));
        events
    }

    fn sq_created(&self, line: &Line, new: Extent, cq: u64) -> Vec<String> {
        let (id, refusal) = (line.asked[0], line.refusal());
        let mut deleted = self.cqs.gone.values().chain(self.cqs.old.values()).map(Cq::extent);
        let on_cq = line.accepted() && deleted.any(|ring| ring.shares_a_byte(&new));
        let mut events = reached([
            ("create-sq: 2 for one created again", refusal == 2 && self.sqs.old.contains_key(&id)),
            (
                "create-sq: 6 for a ring created again",
                refusal == 6 && self.meets_one_again(line, &new),
            ),
            (
                "create-sq: 7 for a CQ that was deleted",
                refusal == 7 && id != 0 && self.cqs.gone.contains_key(&cq),
            ),
            ("create-sq: on bytes of a deleted CQ", on_cq),
        ]);
        let again = self.sqs.gone.get(&id).zip(line.after.controller.sq(id));
        events.extend(again.into_iter().flat_map(|(old, sq)| sq_again(old, sq)));
        events
    }

    fn tail_written(&self, line: &Line, id: u64, value: u64) -> Vec<String> {
        let (refusal, accepted) = (line.refusal(), line.accepted());
        let mut events = reached([(
            "tail: 9 for an SQ that was deleted",
            refusal == 9 && self.sqs.gone.contains_key(&id),
        )]);
        let Some((old, sq)) = self.sqs.old.get(&id).zip(line.before.sq(id)) else { return events };
        let new = is_new_sq(sq);
        events.extend(reached([
            ("tail: 10 for the value held, created again", refusal == 10 && new && value == 0),
            ("tail: accepted, created again and was marked", accepted && old.marked),
            ("tail: accepted, held before the deletion", accepted && new && value == old.tail),
            ("tail: marks one created again", refusal == 10),
        ]));
        events
    }

    fn head_written(&self, line: &Line, id: u64, value: u64) -> Vec<String> {
        let (refusal, accepted) = (line.refusal(), line.accepted());
        let mut events = reached([(
            "head: 9 for a CQ that was deleted",
            refusal == 9 && self.cqs.gone.contains_key(&id),
        )]);
        let Some((old, cq)) = self.cqs.old.get(&id).zip(line.before.cq(id)) else { return events };
        let first = cq.head == 0;
        events.extend(reached([
            ("head: 10 for the value held, created again", refusal == 10 && first && value == 0),
            ("head: accepted, held before the deletion", accepted && first && value == old.head),
        ]));
        events
    }

    fn started(&self, line: &Line) -> Vec<String> {
        let accepted = line.accepted();
        let old = self.sqs.old.get(&line.answer[1]).filter(|_| accepted);
        let dropped = self.sqs.gone.values().any(waits);
        let outside = self.gone_rings().any(|ring| !line.is_lent(ring));
        reached([
            ("start: 12, unstarted entries were dropped", line.refusal() == 12 && dropped),
            ("start: SQ created again", old.is_some()),
            ("start: SQ created again, unstarted entries were dropped", old.is_some_and(waits)),
            ("start: SQ created again, was marked", old.is_some_and(|old| old.marked)),
            ("start: a deleted ring is not lent", accepted && outside),
        ])
    }

    fn finished(&self, line: &Line, tag: usize) -> Vec<String> {
        let Some(command) = &line.before.tags[tag] else { return Vec::new() };
        let Some(sq) = &line.before.sqs[command.sq] else { return Vec::new() };
        let Some(cq) = &line.before.cqs[sq.cq] else { return Vec::new() };
        let old = self.cqs.old.get(&(sq.cq as u64));
        let first = old.filter(|_| is_new_cq(cq));
        reached([
            ("finish: CQ created again", old.is_some()),
            ("finish: CQ created again wraps", old.is_some() && line.answer[1] == cq.size - 1),
            (
                "finish: CQ created again, first posting, next phase tag was 0",
                first.is_some_and(|old| old.phase == 0),
            ),
            (
                "finish: CQ created again, first posting, tail was not 0",
                first.is_some_and(|old| old.tail != 0),
            ),
            ("finish: SQ created again", self.sqs.old.contains_key(&(command.sq as u64))),
            (
                "finish: a deleted ring is not lent",
                self.gone_rings().any(|ring| !line.is_lent(ring)),
            ),
        ])
    }

    /// A read of a ring created again, as its host stands: place, size, head and phase tag.
    fn read(&self, line: &Line, asked: (u64, u64, u64, u64)) -> Vec<String> {
        let expected = |cq: &Cq| if cq.tail < cq.head { 1 - cq.phase } else { cq.phase };
        let stands = |cq: &&Cq| (cq.base, cq.size, cq.head, expected(cq)) == asked;
        let mut again = self.cqs.old.keys().filter_map(|id| line.before.cq(*id));
        let Some(cq) = again.find(stands) else { return Vec::new() };
        let waiting = ring::distance(cq.size, cq.head, cq.tail);
        let count = line.answer[1];
        reached([
            ("reader: CQ created again, old phase tags counted", count > waiting),
            ("reader: CQ created again, some waiting", count == waiting && count > 0),
        ])
    }
}

/// What a CQ created again is like, beside what it was.
fn cq_again(line: &Line, old: &Cq, cq: &Cq) -> Vec<String> {
    let ring = &line.after.memory()[cq.base as usize..];
    let entries = ring.chunks(COMPLETION).take(cq.size as usize).map(Completion::read);
    let clear = entries.flatten().all(|entry| entry.tag == 0);
    let same_place = old.base == cq.base;
    reached([
        ("create-cq: again, another place", !same_place),
        ("create-cq: again, another size in the same place", same_place && old.size != cq.size),
        ("create-cq: again, entries were unread", old.head != old.tail),
        ("create-cq: again, next phase tag was 0", old.phase == 0),
        ("create-cq: again, old phase tags", !clear),
        ("create-cq: again, phase tags clear", clear),
        ("create-cq: again, the same bytes", same_place && old.size == cq.size),
    ])
}

/// The same for an SQ.
fn sq_again(old: &Sq, sq: &Sq) -> Vec<String> {
    let same_place = old.base == sq.base;
    reached([
        ("create-sq: again, another CQ", old.cq != sq.cq),
        ("create-sq: again, another class", old.class != sq.class),
        ("create-sq: again, another place", !same_place),
        ("create-sq: again, another size in the same place", same_place && old.size != sq.size),
        ("create-sq: again, the same bytes", same_place && old.size == sq.size),
        ("create-sq: again, unstarted entries were dropped", waits(old)),
        ("create-sq: again, was marked", old.marked),
    ])
}
