//! What doorbell values reach that are refused with 10, above all the value held, and what is
//! written after them: document 02's second request.

use crate::model::Controller;
use crate::ring;
use std::collections::{BTreeMap, BTreeSet};

/// The events that are not counted for each call.
const EVENTS: [&str; 11] = [
    "head: 10 for a value that is right in its low 16 bits",
    "head: 10 for the value held, 0 after a wrap",
    "head: 10 for the value held, another refused before",
    "head: 10 for the value held, no write accepted before",
    "head: accepted, the same refused before",
    "head: accepted, the value held refused before",
    "plain check: 3 before 10 for the value held",
    "tail: 10 for a value that is right in its low 16 bits",
    "tail: 10 for the value held, 0 after a wrap",
    "tail: 10 for the value held, no write accepted before",
    "tail: 11 before 10 for the value held",
];

/// The causes of 10 that are counted for each call.
const CAUSES: [&str; 4] = [
    "another place in the ring",
    "the value held, empty",
    "the value held, full",
    "the value held, neither",
];

/// Every event that is counted.
pub fn events() -> Vec<String> {
    let calls = ["check-head", "check-tail", "head", "tail"];
    let counted =
        calls.iter().flat_map(|name| CAUSES.map(|cause| format!("{name}: 10 for {cause}")));
    EVENTS.into_iter().map(str::to_string).chain(counted).collect()
}

/// A value written to a ring's tail or head, or checked for it.
struct Write {
    of_tail: bool,
    size: u64,
    head: u64,
    tail: u64,
    value: u64,
}

impl Write {
    /// What a line writes or checks, unless its queue is not there.
    fn of(controller: &Controller, name: &str, asked: &[u64]) -> Option<Write> {
        let (size, head, tail, value) = match *asked {
            [id, value] if name == "tail" => {
                controller.sq(id).map(|sq| (sq.size, sq.head, sq.tail, value))?
            }
            [id, value] if name == "head" => {
                controller.cq(id).map(|cq| (cq.size, cq.head, cq.tail, value))?
            }
            [size, head, tail, value] if name.starts_with("check") => (size, head, tail, value),
            _ => return None,
        };
        Some(Write { of_tail: name.ends_with("tail"), size, head, tail, value })
    }

    fn held(&self) -> u64 {
        if self.of_tail {
            self.tail
        } else {
            self.head
        }
    }

    /// Whether another value in its place would be right.
    fn right_with(&self, value: u64) -> bool {
        let valid = if self.of_tail { ring::tail_is_valid } else { ring::head_is_valid };
        valid(self.size, self.head, self.tail, value)
    }

    /// The event of a refusal, if the value is the one held or another place in the ring.
    fn refused(&self, name: &str, refusal: u64) -> Option<String> {
        let in_ring = [self.head, self.tail, self.value].iter().all(|place| *place < self.size);
        let held = self.value == self.held();
        match refusal {
            3 if held => Some("plain check: 3 before 10 for the value held".to_string()),
            11 if held => Some("tail: 11 before 10 for the value held".to_string()),
            10 if held && in_ring => {
                Some(format!("{name}: 10 for the value held, {}", self.state()))
            }
            10 if in_ring => Some(format!("{name}: 10 for another place in the ring")),
            _ => None,
        }
    }

    fn state(&self) -> &'static str {
        if self.head == self.tail {
            "empty"
        } else if ring::is_full(self.size, self.head, self.tail) {
            "full"
        } else {
            "neither"
        }
    }
}

/// A doorbell by the call's name and the queue.
type Doorbell = (&'static str, u64);

/// What the writes so far tell of a controller's doorbells.
#[derive(Default)]
pub struct Doorbells {
    /// Those that a write was accepted of.
    accepted: BTreeSet<Doorbell>,
    /// The last value refused with 10, of those that none was accepted of since.
    refused: BTreeMap<Doorbell, u64>,
}

impl Doorbells {
    /// The events of a line, with the controller that it met and the refusal that it got.
    pub fn events(
        &mut self,
        controller: &Controller,
        name: &'static str,
        asked: &[u64],
        refusal: u64,
    ) -> Vec<String> {
        match (name, refusal) {
            ("controller", _) => *self = Doorbells::default(),
            ("delete-sq", 0) => self.forget(("tail", asked[0])),
            ("delete-cq", 0) => self.forget(("head", asked[0])),
            _ => {}
        }
        let Some(write) = Write::of(controller, name, asked) else { return Vec::new() };
        let mut events: Vec<String> = write.refused(name, refusal).into_iter().collect();
        if matches!(name, "head" | "tail") {
            events.extend(self.written((name, asked[0]), &write, refusal));
        }
        events
    }

    /// The queue is deleted: another that has its number is a new one.
    fn forget(&mut self, doorbell: Doorbell) {
        self.accepted.remove(&doorbell);
        self.refused.remove(&doorbell);
    }

    /// What a doorbell write has to do with those before it, and with its low bits.
    fn written(&mut self, doorbell: Doorbell, write: &Write, refusal: u64) -> Vec<String> {
        let first = !self.accepted.contains(&doorbell);
        let refused = self.refused.get(&doorbell).copied();
        if refusal == 0 {
            self.accepted.insert(doorbell);
            self.refused.remove(&doorbell);
        } else if refusal == 10 {
            self.refused.insert(doorbell, write.value);
        }
        let held = refusal == 10 && write.value == write.held();
        let other = refused.is_some_and(|refused| refused != write.held());
        let low_bits = refusal == 10 && write.right_with(write.value % 65_536);
        let after = |value| refusal == 0 && refused == Some(value);
        let rows = [
            ("10 for a value that is right in its low 16 bits", low_bits),
            ("10 for the value held, 0 after a wrap", held && !first && write.value == 0),
            ("10 for the value held, another refused before", held && other),
            ("10 for the value held, no write accepted before", held && first),
            ("accepted, the same refused before", after(write.value)),
            ("accepted, the value held refused before", after(write.held())),
        ];
        let reached = rows.into_iter().filter(|(_, reached)| *reached);
        reached.map(|(event, _)| format!("{}: {event}", doorbell.0)).collect()
    }
}
