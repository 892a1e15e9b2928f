//! What is reached of turns and credits where SQs are deleted: "Turn holders and remainders stay as
//! numbers", and credits stay; and what a look shows of them. Levels and their credits are of
//! mechanism 1 alone.

use crate::arbiter::QUEUES;
use crate::cover_deletes::Line;
use crate::cover_replay::reached;
use crate::model::Controller;
use std::collections::{BTreeMap, BTreeSet};

/// Every event that is counted.
pub const EVENTS: [&str; 12] = [
    "show-arbiter: a level has no credit",
    "show-arbiter: a level's turn has some left",
    "show-arbiter: a turn has no limit",
    "show-arbiter: a turn of a deleted SQ",
    "show-arbiter: after a refused start",
    "show-arbiter: of all or of the urgent, some left",
    "start: level without credit waits, SQ deleted meanwhile",
    "start: turn goes on, holder created again, another waits",
    "start: turn goes on, holder had another class meanwhile",
    "start: turn held in the old class, others wait in the new",
    "start: turn passes a holder created again, none was left",
    "start: turn passes on from a deleted holder to the next id",
];

/// The turn of a group: its class, which is 0 for the one group of mechanism 0, and its holder.
type Turn = (u64, usize);

/// What the calls so far tell of a controller's turns and credits.
#[derive(Default)]
pub struct Turns {
    /// The turns of which the holder was deleted, and that nobody had since, with its class.
    deleted: BTreeMap<Turn, u64>,
    /// Those of them of which the holder was created again in another class.
    elsewhere: BTreeSet<Turn>,
    /// The levels that had no credit when an SQ was deleted, and have none since.
    dry: [bool; 3],
    /// Whether the line before was a start that was refused.
    refused: bool,
}

impl Turns {
    /// The events of a line.
    pub fn events(&mut self, line: &Line) -> Vec<String> {
        let events = self.call_events(line);
        self.refused = line.name == "start" && !line.accepted();
        events
    }

    fn call_events(&mut self, line: &Line) -> Vec<String> {
        match (line.name, line.asked) {
            ("controller", _) => *self = Turns::default(),
            ("delete-sq", [id]) if line.accepted() => self.sq_deleted(line.before, *id as usize),
            ("create-sq", [id, .., class]) if line.accepted() => {
                self.sq_created(*id as usize, *class)
            }
            ("start", _) if line.accepted() => return self.started(line),
            ("show-arbiter", _) => return self.shown(line),
            _ => {}
        }
        Vec::new()
    }

    /// What there is to see of turns and credits.
    fn shown(&self, line: &Line) -> Vec<String> {
        let [_, _, _, left, levels @ ..] = line.answer else { return Vec::new() };
        let level = |place: usize| levels.chunks(3).map(move |level| level[place]);
        let gone = |(_, holder): &Turn| line.before.sqs[*holder].is_none();
        reached([
            ("show-arbiter: a level has no credit", level(2).any(|credit| credit == 0)),
            ("show-arbiter: a level's turn has some left", level(1).any(|left| left > 0)),
            ("show-arbiter: a turn has no limit", *left == u64::MAX),
            ("show-arbiter: a turn of a deleted SQ", self.deleted.keys().any(gone)),
            ("show-arbiter: after a refused start", self.refused),
            ("show-arbiter: of all or of the urgent, some left", *left > 0 && *left < u64::MAX),
        ])
    }

    fn sq_deleted(&mut self, before: &Controller, id: usize) {
        let class = before.sqs[id].as_ref().map_or(0, |sq| sq.class);
        let turn = turn(before, class);
        if turn.1 == id {
            self.deleted.entry(turn).or_insert(class);
        }
        for (dry, credit) in self.dry.iter_mut().zip(before.arbiter().credits()) {
            *dry |= credit == 0;
        }
    }

    fn sq_created(&mut self, id: usize, class: u64) {
        let held = self.deleted.iter().filter(|((_, holder), old)| *holder == id && **old != class);
        self.elsewhere.extend(held.map(|(turn, _)| *turn));
    }

    fn started(&mut self, line: &Line) -> Vec<String> {
        let (before, served) = (line.before, line.answer[1] as usize);
        let weighted = before.arbiter().mechanism() == 1;
        // SQ 0 has no turn under mechanism 1.
        if weighted && served == 0 {
            return Vec::new();
        }
        let class = before.sqs[served].as_ref().map_or(0, |sq| sq.class);
        let mut events = self.served(before, served, class);
        if weighted {
            events.extend(self.levels(line, class));
        }
        let turn = turn(before, class);
        self.deleted.remove(&turn);
        self.elsewhere.remove(&turn);
        events
    }

    /// What the turn of the SQ served has to do with deletions before.
    fn served(&self, before: &Controller, served: usize, class: u64) -> Vec<String> {
        let turn = turn(before, class);
        let (_, holder) = turn;
        let group = group(before, class);
        let was_deleted = self.deleted.contains_key(&turn);
        let goes_on = was_deleted && served == holder && before.arbiter().holder(class).1;
        let below = group.iter().any(|id| *id < holder) && served > holder;
        let held_elsewhere = self.elsewhere.iter().any(|(other, id)| {
            let left = before.arbiter().holder(*other) == (*id, true);
            turn != (*other, *id) && left && group.contains(id)
        });
        reached([
            (
                "start: turn goes on, holder created again, another waits",
                goes_on && group.len() > 1,
            ),
            (
                "start: turn goes on, holder had another class meanwhile",
                goes_on && group.len() > 1 && self.elsewhere.contains(&turn),
            ),
            (
                "start: turn held in the old class, others wait in the new",
                held_elsewhere && group.len() > 1,
            ),
            (
                "start: turn passes a holder created again, none was left",
                was_deleted && served != holder && group.contains(&holder),
            ),
            (
                "start: turn passes on from a deleted holder to the next id",
                was_deleted && before.sqs[holder].is_none() && below,
            ),
        ])
    }

    /// Whether a level that comes before the one served was passed over for want of credit.
    fn levels(&mut self, line: &Line, class: u64) -> Vec<String> {
        let credits = |controller: &Controller| controller.arbiter().credits();
        let (then, now) = (credits(line.before), credits(&line.after.controller));
        if now.iter().sum::<u64>() > then.iter().sum() {
            self.dry = [false; 3];
        }
        let passed_over =
            |level: u64| self.dry[level as usize - 1] && !group(line.before, level).is_empty();
        reached([(
            "start: level without credit waits, SQ deleted meanwhile",
            (1..class).any(passed_over),
        )])
    }
}

/// The turn of the group that an SQ of this class is in.
fn turn(controller: &Controller, class: u64) -> Turn {
    let arbiter = controller.arbiter();
    (class * arbiter.mechanism(), arbiter.holder(class).0)
}

/// The candidates that are of one group with an SQ of this class.
fn group(controller: &Controller, class: u64) -> Vec<usize> {
    let candidates = controller.candidates();
    let weighted = controller.arbiter().mechanism() == 1;
    let alike = |id: &usize| match candidates[*id] {
        Some(other) => !weighted || *id != 0 && other == class,
        None => false,
    };
    (0..QUEUES).filter(alike).collect()
}
