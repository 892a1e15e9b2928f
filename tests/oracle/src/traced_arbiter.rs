//! Trials of `show-arbiter`: document 01's turns and credits, step by step along P2 and P3 and
//! where a burst has no limit. The expected numbers were worked out by hand: mechanism, word,
//! holder and remainder of the one group or of the urgent one, then holder, remainder and credit of
//! high, medium and low.

use crate::traced::{Named, Trial};

/// A remainder without limit.
const NO_LIMIT: u64 = u64::MAX;

/// The levels of a controller that has served none, where each weight is 1.
const UNSERVED: &str = "15 0 1 15 0 1 15 0 1";

impl Trial {
    /// Expects these numbers of a look, which changes nothing.
    fn turns(&mut self, numbers: &str) {
        self.unchanged("show-arbiter", &format!("show-arbiter {numbers}"));
    }

    /// Starts that serve this SQ, with these numbers after it.
    fn turn_of(&mut self, id: u64, numbers: &str) {
        self.serves(&[id]);
        self.turns(numbers);
    }
}

/// "at first holder 15, remainder 0"; "Credits begin at the weights"; the word is kept whole.
fn fresh(t: &mut Trial) {
    t.turns(&format!("0 0 15 0 {UNSERVED}"));
    t.expect("controller 1 0xfedcba98", "controller 0");
    t.turns("1 4275878552 15 0 15 0 255 15 0 221 15 0 187");
    t.expect("controller 0 0xffffffff", "controller 0");
    t.turns("0 4294967295 15 0 15 0 256 15 0 256 15 0 256");
    // "A controller refused with 23 is one of mechanism 0, word 0, no queues."
    t.expect("controller 2 0xffffffff", "controller 23");
    t.turns(&format!("0 0 15 0 {UNSERVED}"));
    t.play("show-arbiter 0 => ? 8\n show-arbiters => ? 9");
}

/// P2: burst 2, SQs 1 and 2 with three each.
fn p2(t: &mut Trial) {
    t.expect("controller 0 1", "controller 0");
    t.queues(&[(1, 0, 3), (2, 0, 3)]);
    t.turns(&format!("0 1 15 0 {UNSERVED}"));
    for (id, remainder) in [(1, 1), (1, 0), (2, 1), (2, 0), (1, 1), (2, 1)] {
        t.turn_of(id, &format!("0 1 {id} {remainder} {UNSERVED}"));
    }
    t.unchanged("start", "start 12 0 0 0 0 0 0 0");
    t.turns(&format!("0 1 2 1 {UNSERVED}"));
}

/// P3: burst 1, so that no remainder is seen; high has weight 2, the others have 1.
fn p3(t: &mut Trial) {
    t.expect("controller 1 0x01000000", "controller 0");
    t.queues(&[(1, 1, 4), (2, 2, 4), (3, 3, 4)]);
    t.turns("1 16777216 15 0 15 0 2 15 0 1 15 0 1");
    for (id, levels) in [
        (1, "1 0 1 15 0 1 15 0 1"),
        (1, "1 0 0 15 0 1 15 0 1"),
        (2, "1 0 0 2 0 0 15 0 1"),
        (3, "1 0 0 2 0 0 3 0 0"),
        // A refill to 2, 1 and 1.
        (1, "1 0 1 2 0 1 3 0 1"),
        (1, "1 0 0 2 0 1 3 0 1"),
        (2, "1 0 0 2 0 0 3 0 1"),
        (3, "1 0 0 2 0 0 3 0 0"),
        // A refill of all three, where high has no candidate.
        (2, "1 0 2 2 0 0 3 0 1"),
        (3, "1 0 2 2 0 0 3 0 0"),
        // Another one.
        (2, "1 0 2 2 0 0 3 0 1"),
        (3, "1 0 2 2 0 0 3 0 0"),
    ] {
        t.turn_of(id, &format!("1 16777216 15 0 {levels}"));
    }
    t.unchanged("start", "start 12 0 0 0 0 0 0 0");
    t.turns("1 16777216 15 0 1 0 2 2 0 0 3 0 0");
}

/// "a remainder without limit stays so", of all SQs and of the urgent ones; in a level "under burst
/// 7 it is the credit and is lowered". SQ 0 has no turn under mechanism 1, and one under 0.
fn no_limit(t: &mut Trial) {
    t.expect("controller 0 7", "controller 0");
    t.queues(&[(0, 0, 1), (1, 0, 2)]);
    t.turn_of(0, &format!("0 7 0 {NO_LIMIT} {UNSERVED}"));
    t.turn_of(1, &format!("0 7 1 {NO_LIMIT} {UNSERVED}"));
    t.turn_of(1, &format!("0 7 1 {NO_LIMIT} {UNSERVED}"));
    // Weights: high 3, medium 2, low 1.
    t.expect("controller 1 0x02010007", "controller 0");
    t.queues(&[(0, 0, 1), (1, 0, 2), (2, 1, 4), (3, 2, 1)]);
    t.turn_of(0, "1 33619975 15 0 15 0 3 15 0 2 15 0 1");
    t.turn_of(1, &format!("1 33619975 1 {NO_LIMIT} 15 0 3 15 0 2 15 0 1"));
    t.turn_of(1, &format!("1 33619975 1 {NO_LIMIT} 15 0 3 15 0 2 15 0 1"));
    for (id, levels) in [
        (2, "2 2 2 15 0 2 15 0 1"),
        (2, "2 1 1 15 0 2 15 0 1"),
        (2, "2 0 0 15 0 2 15 0 1"),
        (3, "2 0 0 3 1 1 15 0 1"),
        // A refill, and a new turn of 3.
        (2, "2 2 2 3 1 2 15 0 1"),
    ] {
        t.turn_of(id, &format!("1 33619975 1 {NO_LIMIT} {levels}"));
    }
}

/// "Turn holders and remainders stay as numbers", and credits stay: a refused start, one of another
/// group and a deletion leave them. Burst 4, each weight 3.
fn kept(t: &mut Trial) {
    t.classes("controller 1 0x02020202", [1, 0, 3]);
    t.play("tail 1 1 => tail 0\n lend 4096 => lend 4096");
    t.unchanged("start", "start 5 0 0 0 0 0 0 0");
    t.turns("1 33686018 15 0 15 0 3 15 0 3 15 0 3");
    t.expect("lend 1048576", "lend 1048576");
    t.turn_of(1, "1 33686018 15 0 1 2 2 15 0 3 15 0 3");
    t.play("finish 0 0 0 => finish 0 0 0\n delete-sq 1 => delete-sq 0");
    t.turns("1 33686018 15 0 1 2 2 15 0 3 15 0 3");
    t.play("tail 2 1 => tail 0\n tail 3 1 => tail 0");
    t.turn_of(2, "1 33686018 2 3 1 2 2 15 0 3 15 0 3");
    t.turn_of(3, "1 33686018 2 3 1 2 2 15 0 3 3 2 2");
    // In medium it takes a turn there, and back in high it has its old one.
    t.play("create-sq 1 8 4096 1 2 => create-sq 0\n tail 1 1 => tail 0");
    t.turn_of(1, "1 33686018 2 3 1 2 2 1 2 2 3 2 2");
    t.expect("finish 2 0 0", "finish 0 1 3");
    t.again(1, 1);
    t.expect("tail 1 1", "tail 0");
    t.turn_of(1, "1 33686018 2 3 1 1 1 1 2 2 3 2 2");
}

/// A replay's starts use turns and credits as others do.
fn replayed(t: &mut Trial) {
    t.classes("controller 1 0x01000002", [0, 1, 1]);
    t.play("tail 1 1 => tail 0\n tail 2 2 => tail 0");
    let start = format!("03{:030}", 0);
    t.expect(
        &format!("replay 48 {start} {start} {start}"),
        &format!("replay 0 3 {start}0300{:02x}{:026}0300{:02x}{:026}", 1, 0, 2, 0),
    );
    // Urgent: burst 4, one used. High: a turn of 2, the credit, used up.
    t.turns("1 16777218 1 3 2 0 0 15 0 1 15 0 1");
}

pub const TRIALS: [Named; 6] = [
    ("arbiter, fresh", fresh),
    ("arbiter, P2", p2),
    ("arbiter, P3", p3),
    ("arbiter, no limit", no_limit),
    ("arbiter, kept", kept),
    ("arbiter, replayed", replayed),
];
