//! Trials of refusal 32: "A start that would need a number above 18,446,744,073,709,551,614 is
//! refused with 32, after 13 in the order." No script reaches it, so the next number is set in the
//! controller.

use crate::model::{INVALID_FIELD, MISSING_FUSED};
use crate::traced::{Named, Trial};
use crate::traced_numbers::Entry;

/// The last number that may be given: 2^64 - 2.
const LAST: u64 = 18_446_744_073_709_551_614;
/// The next number once that is given: no command can be taken any more.
const NONE_LEFT: u64 = 18_446_744_073_709_551_615;

const SINGLE: [Entry; 1] = [(2, 0, 10)];
const PAIR: [Entry; 2] = [(5, 1, 10), (1, 2, 11)];
/// Its second opcode is wrong: 02h.
const PAIR_WITH_A_VERDICT: [Entry; 2] = [(5, 1, 10), (2, 2, 11)];

impl Trial {
    /// Sets the number that the next command taken is to bear.
    fn set_next_number(&mut self, number: u64) {
        self.console.controller.next_number = number;
    }

    /// A fresh controller with these entries submitted to SQ 1, and with this next number.
    fn submitted(&mut self, entries: &[Entry], next_number: u64) {
        self.play(
            "controller 0 0 => controller 0
             create-cq 1 64 0 => create-cq 0
             create-sq 1 128 4096 1 0 => create-sq 0",
        );
        self.write_entries(4096, entries);
        if !entries.is_empty() {
            self.expect(&format!("tail 1 {}", entries.len()), "tail 0");
        }
        self.set_next_number(next_number);
    }

    /// Expects that a start is refused with this number, and changes nothing: neither controller
    /// nor memory, so that the next is refused alike.
    fn refuses(&mut self, refusal: u64) {
        for _ in 0..2 {
            self.unchanged("start", &format!("start {refusal} 0 0 0 0 0 0 0"));
        }
    }
}

/// A single command needs one number.
fn singles(t: &mut Trial) {
    for number in [LAST - 1, LAST] {
        t.submitted(&SINGLE, number);
        t.expect("start", &format!("start 0 1 1 0 0 0 0 {number}"));
        t.expect("show-tag 0", &format!("show-tag 1 1 10 0 {number}"));
        t.expect("finish 0 0 0", &format!("finish 0 0 {number}"));
    }
    t.submitted(&SINGLE, NONE_LEFT);
    t.refuses(32);
    // From one below the last on, call by call.
    t.submitted(&[(2, 0, 1), (2, 0, 2), (2, 0, 3)], LAST - 1);
    t.play(
        "start => start 0 1 1 0 0 0 0 18446744073709551613
         start => start 0 1 1 1 0 1 0 18446744073709551614",
    );
    t.refuses(32);
    t.play(
        "finish 1 0 0 => finish 0 0 18446744073709551614
         finish 0 0 0 => finish 0 1 18446744073709551613",
    );
    t.refuses(32);
}

/// A pair needs two, "in order", whatever its verdict.
fn pairs(t: &mut Trial) {
    for (entries, verdict) in [(PAIR, 0), (PAIR_WITH_A_VERDICT, INVALID_FIELD)] {
        for number in [LAST - 2, LAST - 1] {
            t.submitted(&entries, number);
            t.expect("start", &format!("start 0 1 2 0 1 0 {verdict} {number}"));
            t.expect("show-tag 0", &format!("show-tag 1 1 10 {verdict} {number}"));
            t.expect("show-tag 1", &format!("show-tag 1 1 11 {verdict} {}", number + 1));
            t.expect("finish 0 0 0", &format!("finish 0 0 {number}"));
            t.expect("finish 1 0 0", &format!("finish 0 1 {}", number + 1));
        }
        for number in [LAST, NONE_LEFT] {
            t.submitted(&entries, number);
            t.refuses(32);
        }
    }
    // After a pair from two below the last on, a pair lacks one number, and a single does not.
    let two_pairs = [(5, 1, 1), (1, 2, 2), (5, 1, 3), (1, 2, 4)];
    t.submitted(&two_pairs, LAST - 2);
    t.expect("start", "start 0 1 2 0 1 0 0 18446744073709551612");
    t.refuses(32);
    t.submitted(&[(5, 1, 1), (1, 2, 2), (2, 0, 3), (2, 0, 4)], LAST - 2);
    t.play(
        "start => start 0 1 2 0 1 0 0 18446744073709551612
         start => start 0 1 1 2 0 2 0 18446744073709551614",
    );
    t.refuses(32);
}

/// Halves that are taken alone need one number each: without a follower, and on SQ 0.
fn lone_halves(t: &mut Trial) {
    t.submitted(&PAIR[..1], LAST);
    t.expect("start", &format!("start 0 1 1 0 0 0 {MISSING_FUSED} {LAST}"));
    t.submitted(&[], LAST);
    t.play("create-cq 0 4 16384 => create-cq 0\n create-sq 0 4 20480 0 0 => create-sq 0");
    t.write_entries(20480, &PAIR);
    t.expect("tail 0 2", "tail 0");
    t.expect("start", &format!("start 0 0 1 0 0 0 {INVALID_FIELD} {LAST}"));
    t.refuses(32);
}

/// 5, 12 and 13 go before 32.
fn order(t: &mut Trial) {
    t.submitted(&[], NONE_LEFT);
    t.refuses(12);
    t.submitted(&SINGLE, NONE_LEFT);
    t.expect("lend 12287", "lend 12287");
    t.refuses(5);
    t.expect("lend 1048576", "lend 1048576");
    t.refuses(32);
    t.expect("tail 1 128", "tail 10");
    t.refuses(12);
    // No tag is free, then one, and for a pair then two, where no number would do.
    let all_tags: Vec<Entry> = (0..64).map(|cid| (2, 0, cid)).collect();
    for (entries, needed, first_refused) in [(&SINGLE[..], 1, NONE_LEFT), (&PAIR[..], 2, LAST)] {
        t.submitted(&all_tags, 0);
        for taken in 0..64 {
            t.expect("start", &format!("start 0 1 1 {taken} 0 {taken} 0 {taken}"));
        }
        t.write_entries(4096 + 64 * 64, entries);
        t.expect(&format!("tail 1 {}", 64 + needed), "tail 0");
        for free in 0..=needed {
            for number in [first_refused, NONE_LEFT] {
                t.set_next_number(number);
                t.refuses(if free < needed { 13 } else { 32 });
            }
            if free < needed {
                let tag = 20 + free;
                t.expect(&format!("finish {tag} 0 0"), &format!("finish 0 {free} {tag}"));
            }
        }
    }
}

/// Where a start would refill credits, spend one and pass the turn on, 32 does none of that, and no
/// other queue is tried.
fn turns_and_credits(t: &mut Trial) {
    t.play(
        "controller 1 0 => controller 0
         create-cq 1 64 0 => create-cq 0
         create-sq 1 8 4096 1 1 => create-sq 0
         create-sq 2 8 8192 1 1 => create-sq 0
         create-sq 3 8 12288 1 3 => create-sq 0",
    );
    t.write_entries(8192, &PAIR);
    t.play(
        "tail 1 2 => tail 0
         tail 2 2 => tail 0
         tail 3 2 => tail 0
         start => start 0 1 1 0 0 0 0 0
         start => start 0 3 1 1 0 0 0 1",
    );
    let before = t.console.controller.clone();
    for number in [LAST, NONE_LEFT] {
        t.set_next_number(number);
        t.refuses(32);
    }
    t.set_next_number(2);
    if t.console.controller != before {
        t.faults.push("32 left a trace".to_string());
    }
    t.play(
        "start => start 0 2 2 2 3 0 0 2
         start => start 0 3 1 4 0 1 3 4",
    );
}

/// A replay gets 32 in an answer record, and goes on; a new controller begins at 0.
fn replay_and_controller(t: &mut Trial) {
    t.submitted(&[], LAST);
    t.write_entries(4096, &[(2, 0, 1), (2, 0, 2)]);
    t.replays(&[
        ("01010200", "01000200"),
        ("03", "03000000"),
        ("03", "03200000"),
        ("04000000", "04000000"),
        ("03", "03200000"),
        ("02010100", "02000100"),
    ]);
    t.refuses(32);
    t.submitted(&SINGLE, NONE_LEFT);
    t.refuses(32);
    t.play(
        "controller 0 0 => controller 0
         create-cq 1 64 0 => create-cq 0
         create-sq 1 128 4096 1 0 => create-sq 0
         tail 1 1 => tail 0
         start => start 0 1 1 0 0 0 0 0",
    );
}

pub const TRIALS: [Named; 6] = [
    ("last number, singles", singles),
    ("last number, pairs", pairs),
    ("last number, lone halves", lone_halves),
    ("last number, order", order),
    ("last number, turns and credits", turns_and_credits),
    ("last number, replay and controller", replay_and_controller),
];

#[cfg(test)]
mod tests {
    #[test]
    fn last_numbers() {
        let faults: Vec<String> =
            super::TRIALS.into_iter().flat_map(crate::traced::played).collect();
        assert_eq!(faults, Vec::<String>::new());
    }
}
