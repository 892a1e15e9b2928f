//! Trials of document 02's second request, "Same value written twice". The expected answers
//! were written by hand.

use crate::traced::{Named, Trial};

/// "in the plain checks too": TAIL and HEAD are the values held. 3 still goes before 10.
fn plain_checks(t: &mut Trial) {
    t.play(
        "check-tail 4 0 0 0 => check-tail 10
         check-tail 4 2 2 2 => check-tail 10
         check-tail 4 2 2 1 => check-tail 0
         check-tail 4 1 3 3 => check-tail 10
         check-tail 4 1 3 0 => check-tail 0
         check-tail 4 1 0 0 => check-tail 10
         check-tail 2 0 1 1 => check-tail 10
         check-tail 2 0 0 1 => check-tail 0
         check-tail 1024 0 1023 1023 => check-tail 10
         check-tail 1 0 0 0 => check-tail 3
         check-head 4 0 0 0 => check-head 10
         check-head 4 2 2 2 => check-head 10
         check-head 4 1 3 1 => check-head 10
         check-head 4 1 3 2 => check-head 0
         check-head 4 1 3 3 => check-head 0
         check-head 4 1 0 1 => check-head 10
         check-head 2 0 1 0 => check-head 10
         check-head 2 0 1 1 => check-head 0
         check-head 1024 1023 0 1023 => check-head 10
         check-head 1024 1023 0 0 => check-head 0
         check-head 1025 7 7 7 => check-head 3",
    );
}

/// "A new queue holds 0", and "on a tail write it marks the SQ"; 11 still goes before 10.
fn first_tail(t: &mut Trial) {
    t.play(
        "create-cq 1 4 0 => create-cq 0
         create-sq 1 4 4096 1 0 => create-sq 0
         tail 1 0 => tail 10
         show-sq 1 => show-sq 1 4096 4 0 0 1 0 1
         tail 1 0 => tail 11
         tail 1 1 => tail 11
         tail 2 0 => tail 9
         tail 16 0 => tail 1",
    );
}

/// The tail held by a ring of which some, all or none are submitted, and 0 after a wrap.
fn later_tails(t: &mut Trial) {
    t.play(
        "create-cq 1 16 0 => create-cq 0
         create-sq 1 4 4096 1 0 => create-sq 0
         tail 1 2 => tail 0
         tail 1 2 => tail 10
         show-sq 1 => show-sq 1 4096 4 0 2 1 0 1
         tail 1 2 => tail 11
         tail 1 3 => tail 11
         start => start 12 0 0 0 0 0 0 0
         create-sq 2 4 8192 1 0 => create-sq 0
         tail 2 3 => tail 0
         tail 2 3 => tail 10
         create-sq 3 4 12288 1 0 => create-sq 0
         tail 3 1 => tail 0
         start => start 0 3 1 0 0 0 0 0
         tail 3 1 => tail 10
         create-sq 4 4 16384 1 0 => create-sq 0
         tail 4 3 => tail 0
         start => start 0 4 1 1 0 0 0 1
         tail 4 0 => tail 0
         start => start 0 4 1 2 0 1 3 2
         tail 4 0 => tail 10
         show-sq 4 => show-sq 1 16384 4 2 0 1 0 1
         finish 2 0 0 => finish 0 0 2",
    );
}

/// The head held by a CQ that is new, in which some or none wait, or that is full; "refused
/// writes do not count": what was refused is accepted when it is right, and what was held is
/// still held. Nothing is marked.
fn heads(t: &mut Trial) {
    t.play(
        "create-cq 1 4 0 => create-cq 0
         create-sq 1 8 4096 1 0 => create-sq 0
         head 1 0 => head 10
         tail 1 7 => tail 0
         start => start 0 1 1 0 0 0 0 0
         start => start 0 1 1 1 0 1 3 1
         start => start 0 1 1 2 0 2 3 2
         start => start 0 1 1 3 0 3 3 3
         start => start 0 1 1 4 0 4 3 4
         finish 0 0 0 => finish 0 0 0
         head 1 0 => head 10
         head 1 2 => head 10
         head 1 0 => head 10
         finish 1 0 0 => finish 0 1 1
         head 1 2 => head 0
         head 1 2 => head 10
         show-cq 1 => show-cq 1 0 4 2 2 1
         finish 2 0 0 => finish 0 2 2
         finish 3 0 0 => finish 0 3 3
         finish 4 0 0 => finish 0 0 4
         head 1 2 => head 10
         head 1 0 => head 0
         head 1 0 => head 10
         head 1 1 => head 0
         show-cq 1 => show-cq 1 0 4 1 1 0
         show-sq 1 => show-sq 1 4096 8 5 7 1 0 0
         head 2 0 => head 9
         head 16 0 => head 1",
    );
}

pub const TRIALS: [Named; 4] = [
    ("value held, plain checks", plain_checks),
    ("value held, first tail", first_tail),
    ("value held, later tails", later_tails),
    ("value held, heads", heads),
];
