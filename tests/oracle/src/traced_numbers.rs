//! Trials of document 02's fourth request, "Numbering each start", as far as a script reaches its
//! rules. The expected answers were written by hand.

use crate::model::INVALID_FIELD;
use crate::traced::{Named, Trial};

/// What the trials tell entries apart by: OPC, FUSE and CID.
pub type Entry = (u64, u64, u64);

impl Trial {
    /// Writes entries into slots one behind the other, from this address on.
    pub fn write_entries(&mut self, at: u64, entries: &[Entry]) {
        for ((opc, fuse, cid), slot) in entries.iter().zip(0..) {
            let at = at + 64 * slot;
            let line = format!("write-sqe {at} 64 {opc} {fuse} 0 {cid} 1 0 0 0 9 3 0 0 0 0");
            self.expect(&line, "write-sqe 0");
        }
    }
}

/// "0 for the first command a controller takes and one more for each further command, a pair taking
/// two in order", one with a verdict too. "Finish reports it", in any order of finishing.
fn singles_and_pairs(t: &mut Trial) {
    t.play("create-cq 1 16 0 => create-cq 0\n create-sq 1 8 4096 1 0 => create-sq 0");
    let single = |cid: u64| (2, 0, cid);
    t.write_entries(4096, &[single(10), (5, 1, 11), (1, 2, 12), single(13)]);
    t.write_entries(4352, &[(5, 1, 14), (2, 2, 15), single(16), single(17)]);
    t.play(&format!(
        "tail 1 7 => tail 0
         start => start 0 1 1 0 0 0 0 0
         start => start 0 1 2 1 2 1 0 1
         start => start 0 1 1 3 0 3 0 3
         start => start 0 1 2 4 5 4 {INVALID_FIELD} 4
         start => start 0 1 1 6 0 6 0 6
         show-tag 4 => show-tag 1 1 14 {INVALID_FIELD} 4
         show-tag 5 => show-tag 1 1 15 {INVALID_FIELD} 5"
    ));
    t.play(
        "show-tag 0 => show-tag 1 1 10 0 0
         show-tag 1 => show-tag 1 1 11 0 1
         show-tag 2 => show-tag 1 1 12 0 2
         show-tag 3 => show-tag 1 1 13 0 3
         show-tag 6 => show-tag 1 1 16 0 6
         show-tag 7 => show-tag 0 0 0 0 0
         finish 6 0 0 => finish 0 0 6
         finish 2 0 0 => finish 16 0 0
         finish 1 0 0 => finish 0 1 1
         show-tag 2 => show-tag 1 1 12 0 2
         finish 4 0 0 => finish 0 2 4
         finish 2 0 0 => finish 0 3 2
         finish 0 32768 0 => finish 15 0 0
         finish 0 0 0 => finish 0 4 0
         finish 0 0 0 => finish 14 0 0
         show-tag 0 => show-tag 0 0 0 0 0
         finish 5 0 0 => finish 0 5 5
         finish 3 0 0 => finish 0 6 3
         start => start 12 0 0 0 0 0 0 0",
    );
    // Numbers go on where none is outstanding. "It does not appear in the ring."
    t.play(
        "tail 1 1 => tail 0
         start => start 0 1 1 0 0 7 0 7
         start => start 0 1 1 1 0 0 0 8
         show-tag 0 => show-tag 1 1 17 0 7
         show-tag 1 => show-tag 1 1 10 0 8
         finish 1 0 0 => finish 0 7 8
         finish 0 0 0 => finish 0 8 7
         peek 112 16 => peek 0000000000000000010001000a000100
         peek 128 16 => peek 00000000000000000100010011000100",
    );
}

/// A refused start uses no number, whether with 5, 12 or 13.
fn refused_starts(t: &mut Trial) {
    t.play(
        "start => start 12 0 0 0 0 0 0 0
         create-cq 1 64 0 => create-cq 0
         create-sq 1 128 4096 1 0 => create-sq 0
         start => start 12 0 0 0 0 0 0 0
         tail 1 1 => tail 0
         lend 12287 => lend 12287
         start => start 5 0 0 0 0 0 0 0
         start => start 5 0 0 0 0 0 0 0
         lend 12288 => lend 12288
         start => start 0 1 1 0 0 0 0 0
         start => start 12 0 0 0 0 0 0 0
         tail 1 65 => tail 0",
    );
    for taken in 1..64 {
        t.expect("start", &format!("start 0 1 1 {taken} 0 {taken} 3 {taken}"));
    }
    t.play(
        "start => start 13 0 0 0 0 0 0 0
         start => start 13 0 0 0 0 0 0 0
         finish 5 0 0 => finish 0 0 5
         start => start 0 1 1 5 0 64 3 64",
    );
    t.write_entries(4096 + 64 * 65, &[(5, 1, 7), (1, 2, 8)]);
    t.play(
        "tail 1 68 => tail 0
         finish 9 0 0 => finish 0 1 9
         start => start 13 0 0 0 0 0 0 0
         finish 63 0 0 => finish 0 2 63
         start => start 0 1 2 9 63 65 0 65
         show-tag 9 => show-tag 1 1 7 0 65
         show-tag 63 => show-tag 1 1 8 0 66
         finish 5 0 0 => finish 0 3 64
         start => start 0 1 1 5 0 67 3 67
         tail 1 128 => tail 10
         finish 63 0 0 => finish 16 0 0
         finish 9 1 0 => finish 0 4 65
         start => start 12 0 0 0 0 0 0 0
         show-tag 63 => show-tag 1 1 8 9 66
         finish 63 0 0 => finish 0 5 66",
    );
}

/// "a freed tag is used again", each time with a new number.
fn freed_tags(t: &mut Trial) {
    t.play("create-cq 1 4 0 => create-cq 0\n create-sq 1 4 4096 1 0 => create-sq 0");
    for number in 0..300 {
        let (slot, next) = (number % 4, (number + 1) % 4);
        t.expect(&format!("tail 1 {next}"), "tail 0");
        t.expect("start", &format!("start 0 1 1 0 0 {slot} 0 {number}"));
        t.expect("show-tag 0", &format!("show-tag 1 1 0 0 {number}"));
        t.expect("finish 0 0 0", &format!("finish 0 {slot} {number}"));
        t.expect(&format!("head 1 {next}"), "head 0");
    }
}

/// Each controller begins at 0, a refused one too.
fn controllers(t: &mut Trial) {
    for (line, answer) in [
        ("controller 0 0", "controller 0"),
        ("controller 0 0", "controller 0"),
        ("controller 1 0", "controller 0"),
        ("controller 2 0", "controller 23"),
        ("controller 0 7", "controller 0"),
    ] {
        t.expect(line, answer);
        t.play(
            "create-cq 1 4 0 => create-cq 0
             create-sq 1 4 4096 1 0 => create-sq 0
             tail 1 2 => tail 0
             start => start 0 1 1 0 0 0 0 0
             start => start 0 1 1 1 0 1 3 1
             finish 1 0 0 => finish 0 0 1
             show-tag 0 => show-tag 1 1 0 0 0",
        );
    }
}

/// Starts in a replay take numbers like any other; a call that is not made, or refused, takes none.
fn replayed_starts(t: &mut Trial) {
    t.queue_1(16, 16);
    t.write_entries(4096, &[(2, 0, 6), (5, 1, 7), (1, 2, 8), (2, 0, 9), (2, 0, 10), (2, 0, 11)]);
    t.replays(&[
        ("03", "030c0000"),
        ("01010400", "01000400"),
        ("0301", "031e0000"),
        ("03", "03000000"),
        ("03", "03000100"),
        ("04010500", "04000000"),
        ("03", "03000100"),
        ("03", "030c0000"),
    ]);
    t.play(
        "show-tag 0 => show-tag 1 1 6 0 0
         show-tag 1 => show-tag 1 1 9 0 3
         show-tag 2 => show-tag 1 1 8 9 2
         tail 1 6 => tail 0
         replay 15 03000000000000000000000000000000 => replay 21 0
         start => start 0 1 1 3 0 4 0 4
         finish 2 0 0 => finish 0 1 2
         finish 1 0 0 => finish 0 2 3",
    );
    t.replays(&[("03", "03000100"), ("04000000", "04000300")]);
    t.play(
        "show-tag 1 => show-tag 1 1 11 0 5
         finish 1 0 0 => finish 0 4 5
         finish 3 0 0 => finish 0 5 4",
    );
}

pub const TRIALS: [Named; 5] = [
    ("numbers, singles and pairs", singles_and_pairs),
    ("numbers, refused starts", refused_starts),
    ("numbers, freed tags", freed_tags),
    ("numbers, controllers", controllers),
    ("numbers, replayed starts", replayed_starts),
];
