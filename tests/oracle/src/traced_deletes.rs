//! Trials of document 02's fifth request, "Delete and create again": what stops a deletion, and
//! what does not. The expected answers were written by hand.

use crate::model::INVALID_FIELD;
use crate::traced::{Named, Trial};

/// Numbers above 15, most of them with 0 or 1 in their low bits.
const ABOVE_15: [&str; 8] = [
    "31",
    "16",
    "256",
    "257",
    "65536",
    "0x100000000",
    "9223372036854775808",
    "18446744073709551615",
];

impl Trial {
    /// Expects that a deletion is refused with this number, and changes nothing.
    fn refuses_deletion(&mut self, line: &str, refusal: u64) {
        let name = line.split(' ').next().unwrap_or_default();
        self.unchanged(line, &format!("{name} {refusal}"));
    }

    /// Expects 1 for all numbers above 15, of either kind.
    fn refuses_above_15(&mut self) {
        for id in ABOVE_15 {
            self.refuses_deletion(&format!("delete-sq {id}"), 1);
            self.refuses_deletion(&format!("delete-cq {id}"), 1);
        }
    }

    /// CQ 1, and SQs 1 to 3 on it, of 8 entries each.
    pub fn three_sqs(&mut self) {
        self.play(
            "create-cq 1 8 0 => create-cq 0
             create-sq 1 8 4096 1 0 => create-sq 0
             create-sq 2 8 8192 1 0 => create-sq 0
             create-sq 3 8 12288 1 0 => create-sq 0",
        );
    }
}

/// "Order: 1, 35, 9, 33 or 34." 35 also where there is no queue 0.
fn order(t: &mut Trial) {
    t.refuses_above_15();
    t.refuses_deletion("delete-sq 0", 35);
    t.refuses_deletion("delete-cq 0", 35);
    for id in [1, 2, 15] {
        t.refuses_deletion(&format!("delete-sq {id}"), 9);
        t.refuses_deletion(&format!("delete-cq {id}"), 9);
    }
    t.expect("create-cq 0 4 16384", "create-cq 0");
    t.refuses_deletion("delete-cq 0", 35);
    t.refuses_deletion("delete-sq 0", 35);
    t.expect("create-sq 0 4 20480 0 0", "create-sq 0");
    t.three_sqs();
    t.refuses_above_15();
    t.refuses_deletion("delete-cq 0", 35);
    t.refuses_deletion("delete-sq 0", 35);
    t.play("tail 0 1 => tail 0\n start => start 0 0 1 0 0 0 0 0");
    t.refuses_deletion("delete-cq 0", 35);
    t.refuses_deletion("delete-sq 0", 35);
    t.play("finish 0 0 0 => finish 0 0 0\n head 0 1 => head 0");
    t.refuses_deletion("delete-sq 0", 35);
    // An SQ and a CQ with one number are two queues.
    t.refuses_deletion("delete-sq 4", 9);
    t.refuses_deletion("delete-cq 2", 9);
    t.expect("delete-sq 2", "delete-sq 0");
    t.refuses_deletion("delete-sq 2", 9);
    t.refuses_deletion("delete-cq 1", 34);
}

/// "is refused while it has outstanding commands (33)": its own, be it one.
fn outstanding(t: &mut Trial) {
    t.three_sqs();
    t.play(
        "tail 1 2 => tail 0
         tail 2 1 => tail 0
         start => start 0 1 1 0 0 0 0 0
         start => start 0 2 1 1 0 0 0 1
         start => start 0 1 1 2 0 1 3 2",
    );
    t.refuses_deletion("delete-sq 1", 33);
    t.refuses_deletion("delete-sq 2", 33);
    // Commands of others do not stop it.
    t.expect("delete-sq 3", "delete-sq 0");
    t.expect("finish 0 0 0", "finish 0 0 0");
    t.refuses_deletion("delete-sq 1", 33);
    t.play("finish 2 0 0 => finish 0 1 2\n delete-sq 1 => delete-sq 0");
    t.refuses_deletion("delete-sq 2", 33);
    // What stays goes on: tag 1 is SQ 2's, and the next start number is 3.
    t.play(
        "show-tag 1 => show-tag 1 2 0 0 1
         finish 1 0 0 => finish 0 2 1
         tail 2 2 => tail 0
         start => start 0 2 1 0 0 1 0 3",
    );
    t.refuses_deletion("delete-sq 2", 33);
    t.play("finish 0 0 0 => finish 0 3 3\n delete-sq 2 => delete-sq 0");
}

/// Either half of a pair stops it, and commands with a verdict do, and those of a marked SQ.
fn halves_and_marks(t: &mut Trial) {
    t.three_sqs();
    t.write_entries(4096, &[(5, 1, 7), (1, 2, 8), (2, 3, 9)]);
    t.play("tail 1 3 => tail 0\n start => start 0 1 2 0 1 0 0 0");
    t.refuses_deletion("delete-sq 1", 33);
    t.expect("finish 0 5 0", "finish 0 0 0");
    // Tag 0 is another's now, and the second half is left.
    t.play("tail 2 1 => tail 0\n start => start 0 2 1 0 0 0 0 2");
    t.refuses_deletion("delete-sq 1", 33);
    t.expect("start", &format!("start 0 1 1 2 0 2 {INVALID_FIELD} 3"));
    t.expect("finish 1 0 0", "finish 0 1 1");
    t.refuses_deletion("delete-sq 1", 33);
    t.expect("tail 1 8", "tail 10");
    t.refuses_deletion("delete-sq 1", 33);
    t.play(
        "finish 2 0 0 => finish 0 2 3
         delete-sq 1 => delete-sq 0
         show-tag 0 => show-tag 1 2 0 0 2
         finish 0 0 0 => finish 0 3 2",
    );
}

/// "Deleting a CQ is refused while an SQ names it (34)", whatever that SQ is like.
fn named(t: &mut Trial) {
    t.three_sqs();
    t.play("create-cq 2 4 16384 => create-cq 0\n create-cq 3 4 20480 => create-cq 0");
    t.refuses_deletion("delete-cq 1", 34);
    t.expect("delete-sq 1", "delete-sq 0");
    t.refuses_deletion("delete-cq 1", 34);
    t.expect("delete-sq 3", "delete-sq 0");
    t.refuses_deletion("delete-cq 1", 34);
    t.expect("tail 2 8", "tail 10");
    t.refuses_deletion("delete-cq 1", 34);
    // Unnamed ones go, also one that has an SQ's number.
    t.play(
        "delete-cq 2 => delete-cq 0
         delete-sq 2 => delete-sq 0
         delete-cq 1 => delete-cq 0",
    );
    t.refuses_deletion("delete-cq 1", 9);
    // Named by an SQ that came after.
    t.expect("create-sq 2 4 8192 3 0", "create-sq 0");
    t.refuses_deletion("delete-cq 3", 34);
    t.play("delete-sq 2 => delete-sq 0\n delete-cq 3 => delete-cq 0");
}

/// Unread entries stop no deletion, and neither does a full ring.
fn unread(t: &mut Trial) {
    t.play(
        "create-cq 1 3 0 => create-cq 0
         create-sq 1 8 4096 1 0 => create-sq 0
         tail 1 2 => tail 0
         start => start 0 1 1 0 0 0 0 0
         start => start 0 1 1 1 0 1 3 1
         finish 0 0 0 => finish 0 0 0
         finish 1 0 0 => finish 0 1 1
         waiting 0 48 3 0 1 => waiting 0 2
         delete-sq 1 => delete-sq 0
         show-cq 1 => show-cq 1 0 3 0 2 1
         waiting 0 48 3 0 1 => waiting 0 2
         head 1 1 => head 0
         delete-cq 1 => delete-cq 0
         head 1 2 => head 9
         waiting 0 48 3 0 1 => waiting 0 2
         peek 0 16 => peek 00000000000000000200010000000100",
    );
}

/// "Deleting an SQ drops its unstarted entries": no start takes them, and their bytes stay.
fn dropped(t: &mut Trial) {
    t.three_sqs();
    t.write_entries(4096, &[(2, 0, 20), (2, 0, 21), (2, 0, 22)]);
    t.play(
        "tail 1 3 => tail 0
         start => start 0 1 1 0 0 0 0 0
         finish 0 0 0 => finish 0 0 0
         delete-sq 1 => delete-sq 0
         start => start 12 0 0 0 0 0 0 0
         show-sq 1 => show-sq 0 0 0 0 0 0 0 0
         tail 1 4 => tail 9
         create-sq 1 8 4096 1 0 => create-sq 0
         start => start 12 0 0 0 0 0 0 0
         tail 1 2 => tail 0
         start => start 0 1 1 0 0 0 0 1
         show-tag 0 => show-tag 1 1 20 0 1
         start => start 0 1 1 1 0 1 0 2
         show-tag 1 => show-tag 1 1 21 0 2
         start => start 12 0 0 0 0 0 0 0",
    );
    // What others have submitted stays.
    t.play(
        "finish 0 0 0 => finish 0 1 1
         finish 1 0 0 => finish 0 2 2
         tail 1 3 => tail 0
         tail 3 1 => tail 0
         delete-sq 1 => delete-sq 0
         start => start 0 3 1 0 0 0 0 3
         start => start 12 0 0 0 0 0 0 0",
    );
}

/// A line has one number of up to 64 bits, and the call needs no memory; a record of a trace cannot
/// name it: calls 5 and 6 are unknown ones.
fn lines_and_records(t: &mut Trial) {
    t.play(
        "delete-sq => ? 1
         delete-cq => ? 2
         delete-sq 1 2 => ? 3
         delete-cq 1 2 => ? 4
         delete-sq -1 => ? 5
         delete-cq 18446744073709551616 => ? 6
         Delete-sq 1 => ? 7
         delete 1 => ? 8
         delete-sq 0x0f # none => delete-sq 9
         delete-cq 00000000000000000000000015 => delete-cq 9
         lend 0 => lend 0
         delete-sq 16 => delete-sq 1
         lend 1048576 => lend 1048576",
    );
    t.queue_1(4, 4);
    t.replays(&[("05010000", "051e0000"), ("06010000", "061e0000"), ("01010100", "01000100")]);
    t.expect("delete-sq 1", "delete-sq 0");
    t.replays(&[("01010200", "01090000"), ("03", "030c0000"), ("02010000", "020a0000")]);
    t.expect("delete-cq 1", "delete-cq 0");
    t.replays(&[("02010000", "02090000"), ("04000000", "040e0000")]);
}

pub const TRIALS: [Named; 7] = [
    ("delete, order", order),
    ("delete, outstanding", outstanding),
    ("delete, halves and marks", halves_and_marks),
    ("delete, named", named),
    ("delete, unread", unread),
    ("delete, dropped", dropped),
    ("delete, lines and records", lines_and_records),
];
