//! Trials of document 02's fifth request, "Delete and create again": what a queue is like that is
//! created again, which bytes it may have, and what a deletion leaves as it was. The expected
//! answers were written by hand.

use crate::traced::{Named, Trial};

impl Trial {
    /// Starts once for each of these SQs, and holds the ids served against them.
    pub fn serves(&mut self, row: &[u64]) {
        for id in row {
            let answer = self.ask("start");
            if !answer.starts_with(&format!("start 0 {id} ")) {
                self.faults.push(format!("{answer}, expected SQ {id} of {row:?}"));
            }
        }
    }

    /// Deletes an SQ and creates it again with 8 entries on CQ 1 and in this class, where SQs have
    /// 4,096 bytes each, by their number.
    pub fn again(&mut self, id: u64, class: u64) {
        self.expect(&format!("delete-sq {id}"), "delete-sq 0");
        self.expect(&format!("create-sq {id} 8 {} 1 {class}", 4096 * id), "create-sq 0");
    }

    /// A controller with CQ 1 and with SQs 1, 2, 3 of these classes, at those places.
    pub fn classes(&mut self, controller: &str, classes: [u64; 3]) {
        self.expect(controller, "controller 0");
        self.expect("create-cq 1 64 0", "create-cq 0");
        for (id, class) in (1..).zip(classes) {
            self.expect(&format!("create-sq {id} 8 {} 1 {class}", 4096 * id), "create-sq 0");
        }
    }
}

/// "a mark ends with its queue", and does not stop a deletion.
fn marks(t: &mut Trial) {
    t.play(
        "create-cq 1 4 0 => create-cq 0
         create-sq 1 4 4096 1 0 => create-sq 0
         tail 1 2 => tail 0
         tail 1 2 => tail 10
         tail 1 3 => tail 11
         start => start 12 0 0 0 0 0 0 0
         delete-sq 1 => delete-sq 0
         tail 1 3 => tail 9
         create-sq 1 4 4096 1 0 => create-sq 0
         show-sq 1 => show-sq 1 4096 4 0 0 1 0 0
         tail 1 2 => tail 0
         start => start 0 1 1 0 0 0 0 0
         tail 1 3 => tail 0
         tail 1 3 => tail 10
         tail 1 0 => tail 11
         finish 0 0 0 => finish 0 0 0
         delete-sq 1 => delete-sq 0
         create-sq 1 4 4096 1 0 => create-sq 0
         tail 1 0 => tail 10
         show-sq 1 => show-sq 1 4096 4 0 0 1 0 1",
    );
}

/// A CQ that is deleted in its second pass begins with phase tag 1, and head and tail are 0.
fn second_pass(t: &mut Trial) {
    t.play(
        "create-cq 1 2 0 => create-cq 0
         create-sq 1 8 4096 1 0 => create-sq 0
         tail 1 3 => tail 0
         start => start 0 1 1 0 0 0 0 0
         start => start 0 1 1 1 0 1 3 1
         start => start 0 1 1 2 0 2 3 2
         finish 0 0 0 => finish 0 0 0
         head 1 1 => head 0
         finish 1 0 0 => finish 0 1 1
         head 1 0 => head 0
         finish 2 0 0 => finish 0 0 2
         peek 14 2 => peek 0600
         show-cq 1 => show-cq 1 0 2 0 1 0
         show-sq 1 => show-sq 1 4096 8 3 3 1 0 0
         delete-cq 1 => delete-cq 34
         delete-sq 1 => delete-sq 0
         delete-cq 1 => delete-cq 0
         show-sq 1 => show-sq 0 0 0 0 0 0 0 0
         show-cq 1 => show-cq 0 0 0 0 0 0
         create-sq 1 8 4096 1 0 => create-sq 7
         create-cq 1 2 0 => create-cq 0
         show-cq 1 => show-cq 1 0 2 0 0 1
         head 1 0 => head 10
         head 1 1 => head 10
         create-sq 1 8 4096 1 0 => create-sq 0
         show-sq 1 => show-sq 1 4096 8 0 0 1 0 0
         tail 1 1 => tail 0
         start => start 0 1 1 0 0 0 0 3
         finish 0 0 5 => finish 0 0 3
         peek 0 16 => peek 05000000000000000100010000000100
         waiting 0 32 2 0 1 => waiting 0 1
         head 1 1 => head 0
         show-cq 1 => show-cq 1 0 2 1 1 1",
    );
}

/// Creating writes nothing: old phase tags are there until the host clears them.
fn old_phase_tags(t: &mut Trial) {
    t.three_sqs();
    t.play(
        "tail 1 2 => tail 0
         start => start 0 1 1 0 0 0 0 0
         start => start 0 1 1 1 0 1 3 1
         finish 0 0 0 => finish 0 0 0
         finish 1 0 0 => finish 0 1 1
         delete-sq 1 => delete-sq 0
         delete-sq 2 => delete-sq 0
         delete-sq 3 => delete-sq 0
         delete-cq 1 => delete-cq 0
         create-cq 1 4 0 => create-cq 0
         waiting 0 64 4 0 1 => waiting 0 2
         head 1 1 => head 10
         delete-cq 1 => delete-cq 0
         poke 14 0 => poke 1
         poke 30 0 => poke 1
         create-cq 1 4 0 => create-cq 0
         waiting 0 64 4 0 1 => waiting 0 0
         create-sq 1 8 4096 1 0 => create-sq 0
         tail 1 1 => tail 0
         start => start 0 1 1 0 0 0 0 2
         finish 0 0 0 => finish 0 0 2
         waiting 0 64 4 0 1 => waiting 0 1
         head 1 1 => head 0",
    );
}

/// "A deleted id and its bytes may be used again": by either kind, elsewhere, in another size.
/// "Refusal 6 looks at living rings only", and so does 2.
fn bytes(t: &mut Trial) {
    t.play(
        "create-cq 1 256 0 => create-cq 0
         create-sq 1 64 4096 1 0 => create-sq 0
         create-cq 2 4 0 => create-cq 6
         create-cq 2 4 4096 => create-cq 6
         create-cq 1 4 8192 => create-cq 2
         create-sq 1 4 8192 1 0 => create-sq 2
         delete-sq 1 => delete-sq 0
         create-sq 2 64 4096 1 0 => create-sq 0
         create-sq 1 64 4096 1 0 => create-sq 6
         delete-sq 2 => delete-sq 0
         create-cq 2 4 4096 => create-cq 0
         create-sq 1 64 4096 1 0 => create-sq 6
         create-sq 1 4 8192 1 3 => create-sq 0
         show-sq 1 => show-sq 1 8192 4 0 0 1 3 0
         create-sq 1 4 12288 1 3 => create-sq 2
         delete-sq 1 => delete-sq 0
         delete-cq 1 => delete-cq 0
         create-sq 1 4 0 1 0 => create-sq 7
         create-sq 1 64 0 2 0 => create-sq 0
         show-sq 1 => show-sq 1 0 64 0 0 2 0 0
         create-cq 1 4 0 => create-cq 6
         create-cq 1 1024 8192 => create-cq 0
         show-cq 1 => show-cq 1 8192 1024 0 0 1
         delete-cq 1 => delete-cq 0
         create-cq 1 2 8192 => create-cq 0
         create-cq 3 4 12288 => create-cq 0
         show-cq 1 => show-cq 1 8192 2 0 0 1",
    );
}

/// An SQ created again on another CQ is finished there, and the old one is free to go.
fn another_cq(t: &mut Trial) {
    t.play(
        "create-cq 1 4 0 => create-cq 0
         create-cq 2 4 4096 => create-cq 0
         create-sq 1 4 8192 1 0 => create-sq 0
         delete-sq 1 => delete-sq 0
         create-sq 1 4 8192 2 0 => create-sq 0
         delete-cq 2 => delete-cq 34
         tail 1 2 => tail 0
         start => start 0 1 1 0 0 0 0 0
         finish 0 0 9 => finish 0 0 0
         peek 0 16 => peek 00000000000000000000000000000000
         peek 4096 16 => peek 09000000000000000100010000000100
         delete-cq 1 => delete-cq 0
         start => start 0 1 1 0 0 1 0 1
         finish 0 0 0 => finish 0 1 1
         show-cq 2 => show-cq 1 4096 4 0 2 1",
    );
}

/// A deletion does not look at memory, and 5 at start and finish is about living rings.
fn outside_memory(t: &mut Trial) {
    t.play(
        "create-cq 1 4 0 => create-cq 0
         create-sq 1 4 4096 1 0 => create-sq 0
         create-sq 2 4 8192 1 0 => create-sq 0
         create-cq 2 4 12288 => create-cq 0
         tail 1 2 => tail 0
         start => start 0 1 1 0 0 0 0 0
         lend 8192 => lend 8192
         start => start 5 0 0 0 0 0 0 0
         finish 0 0 0 => finish 5 0 0
         delete-sq 1 => delete-sq 33
         delete-sq 2 => delete-sq 0
         start => start 5 0 0 0 0 0 0 0
         finish 0 0 0 => finish 5 0 0
         delete-cq 2 => delete-cq 0
         start => start 0 1 1 1 0 1 3 1
         finish 0 0 0 => finish 0 0 0
         create-sq 2 4 8192 1 0 => create-sq 5
         create-cq 2 4 12288 => create-cq 5
         finish 1 0 0 => finish 0 1 1
         lend 1048576 => lend 1048576
         create-sq 2 4 8192 1 0 => create-sq 0
         tail 2 1 => tail 0
         lend 8447 => lend 8447
         start => start 5 0 0 0 0 0 0 0
         delete-sq 2 => delete-sq 0
         start => start 12 0 0 0 0 0 0 0",
    );
}

/// "Turn holders and remainders stay as numbers." Burst 4: of SQ 2's turn three starts are left.
fn turns(t: &mut Trial) {
    let after_one_start_of_2 = |t: &mut Trial, word: u64| {
        t.classes(&format!("controller 0 {word}"), [0, 0, 0]);
        t.expect("tail 2 1", "tail 0");
        t.serves(&[2]);
        t.expect("finish 0 0 0", "finish 0 0 0");
    };
    // The holder created again goes on with the remainder left, whatever its class.
    for class in [0, 2] {
        after_one_start_of_2(t, 2);
        t.again(2, class);
        t.play("tail 1 2 => tail 0\n tail 2 5 => tail 0\n tail 3 2 => tail 0");
        t.serves(&[2, 2, 2, 3, 3, 1, 1, 2, 2]);
    }
    // Twice, with a start between.
    after_one_start_of_2(t, 2);
    t.again(2, 0);
    t.expect("tail 2 2", "tail 0");
    t.serves(&[2]);
    t.expect("finish 0 0 0", "finish 0 1 1");
    t.again(2, 0);
    t.play("tail 1 2 => tail 0\n tail 2 5 => tail 0\n tail 3 2 => tail 0");
    t.serves(&[2, 2, 3, 3, 1, 1, 2, 2, 2]);
    // While it is gone, the next after it takes the turn, and then the remainder is that one's.
    after_one_start_of_2(t, 2);
    t.play("tail 1 2 => tail 0\n tail 3 2 => tail 0\n delete-sq 2 => delete-sq 0");
    t.serves(&[3]);
    t.expect("create-sq 2 8 8192 1 0", "create-sq 0");
    t.expect("tail 2 1", "tail 0");
    t.serves(&[3, 1, 1, 2]);
    // A remainder without limit stays so; one that is used up stays so too.
    after_one_start_of_2(t, 7);
    t.again(2, 0);
    t.play("tail 1 2 => tail 0\n tail 2 7 => tail 0\n tail 3 2 => tail 0");
    t.serves(&[2, 2, 2, 2, 2, 2, 2, 3, 3, 1, 1]);
    after_one_start_of_2(t, 0);
    t.again(2, 0);
    t.play("tail 1 1 => tail 0\n tail 2 2 => tail 0\n tail 3 1 => tail 0");
    t.serves(&[3, 1, 2, 2]);
}

/// "in each group by that group's own numbers". Burst 4, weights 3; SQs 1 and 2 high, 3 medium.
fn groups(t: &mut Trial) {
    // High: SQ 1 takes a turn of 3, one is used. In medium it is new, and takes a turn of 3 there,
    // of which two are used. Back in high it has two left.
    t.classes("controller 1 0x02020202", [1, 1, 2]);
    t.expect("tail 1 1", "tail 0");
    t.serves(&[1]);
    t.expect("finish 0 0 0", "finish 0 0 0");
    t.again(1, 2);
    t.play("tail 1 2 => tail 0\n tail 3 1 => tail 0");
    t.serves(&[1, 1, 3]);
    t.play("finish 0 0 0 => finish 0 1 1\n finish 1 0 0 => finish 0 2 2");
    t.again(1, 1);
    t.play("tail 1 3 => tail 0\n tail 2 1 => tail 0");
    t.serves(&[1, 1, 2, 1]);
    // Urgent: the turn of 4 has three left.
    t.classes("controller 1 2", [0, 0, 0]);
    t.expect("tail 2 1", "tail 0");
    t.serves(&[2]);
    t.expect("finish 0 0 0", "finish 0 0 0");
    t.again(2, 0);
    t.play("tail 1 2 => tail 0\n tail 2 5 => tail 0\n tail 3 2 => tail 0");
    t.serves(&[2, 2, 2, 3, 3, 1, 1, 2, 2]);
    // As low as it is now, it does not have the urgent turn that it holds.
    t.classes("controller 1 2", [0, 0, 3]);
    t.expect("tail 2 1", "tail 0");
    t.serves(&[2]);
    t.expect("finish 0 0 0", "finish 0 0 0");
    t.again(2, 3);
    t.play("tail 1 2 => tail 0\n tail 2 2 => tail 0\n tail 3 2 => tail 0");
    t.serves(&[1, 1, 2, 3, 2, 3]);
}

/// Credits stay, both where an SQ goes and where it comes again; weights are 1.
fn credits(t: &mut Trial) {
    t.classes("controller 1 0", [1, 1, 3]);
    t.expect("tail 1 1", "tail 0");
    t.serves(&[1]);
    t.expect("finish 0 0 0", "finish 0 0 0");
    t.play("delete-sq 1 => delete-sq 0\n tail 2 1 => tail 0\n tail 3 3 => tail 0");
    t.serves(&[3]);
    t.expect("create-sq 1 8 4096 1 1", "create-sq 0");
    t.expect("tail 1 1", "tail 0");
    // High and low have none: refill. SQ 2 comes after the holder 1.
    t.serves(&[2, 3, 1, 3]);
    t.classes("controller 1 0", [1, 1, 3]);
    t.expect("tail 1 1", "tail 0");
    t.serves(&[1]);
    t.expect("finish 0 0 0", "finish 0 0 0");
    t.again(1, 1);
    t.play("tail 1 1 => tail 0\n tail 3 2 => tail 0");
    t.serves(&[3, 1, 3]);
}

/// A refusal of a deletion leaves turns as they are too: SQ 2 goes on.
fn refused(t: &mut Trial) {
    t.classes("controller 0 2", [0, 0, 0]);
    t.play("tail 1 2 => tail 0\n tail 2 3 => tail 0\n tail 3 1 => tail 0");
    t.serves(&[1, 1, 2]);
    t.unchanged("delete-sq 2", "delete-sq 33");
    t.unchanged("delete-sq 0", "delete-sq 35");
    t.unchanged("delete-cq 1", "delete-cq 34");
    t.serves(&[2, 2, 3]);
}

pub const TRIALS: [Named; 10] = [
    ("again, marks", marks),
    ("again, second pass", second_pass),
    ("again, old phase tags", old_phase_tags),
    ("again, bytes", bytes),
    ("again, another CQ", another_cq),
    ("again, outside memory", outside_memory),
    ("again, turns", turns),
    ("again, groups", groups),
    ("again, credits", credits),
    ("again, refused", refused),
];
