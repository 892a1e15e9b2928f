//! The whole case of document 02's first request, and trials of each of its rules. The
//! expected answers were written by hand.

use crate::traced::{Named, Trial};

/// The record that begins with these digits: "padded with twelve zeros".
fn record(digits: &str) -> String {
    format!("{digits:0<32}")
}

impl Trial {
    /// Replays records, given by their first bytes, and expects such answer records, with room
    /// for just these.
    pub fn replays(&mut self, rows: &[(&str, &str)]) {
        let sent: Vec<String> = rows.iter().map(|(sent, _)| record(sent)).collect();
        let answered: String = rows.iter().map(|(_, answered)| record(answered)).collect();
        let count = rows.len();
        let line = format!("replay {} {}", 16 * count, sent.join(" "));
        self.expect(&line, &format!("replay 0 {count} {answered}"));
    }

    /// A fresh controller with SQ 1 and CQ 1 of these sizes, and CIDs 0, 1, 2 in the SQ.
    pub fn queue_1(&mut self, sq_size: u64, cq_size: u64) {
        self.expect("controller 0 0", "controller 0");
        self.expect(&format!("create-cq 1 {cq_size} 0"), "create-cq 0");
        self.expect(&format!("create-sq 1 {sq_size} 4096 1 0"), "create-sq 0");
        self.play("poke 4162 1 => poke 1\n poke 4226 2 => poke 1");
    }
}

fn whole_case(t: &mut Trial) {
    t.queue_1(4, 4);
    t.replays(&[("01010100", "01000100"), ("03000000", "03000000"), ("03000000", "030c0000")]);
    t.play(
        "show-sq 1 => show-sq 1 4096 4 1 1 1 0 0
         show-tag 0 => show-tag 1 1 0 0 0",
    );
}

/// "two result bytes (value written, first tag, or slot posted)".
fn results(t: &mut Trial) {
    t.queue_1(1024, 4);
    t.replays(&[
        ("01010201", "01000201"),
        ("03", "03000000"),
        ("03", "03000100"),
        ("040100", "04000000"),
        ("04008502", "04000100"),
        ("02010200", "02000200"),
        ("03", "03000000"),
    ]);
    // Status 285h, and 0 as the command's result.
    t.play(
        "peek 16 16 => peek 00000000000000000200010000000b05
         show-sq 1 => show-sq 1 4096 1024 3 258 1 0 0
         show-cq 1 => show-cq 1 0 4 2 2 1",
    );
}

/// The calls' own refusals, with 0 beside them.
fn refusals(t: &mut Trial) {
    t.queue_1(4, 2);
    t.replays(&[
        ("01100100", "01010000"),
        ("02ff0000", "02010000"),
        ("01020100", "01090000"),
        ("020f0000", "02090000"),
        ("02010100", "020a0000"),
        ("03", "030c0000"),
        ("04000000", "040e0000"),
        ("04400080", "040e0000"),
        ("01010200", "01000200"),
        ("03", "03000000"),
        ("03", "03000100"),
        ("04400000", "040e0000"),
        ("04810000", "040e0000"),
        ("04000080", "040f0000"),
        ("0400ffff", "040f0000"),
        ("0400ff7f", "04000000"),
        ("04010000", "04110000"),
        ("01010400", "010a0000"),
        ("01010200", "010b0000"),
    ]);
    t.play(
        "show-sq 1 => show-sq 1 4096 4 2 2 1 0 1
         show-tag 1 => show-tag 1 1 1 0 1
         lend 4096 => lend 4096",
    );
    t.replays(&[("03", "03050000"), ("04400080", "04050000"), ("02010100", "02000100")]);
}

/// A second half waits for its first, and too few tags are free for a pair.
fn pairs(t: &mut Trial) {
    t.queue_1(128, 64);
    t.play(
        "write-sqe 4096 64 5 1 0 7 1 0 0 0 9 3 0 0 0 0 => write-sqe 0
         write-sqe 4160 64 1 2 0 8 1 0 0 0 9 3 0 0 0 0 => write-sqe 0",
    );
    t.replays(&[
        ("01010200", "01000200"),
        ("03", "03000000"),
        ("04010000", "04100000"),
        ("04000500", "04000000"),
        ("04010000", "04000100"),
        ("01014200", "01004200"),
    ]);
    t.expect("peek 30 2", "peek 1300");
    for tag in 0..64 {
        t.replays(&[("03", &format!("0300{tag:02x}"))]);
    }
    t.expect("tail 1 67", "tail 0");
    t.replays(&[("03", "030d0000")]);
}

/// "a write of the value held is refused with 10 on either doorbell": document 02's second
/// request, in records.
fn value_held(t: &mut Trial) {
    t.queue_1(4, 4);
    t.replays(&[
        ("02010000", "020a0000"),
        ("01010200", "01000200"),
        ("03", "03000000"),
        ("04000000", "04000000"),
        ("02010000", "020a0000"),
        ("02010100", "02000100"),
        ("02010100", "020a0000"),
        ("01010200", "010a0000"),
        ("01010200", "010b0000"),
        ("01010300", "010b0000"),
        ("03", "030c0000"),
    ]);
    t.play(
        "show-sq 1 => show-sq 1 4096 4 1 2 1 0 1
         show-cq 1 => show-cq 1 0 4 1 1 1",
    );
    t.queue_1(4, 4);
    t.replays(&[("01010000", "010a0000"), ("01010000", "010b0000"), ("01010100", "010b0000")]);
}

/// "30 answers and goes on": no call is made, and the next record's is.
fn malformed(t: &mut Trial) {
    t.queue_1(4, 4);
    for call in (0u8..=255).filter(|call| !(1..=4).contains(call)) {
        let sent = format!("{call:02x}010100");
        t.replays(&[(&sent, &format!("{call:02x}1e"))]);
    }
    for (call, first) in [("01010100", 4), ("02010000", 4), ("03", 1), ("04000000", 4)] {
        for place in first..16 {
            let mut sent = record(call);
            sent.replace_range(2 * place..2 * place + 2, "80");
            t.replays(&[(&sent, &format!("{}1e", &call[..2]))]);
        }
    }
    t.expect("show-sq 1", "show-sq 1 4096 4 0 0 1 0 0");
    t.replays(&[("0001", "001e0000"), ("01010100", "01000100"), ("0301", "031e"), ("03", "03")]);
}

/// "31, before 30, for a last short record", and it ends the replay.
fn short(t: &mut Trial) {
    t.queue_1(4, 4);
    for length in 1..16 {
        for digits in ["01010100", "00", "ff01", "03ffffffffffffffffffffffffffffff"] {
            let sent = &record(digits)[..2 * length];
            let answered = record(&format!("{}1f", &digits[..2]));
            t.expect(&format!("replay 16 {sent}"), &format!("replay 0 1 {answered}"));
        }
    }
    t.expect("show-sq 1", "show-sq 1 4096 4 0 0 1 0 0");
    let sent = format!("{}03", record("01010100"));
    let answered = record("01000100") + &record("031f");
    t.expect(&format!("replay 32 {sent}"), &format!("replay 0 2 {answered}"));
    t.expect("show-sq 1", "show-sq 1 4096 4 0 1 1 0 0");
}

/// "The answer room is tested first (21), one record for each begun record".
fn room(t: &mut Trial) {
    t.queue_1(4, 4);
    let sent = record("01010100");
    for room in [0, 1, 15] {
        t.expect(&format!("replay {room} {sent}"), "replay 21 0");
        t.expect(&format!("replay {room} 05"), "replay 21 0");
    }
    t.expect(&format!("replay 16 {sent} 00"), "replay 21 0");
    t.expect(&format!("replay 31 {sent} 01010100"), "replay 21 0");
    t.expect("show-sq 1", "show-sq 1 4096 4 0 0 1 0 0");
    t.play(
        "replay 0 => replay 0 0
         replay 2048 => replay 0 0",
    );
    t.expect(&format!("replay 17 {sent}"), &format!("replay 0 1 {}", record("01000100")));
    let next = record("01010200");
    t.expect(&format!("replay 2048 {next}"), &format!("replay 0 1 {}", record("01000200")));
}

/// How a line may be written, and that a bad one does nothing.
fn lines(t: &mut Trial) {
    t.queue_1(4, 4);
    let good = record("01010100");
    let bad = [
        "replay".to_string(),
        "replay x".to_string(),
        format!("replay {good}"),
        format!("replay 2049 {good}"),
        format!("replay -1 {good}"),
        format!("replay 0X30 {good}"),
        format!("replay 48 {good} 0"),
        format!("replay 48 {good} 030"),
        format!("replay 48 0x{good}"),
        format!("replay 48 {good} 0g"),
        format!("replay 48 {good} g0"),
        format!("replay 48 {good} 03 1"),
        format!("replay 48 {good} -1"),
        format!("Replay 48 {good}"),
    ];
    for (line, number) in bad.iter().zip(6..) {
        t.expect(line, &format!("? {number}"));
    }
    t.expect("show-sq 1", "show-sq 1 4096 4 0 0 1 0 0");
    let answer = format!("replay 0 1 {}", record("01000200"));
    t.expect("replay 0x10 0101 02 00000000000000000000000000#0", &answer);
    let sent = "ABcdEF0123456789abCDef0123456789";
    t.expect(&format!("\treplay 0016\t{sent}\r"), &format!("replay 0 1 {}", record("ab1e")));
}

pub const TRIALS: [Named; 9] = [
    ("replay, the whole case", whole_case),
    ("replay, results", results),
    ("replay, refusals", refusals),
    ("replay, pairs", pairs),
    ("replay, value held", value_held),
    ("replay, 30", malformed),
    ("replay, 31", short),
    ("replay, 21", room),
    ("replay, lines", lines),
];
