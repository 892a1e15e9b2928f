//! The traced examples at the end of document 01, with a few on pairs and on input lines,
//! played through the console. `oracle selftest` runs them and the trials of document 02's
//! requests, and so does `cargo test`.

use crate::console::{answers, Console};
use crate::{traced_again, traced_arbiter, traced_deletes, traced_doorbells, traced_limit};
use crate::{traced_numbers, traced_replay};

/// A console that remembers every answer other than the expected one.
pub struct Trial {
    pub console: Console,
    pub faults: Vec<String>,
}

impl Trial {
    fn new() -> Trial {
        Trial { console: Console::new(), faults: Vec::new() }
    }

    pub fn ask(&mut self, line: &str) -> String {
        let mut out = Vec::new();
        self.console.take(line.as_bytes(), true).write(&mut out);
        String::from_utf8_lossy(&out).trim_end().to_string()
    }

    pub fn expect(&mut self, line: &str, expected: &str) {
        let answer = self.ask(line);
        if answer != expected {
            self.faults.push(format!("{line}: {answer}, expected {expected}"));
        }
    }

    /// Expects this answer, and that neither controller nor memory changes.
    pub fn unchanged(&mut self, line: &str, expected: &str) {
        let before = self.console.clone();
        self.expect(line, expected);
        let (now, then) = (&self.console, &before);
        if now.controller != then.controller || now.memory() != then.memory() {
            self.faults.push(format!("{line}: {expected} changed something"));
        }
    }

    /// Each line of the text is `line => answer`.
    pub fn play(&mut self, text: &str) {
        for (line, expected) in text.lines().filter_map(|line| line.split_once(" => ")) {
            self.expect(line.trim(), expected.trim());
        }
    }

    /// CQs 0 and 1 and the given SQs, each with its class and so many commands of FUSE 0
    /// with a CID each: "rings have 64 entries, SQ 0 uses CQ 0 and the others CQ 1".
    pub fn queues(&mut self, sqs: &[(u64, u64, u64)]) {
        self.play("create-cq 0 64 0 => create-cq 0\n create-cq 1 64 4096 => create-cq 0");
        for (id, class, commands) in sqs {
            let base = 8192 + id * 4096;
            let cq = u64::from(*id != 0);
            self.expect(&format!("create-sq {id} 64 {base} {cq} {class}"), "create-sq 0");
            for slot in 0..*commands {
                let at = base + 64 * slot;
                let line = format!("write-sqe {at} 64 2 0 0 {slot} 1 0 0 0 0 0 0 0 0 0");
                self.expect(&line, "write-sqe 0");
            }
            self.expect(&format!("tail {id} {commands}"), "tail 0");
        }
    }

    /// Starts until 12, and holds the ids served against the given row; the start numbers count
    /// them from 0.
    fn served(&mut self, row: &str) {
        let mut ids = Vec::new();
        loop {
            let answer = self.ask("start");
            let words: Vec<&str> = answer.split(' ').collect();
            if words[1] != "0" {
                break;
            }
            if words[8] != ids.len().to_string() {
                self.faults.push(format!("{answer} after {} commands", ids.len()));
            }
            ids.push(words[2].to_string());
        }
        if ids.join(" ") != row {
            self.faults.push(format!("served {}, expected {row}", ids.join(" ")));
        }
        self.expect("start", "start 12 0 0 0 0 0 0 0");
    }
}

fn p1(t: &mut Trial) {
    t.expect("controller 0 0", "controller 0");
    t.queues(&[(0, 0, 2), (1, 0, 2), (2, 0, 2)]);
    t.served("0 1 2 0 1 2");
}

fn p2(t: &mut Trial) {
    t.expect("controller 0 1", "controller 0");
    t.queues(&[(1, 0, 3), (2, 0, 3)]);
    t.served("1 1 2 2 1 2");
}

fn p3(t: &mut Trial) {
    t.expect("controller 1 0x01000000", "controller 0");
    t.queues(&[(1, 1, 4), (2, 2, 4), (3, 3, 4)]);
    t.served("1 1 2 3 1 1 2 3 2 3 2 3");
}

fn p4_and_p5(t: &mut Trial) {
    t.play(
        "check-tail 4 0 3 4 => check-tail 10
         check-tail 4 0 3 0 => check-tail 10
         check-tail 4 2 3 1 => check-tail 0
         check-tail 4 2 3 2 => check-tail 10
         create-cq 1 4 0 => create-cq 0
         create-sq 1 4 4096 1 0 => create-sq 0
         create-sq 2 4 8192 1 0 => create-sq 0
         tail 1 3 => tail 0
         tail 1 4 => tail 10
         tail 1 3 => tail 11
         show-sq 1 => show-sq 1 4096 4 0 3 1 0 1
         tail 2 3 => tail 0
         tail 2 0 => tail 10",
    );
    for value in ["1", "2"] {
        t.play(
            "controller 0 0 => controller 0
             create-cq 1 4 0 => create-cq 0
             create-sq 1 4 4096 1 0 => create-sq 0
             tail 1 3 => tail 0
             start => start 0 1 1 0 0 0 0 0
             start => start 0 1 1 1 0 1 3 1",
        );
        let expected = if value == "1" { "tail 0" } else { "tail 10" };
        t.expect(&format!("tail 1 {value}"), expected);
    }
}

fn p6_to_p8(t: &mut Trial) {
    t.play(
        "write-cqe 0 16 0 3 1 0x0102 0 1 => write-cqe 0
         peek 8 8 => peek 0300010002010100
         write-cqe 0 16 0 3 1 0x0102 9 0 => write-cqe 0
         peek 14 2 => peek 1200
         write-cqe 0 16 0 3 1 0x0102 0x285 1 => write-cqe 0
         peek 14 2 => peek 0b05
         read-cqe 0 16 => read-cqe 0 0 3 1 258 645 1",
    );
}

fn p9_to_p11(t: &mut Trial) {
    t.play(
        "walk 0x1004 0x5000 4096 0 16 8 => walk 0 2 0 4100 4092 20480 4
         poke64 0x2000 0x5000 0x6000 0x7000 => poke64 3
         walk 0x1000 0x2000 16384 0 32 16 => walk 0 4 3 4096 4096 20480 4096 24576 4096 28672 4096
         poke64 0x2ff8 0x8000 => poke64 1
         poke64 0x8000 0x5000 0x6000 0x7000 => poke64 3
         walk 0x1000 0x2ff8 16384 0 32 16 => walk 0 4 4 4096 4096 20480 4096 24576 4096 28672 4096",
    );
}

fn list_at_2ff0(t: &mut Trial) {
    t.play(
        "poke64 0x2ff0 0x5000 0x6000 => poke64 2
         walk 0x1000 0x2ff0 12288 0 24 12 => walk 0 3 2 4096 4096 20480 4096 24576 4096",
    );
}

fn cq_size_2(t: &mut Trial) {
    t.play(
        "create-cq 0 2 0 => create-cq 0
         create-sq 0 8 4096 0 0 => create-sq 0
         tail 0 3 => tail 0
         start => start 0 0 1 0 0 0 0 0
         start => start 0 0 1 1 0 1 3 1
         start => start 0 0 1 2 0 2 3 2
         finish 0 0 0 => finish 0 0 0
         peek 14 2 => peek 0100
         finish 1 0 0 => finish 17 0 0
         head 0 1 => head 0
         finish 1 0 0 => finish 0 1 1
         peek 30 2 => peek 0700
         finish 2 0 0 => finish 17 0 0
         head 0 0 => head 0
         finish 2 0 0 => finish 0 0 2
         peek 14 2 => peek 0600",
    );
}

/// Fused pairs: over the wrap, FUSE 1 1 2, 16, 09h, and a freed tag taken by another command.
fn pairs(t: &mut Trial) {
    t.play(
        "create-cq 1 8 0 => create-cq 0
         create-sq 1 4 4096 1 0 => create-sq 0
         write-sqe 4096 64 5 1 0 10 1 0 0 0 9 3 0 0 0 0 => write-sqe 0
         write-sqe 4160 64 5 1 0 11 1 0 0 0 9 3 0 0 0 0 => write-sqe 0
         write-sqe 4224 64 1 2 0 12 1 0 0 0 9 3 0 0 0 0 => write-sqe 0
         tail 1 2 => tail 0
         start => start 0 1 1 0 0 0 10 0
         tail 1 3 => tail 0
         start => start 0 1 2 1 2 1 0 1
         finish 2 0 0 => finish 16 0 0
         finish 1 5 0 => finish 0 0 1
         show-tag 2 => show-tag 1 1 12 9 2
         write-sqe 4288 64 5 1 0 13 1 0 0 0 9 3 0 0 0 0 => write-sqe 0
         write-sqe 4096 64 1 2 0 14 1 0 0 0 9 3 0 0 0 0 => write-sqe 0
         tail 1 1 => tail 0
         start => start 0 1 2 1 3 3 0 3
         finish 2 0 7 => finish 0 1 2
         peek 16 16 => peek 0700000000000000010001000c001300
         finish 0 0 0 => finish 0 2 0",
    );
}

/// Lines of every kind that the console's paper speaks of.
fn lines(t: &mut Trial) {
    let script = b"\r\n\r\r\n# \xff\r\r\n\t tail\t0 0x0F # x\r\nTAIL 0 0\n  \nlend 1048577\nlend 0\npeek 0 0\npeek 1 0\nfoo\r";
    let expected = "? 2\ntail 9\n? 5\n? 7\nlend 0\npeek\n? 10\n? 11\n";
    let got = String::from_utf8_lossy(&answers(script)).to_string();
    if got != expected {
        t.faults.push(format!("lines gave {got:?}"));
    }
}

/// A trial's name and what it plays on a fresh console.
pub type Named = (&'static str, fn(&mut Trial));

const TRIALS: [Named; 10] = [
    ("P1", p1),
    ("P2", p2),
    ("P3", p3),
    ("P4 and P5", p4_and_p5),
    ("P6 to P8", p6_to_p8),
    ("P9 to P11", p9_to_p11),
    ("CQ size 2", cq_size_2),
    ("list at 2FF0h", list_at_2ff0),
    ("pairs", pairs),
    ("lines", lines),
];

/// Plays all trials; answers what went wrong.
pub fn faults() -> Vec<String> {
    let trials = TRIALS.into_iter().chain(traced_doorbells::TRIALS).chain(traced_replay::TRIALS);
    let trials = trials.chain(traced_numbers::TRIALS).chain(traced_limit::TRIALS);
    let trials = trials.chain(traced_deletes::TRIALS).chain(traced_again::TRIALS);
    let trials = trials.chain(traced_arbiter::TRIALS);
    trials.flat_map(played).collect()
}

/// Plays one trial; answers what went wrong.
pub fn played((name, play): Named) -> Vec<String> {
    let mut trial = Trial::new();
    play(&mut trial);
    trial.faults.into_iter().map(|fault| format!("{name}: {fault}")).collect()
}

#[cfg(test)]
mod tests {
    #[test]
    fn traced_examples() {
        assert_eq!(super::faults(), Vec::<String>::new());
    }
}
