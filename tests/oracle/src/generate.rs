//! Random scripts that aim at every rule. The generator feeds each line to the oracle's own
//! console, so it always knows the state that the next line meets.

use crate::console::{Console, Outcome, MEMORY};
use crate::deletes::Gone;
use crate::model::{Command, Part, Sq};
use crate::random::Random;
use crate::ring;

/// Rings are mostly put below this address; lists, loose entries and other trials above it.
pub const SCRATCH: u64 = 0xC_0000;

pub struct Generator {
    pub random: Random,
    pub console: Console,
    script: Vec<u8>,
    lines: usize,
    wanted: usize,
    /// The last CID given out.
    pub last_cid: u64,
    /// Counts the chapters up from any number.
    pub chapter: u64,
    /// The queues of this chapter that were deleted.
    pub gone: Gone,
}

/// What the traffic of a stretch of lines tends to.
#[derive(Clone, Copy)]
pub enum Mood {
    Normal,
    /// Starts and finishes nothing, until the tags run out.
    Hoard,
    /// Finishes but moves no head, until the CQs are full.
    Stall,
    /// Submits nothing.
    Drain,
    /// Starts and finishes as many as it can.
    Through,
}

impl Mood {
    /// How often it submits, starts, finishes and moves heads.
    pub fn weights(self) -> [u64; 4] {
        match self {
            Mood::Normal => [28, 32, 26, 14],
            Mood::Hoard => [35, 64, 1, 0],
            Mood::Stall => [25, 35, 40, 0],
            Mood::Drain => [2, 30, 40, 28],
            Mood::Through => [6, 46, 46, 2],
        }
    }
}

/// A script of about so many lines.
pub fn script(seed: u64, lines: usize) -> Vec<u8> {
    let mut generator = Generator {
        random: Random::new(seed),
        console: Console::new(),
        script: Vec::new(),
        lines: 0,
        wanted: lines,
        last_cid: 0,
        chapter: 0,
        gone: Gone::default(),
    };
    generator.chapter = generator.random.below(16);
    while !generator.is_done() {
        generator.play_chapter();
    }
    generator.last_line();
    generator.script
}

impl Generator {
    pub fn is_done(&self) -> bool {
        self.lines >= self.wanted
    }

    /// Puts a line into the script as it stands.
    pub fn raw(&mut self, line: &[u8]) -> Outcome {
        self.script.extend_from_slice(line);
        self.script.push(b'\n');
        self.lines += 1;
        self.console.take(line, true)
    }

    /// Puts a line into the script, now and then written in another way that means the same.
    /// Answers whether the call was accepted.
    pub fn say(&mut self, text: &str) -> bool {
        let dressed = self.random.chance(5) && text.len() < 500;
        let line = if dressed { self.dress(text) } else { text.as_bytes().to_vec() };
        match self.raw(&line) {
            Outcome::Numbers(_, numbers) | Outcome::Bytes(_, numbers, _) => {
                numbers.first() == Some(&0)
            }
            _ => false,
        }
    }

    /// Now and then the script ends in a line without LF.
    fn last_line(&mut self) {
        let last: &[u8] = self.random.pick(&[b"", b"", b"start", b"tail 0 0\r", b"# end", b" "]);
        self.script.extend_from_slice(last);
    }

    /// A fresh controller with queues, and traffic on it in one mood after another.
    fn play_chapter(&mut self) {
        self.chapter += 1;
        self.open();
        // Whom the first turn goes to shows where several wait.
        if self.random.chance(35) {
            self.crowd();
        }
        for _ in 0..self.random.within(1, 6) {
            let mood = [Mood::Normal, Mood::Hoard, Mood::Stall, Mood::Drain]
                [self.random.weighted(&[50, 15, 20, 15])];
            for _ in 0..self.random.within(10, 120) {
                if self.is_done() {
                    return;
                }
                self.step(mood);
            }
            if self.random.chance(70) {
                self.long_replays();
            }
            if self.random.chance(40) {
                self.cleaning_shift();
            }
            if self.unmarked_sqs().is_empty() {
                return;
            }
        }
    }

    fn step(&mut self, mood: Mood) {
        if self.random.chance(30) {
            self.lend_all();
        }
        let weights =
            [500, 90, 36, 24, 38, 100, 40, 28, 60, 10, 6, 7, 3, 1, 5, 8, 7, 28, 14, 18, 170];
        match self.random.weighted(&weights) {
            0 => self.traffic(mood),
            1 => self.odd_create(),
            2 => self.walks(),
            3 => self.entries(),
            4 => self.reader(),
            5 => self.plain_check(),
            6 => self.show(),
            7 => self.memory(),
            8 => self.noise(),
            9 => self.shrink(),
            10 => self.bad_tail(),
            11 => self.reused_tag(),
            12 => self.last_tag(),
            13 => self.long_run(),
            14 => self.crowd(),
            15 => self.held_head(),
            16 => self.early_head(),
            17 => self.delete(),
            18 => self.create_again(),
            19 => self.holder_again(),
            _ => self.replay(mood),
        }
    }

    /// Lends all of the memory, where less is lent.
    pub fn lend_all(&mut self) {
        if self.console.lent < MEMORY {
            self.say(&format!("lend {MEMORY}"));
        }
    }

    fn traffic(&mut self, mood: Mood) {
        match self.random.weighted(&mood.weights()) {
            0 => self.submit(),
            1 => self.start(),
            2 => self.finish(),
            _ => self.head(),
        }
    }

    /// The SQs that still take tail writes.
    pub fn unmarked_sqs(&self) -> Vec<usize> {
        let sqs = self.console.controller.sqs.iter().enumerate();
        let unmarked = sqs.filter(|(_, sq)| sq.as_ref().is_some_and(|sq| !sq.marked));
        unmarked.map(|(id, _)| id).collect()
    }

    /// The SQs of those that have room.
    pub fn open_sqs(&self) -> Vec<usize> {
        self.unmarked_sqs().into_iter().filter(|id| self.room(*id) > 0).collect()
    }

    /// Whether an SQ may be marked now: mostly where others are left.
    pub fn may_mark(&mut self) -> bool {
        self.unmarked_sqs().len() > 2 || self.random.chance(10)
    }

    /// The number of an SQ that is marked or not there: often one that is marked, else this one
    /// unless an unmarked SQ has it.
    pub fn shut_sq(&mut self, wanted: u64) -> u64 {
        let sq = |id: u64| self.console.controller.sq(id);
        let shut = |id: &u64| sq(*id).is_none_or(|sq| sq.marked);
        let marked: Vec<u64> = (0..16).filter(|id| sq(*id).is_some_and(|sq| sq.marked)).collect();
        let others: Vec<u64> = (0..=16).filter(shut).collect();
        match self.random.choose(&marked) {
            Some(id) if self.random.chance(40) => id,
            _ if shut(&wanted) => wanted,
            _ => self.random.pick(&others),
        }
    }

    /// The tail that an SQ holds, or the next one; of an SQ that is not there, as if it were new.
    pub fn tail_or_next(&mut self, id: u64) -> u64 {
        let (size, tail) = self.console.controller.sq(id).map_or((4, 0), |sq| (sq.size, sq.tail));
        self.random.pick(&[tail, tail, (tail + 1) % size])
    }

    /// The CQs that exist.
    pub fn cqs(&self) -> Vec<u64> {
        (0..16).filter(|id| self.console.controller.cq(*id).is_some()).collect()
    }

    pub fn sq(&self, id: usize) -> Option<&Sq> {
        self.console.controller.sqs[id].as_ref()
    }

    /// How many more entries the SQ can hold.
    pub fn room(&self, id: usize) -> u64 {
        self.sq(id).map_or(0, |sq| sq.size - 1 - ring::distance(sq.size, sq.head, sq.tail))
    }

    pub fn outstanding(&self) -> Vec<usize> {
        (0..64).filter(|tag| self.console.controller.tags[*tag].is_some()).collect()
    }

    pub fn command(&self, tag: usize) -> Option<&Command> {
        self.console.controller.tags[tag].as_ref()
    }

    /// Whether the command could be posted now: no first half before it, room in its CQ.
    pub fn is_ready(&self, tag: usize) -> bool {
        let Some(command) = self.command(tag) else { return false };
        let Some(sq) = self.sq(command.sq) else { return false };
        let Some(cq) = &self.console.controller.cqs[sq.cq] else { return false };
        command.part != Part::SecondWaiting && !ring::is_full(cq.size, cq.head, cq.tail)
    }

    pub fn rings_are_lent(&self) -> bool {
        self.console.controller.rings().all(|ring| ring.lies_in(self.console.lent))
    }
}
