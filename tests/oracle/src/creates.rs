//! Script lines that make controllers and queues, rightly and wrongly.

use crate::console::MEMORY;
use crate::deletes::Gone;
use crate::entry::{COMPLETION, SUBMISSION};
use crate::generate::{Generator, Mood, SCRATCH};
use crate::ring::Extent;

impl Generator {
    /// A chapter's beginning.
    pub fn open(&mut self) {
        self.say(&format!("lend {MEMORY}"));
        if self.random.chance(75) {
            self.say(&format!("fill 0 {MEMORY} 0"));
        }
        self.gone = Gone::default();
        let word = self.word();
        let sound = self.chapter % 2;
        let edge = self.random.edge();
        let mechanism = match self.random.weighted(&[60, 25, 15]) {
            0 => sound,
            1 => self.random.pick(&[2, edge]),
            _ => self.random.lifted(sound),
        };
        if !self.say(&format!("controller {mechanism} {word}")) && self.random.chance(85) {
            self.say(&format!("controller {sound} {word}"));
        }
        // Few queues, several SQs on few CQs, or all sixteen.
        let (cqs, sqs) = match self.random.weighted(&[35, 45, 10]) {
            0 => (self.random.within(1, 2), self.random.within(1, 3)),
            1 => (self.random.within(1, 2), self.random.within(3, 8)),
            _ => (15, 15),
        };
        // Large rings above all where turns may be long.
        let large = self.burst() > 5 && self.random.chance(50);
        let sizes = if large { 3 } else { self.random.weighted(&[65, 20, 12, 3]) };
        // With or without the Admin queues.
        let first = u64::from(self.random.chance(30));
        for id in first..=cqs {
            self.create_cq(id, sizes);
        }
        if self.random.chance(40) {
            self.delete_admin();
        }
        // SQ 0 may name CQ 0 alone.
        if first == 1 && self.random.chance(70) {
            let cq = self.unfitting_cq(0);
            self.create_sq(0, cq, sizes);
        }
        for id in first..=sqs {
            let cq = self.fitting_cq(id);
            self.create_sq(id, cq, sizes);
            if self.random.chance(15) {
                self.odd_create();
            }
        }
    }

    /// All burst numbers by turns in both mechanisms.
    fn burst(&self) -> u64 {
        self.chapter / 2 % 8
    }

    /// Weights that are small, small but for their highest bit, or any, beside the burst, and
    /// something in the ignored bits.
    fn word(&mut self) -> u64 {
        let mut word = self.burst() + 8 * self.random.below(4).saturating_sub(2);
        for shift in [8, 16, 24] {
            let weight = match self.random.weighted(&[60, 20, 20]) {
                0 => self.random.below(4),
                1 => 0x80 + self.random.below(4),
                _ => self.random.below(256),
            };
            word += weight << shift;
        }
        word
    }

    pub fn size(&mut self, sizes: usize) -> u64 {
        match sizes {
            0 => self.random.within(2, 8),
            1 => self.random.within(2, 40),
            2 => self.random.pick(&[2, 3, 5, 63, 64, 65, 100, 128, 256, 257]),
            _ => self.random.pick(&[1024, 1024, 1023, 8, 4]),
        }
    }

    pub fn create_cq(&mut self, id: u64, sizes: usize) {
        let size = self.size(sizes);
        let base = self.free_base(size, COMPLETION);
        self.say(&format!("create-cq {id} {size} {base}"));
    }

    pub fn create_sq(&mut self, id: u64, cq: u64, sizes: usize) {
        let size = self.size(sizes);
        let base = self.free_base(size, SUBMISSION);
        let class = self.class();
        self.say(&format!("create-sq {id} {size} {base} {cq} {class}"));
    }

    /// In each chapter one class is more often than others, so that it has several SQs.
    fn class(&mut self) -> u64 {
        let any = self.random.below(4);
        if self.random.chance(40) {
            self.chapter / 2 % 4
        } else {
            any
        }
    }

    /// CQ 0 for SQ 0, any other existing one for another SQ.
    pub fn fitting_cq(&mut self, sq: u64) -> u64 {
        let cqs: Vec<u64> =
            (1..16).filter(|id| self.console.controller.cq(*id).is_some()).collect();
        match self.random.choose(&cqs) {
            Some(cq) if sq != 0 => cq,
            _ => u64::from(sq != 0),
        }
    }

    /// CQ 0 for all but SQ 0, any other existing one for SQ 0.
    fn unfitting_cq(&mut self, sq: u64) -> u64 {
        self.fitting_cq(u64::from(sq == 0))
    }

    /// The ends of existing rings, each brought up to a multiple of 4,096.
    fn pages_after_rings(&self) -> Vec<u64> {
        let rings = self.console.controller.rings();
        rings.map(|ring| (ring.end() as u64).next_multiple_of(4096)).collect()
    }

    /// A base where a ring of this size shares no byte with another, if one is soon found.
    pub fn free_base(&mut self, size: u64, entry: usize) -> u64 {
        let mut base = 0;
        for _ in 0..30 {
            base = match self.random.choose(&self.pages_after_rings()) {
                Some(page) if self.random.chance(40) => page,
                _ => 4096 * self.random.below(SCRATCH / 4096),
            };
            let new = Extent::new(base, size, entry);
            let free = !self.console.controller.rings().any(|old| old.shares_a_byte(&new));
            if free && new.lies_in(SCRATCH as usize) {
                break;
            }
        }
        base
    }

    /// A create of which each number is right or wrong by itself, so that faults meet.
    pub fn odd_create(&mut self) {
        let for_cq = self.random.chance(45);
        let entry = if for_cq { COMPLETION } else { SUBMISSION };
        let id = self.odd_id(for_cq);
        let size = if self.random.chance(70) {
            self.random.pick(&[2, 3, 4, 8, 63, 64, 65, 256, 257, 1024])
        } else {
            let edge = self.random.edge();
            let lifted = self.random.lifted(4);
            self.random.pick(&[0, 1, 1025, 65_538, (1 << 32) + 2, lifted, u64::MAX, edge])
        };
        let base = self.odd_base(size, entry);
        if for_cq {
            // "A new queue holds 0."
            if self.say(&format!("create-cq {id} {size} {base}")) && self.random.chance(20) {
                self.say(&format!("head {id} 0"));
            }
            return;
        }
        let edge = self.random.edge();
        let fitting = self.fitting_cq(id);
        let cq = match self.random.weighted(&[75, 6, 8, 5, 3, 3]) {
            0 => fitting,
            1 => self.unfitting_cq(id),
            2 => self.random.below(16),
            3 => self.random.pick(&[16, 17, 255, 256]),
            4 => self.random.lifted(fitting),
            _ => edge,
        };
        let sound = self.random.below(4);
        let lifted = self.random.lifted(sound);
        let class = if self.random.chance(85) {
            sound
        } else {
            self.random.pick(&[4, 5, 255, 256, lifted, edge])
        };
        let line = format!("create-sq {id} {size} {base} {cq} {class}");
        if self.say(&line) && self.random.chance(20) {
            self.say(&format!("tail {id} 0"));
        }
    }

    /// Mostly an id without a queue, else one with a queue, or one above 15.
    fn odd_id(&mut self, for_cq: bool) -> u64 {
        let controller = &self.console.controller;
        let exists = |id: &u64| {
            if for_cq {
                controller.cq(*id).is_some()
            } else {
                controller.sq(*id).is_some()
            }
        };
        let (taken, free): (Vec<u64>, Vec<u64>) = (0..16).partition(exists);
        let edge = self.random.edge();
        let found = match self.random.weighted(&[80, 11, 9]) {
            0 => self.random.choose(&free),
            1 => self.random.choose(&taken),
            _ => {
                let lifted = self.random.choose(&free).map(|id| self.random.lifted(id));
                Some(self.random.pick(&[16, 17, 31, 256, 1 << 32, lifted.unwrap_or(edge), edge]))
            }
        };
        found.unwrap_or(16)
    }

    /// A free place, one beside a page's edge, one over another ring, or one at or past the
    /// lent memory's end.
    fn odd_base(&mut self, size: u64, entry: usize) -> u64 {
        let free = self.free_base(size, entry);
        let lent = self.console.lent as u64;
        let bytes = size.wrapping_mul(entry as u64);
        match self.random.weighted(&[40, 18, 24, 18]) {
            0 => free,
            1 => free + self.random.pick(&[1, 16, 64, 512, 2048, 2048, 4095]),
            2 => {
                let starts: Vec<u64> =
                    self.console.controller.rings().map(|ring| ring.start() as u64).collect();
                let start = self.random.choose(&starts).unwrap_or(0);
                let after = self.random.choose(&self.pages_after_rings()).unwrap_or(0);
                let before = start.saturating_sub(4096);
                self.random.pick(&[start, start, before, after.saturating_sub(4096), after])
            }
            _ => {
                let edge = self.random.edge();
                let fits = lent.wrapping_sub(bytes) / 4096 * 4096;
                self.random.pick(&[
                    fits,
                    fits.wrapping_add(4096),
                    lent,
                    u64::MAX - 4095,
                    1 << 63,
                    edge,
                ])
            }
        }
    }

    /// Lends less, so that rings, lists or parts lie outside; makes some calls; lends more.
    pub fn shrink(&mut self) {
        let rings: Vec<(u64, u64)> = self
            .console
            .controller
            .rings()
            .map(|ring| (ring.start() as u64, ring.end() as u64))
            .collect();
        let (start, end) = self.random.choose(&rings).unwrap_or((0, 4096));
        let highest = rings.iter().map(|(_, end)| *end).max().unwrap_or(0);
        let any = self.random.below(MEMORY as u64);
        let choices = [end, end.saturating_sub(1), highest, highest.saturating_sub(1), any, 0];
        let lent = self.random.pick(&choices);
        self.say(&format!("lend {lent}"));
        if self.random.chance(25) {
            // Over a ring that may lie outside what is lent now, the new one inside it.
            let id = self.odd_id(true);
            self.say(&format!("create-cq {id} 2 {start}"));
        }
        for _ in 0..self.random.within(2, 8) {
            match self.random.below(9) {
                0 | 1 => {
                    self.say("start");
                }
                2 => self.finish(),
                3 => {
                    let tag = self.random.below(64);
                    self.finish_tag(tag);
                }
                4 => self.odd_create(),
                5 => self.reader(),
                6 => self.replay(Mood::Normal),
                7 => self.delete_outside(),
                _ => self.memory(),
            }
        }
        let lent = if self.random.chance(80) { MEMORY as u64 } else { highest };
        self.say(&format!("lend {lent}"));
    }
}
