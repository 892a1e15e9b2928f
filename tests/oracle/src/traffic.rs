//! Script lines that submit, start and finish commands and write doorbells.

use crate::console::submission_numbers;
use crate::entry::{Submission, SUBMISSION};
use crate::generate::Generator;
use crate::model::Part;
use crate::ring;

impl Generator {
    /// Writes some entries behind an SQ's tail and moves the tail over them, in one write or
    /// in two with starts between them.
    pub fn submit(&mut self) {
        match self.random.choose(&self.open_sqs()) {
            Some(id) => {
                let room = self.room(id);
                let most = match self.random.weighted(&[35, 50, 15]) {
                    0 => self.random.within(1, 2),
                    1 => self.random.within(2, 5),
                    _ => self.random.within(1, 12),
                };
                self.submit_to(id, room.min(most));
            }
            None if self.random.chance(10) => self.shut_tail(),
            None => self.finish(),
        }
    }

    /// Submits up to so many entries to the SQ.
    pub fn submit_to(&mut self, id: usize, most: u64) {
        let entries = self.batch(id, most);
        self.submit_entries(id, &entries);
    }

    /// So many entries for the SQ.
    pub fn batch(&mut self, id: usize, most: u64) -> Vec<Submission> {
        let mut entries = Vec::new();
        while (entries.len() as u64) < most {
            let left = most - entries.len() as u64;
            self.add_commands(id, left, &mut entries);
        }
        entries
    }

    pub fn submit_entries(&mut self, id: usize, entries: &[Submission]) {
        let Some(sq) = self.sq(id) else { return };
        let (base, size, tail) = (sq.base, sq.size, sq.tail);
        for (step, entry) in entries.iter().enumerate() {
            let slot = (tail + step as u64) % size;
            // Now and then what the slot held before stays.
            if !self.random.chance(3) {
                self.put_entry(base + slot * SUBMISSION as u64, entry);
            }
        }
        let count = entries.len() as u64;
        if count > 1 && self.random.chance(30) {
            let part = self.random.within(1, count - 1);
            self.say(&format!("tail {id} {}", (tail + part) % size));
            for _ in 0..self.random.below(3) {
                self.say("start");
            }
        }
        let value = (tail + count) % size;
        self.say(&format!("tail {id} {value}"));
        // Seldom twice, since that marks the SQ; more often the 0 after a wrap.
        if self.random.chance(if value == 0 { 6 } else { 1 }) && self.may_mark() {
            self.say(&format!("tail {id} {value}"));
        }
    }

    /// Adds one command, one pair or one broken pair to a batch, of at most `left` entries.
    fn add_commands(&mut self, id: usize, left: u64, entries: &mut Vec<Submission>) {
        let pairs = if id == 0 { 3 } else { 45 };
        match self.random.weighted(&[50, pairs, 4, 4, 3, 6, 4]) {
            1 if left >= 2 => entries.extend(self.pair(id)),
            2 => entries.push(self.fused(id, 1)),
            3 => entries.push(self.fused(id, 2)),
            4 => entries.push(self.fused(id, 3)),
            5 if left >= 3 => {
                entries.push(self.fused(id, 1));
                entries.extend(self.pair(id));
            }
            6 if left >= 2 => {
                let [first, mut second] = self.pair(id);
                second.fuse = 3;
                entries.extend([first, second]);
            }
            _ => entries.push(self.fused(id, 0)),
        }
    }

    /// A command with this FUSE.
    fn fused(&mut self, id: usize, fuse: u64) -> Submission {
        let any = self.random.below(256);
        Submission {
            opc: self.random.pick(&[0, 1, 2, 5, any]),
            fuse,
            psdt: if self.random.chance(5) { self.random.within(1, 3) } else { 0 },
            cid: self.cid(id),
            nsid: self.random.pick(&[1, 1, 2, 0xFFFF_FFFF]),
            mptr: self.random.edge(),
            prp1: self.random.edge(),
            prp2: self.random.edge(),
            slba: self.random.edge(),
            nlb: self.random.below(65_536),
            cdw12_upper: self.random.below(65_536),
            cdw13: self.random.below(1 << 32),
            cdw14: self.random.below(1 << 32),
            cdw15: self.random.below(1 << 32),
        }
    }

    /// Mostly a new CID, else one of an outstanding command of this or of another SQ, as it is
    /// or with one bit turned.
    fn cid(&mut self, id: usize) -> u64 {
        if self.random.chance(12) {
            let tags = self.outstanding();
            let own: Vec<usize> = tags
                .iter()
                .copied()
                .filter(|tag| self.command(*tag).is_some_and(|c| c.sq == id))
                .collect();
            let turned = if self.random.chance(40) { self.random.one_bit(16) } else { 0 };
            let from = if self.random.chance(70) { own } else { tags };
            if let Some(command) = self.random.choose(&from).and_then(|tag| self.command(tag)) {
                return command.cid ^ turned;
            }
        }
        self.last_cid = (self.last_cid + 1) % 65_536;
        self.last_cid
    }

    /// Compare and Write, sound or damaged in one field or two.
    pub fn pair(&mut self, id: usize) -> [Submission; 2] {
        let mut first = self.fused(id, 1);
        let mut second = self.fused(id, 2);
        (first.opc, second.opc) = (5, 1);
        (second.nsid, second.slba, second.nlb) = (first.nsid, first.slba, first.nlb);
        (first.psdt, second.psdt) = (0, 0);
        if self.random.chance(40) {
            self.damage(&mut first, &mut second);
            if self.random.chance(20) {
                self.damage(&mut first, &mut second);
            }
        }
        [first, second]
    }

    fn damage(&mut self, first: &mut Submission, second: &mut Submission) {
        match self.random.weighted(&[10, 15, 10, 10, 10, 10, 10, 10, 10, 10]) {
            0 => first.opc ^= self.random.one_bit(8),
            1 => {
                let any = self.random.below(256);
                second.opc = self.random.pick(&[0x08, 0x81, any]);
            }
            2 => std::mem::swap(&mut first.opc, &mut second.opc),
            3 => second.nsid ^= self.random.one_bit(32),
            4 => second.slba ^= self.random.one_bit(64),
            5 => second.nlb ^= self.random.one_bit(16),
            6 => first.psdt = self.random.within(1, 3),
            7 => second.psdt = self.random.within(1, 3),
            8 => second.cid = first.cid,
            _ => second.cid = first.cid ^ self.random.one_bit(16),
        }
    }

    /// Puts an entry into a slot by one of three commands; the pokes also set reserved bits.
    fn put_entry(&mut self, at: u64, entry: &Submission) {
        if self.random.chance(80) {
            let mut numbers = submission_numbers(entry);
            if self.random.chance(10) {
                // "FUSE and PSDT numbers are taken modulo 4".
                numbers[1] += 4 * self.random.below(1 << 40);
                numbers[2] += 4 * self.random.below(1 << 40);
            }
            let room = if self.random.chance(90) { 64 } else { self.random.within(64, 128) };
            self.say(&format!("write-sqe {at} {room}{}", joined(&numbers)));
            return;
        }
        let mut bytes = [0; SUBMISSION];
        if entry.write(&mut bytes).is_ok() {
            bytes[1] |= (self.random.bits() & 0x3C) as u8;
            bytes[8..16].copy_from_slice(&self.random.bits().to_le_bytes());
        }
        if self.random.chance(50) {
            self.say(&format!("poke {at}{}", joined(&bytes.map(u64::from))));
        } else {
            let numbers: Vec<u64> =
                (0..8).map(|place| crate::entry::get(&bytes, 8 * place, 8)).collect();
            self.say(&format!("poke64 {at}{}", joined(&numbers)));
        }
    }

    pub fn start(&mut self) {
        let controller = &self.console.controller;
        let waits = controller.candidates().iter().any(Option::is_some);
        let full = controller.free_tags().next().is_none();
        let sure = waits && !full && self.rings_are_lent();
        if sure || self.random.chance(if full { 40 } else { 15 }) {
            let done = self.say("start");
            self.show_turns(if done { 3 } else { 12 });
        } else if !waits {
            self.submit();
        } else {
            self.finish();
        }
    }

    /// Finishes a command, mostly one that can be posted.
    pub fn finish(&mut self) {
        let tags = self.outstanding();
        let (ready, unready): (Vec<usize>, Vec<usize>) =
            tags.iter().partition(|tag| self.is_ready(**tag));
        let found = match self.random.weighted(&[82, 18]) {
            0 => self.random.choose(&ready),
            _ => self.random.choose(&unready),
        };
        let free: Vec<usize> = self.console.controller.free_tags().collect();
        let tag = match found {
            Some(tag) => tag as u64,
            None if self.random.chance(25) => match self.random.choose(&free) {
                Some(free) if self.random.chance(60) => free as u64,
                _ => self.no_tag(),
            },
            None => match self.random.choose(&unready) {
                Some(unready) if self.random.chance(40) => unready as u64,
                _ => return self.head(),
            },
        };
        self.finish_tag(tag);
    }

    /// A number too large for a tag, at times with an outstanding one in its low bits.
    fn no_tag(&mut self) -> u64 {
        let tag = self.random.choose(&self.outstanding()).unwrap_or(0) as u64;
        let lifted = self.random.lifted(tag);
        self.random.pick(&[64, 65, 1 << 32, u64::MAX, tag + 64, lifted])
    }

    pub fn finish_tag(&mut self, tag: u64) {
        let any = self.random.below(32_768);
        let edge = self.random.edge();
        let status = match self.random.weighted(&[58, 40, 2]) {
            0 => 0,
            1 => self.random.pick(&[1, 2, 9, 0x285, 0x4002, 32_767, any]),
            _ => {
                self.random.pick(&[32_768, 65_536, any | 1 << 16, 1 << 32, 1 << 63, u64::MAX, edge])
            }
        };
        let result = self.random.bits() >> self.random.within(32, 63);
        let command = self.outstanding().into_iter().find(|found| *found as u64 == tag);
        let sq = command.and_then(|tag| self.command(tag)).and_then(|command| self.sq(command.sq));
        let cq = sq.map(|sq| sq.cq as u64);
        self.say(&format!("finish {tag} {status} {result}"));
        if self.random.chance(30) {
            self.show_last_posting(cq);
        }
    }

    /// Looks at the bytes of the entry before the tail of a CQ.
    pub fn show_last_posting(&mut self, cq: Option<u64>) {
        if let Some(cq) = cq.and_then(|id| self.console.controller.cq(id)) {
            let at = cq.base + 16 * ((cq.tail + cq.size - 1) % cq.size);
            self.say(&format!("peek {at} 16"));
        }
    }

    /// Takes completions off a CQ, mostly rightly.
    pub fn head(&mut self) {
        let held = |id: &u64| self.console.controller.cq(*id).is_some_and(|cq| cq.head != cq.tail);
        let full: Vec<u64> = (0..16).filter(held).collect();
        if self.random.chance(12) {
            return self.odd_head();
        }
        let Some(id) = self.random.choose(&full) else { return self.plain_check() };
        let Some(cq) = self.console.controller.cq(id) else { return };
        let (size, head) = (cq.size, cq.head);
        let waiting = ring::distance(size, head, cq.tail);
        let step = if self.random.chance(50) { waiting } else { self.random.within(1, waiting) };
        let right = (head + step) % size;
        if self.random.chance(3) {
            let lifted = self.random.lifted(right);
            self.say(&format!("head {id} {lifted}"));
        }
        self.say(&format!("head {id} {right}"));
        if self.random.chance(3) {
            self.say(&format!("head {id} {right}"));
        }
    }

    /// A head write of the value held, at times after another that is refused.
    pub fn held_head(&mut self) {
        let Some(id) = self.random.choose(&self.cqs()) else { return };
        let Some(cq) = self.console.controller.cq(id) else { return };
        let (size, head, tail) = (cq.size, cq.head, cq.tail);
        if self.random.chance(30) {
            self.say(&format!("head {id} {}", (tail + 1) % size));
        }
        self.say(&format!("head {id} {head}"));
        if self.random.chance(30) {
            self.say(&format!("show-cq {id}"));
        }
    }

    /// A head write that comes before its posting, and once more after it: "refused writes do not
    /// count".
    pub fn early_head(&mut self) {
        let ready: Vec<usize> =
            self.outstanding().into_iter().filter(|tag| self.is_ready(*tag)).collect();
        let Some(tag) = self.random.choose(&ready) else { return };
        let Some(sq) = self.command(tag).and_then(|command| self.sq(command.sq)) else { return };
        let id = sq.cq;
        let Some(cq) = &self.console.controller.cqs[id] else { return };
        let (head, next) = (cq.head, ring::next(cq.size, cq.tail));
        self.say(&format!("head {id} {next}"));
        if self.random.chance(50) {
            self.say(&format!("head {id} {head}"));
        }
        self.say(&format!("finish {tag} 0 0"));
        self.say(&format!("head {id} {next}"));
    }

    /// Mostly the number of a queue that may be there, else one above 15.
    fn any_id(&mut self) -> u64 {
        let id = self.random.below(16);
        match self.random.weighted(&[82, 12, 6]) {
            0 => id,
            1 => self.random.edge(),
            _ => self.random.lifted(id),
        }
    }

    fn odd_head(&mut self) {
        let id = self.any_id();
        let (size, tail) = self.console.controller.cq(id).map_or((4, 0), |cq| (cq.size, cq.tail));
        let edge = self.random.edge();
        let any = self.random.below(size);
        let lifted = self.random.lifted(tail);
        let value = self.random.pick(&[size, (tail + 1) % size, any, any, lifted, u64::MAX, edge]);
        self.say(&format!("head {id} {value}"));
        if id < 16 && self.random.chance(50) {
            self.say(&format!("show-cq {id}"));
        }
    }

    /// A tail write of an SQ that is marked or not there.
    fn shut_tail(&mut self) {
        let any = self.any_id();
        let id = self.shut_sq(any);
        let value = self.tail_or_next(id);
        self.say(&format!("tail {id} {value}"));
    }

    /// A tail write that is likely to be refused and to mark the SQ, and what comes after.
    pub fn bad_tail(&mut self) {
        self.shut_tail();
        if !self.may_mark() {
            return;
        }
        let Some(id) = self.random.choose(&self.unmarked_sqs()) else { return };
        let Some(sq) = self.sq(id) else { return };
        let (size, head, tail) = (sq.size, sq.head, sq.tail);
        let edge = self.random.edge();
        let any = self.random.below(size);
        let before = (tail + size - 1) % size;
        let value = match self.random.weighted(&[25, 40, 20, 15]) {
            0 => tail,
            1 => self.random.lifted(ring::next(size, tail)),
            2 => self.random.pick(&[head, before, any]),
            _ => self.random.pick(&[size, size + 1, u64::MAX, edge]),
        };
        self.say(&format!("tail {id} {value}"));
        if self.random.chance(50) {
            let again = self.random.pick(&[tail, value]);
            self.say(&format!("tail {id} {again}"));
        }
        self.say(&format!("show-sq {id}"));
        self.start();
    }

    /// Finishes a first half, lets another command take its tag, then finishes the second.
    pub fn reused_tag(&mut self) {
        let pairs: Vec<(usize, usize)> =
            self.outstanding().iter().filter_map(|tag| self.second_of(*tag)).collect();
        let Some((first, second)) = self.random.choose(&pairs) else { return };
        if !self.is_ready(first) {
            return self.head();
        }
        let status = self.random.pick(&[0, 0, 1, 0x285]);
        self.say(&format!("finish {first} {status} 0"));
        for _ in 0..8 {
            if self.command(first).is_some() {
                break;
            }
            self.start();
        }
        self.say(&format!("show-tag {second}"));
        self.finish_tag(second as u64);
    }

    /// A first half's tag with that of its second half.
    fn second_of(&self, tag: usize) -> Option<(usize, usize)> {
        match self.command(tag)?.part {
            Part::First(second) => Some((tag, second)),
            _ => None,
        }
    }

    /// Leaves one tag free and brings a pair before it.
    pub fn last_tag(&mut self) {
        let able: Vec<usize> = self.unmarked_sqs().into_iter().filter(|id| *id != 0).collect();
        let Some(id) = self.random.choose(&able) else { return };
        for _ in 0..200 {
            let waits = self.console.controller.candidates().iter().any(Option::is_some);
            if self.console.controller.free_tags().count() <= 1 && !waits {
                break;
            }
            if !waits {
                let entry = self.fused(id, 0);
                self.submit_entries(id, &[entry]);
            }
            if !self.say("start") {
                break;
            }
        }
        if self.room(id) >= 2 {
            let pair = self.pair(id);
            self.submit_entries(id, &pair);
            self.say("start");
            self.finish();
            self.say("start");
        }
    }

    /// Fills every SQ and starts until all are empty, so that turns, bursts and credits are
    /// seen at work; now and then an SQ gets more meanwhile.
    pub fn crowd(&mut self) {
        for id in self.open_sqs() {
            let most = self.random.within(1, 9).min(self.room(id));
            self.submit_to(id, most);
        }
        for _ in 0..120 {
            if self.is_done() || !self.say("start") {
                break;
            }
            if self.outstanding().len() > 50 {
                self.finish_all();
            }
            if self.random.chance(6) {
                self.submit();
            }
            if self.random.chance(20) {
                self.finish();
            }
        }
    }

    /// Sends an SQ once around its ring with what its slots hold, a large one mostly by traces.
    pub fn long_run(&mut self) {
        let Some(id) = self.random.choose(&self.unmarked_sqs()) else { return };
        let size = self.sq(id).map_or(0, |sq| sq.size);
        if size > 256 && self.random.chance(80) {
            return self.long_replays();
        }
        for _ in 0..size / 50 + 1 {
            if self.is_done() || self.unmarked_sqs().is_empty() {
                return;
            }
            let step = self.room(id).min(50);
            let tail = self.sq(id).map_or(0, |sq| sq.tail);
            if step > 0 {
                self.say(&format!("tail {id} {}", (tail + step) % size));
            }
            while self.say("start") {}
            self.finish_all();
        }
    }

    /// Finishes every command in rising order of tags.
    fn finish_all(&mut self) {
        let tags = self.outstanding();
        self.finish_tags(&tags);
    }

    /// Finishes the commands of these tags, taking completions off full CQs.
    pub fn finish_tags(&mut self, tags: &[usize]) {
        for tag in tags {
            let Some(command) = self.command(*tag) else { continue };
            let cq = self.sq(command.sq).map_or(0, |sq| sq.cq);
            if !self.is_ready(*tag) {
                self.take_all(cq);
            }
            self.say(&format!("finish {tag} 0 {tag}"));
        }
    }

    /// Takes every completion off a CQ, if there is one.
    pub fn take_all(&mut self, id: usize) {
        let cq = self.console.controller.cqs[id].as_ref().filter(|cq| cq.head != cq.tail);
        if let Some(tail) = cq.map(|cq| cq.tail) {
            self.say(&format!("head {id} {tail}"));
        }
    }
}

/// The numbers, each after a space.
pub fn joined(numbers: &[u64]) -> String {
    numbers.iter().map(|number| format!(" {number}")).collect()
}
