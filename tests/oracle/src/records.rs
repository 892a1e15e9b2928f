//! Records of traces for the replay: calls that the present state allows, calls that are likely
//! to be refused, and damaged ones.

use crate::generate::{Generator, Mood};
use crate::replay::RECORD;
use crate::ring;

/// A record's bytes.
pub type Record = [u8; RECORD];

/// The calls by their number in byte 0.
const TAIL: u8 = 1;
const HEAD: u8 = 2;
const START: u8 = 3;
const FINISH: u8 = 4;

fn record(call: u8, id: u64, value: u64) -> Record {
    let mut record = [0; RECORD];
    record[0] = call;
    record[1] = id as u8;
    record[2..4].copy_from_slice(&(value as u16).to_le_bytes());
    record
}

impl Generator {
    /// Mostly a call that the state allows; now and then damaged.
    pub fn record(&mut self, mood: Mood) -> Record {
        let odd = if matches!(mood, Mood::Through) { 1 } else { 8 };
        let mut record =
            if self.random.chance(odd) { self.odd_record() } else { self.fitting_record(mood) };
        if self.random.chance(odd) {
            self.damage_record(&mut record);
        }
        record
    }

    /// A call that the state allows, where there is one.
    fn fitting_record(&mut self, mood: Mood) -> Record {
        let fitting = match self.random.weighted(&mood.weights()) {
            0 => self.tail_record(),
            1 => self.start_record(),
            2 => self.finish_record(),
            _ => self.head_record(),
        };
        fitting
            .or_else(|| self.start_record())
            .or_else(|| self.tail_record())
            .or_else(|| self.finish_record())
            .or_else(|| self.head_record())
            .unwrap_or_else(|| self.odd_record())
    }

    /// A start, seldom where it would be refused.
    fn start_record(&mut self) -> Option<Record> {
        let able = self.console.controller.clone().start(self.console.memory()).is_ok();
        (able || self.random.chance(8)).then_some(record(START, 0, 0))
    }

    /// A tail write over a few slots, whatever they hold.
    fn tail_record(&mut self) -> Option<Record> {
        let id = self.random.choose(&self.open_sqs())?;
        let (size, tail) = self.sq(id).map(|sq| (sq.size, sq.tail))?;
        let room = self.room(id);
        let most = if self.random.chance(90) { room.min(4) } else { room };
        let step = self.random.within(1, most);
        Some(record(TAIL, id as u64, (tail + step) % size))
    }

    /// A head write over some of what waits, now and then over none or with a bit too high.
    fn head_record(&mut self) -> Option<Record> {
        let held = |id: &u64| self.console.controller.cq(*id).is_some_and(|cq| cq.head != cq.tail);
        let full: Vec<u64> = (0..16).filter(held).collect();
        let id = self.random.choose(&full)?;
        let (size, head, tail) =
            self.console.controller.cq(id).map(|cq| (cq.size, cq.head, cq.tail))?;
        let waiting = ring::distance(size, head, tail);
        let lifted = tail | 1 << self.random.within(8, 15);
        let value = match self.random.weighted(&[49, 45, 4, 2]) {
            0 => tail,
            1 => (head + self.random.within(1, waiting)) % size,
            2 => head,
            _ => lifted,
        };
        Some(record(HEAD, id, value))
    }

    /// Finishes a command, mostly one that can be posted.
    fn finish_record(&mut self) -> Option<Record> {
        let tags = self.outstanding();
        let ready: Vec<usize> = tags.iter().copied().filter(|tag| self.is_ready(*tag)).collect();
        let from = if self.random.chance(88) { ready } else { tags };
        let tag = self.random.choose(&from)?;
        let any = self.random.below(32_768);
        let status = self.random.pick(&[0, 0, 0, 0, 1, 9, 0x285, 0x4002, 32_767, any]);
        Some(record(FINISH, tag as u64, status))
    }

    /// A call that is likely to be refused.
    fn odd_record(&mut self) -> Record {
        match self.random.weighted(&[20, 15, 25, 25, 15]) {
            0 => self.shut_tail_record(),
            1 => self.bad_tail_record().unwrap_or_else(|| self.shut_tail_record()),
            2 => self.odd_head_record(),
            3 => self.odd_finish_record(),
            _ => record(START, 0, 0),
        }
    }

    /// A queue that may not be there, or a number above 15 with one in its low bits.
    fn odd_queue(&mut self) -> u64 {
        let id = self.random.below(16);
        let any = self.random.below(256);
        self.random.pick(&[id, id, 16, 17, 16 + id, 128 + id, 255, any])
    }

    /// A tail write of an SQ that is marked or not there.
    fn shut_tail_record(&mut self) -> Record {
        let odd = self.odd_queue();
        let id = self.shut_sq(odd);
        let value = self.tail_or_next(id);
        record(TAIL, id, value)
    }

    /// A value that marks an SQ, mostly where others are left.
    fn bad_tail_record(&mut self) -> Option<Record> {
        if !self.may_mark() {
            return None;
        }
        let id = self.random.choose(&self.unmarked_sqs())?;
        let (size, head, tail) = self.sq(id).map(|sq| (sq.size, sq.head, sq.tail))?;
        let lifted = ring::next(size, tail) | 1 << self.random.within(8, 15);
        let any = self.random.below(size);
        let before = (tail + size - 1) % size;
        let place = self.random.pick(&[head, before, any]);
        let above = self.random.pick(&[size, size + 1, 65_535]);
        let value = self.random.pick(&[tail, lifted, place, above]);
        Some(record(TAIL, id as u64, value))
    }

    fn odd_head_record(&mut self) -> Record {
        let id = self.odd_queue();
        let (size, head, tail) =
            self.console.controller.cq(id).map_or((4, 0, 0), |cq| (cq.size, cq.head, cq.tail));
        let lifted = tail | 1 << self.random.within(8, 15);
        let any = self.random.below(size);
        let odd = self.random.pick(&[size, (tail + 1) % size, any, 65_535]);
        let value = self.random.pick(&[head, lifted, odd]);
        record(HEAD, id, value)
    }

    /// A tag that is free or none at all, or a status of too many bits.
    fn odd_finish_record(&mut self) -> Record {
        let tags = self.outstanding();
        let tag = self.random.choose(&tags).unwrap_or(0) as u64;
        let any = self.random.below(65_536);
        if self.random.chance(50) {
            let status = self.random.pick(&[32_768, 65_535, 32_769, any | 1 << 15]);
            return record(FINISH, tag, status);
        }
        let free = self.random.below(64);
        let odd = self.random.pick(&[free, free, 64, 64 + tag, 128 + tag, 255]);
        let status = self.random.pick(&[0, 0, any]);
        record(FINISH, odd, status)
    }

    /// Spoils a record: its call, a spare byte, any bit, or two of these.
    pub fn damage_record(&mut self, record: &mut Record) {
        let spare = if record[0] == START && self.random.chance(50) { 1 } else { 4 };
        let any = self.random.below(256) as u8;
        match self.random.weighted(&[30, 50, 12, 8]) {
            0 => {
                record[0] = self.random.pick(&[0, 5, 6, record[0] | 0x80, 255, any.max(5)]);
            }
            1 => {
                let most = if spare == 1 { 3 } else { 15 };
                let place = self.random.within(spare, most) as usize;
                record[place] = self.random.pick(&[1, 0x80, 0xFF, any.max(1)]);
            }
            2 => {
                let place = self.random.below(RECORD as u64) as usize;
                record[place] ^= self.random.one_bit(8) as u8;
            }
            _ => {
                self.damage_record(record);
                self.damage_record(record);
            }
        }
    }
}
