//! Script lines that create queues again that were deleted, and use them.

use crate::entry::{Completion, COMPLETION, SUBMISSION};
use crate::generate::Generator;
use crate::model::{Cq, Sq};

impl Generator {
    /// Creates a queue again that was deleted, CQs first, and mostly uses it.
    pub fn create_again(&mut self) {
        self.lend_all();
        if let Some((id, old)) = self.gone.cqs.pop() {
            return self.create_cq_again(id, &old);
        }
        let Some((id, old)) = self.gone.sqs.pop() else { return };
        let class = if self.random.chance(75) { old.class } else { self.random.below(4) };
        self.create_sq_again(id, &old, class);
        if self.random.chance(60) {
            self.use_again(id);
        }
    }

    /// Creates all of them again, at times a CQ where an SQ was, and the other way round.
    pub fn create_all_again(&mut self) {
        let last = self.gone.sqs.last_mut().zip(self.gone.cqs.last_mut());
        if let Some(((_, sq), (_, cq))) = last.filter(|_| self.random.chance(30)) {
            std::mem::swap(&mut sq.base, &mut cq.base);
        }
        while !self.gone.sqs.is_empty() || !self.gone.cqs.is_empty() {
            self.create_again();
        }
    }

    /// Mostly on the same bytes; elsewhere where these are another's now.
    fn create_cq_again(&mut self, id: u64, old: &Cq) {
        let (size, base) = self.place_again(old.size, old.base, COMPLETION);
        self.clear_tags(size, base);
        let created = self.say(&format!("create-cq {id} {size} {base}"));
        if !created && self.console.controller.cq(id).is_none() {
            self.create_cq(id, 0);
        }
        if self.random.chance(70) {
            self.read_new(id);
        }
        if self.random.chance(10) {
            self.say(&format!("head {id} 0"));
        }
        if self.random.chance(12) {
            self.contest(&format!("create-cq {id}"), base);
        }
    }

    /// The same, mostly on the same CQ.
    fn create_sq_again(&mut self, id: u64, old: &Sq, class: u64) {
        let (size, base) = self.place_again(old.size, old.base, SUBMISSION);
        let named = Some(old.cq as u64).filter(|cq| self.console.controller.cq(*cq).is_some());
        let cq = named.filter(|_| self.random.chance(80)).unwrap_or_else(|| self.fitting_cq(id));
        let created = self.say(&format!("create-sq {id} {size} {base} {cq} {class}"));
        if !created && self.sq(id as usize).is_none() {
            self.create_sq(id, cq, 0);
        }
        if self.random.chance(4) && self.may_mark() {
            self.say(&format!("tail {id} 0"));
        }
        if self.random.chance(12) {
            self.contest(&format!("create-sq {id}"), base);
        }
    }

    /// Size and base of a queue that is created again.
    fn place_again(&mut self, size: u64, base: u64, entry: usize) -> (u64, u64) {
        let kind = if size > 300 { 3 } else { self.random.weighted(&[70, 20, 10]) };
        let other = self.size(kind);
        match self.random.weighted(&[60, 15, 15, 10]) {
            0 => (size, base),
            1 => (other, base),
            2 => (size, self.free_base(size, entry)),
            _ => (other, self.free_base(other, entry)),
        }
    }

    /// Clears the phase tags where a CQ is to be, by one line or more; now and then leaves them, or
    /// sets them all.
    fn clear_tags(&mut self, size: u64, base: u64) {
        let filled = format!("fill {base} {}", 16 * size);
        let line = match self.random.weighted(&[40, 25, 25, 10]) {
            0 => format!("{filled} 0"),
            1 if size <= 8 => return self.clear_set_tags(size, base),
            1 if size <= 64 => format!("poke64 {base}{}", " 0".repeat(2 * size as usize)),
            1 => format!("{filled} 254"),
            2 => return,
            _ => format!("{filled} 255"),
        };
        self.say(&line);
    }

    /// Pokes the byte with the phase tag of each slot in which it is set.
    fn clear_set_tags(&mut self, size: u64, base: u64) {
        for at in (0..size).map(|slot| base + 16 * slot) {
            let bytes = self.console.memory().get(at as usize..).unwrap_or_default();
            if Completion::read(bytes).is_ok_and(|entry| entry.tag == 1) {
                self.say(&format!("poke {} 0", at + 14));
            }
        }
    }

    /// Reads a CQ as if it had just been created: with clear phase tags nothing waits.
    fn read_new(&mut self, id: u64) {
        if let Some(cq) = self.console.controller.cq(id) {
            let (base, size) = (cq.base, cq.size);
            self.say(&format!("waiting {base} {} {size} 0 1", 16 * size));
        }
    }

    /// Creates that queue once more, or another where it is now.
    fn contest(&mut self, create: &str, base: u64) {
        let elsewhere = self.free_base(4, SUBMISSION);
        let other = self.random.below(16);
        let cq = self.fitting_cq(other);
        let line = match self.random.below(3) {
            0 if create.starts_with("create-cq") => format!("{create} 4 {elsewhere}"),
            0 => format!("{create} 4 {elsewhere} {cq} 0"),
            1 => format!("create-cq {other} 2 {base}"),
            _ => format!("create-sq {other} 2 {base} {cq} 0"),
        };
        self.say(&line);
    }

    /// Submits to an SQ that was just created, new entries or what its slots hold, starts, finishes
    /// and reads.
    fn use_again(&mut self, id: u64) {
        let most = self.random.within(1, 3).min(self.room(id as usize));
        if most > 0 && self.random.chance(40) {
            self.submit_to(id as usize, most);
        } else {
            self.submit_slots(id as usize, most);
        }
        for _ in 0..self.random.within(1, 3) {
            self.start();
        }
        if self.random.chance(60) {
            let tags = self.tags_of(id);
            self.finish_tags(&tags);
        }
        if self.random.chance(40) {
            self.reader();
        }
    }

    /// Moves a tail over as many slots as there is room for, up to so many, whatever they hold.
    pub fn submit_slots(&mut self, id: usize, most: u64) {
        let step = self.room(id).min(most);
        let Some(sq) = self.sq(id).filter(|sq| step > 0 && !sq.marked) else { return };
        let value = (sq.tail + step) % sq.size;
        self.say(&format!("tail {id} {value}"));
    }

    /// Deletes an SQ that holds a turn, mostly creates it again, and starts where others of its
    /// class, and now and then of another, wait too.
    pub fn holder_again(&mut self) {
        let holders = self.holders();
        let Some(id) = self.random.choose(&holders) else { return };
        let Some(old) = self.sq(id as usize).cloned() else { return };
        if self.tags_of(id).len() > 12 || !self.finish_and_delete(id) {
            return;
        }
        self.show_turns(25);
        let mut class = old.class;
        if self.random.chance(60) {
            self.gone.sqs.pop();
            if self.random.chance(40) {
                class = self.random.below(4);
            }
            self.create_sq_again(id, &old, class);
            // Back in its class, with what the turn there has left.
            if class != old.class && self.random.chance(65) && self.delete_sq(id) {
                self.gone.sqs.pop();
                class = old.class;
                self.create_sq_again(id, &old, class);
            }
        }
        self.submit_beside(id, class);
        for _ in 0..self.random.within(2, 7) {
            self.start();
        }
        self.show_turns(25);
    }

    /// Submits to this SQ, if it is there, and to others, above all to those of this class.
    fn submit_beside(&mut self, id: u64, class: u64) {
        for other in self.open_sqs() {
            let alike = self.sq(other).is_some_and(|sq| sq.class == class);
            let most = if other as u64 == id { 4 } else { self.random.within(1, 2) };
            if other as u64 == id || self.random.chance(if alike { 90 } else { 30 }) {
                self.submit_slots(other, most);
            }
        }
    }

    /// The SQs that hold a turn of which some is left, or, where there are none and now and then
    /// elsewhere, those that hold one of which none is.
    fn holders(&mut self) -> Vec<u64> {
        let controller = &self.console.controller;
        let turn = |id: u64| controller.sq(id).map(|sq| controller.arbiter().holder(sq.class));
        let holders =
            (1..16).filter(|id| turn(*id).is_some_and(|(holder, _)| holder as u64 == *id));
        let (left, spent): (Vec<u64>, Vec<u64>) =
            holders.partition(|id| turn(*id).is_some_and(|(_, left)| left));
        if left.is_empty() || self.random.chance(25) {
            spent
        } else {
            left
        }
    }
}
