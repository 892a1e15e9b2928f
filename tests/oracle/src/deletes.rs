//! Script lines that delete queues, rightly and wrongly, and that look for what is gone.

use crate::generate::Generator;
use crate::model::{Cq, Sq};

/// Queues that were deleted, by their numbers, as they were then.
#[derive(Default)]
pub struct Gone {
    pub sqs: Vec<(u64, Sq)>,
    pub cqs: Vec<(u64, Cq)>,
}

/// What a queue may be like.
type Likeness = fn(&Generator, u64) -> bool;

impl Generator {
    /// Deletes a queue, or tries to; mostly looks for it, and creates one again.
    pub fn delete(&mut self) {
        match self.random.weighted(&[18, 20, 30, 22, 10]) {
            0 => self.delete_admin(),
            1 => self.odd_delete(),
            2 => self.delete_some_sq(),
            3 => self.delete_some_cq(),
            _ => self.delete_unstarted(),
        }
        for _ in 0..self.random.below(3) {
            self.miss();
        }
        if self.unmarked_sqs().len() < 3 || self.random.chance(50) {
            self.create_again();
        }
    }

    /// Deletes an SQ, if it can be; answers whether it went.
    pub fn delete_sq(&mut self, id: u64) -> bool {
        let old = self.console.controller.sq(id).cloned();
        let deleted = self.say(&format!("delete-sq {id}"));
        self.gone.sqs.extend(old.filter(|_| deleted).map(|sq| (id, sq)));
        deleted
    }

    fn delete_cq(&mut self, id: u64) -> bool {
        let old = self.console.controller.cq(id).cloned();
        let deleted = self.say(&format!("delete-cq {id}"));
        self.gone.cqs.extend(old.filter(|_| deleted).map(|cq| (id, cq)));
        deleted
    }

    /// "Id 0 is never deleted", whether it is there or not.
    pub fn delete_admin(&mut self) {
        let line = self.random.pick(&["delete-sq 0", "delete-cq 0"]);
        self.say(line);
    }

    /// A queue that is not there, or a number above 15, at times with 0 or that of a queue in its
    /// low bits.
    fn odd_delete(&mut self) {
        let of_sq = self.random.chance(50);
        let there = if of_sq { self.sqs() } else { self.cqs() };
        let free: Vec<u64> = (1..16).filter(|id| !there.contains(id)).collect();
        let low = self.random.choose(&there).unwrap_or(0);
        let lifted = [0, low].map(|id| self.random.lifted(id));
        let edge = self.random.edge();
        let id = match self.random.weighted(&[35, 50, 15]) {
            0 => self.random.choose(&free).unwrap_or(16),
            1 => self.random.pick(&lifted),
            _ => self.random.pick(&[16, 31, u64::MAX, edge]),
        };
        if of_sq {
            self.delete_sq(id);
        } else {
            self.delete_cq(id);
        }
    }

    /// One of these that is like that, if there is one, else any.
    fn one_like(&mut self, ids: &[u64], like: Likeness) -> Option<u64> {
        let alike: Vec<u64> = ids.iter().copied().filter(|id| like(self, *id)).collect();
        self.random.choose(&alike).or_else(|| self.random.choose(ids))
    }

    /// Deletes an SQ that has outstanding commands, that is marked, that has unstarted entries, or
    /// that is idle.
    fn delete_some_sq(&mut self) {
        let likes: [Likeness; 4] = [
            |g, id| !g.tags_of(id).is_empty(),
            |g, id| g.sq(id as usize).is_some_and(|sq| sq.marked),
            |g, id| g.sq(id as usize).is_some_and(|sq| sq.head != sq.tail),
            |g, id| g.sq(id as usize).is_some_and(|sq| sq.head == sq.tail && !sq.marked),
        ];
        let like = likes[self.random.weighted(&[25, 40, 25, 10])];
        let ids = self.io_sqs();
        let Some(id) = self.one_like(&ids, like) else { return };
        if !self.delete_sq(id) && self.tags_of(id).len() < 12 && self.random.chance(60) {
            self.finish_and_delete(id);
        }
    }

    /// Deletes a CQ that several SQs name, one, or none.
    fn delete_some_cq(&mut self) {
        let likes: [Likeness; 3] = [
            |g, id| g.sqs_on(id).len() > 1,
            |g, id| g.sqs_on(id).len() == 1,
            |g, id| g.sqs_on(id).is_empty(),
        ];
        let like = likes[self.random.weighted(&[30, 30, 40])];
        let ids = self.io_cqs();
        if let Some(id) = self.one_like(&ids, like) {
            self.delete_cq(id);
        }
    }

    /// Submits to an SQ without outstanding commands, deletes it, and finds nothing to start.
    fn delete_unstarted(&mut self) {
        let idle = |id: &usize| *id != 0 && self.tags_of(*id as u64).is_empty();
        let ids: Vec<usize> = self.open_sqs().into_iter().filter(idle).collect();
        let Some(id) = self.random.choose(&ids) else { return };
        let most = self.random.within(1, 4);
        self.submit_slots(id, most);
        self.delete_sq(id as u64);
        self.say("start");
    }

    /// Finishes the commands of an SQ, at times with a deletion tried before the last, and deletes
    /// the SQ.
    pub fn finish_and_delete(&mut self, id: u64) -> bool {
        self.lend_all();
        let tags = self.tags_of(id);
        if let Some((last, others)) = tags.split_last() {
            self.finish_tags(others);
            if self.random.chance(40) {
                self.delete_sq(id);
            }
            self.finish_tags(&[*last]);
        }
        if self.random.chance(8) {
            let lifted = self.random.lifted(id);
            self.say(&format!("delete-sq {lifted}"));
        }
        self.delete_sq(id)
    }

    /// A cleaning shift: the SQs of a CQ are deleted once their commands are finished, and then the
    /// CQ; all of them are created again and used.
    pub fn cleaning_shift(&mut self) {
        let ids = self.io_cqs();
        let Some(id) = self.random.choose(&ids) else { return };
        let sqs = self.sqs_on(id);
        let commands: usize = sqs.iter().map(|id| self.tags_of(*id).len()).sum();
        let large = self.console.controller.cq(id).is_some_and(|cq| cq.size > 300);
        if (commands > 20 || large) && self.random.chance(70) {
            return;
        }
        for sq in sqs {
            if self.random.chance(20) {
                self.delete_cq(id);
            }
            self.finish_and_delete(sq);
        }
        if self.random.chance(20) {
            self.take_all(id as usize);
        }
        if self.random.chance(15) {
            let lifted = self.random.lifted(id);
            self.say(&format!("delete-cq {lifted}"));
        }
        self.delete_cq(id);
        for _ in 0..self.random.below(4) {
            self.miss();
        }
        self.create_all_again();
    }

    /// Looks for a queue that was deleted.
    fn miss(&mut self) {
        let any = self.random.below(16);
        let sqs: Vec<u64> = self.gone.sqs.iter().map(|(id, _)| *id).collect();
        let cqs: Vec<u64> = self.gone.cqs.iter().map(|(id, _)| *id).collect();
        let sq = self.random.choose(&sqs).unwrap_or(any);
        let cq = self.random.choose(&cqs).unwrap_or(any);
        let value = self.random.below(4);
        let line = match self.random.below(9) {
            0 => format!("show-sq {sq}"),
            1 => format!("show-cq {cq}"),
            2 if self.sq(sq as usize).is_none() => format!("tail {sq} {value}"),
            3 => format!("head {cq} {value}"),
            4 => format!("delete-sq {sq}"),
            5 => format!("delete-cq {cq}"),
            6 if sq != 0 => format!("create-sq {sq} 4 {} {cq} 0", 4096 * any),
            7 => return self.lend_without(),
            _ => "start".to_string(),
        };
        self.say(&line);
    }

    /// Lends no more than the rings that are there need, and starts and finishes.
    fn lend_without(&mut self) {
        let ends = self.console.controller.rings().map(|ring| ring.end() as u64);
        let needed = ends.max().unwrap_or(0);
        self.say(&format!("lend {needed}"));
        self.start();
        self.finish();
        self.lend_all();
    }

    /// Deletes queues of which the ring is not lent now, as far as they can be, and goes on.
    pub fn delete_outside(&mut self) {
        let (controller, lent) = (&self.console.controller, self.console.lent);
        let sq_outside = |id: &u64| controller.sq(*id).is_some_and(|sq| !sq.extent().lies_in(lent));
        let cq_outside = |id: &u64| controller.cq(*id).is_some_and(|cq| !cq.extent().lies_in(lent));
        let sqs: Vec<u64> = (0..16).filter(sq_outside).collect();
        let cqs: Vec<u64> = (0..16).filter(cq_outside).collect();
        for id in sqs.into_iter().take(3) {
            self.delete_sq(id);
        }
        for id in cqs.into_iter().take(3) {
            self.delete_cq(id);
        }
        self.start();
        self.finish();
    }

    /// The SQs that exist.
    fn sqs(&self) -> Vec<u64> {
        (0..16).filter(|id| self.console.controller.sq(*id).is_some()).collect()
    }

    fn io_sqs(&self) -> Vec<u64> {
        self.sqs().into_iter().filter(|id| *id != 0).collect()
    }

    fn io_cqs(&self) -> Vec<u64> {
        self.cqs().into_iter().filter(|id| *id != 0).collect()
    }

    /// The SQs that name this CQ.
    fn sqs_on(&self, cq: u64) -> Vec<u64> {
        let names = |id: &u64| self.sq(*id as usize).is_some_and(|sq| sq.cq as u64 == cq);
        self.sqs().into_iter().filter(names).collect()
    }

    /// The tags of this SQ's outstanding commands.
    pub fn tags_of(&self, sq: u64) -> Vec<usize> {
        let of_sq = |tag: &usize| self.command(*tag).is_some_and(|command| command.sq as u64 == sq);
        self.outstanding().into_iter().filter(of_sq).collect()
    }
}
