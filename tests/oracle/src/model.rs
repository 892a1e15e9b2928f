//! The controller of document 01: creates, doorbell writes, start and finish, with the start
//! numbers of document 02's fourth request and the deletions of its fifth. Refusals are the papers'
//! numbers. Each condition of the refusal table is tested by itself, and the first in the papers'
//! order is given.

use crate::arbiter::{Arbiter, Candidates, QUEUES};
use crate::entry::{Completion, Submission, COMPLETION, STATUS_MAX, SUBMISSION};
use crate::ring::{self, Extent};

/// "Up to 64 commands are outstanding".
pub const TAGS: usize = 64;

/// "A start that would need a number above 18,446,744,073,709,551,614 is refused with 32".
const LAST_NUMBER: u64 = 18_446_744_073_709_551_614;

/// The verdicts, and the status of a second half whose first half failed.
pub const INVALID_FIELD: u64 = 0x02;
pub const CID_CONFLICT: u64 = 0x03;
pub const FAILED_FUSED: u64 = 0x09;
pub const MISSING_FUSED: u64 = 0x0A;

#[derive(Clone, PartialEq)]
pub struct Sq {
    pub base: u64,
    pub size: u64,
    pub head: u64,
    pub tail: u64,
    pub cq: usize,
    pub class: u64,
    pub marked: bool,
}

#[derive(Clone, PartialEq)]
pub struct Cq {
    pub base: u64,
    pub size: u64,
    pub head: u64,
    pub tail: u64,
    /// The tag that the next posting gets.
    pub phase: u64,
}

/// What a command is in its pair, if it is in one.
#[derive(Clone, Copy, PartialEq)]
pub enum Part {
    Alone,
    /// With the tag of its second half.
    First(usize),
    /// Its first half is outstanding.
    SecondWaiting,
    /// Its first half has been finished.
    SecondReady,
}

/// An outstanding command.
#[derive(Clone, PartialEq)]
pub struct Command {
    pub sq: usize,
    pub cid: u64,
    pub verdict: u64,
    pub part: Part,
    /// "Each outstanding command shall carry a start number".
    pub number: u64,
}

/// "It answers the SQ id, how many commands, the first tag, the second tag (0 if one is
/// taken), the first slot and the verdict." Of start numbers it reports "its first command's".
pub struct Started {
    pub sq: usize,
    pub count: u64,
    pub tag: usize,
    pub second_tag: usize,
    pub slot: u64,
    pub verdict: u64,
    pub number: u64,
}

/// "The answer names the slot", in the CQ; and "Finish reports" the command's start number.
pub struct Finished {
    pub slot: u64,
    pub number: u64,
}

#[derive(Clone, PartialEq)]
pub struct Controller {
    arbiter: Arbiter,
    pub sqs: [Option<Sq>; QUEUES],
    pub cqs: [Option<Cq>; QUEUES],
    pub tags: [Option<Command>; TAGS],
    /// The start number of the command that is taken next.
    pub next_number: u64,
}

/// A list of refusal numbers, each with whether it applies, in the order of the paper.
pub type Faults = Vec<(u64, bool)>;

fn first_of(faults: &[(u64, bool)]) -> Result<(), u64> {
    match faults.iter().find(|(_, applies)| *applies) {
        Some((number, _)) => Err(*number),
        None => Ok(()),
    }
}

/// The queue with this number, if there is one.
fn named<Q>(queues: &[Option<Q>; QUEUES], id: u64) -> Option<&Q> {
    queues.get(usize::try_from(id).ok()?)?.as_ref()
}

impl Sq {
    pub fn extent(&self) -> Extent {
        Extent::new(self.base, self.size, SUBMISSION)
    }

    /// "A candidate is an unmarked SQ that is not empty."
    fn is_candidate(&self) -> bool {
        !self.marked && self.head != self.tail
    }

    pub fn entry(&self, memory: &[u8], slot: u64) -> Result<Submission, u64> {
        Submission::read(&memory[(self.base + slot * SUBMISSION as u64) as usize..])
    }
}

impl Cq {
    pub fn extent(&self) -> Extent {
        Extent::new(self.base, self.size, COMPLETION)
    }
}

impl Controller {
    /// "A fresh controller has a mechanism (0 round robin, 1 weighted with urgent), the 32-bit
    /// Arbitration feature word, and no queues." "A controller refused with 23 is one of
    /// mechanism 0, word 0, no queues."
    pub fn new(mechanism: u64, word: u64) -> (u64, Controller) {
        let refused = mechanism > 1;
        let arbiter = if refused { Arbiter::new(0, 0) } else { Arbiter::new(mechanism, word) };
        let fresh = Controller {
            arbiter,
            sqs: std::array::from_fn(|_| None),
            cqs: std::array::from_fn(|_| None),
            tags: std::array::from_fn(|_| None),
            // "0 for the first command a controller takes".
            next_number: 0,
        };
        (if refused { 23 } else { 0 }, fresh)
    }

    pub fn arbiter(&self) -> &Arbiter {
        &self.arbiter
    }

    pub fn sq(&self, id: u64) -> Option<&Sq> {
        named(&self.sqs, id)
    }

    pub fn cq(&self, id: u64) -> Option<&Cq> {
        named(&self.cqs, id)
    }

    /// The bytes of every existing ring.
    pub fn rings(&self) -> impl Iterator<Item = Extent> + '_ {
        let sqs = self.sqs.iter().flatten().map(Sq::extent);
        sqs.chain(self.cqs.iter().flatten().map(Cq::extent))
    }

    /// Refusals 3, 4, 5 and 6, in this order for both creates. "Create tests 5 on the new ring".
    fn ring_faults(&self, lent: usize, size: u64, base: u64, entry: usize) -> Faults {
        let new = Extent::new(base, size, entry);
        vec![
            (3, !ring::size_is_allowed(size)),
            (4, base % 4096 != 0),
            (5, !new.lies_in(lent)),
            (6, self.rings().any(|old| old.shares_a_byte(&new))),
        ]
    }

    /// "create CQ 1, 2, 3, 4, 5, 6".
    pub fn create_cq_faults(&self, lent: usize, id: u64, size: u64, base: u64) -> Faults {
        let mut faults = vec![(1, id > 15), (2, self.cq(id).is_some())];
        faults.extend(self.ring_faults(lent, size, base, COMPLETION));
        faults
    }

    pub fn create_cq(&mut self, lent: usize, id: u64, size: u64, base: u64) -> Result<(), u64> {
        first_of(&self.create_cq_faults(lent, id, size, base))?;
        // "A new queue has head = tail = 0." "The tag written is 1 in the first pass".
        self.cqs[id as usize] = Some(Cq { base, size, head: 0, tail: 0, phase: 1 });
        Ok(())
    }

    /// "create SQ 1, 2, 8, 7, 3, 4, 5, 6".
    pub fn create_sq_faults(
        &self,
        lent: usize,
        id: u64,
        size: u64,
        base: u64,
        cq: u64,
        class: u64,
    ) -> Faults {
        // "the SQ names a CQ that does not exist; or SQ 0 a CQ other than 0; or another SQ
        // the CQ 0".
        let wrong_cq = self.cq(cq).is_none() || (id == 0) != (cq == 0);
        let mut faults =
            vec![(1, id > 15), (2, self.sq(id).is_some()), (8, class > 3), (7, wrong_cq)];
        faults.extend(self.ring_faults(lent, size, base, SUBMISSION));
        faults
    }

    pub fn create_sq(
        &mut self,
        lent: usize,
        id: u64,
        size: u64,
        base: u64,
        cq: u64,
        class: u64,
    ) -> Result<(), u64> {
        first_of(&self.create_sq_faults(lent, id, size, base, cq, class))?;
        let cq = cq as usize;
        self.sqs[id as usize] = Some(Sq { base, size, head: 0, tail: 0, cq, class, marked: false });
        Ok(())
    }

    /// The outstanding commands of this SQ.
    pub fn commands_of(&self, sq: u64) -> impl Iterator<Item = &Command> + '_ {
        self.tags.iter().flatten().filter(move |command| command.sq as u64 == sq)
    }

    /// The SQs that name this CQ.
    pub fn sqs_on(&self, cq: u64) -> impl Iterator<Item = &Sq> + '_ {
        self.sqs.iter().flatten().filter(move |sq| sq.cq as u64 == cq)
    }

    /// "Deleting an SQ drops its unstarted entries and is refused while it has outstanding commands
    /// (33)." "Id 0 is never deleted (35). Order: 1, 35, 9, 33 or 34." "a mark ends with its queue",
    /// and so does all else that the queue is; turns, credits and start numbers are not its own.
    pub fn delete_sq(&mut self, id: u64) -> Result<(), u64> {
        first_of(&[
            (1, id > 15),
            (35, id == 0),
            (9, self.sq(id).is_none()),
            (33, self.commands_of(id).next().is_some()),
        ])?;
        self.sqs[id as usize] = None;
        Ok(())
    }

    /// "Deleting a CQ is refused while an SQ names it (34)." Unread entries do not stop it.
    pub fn delete_cq(&mut self, id: u64) -> Result<(), u64> {
        first_of(&[
            (1, id > 15),
            (35, id == 0),
            (9, self.cq(id).is_none()),
            (34, self.sqs_on(id).next().is_some()),
        ])?;
        self.cqs[id as usize] = None;
        Ok(())
    }

    /// "tail write 1, 9, 11, 10"; "10 on a tail write marks the SQ". "A new queue holds 0; refused
    /// writes do not count": the value held is the tail.
    pub fn write_tail(&mut self, id: u64, value: u64) -> Result<(), u64> {
        if id > 15 {
            return Err(1);
        }
        let sq = self.sqs[id as usize].as_mut().ok_or(9u64)?;
        if sq.marked {
            return Err(11);
        }
        if !ring::tail_is_valid(sq.size, sq.head, sq.tail, value) {
            sq.marked = true;
            return Err(10);
        }
        sq.tail = value;
        Ok(())
    }

    /// "head write 1, 9, 10"; "A bad head write marks nothing." The value held is the head.
    pub fn write_head(&mut self, id: u64, value: u64) -> Result<(), u64> {
        if id > 15 {
            return Err(1);
        }
        let cq = self.cqs[id as usize].as_mut().ok_or(9u64)?;
        if !ring::head_is_valid(cq.size, cq.head, cq.tail, value) {
            return Err(10);
        }
        cq.head = value;
        Ok(())
    }

    /// "start and finish on every existing ring".
    fn every_ring_in(&self, lent: usize) -> Result<(), u64> {
        if self.rings().all(|ring| ring.lies_in(lent)) {
            Ok(())
        } else {
            Err(5)
        }
    }

    pub fn candidates(&self) -> Candidates {
        std::array::from_fn(|id| {
            let sq = self.sqs[id].as_ref()?;
            sq.is_candidate().then_some(sq.class)
        })
    }

    pub fn free_tags(&self) -> impl Iterator<Item = usize> + '_ {
        (0..TAGS).filter(|tag| self.tags[*tag].is_none())
    }

    /// "CID in use by an outstanding command of the same SQ".
    fn cid_in_use(&self, sq: usize, cid: u64) -> bool {
        self.commands_of(sq as u64).any(|command| command.cid == cid)
    }

    /// "start 5, 12, 13", and 32 "after 13 in the order". "One start takes one command, or a whole
    /// pair, and counts as one; the SQ head moves past what is taken."
    pub fn start(&mut self, memory: &[u8]) -> Result<Started, u64> {
        self.every_ring_in(memory.len())?;
        let (id, arbiter) = self.arbiter.choose(&self.candidates()).ok_or(12u64)?;
        let sq = self.sqs[id].as_ref().ok_or(12u64)?;
        let slot = sq.head;
        let after = ring::next(sq.size, slot);
        let first = sq.entry(memory, slot)?;
        // Only a submitted follower is read: "Reading a pair's second half past the tail" is
        // a slip.
        let follower = if after == sq.tail { None } else { Some(sq.entry(memory, after)?) };
        // "On SQ 0, FUSE not 0: 02h, taken alone." "FUSE 1 without a submitted follower of
        // FUSE 2: 0Ah, and only the one is taken."
        let second = follower.filter(|next| id != 0 && first.fuse == 1 && next.fuse == 2);
        let verdict = match &second {
            Some(second) => self.pair_verdict(id, &first, second),
            None => self.single_verdict(id, &first),
        };
        // "the tag is the lowest that is free"; "A pair takes the two lowest free, the first
        // half the lower"; "If the chosen SQ needs more than are free, the answer is 13."
        let mut free = self.free_tags();
        let tag = free.next().ok_or(13u64)?;
        let second_tag = match &second {
            Some(_) => free.next().ok_or(13u64)?,
            None => 0,
        };
        drop(free);
        // "one more for each further command, a pair taking two in order": a pair needs the number
        // after the first too, whatever its verdict.
        let count = if second.is_some() { 2 } else { 1 };
        let number = self.next_number;
        let last_number = number.checked_add(count - 1).filter(|last| *last <= LAST_NUMBER);
        let last_number = last_number.ok_or(32u64)?;
        let head = if second.is_some() { ring::next(sq.size, after) } else { after };

        self.arbiter = arbiter;
        self.move_sq_head(id, head);
        self.next_number = last_number + 1;
        let mut part = Part::Alone;
        if let Some(second) = &second {
            part = Part::First(second_tag);
            let (cid, part) = (second.cid, Part::SecondWaiting);
            self.tags[second_tag] =
                Some(Command { sq: id, cid, verdict, part, number: last_number });
        }
        self.tags[tag] = Some(Command { sq: id, cid: first.cid, verdict, part, number });
        Ok(Started { sq: id, count, tag, second_tag, slot, verdict, number })
    }

    fn move_sq_head(&mut self, id: usize, head: u64) {
        if let Some(sq) = self.sqs[id].as_mut() {
            sq.head = head;
        }
    }

    /// "Verdicts, first match wins."
    fn single_verdict(&self, sq: usize, entry: &Submission) -> u64 {
        if sq == 0 && entry.fuse != 0 {
            INVALID_FIELD
        } else if entry.fuse == 3 {
            INVALID_FIELD
        } else if entry.fuse == 2 || entry.fuse == 1 {
            MISSING_FUSED
        } else if entry.psdt != 0 {
            INVALID_FIELD
        } else if self.cid_in_use(sq, entry.cid) {
            CID_CONFLICT
        } else {
            0
        }
    }

    /// "For a pair, both halves alike".
    fn pair_verdict(&self, sq: usize, first: &Submission, second: &Submission) -> u64 {
        let opcodes = (first.opc, second.opc) == (0x05, 0x01);
        let same_blocks =
            (first.nsid, first.slba, first.nlb) == (second.nsid, second.slba, second.nlb);
        let prps = first.psdt == 0 && second.psdt == 0;
        let in_use = self.cid_in_use(sq, first.cid) || self.cid_in_use(sq, second.cid);
        if !opcodes || !same_blocks || !prps {
            INVALID_FIELD
        } else if in_use || first.cid == second.cid {
            CID_CONFLICT
        } else {
            0
        }
    }

    /// "finish 5, 14, 15, 16, 17".
    pub fn finish(
        &mut self,
        memory: &mut [u8],
        tag: u64,
        status: u64,
        result: u64,
    ) -> Result<Finished, u64> {
        self.every_ring_in(memory.len())?;
        let tag = usize::try_from(tag).map_err(|_| 14u64)?;
        let command = self.tags.get(tag).and_then(Option::as_ref).ok_or(14u64)?;
        if status > STATUS_MAX {
            return Err(15);
        }
        if command.part == Part::SecondWaiting {
            return Err(16);
        }
        let sq = self.sqs[command.sq].as_ref().ok_or(14u64)?;
        let cq = self.cqs[sq.cq].as_mut().ok_or(14u64)?;
        if ring::is_full(cq.size, cq.head, cq.tail) {
            return Err(17);
        }
        // "The posted status is the verdict if not 0; else 09h for a second half whose first
        // half posted a status other than 0; else the status given." The 09h was put in the
        // place of the verdict when the first half was posted.
        let posted = if command.verdict != 0 { command.verdict } else { status };
        // "Exactly the 16 bytes at the CQ tail change, the tail moves by one and the tag is
        // freed." "SQHD is the SQ head at the moment of posting."
        let slot = cq.tail;
        let entry = Completion {
            result,
            sqhd: sq.head,
            sqid: command.sq as u64,
            cid: command.cid,
            status: posted,
            tag: cq.phase,
        };
        entry.write(&mut memory[(cq.base + slot * COMPLETION as u64) as usize..])?;
        cq.tail = ring::next(cq.size, slot);
        // "turns over at each wrap".
        if cq.tail == 0 {
            cq.phase = 1 - cq.phase;
        }
        let (part, number) = (command.part, command.number);
        self.tags[tag] = None;
        if let Part::First(second) = part {
            self.release(second, posted);
        }
        Ok(Finished { slot, number })
    }

    /// The first half was posted with this status: the second may be finished from now on,
    /// and "if a first half's status is not 0, its second half's verdict 0 becomes 09h".
    fn release(&mut self, second: usize, posted: u64) {
        if let Some(command) = self.tags[second].as_mut() {
            command.part = Part::SecondReady;
            if posted != 0 && command.verdict == 0 {
                command.verdict = FAILED_FUSED;
            }
        }
    }
}
