//! Rings, doorbell values and the completion reader: document 01, "Rings and doorbells", with
//! document 02's second request, "Same value written twice".

use crate::entry::{Completion, COMPLETION};

/// The bytes of a ring, from `start` up to but not with `end`. Wide enough that no sum wraps.
#[derive(Clone, Copy)]
pub struct Extent {
    start: u128,
    end: u128,
}

impl Extent {
    pub fn new(base: u64, size: u64, entry: usize) -> Extent {
        let start = u128::from(base);
        Extent { start, end: start + u128::from(size) * entry as u128 }
    }

    /// "a ring does not lie wholly in the memory given" is the opposite.
    pub fn lies_in(&self, lent: usize) -> bool {
        self.end <= lent as u128
    }

    /// "the new ring shares a byte with an existing ring".
    pub fn shares_a_byte(&self, other: &Extent) -> bool {
        self.start < other.end && other.start < self.end
    }

    pub fn start(&self) -> u128 {
        self.start
    }

    pub fn end(&self) -> u128 {
        self.end
    }
}

/// "size outside 2 to 1,024 entries" is the opposite.
pub fn size_is_allowed(size: u64) -> bool {
    (2..=1024).contains(&size)
}

/// "Distances are modulo the size." Both places are below the size.
pub fn distance(size: u64, from: u64, to: u64) -> u64 {
    (to + size - from) % size
}

/// The slot after this one; the last is followed by slot 0.
pub fn next(size: u64, slot: u64) -> u64 {
    (slot + 1) % size
}

/// "a full ring holds size - 1 entries".
pub fn is_full(size: u64, head: u64, tail: u64) -> bool {
    distance(size, head, tail) == size - 1
}

/// "A tail value is valid when it is below the size and its distance from the head is
/// no less than the old tail's." Document 02's second request: "a write of the value held is
/// refused with 10 on either doorbell, in the plain checks too". An SQ holds its tail.
pub fn tail_is_valid(size: u64, head: u64, tail: u64, value: u64) -> bool {
    value < size && value != tail && distance(size, head, value) >= distance(size, head, tail)
}

/// "A head value is valid when it is below the size and its distance from the old head is
/// no more than the tail's." The value held, as above, is the CQ's head.
pub fn head_is_valid(size: u64, head: u64, tail: u64, value: u64) -> bool {
    value < size && value != head && distance(size, head, value) <= distance(size, head, tail)
}

/// "plain doorbell checks 3, 10"; 10 "also a head or tail not below size".
fn plain(size: u64, head: u64, tail: u64) -> Result<(), u64> {
    if !size_is_allowed(size) {
        return Err(3);
    }
    if head >= size || tail >= size {
        return Err(10);
    }
    Ok(())
}

pub fn check_tail(size: u64, head: u64, tail: u64, value: u64) -> Result<(), u64> {
    plain(size, head, tail)?;
    if tail_is_valid(size, head, tail, value) {
        Ok(())
    } else {
        Err(10)
    }
}

pub fn check_head(size: u64, head: u64, tail: u64, value: u64) -> Result<(), u64> {
    plain(size, head, tail)?;
    if head_is_valid(size, head, tail, value) {
        Ok(())
    } else {
        Err(10)
    }
}

/// "The reader takes ring, size, head and current tag, and walks forward, the tag turning at
/// the wrap, while the tag matches, at most size - 1 entries. It answers their number."
/// "reader 3, 5, 10"; "5 when lent fewer than 16 times size bytes".
pub fn waiting(ring: &[u8], size: u64, head: u64, tag: u64) -> Result<u64, u64> {
    if !size_is_allowed(size) {
        return Err(3);
    }
    if (ring.len() as u64) < size * COMPLETION as u64 {
        return Err(5);
    }
    if head >= size {
        return Err(10);
    }
    let mut slot = head;
    let mut expected = tag % 2;
    let mut count = 0;
    while count < size - 1 {
        let entry = Completion::read(&ring[slot as usize * COMPLETION..])?;
        if entry.tag != expected {
            break;
        }
        count += 1;
        slot = next(size, slot);
        if slot == 0 {
            expected = 1 - expected;
        }
    }
    Ok(count)
}
