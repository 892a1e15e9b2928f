//! The replay of a plant's trace, document 02's first request, over the oracle's controller.

use crate::entry::{get, put};
use crate::model::Controller;

/// "records of 16 bytes, no header"; an answer record has as many.
pub const RECORD: usize = 16;

/// "30 for an unknown call or a nonzero spare byte".
pub const MALFORMED: u64 = 30;
/// "31, before 30, for a last short record".
pub const SHORT: u64 = 31;

/// "byte 0 the call (1 tail write, 2 head write, 3 start, 4 finish), byte 1 the queue or tag,
/// bytes 2 to 3 a value".
pub enum Call {
    Tail { sq: u64, value: u64 },
    Head { cq: u64, value: u64 },
    Start,
    Finish { tag: u64, status: u64 },
}

impl Call {
    /// The call that a record names, or the number of a record that names none.
    pub fn of(record: &[u8]) -> Result<Call, u64> {
        if record.len() < RECORD {
            return Err(SHORT);
        }
        // "the rest zero; in a start bytes 1 to 3 are zero too".
        let spare = if record[0] == 3 { 1 } else { 4 };
        if record[spare..].iter().any(|byte| *byte != 0) {
            return Err(MALFORMED);
        }
        let (id, value) = (get(record, 1, 1), get(record, 2, 2));
        match record[0] {
            1 => Ok(Call::Tail { sq: id, value }),
            2 => Ok(Call::Head { cq: id, value }),
            3 => Ok(Call::Start),
            4 => Ok(Call::Finish { tag: id, status: value }),
            _ => Err(MALFORMED),
        }
    }

    /// Makes the call. Answers its result: "value written, first tag, or slot posted". A start
    /// takes start numbers like any other; they stand in no answer record.
    fn make(&self, controller: &mut Controller, memory: &mut [u8]) -> Result<u64, u64> {
        match *self {
            Call::Tail { sq, value } => controller.write_tail(sq, value).map(|()| value),
            Call::Head { cq, value } => controller.write_head(cq, value).map(|()| value),
            Call::Start => controller.start(memory).map(|started| started.tag as u64),
            // "A finish takes the value as status and 0 as result."
            Call::Finish { tag, status } => {
                controller.finish(memory, tag, status, 0).map(|finished| finished.slot)
            }
        }
    }
}

/// "byte 0 as sent, refusal number, two result bytes (..; 0 if refused), twelve zeros".
fn answer(record: &[u8], result: Result<u64, u64>) -> [u8; RECORD] {
    let mut answer = [0; RECORD];
    answer[0] = record[0];
    match result {
        Ok(number) => put(&mut answer, 2, 2, number),
        Err(refusal) => put(&mut answer, 1, 1, refusal),
    }
    answer
}

/// The bytes of room that a trace needs: "one record for each begun record".
pub fn needed(trace: &[u8]) -> usize {
    RECORD * trace.len().div_ceil(RECORD)
}

/// Replays a trace and answers its answer records. "The answer room is tested first (21)",
/// and "only 21 refuses the replay itself".
pub fn replay(
    controller: &mut Controller,
    memory: &mut [u8],
    trace: &[u8],
    room: usize,
) -> Result<Vec<u8>, u64> {
    if room < needed(trace) {
        return Err(21);
    }
    let mut answers = Vec::new();
    for record in trace.chunks(RECORD) {
        let result = Call::of(record).and_then(|call| call.make(controller, memory));
        answers.extend(answer(record, result));
    }
    Ok(answers)
}
