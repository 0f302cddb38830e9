//! DEQ

use super::answer_with_codes;
use crate::control::{entry_of, requeue};
use crate::ending::program_error;
use crate::names::Asked;
use crate::numbers::LIST;
use crate::request::Answer;
use crate::tables::Step;

/// "NONE: a name the caller has no entry for is error 202.  HAVE: code 0 released, 8 no
/// entry; the others are still released."  Where none is released, nothing changes.
pub fn deq(step: &mut Step, caller: u32, have: bool, names: &[Asked], codes: &mut [u8]) -> Answer {
    let mut queue = step.queue();
    let mut room = [0u8; LIST];
    for (code, asked) in room.iter_mut().zip(names) {
        *code = if entry_of(&queue, caller, asked).is_some() { 0 } else { 8 };
    }
    let found = &room[..names.len()];
    if !have && found.contains(&8) {
        return program_error(step, caller, 202);
    }
    queue.retain(|e| e.task != caller || names.iter().all(|asked| asked.name != e.name));
    if queue.len() < step.entry_count {
        requeue(step, &queue);
    }
    if have {
        answer_with_codes(found, codes)
    } else {
        Answer::done(0)
    }
}
