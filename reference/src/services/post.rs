//! POST

use crate::request::Answer;
use crate::tables::Step;

pub fn post(step: &mut Step, ecb: u32, code: u32) -> Answer {
    post_ecb(step, ecb, code);
    Answer::done(0)
}

/// "a complete ECB stays as it is.  Otherwise complete is set, wait is cleared, the
/// code is stored, and the waiter, if any, needs one fewer; at zero it is ready and the
/// wait bits it set elsewhere are cleared."
pub fn post_ecb(step: &mut Step, number: u32, code: u32) {
    let ecb = &mut step.ecbs[number as usize];
    if ecb.complete != 0 {
        return;
    }
    let waiter = ecb.waiter;
    ecb.complete = 1;
    ecb.wait = 0;
    ecb.code = code;
    ecb.waiter = 0;
    if waiter == 0 {
        return;
    }
    let task = &mut step.tasks[waiter as usize];
    task.need -= 1;
    if task.need == 0 {
        for other in step.ecbs.iter_mut().filter(|other| other.waiter == waiter) {
            other.wait = 0;
            other.waiter = 0;
        }
    }
}
