//! WAIT

use crate::ending::program_error;
use crate::request::Answer;
use crate::tables::Step;

/// "With c of them complete, c at least n: the caller goes on, nothing changes.  Else
/// the wait bit is set in each incomplete one and the caller waits for n - c posts."
pub fn wait(step: &mut Step, caller: u32, count: u32, list: &[u32]) -> Answer {
    // 204: count above list length
    if count as usize > list.len() {
        return program_error(step, caller, 204);
    }
    // 203: a listed ECB has its wait bit on (after 204, whatever the count)
    if list.iter().any(|n| step.ecbs[*n as usize].wait != 0) {
        return program_error(step, caller, 203);
    }
    let complete = list.iter().filter(|n| step.ecbs[**n as usize].complete != 0).count() as u32;
    if complete < count {
        for n in list {
            let ecb = &mut step.ecbs[*n as usize];
            if ecb.complete == 0 {
                ecb.wait = 1;
                ecb.waiter = caller;
            }
        }
        step.tasks[caller as usize].need = count - complete;
    }
    Answer::done(0)
}
