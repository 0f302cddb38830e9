//! DETACH

use crate::ending;
use crate::request::Answer;
use crate::tables::Step;

/// "DETACH names a direct subtask: an ended one is freed; a live one goes with all
/// below it, nothing posted."
pub fn detach(step: &mut Step, caller: u32, task: u32) -> Answer {
    // 208: DETACH of a task that isn't a direct subtask
    if !step.is_subtask(task, caller) {
        return ending::program_error(step, caller, 208);
    }
    ending::detach(step, task);
    Answer::done(0)
}
