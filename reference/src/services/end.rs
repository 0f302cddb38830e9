//! END

use crate::ending;
use crate::request::Answer;
use crate::tables::Step;

/// "A caller that still has subtasks, live or ended and not detached, is a program
/// error."
pub fn end(step: &mut Step, caller: u32, code: u32) -> Answer {
    // 207: END with subtasks
    if step.has_subtask(caller) {
        return ending::program_error(step, caller, 207);
    }
    ending::end(step, caller, code);
    Answer::done(0)
}
