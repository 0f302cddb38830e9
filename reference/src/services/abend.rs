//! ABEND

use crate::ending;
use crate::request::Answer;
use crate::tables::Step;

/// "Any end of task 1, or ABEND with STEP, ends the step: every table is empty and
/// only the code is kept."
pub fn abend(step: &mut Step, caller: u32, code: u32, whole: bool) -> Answer {
    if whole {
        *step = Step::over(code);
    } else {
        ending::abend(step, caller, code);
    }
    Answer::done(0)
}
