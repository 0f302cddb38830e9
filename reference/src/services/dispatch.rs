//! DISPATCH

use crate::numbers::TASKS;
use crate::request::Answer;
use crate::tables::Step;

/// "the ready task of highest dispatching priority, the lowest number among equals, or
/// 0 if none is ready"
pub fn dispatch(step: &Step) -> Answer {
    let mut best = 0;
    for n in 1..=TASKS {
        let task = &step.tasks[n as usize];
        if task.is_ready() && (best == 0 || task.disp > step.tasks[best as usize].disp) {
            best = n;
        }
    }
    Answer::done(best)
}
