//! How tasks end.

use crate::control::requeue;
use crate::numbers::TASKS;
use crate::request::Answer;
use crate::services::post::post_ecb;
use crate::tables::{Step, Task, ENDED, LIVE};

/// "its entries, waits and areas (but for subpool 0) go"; "A waiter that ends has its
/// wait bits cleared."  Subpool 0 is the step's, whose owner number is 0.
fn strip(step: &mut Step, task: u32) {
    step.keep_entries(|entry| entry.task != task);
    step.keep_areas(|area| area.owner != task);
    for ecb in step.ecbs.iter_mut().filter(|ecb| ecb.waiter == task) {
        ecb.wait = 0;
        ecb.waiter = 0;
    }
    let place = &mut step.tasks[task as usize];
    place.rwait = 0;
    place.need = 0;
}

/// Make a change; where it takes entries away, the rest is packed and who waits is seen.  Until
/// then the name area is as it was.
fn then_packed<F: Fn(&mut Step)>(step: &mut Step, change: F) {
    let entries = step.entry_count;
    change(step);
    if step.entry_count < entries {
        let queue = step.queue();
        requeue(step, &queue);
    }
}

/// "A task's end ends its subtasks, each of which ends its own: all of these places,
/// ended ones too, become free and their ECBs aren't posted."
fn free_below(step: &mut Step, task: u32) {
    for n in 1..=TASKS {
        if step.is_subtask(n, task) {
            free_with_below(step, n);
        }
    }
}

fn free_with_below(step: &mut Step, task: u32) {
    free_below(step, task);
    strip(step, task);
    step.tasks[task as usize] = Task::NONE;
}

/// DETACH: "an ended one is freed; a live one goes with all below it, nothing posted"
pub fn detach(step: &mut Step, task: u32) {
    then_packed(step, |step| free_with_below(step, task));
}

/// END of a task without subtasks.  "If attached with an ECB, that ECB is posted with
/// the code and the place is kept as ended, with its mother, priorities and ECB, until
/// DETACH; otherwise the place is free."  "Any end of task 1 ... ends the step".
pub fn end(step: &mut Step, task: u32, code: u32) {
    if task == 1 {
        *step = Step::over(code);
    } else {
        then_packed(step, |step| end_one(step, task, code));
    }
}

fn end_one(step: &mut Step, task: u32, code: u32) {
    debug_assert!(step.tasks[task as usize].state == LIVE);
    strip(step, task);
    let place = step.tasks[task as usize];
    if place.hasecb != 0 {
        post_ecb(step, place.ecb, code);
        step.tasks[task as usize].state = ENDED;
    } else {
        step.tasks[task as usize] = Task::NONE;
    }
}

/// ABEND without STEP: what is below goes; "The caller itself then ends as under END".
pub fn abend(step: &mut Step, task: u32, code: u32) {
    if task == 1 {
        *step = Step::over(code);
        return;
    }
    then_packed(step, |step| {
        free_below(step, task);
        end_one(step, task, code);
    });
}

/// Program errors "end the caller as ABEND without STEP would, with the error's number
/// as code".
pub fn program_error(step: &mut Step, caller: u32, number: u32) -> Answer {
    abend(step, caller, number);
    Answer::refused(number)
}
