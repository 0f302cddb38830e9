//! The rules that look at no name.

use crate::name_area::is_zero;
use crate::numbers::{is_address, is_ecb, is_length, is_task};
use crate::numbers::{END_CODE, GRAIN, POST_CODE, PRIORITY, REGION, SUBPOOL, TASKS};
use crate::tables::{Area, Ecb, Entry, Step, Task, ENDED, FREE, LIVE};

/// The order decides nothing.
pub const RULES: [(&str, fn(&Step) -> bool); 30] = [
    ("over-empty", over_is_empty),
    ("over-names", over_has_no_names),
    ("range-step", step_in_range),
    ("range-task", tasks_in_range),
    ("range-entry", entries_in_range),
    ("range-ecb", ecbs_in_range),
    ("range-area", areas_in_range),
    ("packed-entry", entries_packed),
    ("packed-area", areas_packed),
    ("zero-step", step_code_unused),
    ("zero-task", task_fields_unused),
    ("zero-entry", entry_places_unused),
    ("zero-ecb", ecb_fields_unused),
    ("task-1", task_1),
    ("mother-live", mothers_live),
    ("chain", chains_reach_task_1),
    ("disp-limit", dispatching_at_most_limit),
    ("ended-ecb", ended_has_ecb),
    ("ended-nothing", ended_has_nothing),
    ("entry-live", entries_of_live_tasks),
    ("wait-bit", wait_bits),
    ("wait-need", needs),
    ("wait-complete", not_waited_and_complete),
    ("code-zero", incomplete_has_code_0),
    ("area-shape", areas_shaped),
    ("area-owner", areas_owned),
    ("area-rising", areas_rising),
    ("area-apart", areas_apart),
    ("area-pages", areas_on_own_pages),
    ("one-wait", one_wait_at_most),
];

fn places(step: &Step) -> &[Task] {
    &step.tasks[1..]
}

/// "A step that is over has empty tables."
fn over_is_empty(step: &Step) -> bool {
    step.over == 0
        || (step.entry_count == 0
            && step.area_count == 0
            && step.tasks.iter().all(|t| *t == Task::NONE)
            && step.ecbs.iter().all(|e| *e == Ecb::NONE))
}

/// "A step that is over has empty tables": no byte is left in the name area.
fn over_has_no_names(step: &Step) -> bool {
    step.over == 0 || is_zero(&step.names)
}

/// "Every number is in its range": the flag, and a code as END and ABEND take it.
fn step_in_range(step: &Step) -> bool {
    step.over <= 1 && step.code <= END_CODE
}

/// "Every number is in its range"; mother 0 is none.
fn tasks_in_range(step: &Step) -> bool {
    places(step).iter().all(|t| {
        t.state <= ENDED
            && t.mother <= TASKS
            && t.limit <= PRIORITY
            && t.disp <= PRIORITY
            && t.hasecb <= 1
            && is_ecb(t.ecb)
            && t.rwait <= 1
    })
}

/// "Every number is in its range"; a place with task 0 is not in use.  Offsets are in the rules
/// on names.
fn entries_in_range(step: &Step) -> bool {
    step.used_entries().iter().all(|e| e.task <= TASKS && e.excl <= 1)
}

/// "Every number is in its range"; waiter 0 is none.
fn ecbs_in_range(step: &Step) -> bool {
    let legal =
        |e: &Ecb| e.wait <= 1 && e.complete <= 1 && e.code <= POST_CODE && e.waiter <= TASKS;
    step.ecbs.iter().all(legal)
}

/// "Every number is in its range"; owner 0 is the step.
fn areas_in_range(step: &Step) -> bool {
    let legal = |a: &Area| {
        is_address(a.address) && is_length(a.length) && a.subpool <= SUBPOOL && a.owner <= TASKS
    };
    step.used_areas().iter().all(legal)
}

/// "Entries are packed in order of request": the order is the run's, the packing is seen.
/// The count is one more than the highest place in use.
fn entries_packed(step: &Step) -> bool {
    step.used_entries().iter().all(|e| *e != Entry::NONE)
}

/// "areas [are packed] by rising address"
fn areas_packed(step: &Step) -> bool {
    step.used_areas().iter().all(|a| *a != Area::NONE)
}

/// "unused places and fields are zero": the code of a step that runs.
fn step_code_unused(step: &Step) -> bool {
    step.over != 0 || step.code == 0
}

/// "unused places and fields are zero": a free place, the ECB of a task without one.
fn task_fields_unused(step: &Step) -> bool {
    places(step)
        .iter()
        .all(|t| (t.state != FREE || *t == Task::NONE) && (t.hasecb != 0 || t.ecb == 0))
}

/// "unused places and fields are zero": the waiter of an ECB not waited on.
fn ecb_fields_unused(step: &Step) -> bool {
    step.ecbs.iter().all(|e| e.wait != 0 || e.waiter == 0)
}

/// "unused places and fields are zero": a place of the queue without a task.
fn entry_places_unused(step: &Step) -> bool {
    step.used_entries().iter().all(|e| e.task != 0 || *e == Entry::NONE)
}

/// "Unless the step is over, task 1 is live, with no mother and no ECB."
fn task_1(step: &Step) -> bool {
    let one = &step.tasks[1];
    step.over != 0 || (one.state == LIVE && one.mother == 0 && one.hasecb == 0)
}

/// "every mother is live": of each place in use but task 1's, which has none.  So
/// no ended task has a subtask.
fn mothers_live(step: &Step) -> bool {
    places(step).iter().skip(1).all(|t| t.state == FREE || step.is_live(t.mother))
}

/// "and the chain reaches task 1"
fn chains_reach_task_1(step: &Step) -> bool {
    (1..=TASKS).all(|n| step.tasks[n as usize].state == FREE || chain_reaches_task_1(step, n))
}

fn chain_reaches_task_1(step: &Step, start: u32) -> bool {
    let mut at = start;
    for _ in 0..TASKS {
        if at == 1 || !is_task(at) {
            break;
        }
        at = step.tasks[at as usize].mother;
    }
    at == 1
}

/// "Dispatching is at most limit."
fn dispatching_at_most_limit(step: &Step) -> bool {
    places(step).iter().all(|t| t.disp <= t.limit)
}

/// "An ended task has an ECB"
fn ended_has_ecb(step: &Step) -> bool {
    places(step).iter().all(|t| t.state != ENDED || t.hasecb != 0)
}

/// "and no subtask, entry, wait or area": subtasks are in `mothers_live`, entries in
/// `entries_of_live_tasks`, areas in `areas_owned`.
fn ended_has_nothing(step: &Step) -> bool {
    places(step).iter().all(|t| t.state != ENDED || !t.waits())
}

/// "Each entry is of a live task"
fn entries_of_live_tasks(step: &Step) -> bool {
    step.used_entries().iter().all(|e| e.task == 0 || step.is_live(e.task))
}

/// A task in a resource wait is "never in an ECB wait too".
fn one_wait_at_most(step: &Step) -> bool {
    places(step).iter().all(|t| t.rwait == 0 || t.need == 0)
}

/// "A wait bit is on exactly when the ECB has a waiter in an ECB wait"
fn wait_bits(step: &Step) -> bool {
    let waiting = |n: u32| step.is_live(n) && step.tasks[n as usize].need != 0;
    step.ecbs.iter().all(|e| (e.wait != 0) == waiting(e.waiter))
}

/// "that waiter needs at least 1 and at most as many posts as it has such ECBs"
fn needs(step: &Step) -> bool {
    let mut such = [0u32; TASKS as usize + 1];
    for ecb in step.ecbs.iter() {
        if ecb.wait != 0 && ecb.waiter <= TASKS {
            such[ecb.waiter as usize] += 1;
        }
    }
    (1..such.len()).all(|n| step.tasks[n].need <= such[n])
}

/// "No ECB is both waited on and complete"
fn not_waited_and_complete(step: &Step) -> bool {
    step.ecbs.iter().all(|e| e.wait == 0 || e.complete == 0)
}

/// "an incomplete one has code 0"
fn incomplete_has_code_0(step: &Step) -> bool {
    step.ecbs.iter().all(|e| e.complete != 0 || e.code == 0)
}

/// "Areas obey GETMAIN's rules": a multiple of 8, a length rounded to 8, in the region.
fn areas_shaped(step: &Step) -> bool {
    step.used_areas().iter().all(|a| {
        a.address % GRAIN == 0 && a.length % GRAIN == 0 && a.length != 0 && a.end() <= REGION as u64
    })
}

/// "of the step (subpool 0) or of a live task"
fn areas_owned(step: &Step) -> bool {
    step.used_areas().iter().all(
        |a| {
            if a.subpool == 0 {
                a.owner == 0
            } else {
                step.is_live(a.owner)
            }
        },
    )
}

/// "areas by rising address"
fn areas_rising(step: &Step) -> bool {
    step.used_areas().windows(2).all(|pair| pair[0].address < pair[1].address)
}

/// "Areas obey GETMAIN's rules": each "meets no area".  As they rise, neighbours are
/// enough.
fn areas_apart(step: &Step) -> bool {
    step.used_areas().windows(2).all(|pair| pair[0].end() <= pair[1].address as u64)
}

/// "Areas obey GETMAIN's rules": each "touches no page that holds an area of another owner
/// or subpool".  Neighbours are enough: what lies between two areas that touch one page
/// lies on that page as well.
fn areas_on_own_pages(step: &Step) -> bool {
    step.used_areas().windows(2).all(|pair| {
        let (low, high) = (&pair[0], &pair[1]);
        low.same_owner_and_subpool(high) || low.length == 0 || low.last_page() < high.first_page()
    })
}
