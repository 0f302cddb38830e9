//! Who has control of a name.

use crate::names::Asked;
use crate::numbers::TASKS;
use crate::tables::{Named, Step};

/// Are both for one name, and one of the two exclusive?
pub fn clash(a: &Named, b: &Named) -> bool {
    (a.excl != 0 || b.excl != 0) && a.name == b.name
}

/// "An entry has control when it is first for its name, or when it and every
/// entry before it for that name are shared."  So it lacks control exactly when
/// some entry before it is for its name, one of the two being exclusive.
pub fn has_control(entries: &[Named], i: usize) -> bool {
    entries[..i].iter().all(|before| !clash(before, &entries[i]))
}

/// "A name is available when its queue is empty, or the request and every entry
/// queued for it are shared."
pub fn is_available(entries: &[Named], asked: &Asked) -> bool {
    entries.iter().all(|e| e.name != asked.name || (e.excl == 0 && !asked.exclusive))
}

/// The place of a task's entry for a name; tables hold at most one.
pub fn entry_of(entries: &[Named], task: u32, asked: &Asked) -> Option<usize> {
    entries.iter().position(|e| e.task == task && e.name == asked.name)
}

/// For each task number: has it an entry that lacks control?
pub fn lacking(entries: &[Named]) -> [bool; TASKS as usize + 1] {
    let mut lacks = [false; TASKS as usize + 1];
    for i in 0..entries.len() {
        let task = entries[i].task as usize;
        if task < lacks.len() && !lacks[task] {
            lacks[task] = !has_control(entries, i);
        }
    }
    lacks
}

/// A task waits "until all its entries have control".
pub fn settle(step: &mut Step, queue: &[Named]) {
    let lacks = lacking(queue);
    for n in 1..=TASKS as usize {
        step.tasks[n].rwait = lacks[n] as u32;
    }
}

/// The queue is from now on this one: its names are packed anew, and who waits is seen.
pub fn requeue(step: &mut Step, queue: &[Named]) {
    step.store_queue(queue);
    settle(step, queue);
}
