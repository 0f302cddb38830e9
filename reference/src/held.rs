//! What the tables that this reference is compared with could hold.  The reference's own
//! tables hold any number in any field; a poke whose result the others could not hold
//! answers `! LINE-NUMBER` and changes nothing.  All of that is decided here, from the
//! whole record as it would stand after the poke, and nothing else in the reference
//! depends on it.
//!
//! The document's words: "a flag above 1, a resource wait and an ECB wait at once, a
//! waiter apart from its wait bit".  The compared tables keep a task's condition as one
//! of: free, ready, resource wait, ECB wait for n posts, ended; they keep an ECB of a task
//! or none, and numbers of tasks and ECBs, priorities, posts and subpools in a byte, codes
//! of the step and offsets in the name area in two.  An entry's name has no other field: its
//! length and its two parts lie in the area.

use crate::tables::{Area, Ecb, Entry, Task, ENDED, LIVE};

fn flag(value: u32) -> bool {
    value <= 1
}

fn byte(value: u32) -> bool {
    value <= u8::MAX as u32
}

fn half(value: u32) -> bool {
    value <= u16::MAX as u32
}

pub fn step(over: u32, code: u32) -> bool {
    flag(over) && half(code)
}

/// One condition: only a live task waits, and in one way.
pub fn task(task: &Task) -> bool {
    task.state <= ENDED
        && flag(task.hasecb)
        && (task.hasecb == 1 || task.ecb == 0)
        && byte(task.mother)
        && byte(task.limit)
        && byte(task.disp)
        && byte(task.ecb)
        && byte(task.need)
        && flag(task.rwait)
        && (task.state == LIVE || !task.waits())
        && (task.rwait == 0 || task.need == 0)
}

pub fn entry(entry: &Entry) -> bool {
    flag(entry.excl) && byte(entry.task) && half(entry.offset)
}

/// The waiter and the wait bit are one.
pub fn ecb(ecb: &Ecb) -> bool {
    flag(ecb.wait) && flag(ecb.complete) && byte(ecb.waiter) && (ecb.wait != 0) == (ecb.waiter != 0)
}

pub fn area(area: &Area) -> bool {
    byte(area.subpool) && byte(area.owner)
}
