//! ATTACH

use crate::numbers::TASKS;
use crate::request::Answer;
use crate::tables::{Step, Task, FREE, LIVE};

/// "New limit = mother's limit minus LPMOD, or 0 if that is negative.  New dispatching
/// = mother's dispatching plus DPMOD, held to at least 0 and at most the new limit."
pub fn priorities(mother: &Task, lpmod: u32, dpmod: i32) -> (u32, u32) {
    let limit = if mother.limit < lpmod { 0 } else { mother.limit - lpmod };
    let sum = mother.disp as i32 + dpmod;
    let disp = if sum < 0 { 0 } else { sum as u32 };
    (limit, if disp > limit { limit } else { disp })
}

/// "An ECB may be named.  The lowest free number is given."
pub fn attach(step: &mut Step, caller: u32, lpmod: u32, dpmod: i32, ecb: Option<u32>) -> Answer {
    let lowest = match (1..=TASKS).find(|n| step.tasks[*n as usize].state == FREE) {
        Some(n) => n,
        // 106: ATTACH with all 32 places in use
        None => return Answer::refused(106),
    };
    let (limit, disp) = priorities(&step.tasks[caller as usize], lpmod, dpmod);
    step.tasks[lowest as usize] = Task {
        state: LIVE,
        mother: caller,
        limit,
        disp,
        hasecb: ecb.is_some() as u32,
        ecb: ecb.unwrap_or(0),
        rwait: 0,
        need: 0,
    };
    Answer::done(lowest)
}
