//! The tests down to 104, which every request goes through in this order; 110 of document 02,
//! section 2, "comes after 101 and before 104".

use crate::names::{stands_twice, Asked};
use crate::numbers::{is_address, is_ecb, is_length, is_task};
use crate::numbers::{END_CODE, LIST, POST_CODE, PRIORITY, SUBPOOL};
use crate::request::{Lists, Request, Ret};
use crate::sound::is_sound;
use crate::tables::Step;

/// The refusal of any tables that nothing can be asked of, whatever is asked.
pub fn tables_refusal(step: &Step) -> Option<u32> {
    // 100: the tables break a rule of the next section
    if !is_sound(step) {
        return Some(100);
    }
    // 108: the step is over
    if step.over != 0 {
        return Some(108);
    }
    None
}

/// The refusal, if one of the tests down to 104 refuses.
pub fn refusal(step: &Step, request: &Request, lists: Lists, codes: usize) -> Option<u32> {
    if let Some(number) = tables_refusal(step) {
        return Some(number);
    }
    if let Some(caller) = request.caller() {
        // 102: the caller isn't a live task
        if !step.is_live(caller) {
            return Some(102);
        }
        // 103: the caller waits
        if step.tasks[caller as usize].waits() {
            return Some(103);
        }
    }
    if !numbers_are_right(request, lists) {
        return Some(101);
    }
    if asks_for_the_systems(request, lists.names) {
        return Some(110);
    }
    // 104: codes are due and the codes area is shorter than the list
    if request.codes_are_due() && codes < lists.names.len() {
        return Some(104);
    }
    None
}

/// 101: "a number is outside its stated range, a list count is 0 or above 16, a minor
/// name is empty or too long, a name or ECB stands twice in one list, or CHNG asks
/// for shared".  Lists beside a service that takes none are not looked at.
fn numbers_are_right(request: &Request, lists: Lists) -> bool {
    match *request {
        Request::Attach { lpmod, dpmod, ecb, .. } => {
            let most = PRIORITY as i32;
            lpmod <= PRIORITY && -most <= dpmod && dpmod <= most && ecb.map_or(true, is_ecb)
        }
        Request::Detach { task, .. } => is_task(task),
        Request::End { code, .. } | Request::Abend { code, .. } => code <= END_CODE,
        Request::Enq { ret, .. } => {
            names_are_right(lists.names)
                && (ret != Ret::Chng || lists.names.iter().all(|asked| asked.exclusive))
        }
        Request::Deq { .. } => names_are_right(lists.names),
        Request::Wait { .. } => ecbs_are_right(lists.ecbs),
        Request::Post { ecb, code, .. } => is_ecb(ecb) && code <= POST_CODE,
        Request::Clear { ecb, .. } => is_ecb(ecb),
        Request::Getmain { length, subpool, .. } => is_length(length) && subpool <= SUBPOOL,
        Request::Freemain { address, length, subpool, .. } => {
            is_address(address) && is_length(length) && subpool <= SUBPOOL
        }
        Request::Dispatch => true,
    }
}

/// 110: "ENQ refuses with 110 any list with a major name" of the system's: in every RET kind,
/// so also where nothing would be queued.  "DEQ isn't changed."
fn asks_for_the_systems(request: &Request, names: &[Asked]) -> bool {
    match *request {
        Request::Enq { .. } => names.iter().any(|asked| asked.name.is_the_systems()),
        _ => false,
    }
}

fn names_are_right(names: &[Asked]) -> bool {
    1 <= names.len()
        && names.len() <= LIST
        && names.iter().all(|asked| asked.name.length_is_legal())
        && !stands_twice(names)
}

fn ecbs_are_right(ecbs: &[u32]) -> bool {
    1 <= ecbs.len()
        && ecbs.len() <= LIST
        && ecbs.iter().all(|ecb| is_ecb(*ecb))
        && (0..ecbs.len()).all(|i| !ecbs[..i].contains(&ecbs[i]))
}
