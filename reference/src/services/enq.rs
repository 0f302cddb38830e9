//! ENQ, with document 02, section 3: "HAVE goes name by name."

use super::{all_zero, answer_with_codes};
use crate::control::{entry_of, has_control, is_available, requeue, settle};
use crate::ending::program_error;
use crate::names::Asked;
use crate::numbers::{ENTRIES, LIST};
use crate::request::{Answer, Ret};
use crate::tables::{Named, Step};

/// 105 is "tested after 201 and after the codes"; it leaves the codes area as it is, so the
/// codes are written last.
pub fn enq(step: &mut Step, caller: u32, ret: Ret, names: &[Asked], codes: &mut [u8]) -> Answer {
    if ret == Ret::None {
        return unconditional(step, caller, names);
    }
    let entries = step.queue();
    let mut room = [0u8; LIST];
    for (code, asked) in room.iter_mut().zip(names) {
        *code = code_of(&entries, caller, ret, asked);
    }
    let found = &room[..names.len()];
    if !queue(step, &entries, caller, &to_be_queued(ret, names, found)) {
        return Answer::refused(105);
    }
    if ret == Ret::Chng && all_zero(found) {
        make_exclusive(step, entries, caller, names);
    }
    answer_with_codes(found, codes)
}

/// NONE: "queue all; duplicate is error 201"
fn unconditional(step: &mut Step, caller: u32, names: &[Asked]) -> Answer {
    let entries = step.queue();
    if names.iter().any(|asked| entry_of(&entries, caller, asked).is_some()) {
        return program_error(step, caller, 201);
    }
    if !queue(step, &entries, caller, &to_be_queued(Ret::None, names, &[])) {
        return Answer::refused(105);
    }
    Answer::done(0)
}

/// What is to be queued.  NONE, which gives no codes: "queue all".  USE: "queue all, only if
/// every code is 0".  HAVE, by document 02, section 3: "names with code 8 skipped and the rest
/// queued".  TEST and CHNG queue nothing.
fn to_be_queued(ret: Ret, names: &[Asked], found: &[u8]) -> Vec<Asked> {
    match ret {
        Ret::None => names.to_vec(),
        Ret::Use if all_zero(found) => names.to_vec(),
        Ret::Have => {
            let rest = names.iter().zip(found).filter(|(_, code)| **code != 8);
            rest.map(|(asked, _)| *asked).collect()
        }
        Ret::Use | Ret::Test | Ret::Chng => Vec::new(),
    }
}

/// The table of RET kinds; "8 goes before 4".
fn code_of(entries: &[Named], caller: u32, ret: Ret, asked: &Asked) -> u8 {
    let own = entry_of(entries, caller, asked);
    match (ret, own) {
        (Ret::Chng, None) => 8,
        (Ret::Chng, Some(place)) => chng_code(entries, place),
        (_, Some(_)) => 8,
        (Ret::Test, None) | (Ret::Use, None) => {
            if is_available(entries, asked) {
                0
            } else {
                4
            }
        }
        (Ret::Have, None) | (Ret::None, None) => 0,
    }
}

/// CHNG for an entry the caller has: 0 "caller is sole owner", 4 "another also owns".
/// "CHNG on an entry already exclusive is 0."  An owner is a task whose entry has
/// control.
fn chng_code(entries: &[Named], place: usize) -> u8 {
    let own = &entries[place];
    let another_owns =
        |i: usize| i != place && entries[i].name == own.name && has_control(entries, i);
    if own.excl == 0 && (0..entries.len()).any(another_owns) {
        4
    } else {
        0
    }
}

/// "make all exclusive"; each keeps its place, and no name moves.
fn make_exclusive(step: &mut Step, mut entries: Vec<Named>, caller: u32, names: &[Asked]) {
    for asked in names {
        if let Some(place) = entry_of(&entries, caller, asked) {
            entries[place].excl = 1;
            step.entries[place].excl = 1;
        }
    }
    settle(step, &entries);
}

/// "New entries go to the tail, in list order."  "After NONE or HAVE the caller waits
/// until all its entries have control": the new ones and those that it had.  False, and
/// nothing changed, is 105: "entries are to be queued and there are too few free", where "105
/// counts only the names to be queued" (document 02, section 3).  With none to be queued it
/// isn't tested, and nothing changes.
fn queue(step: &mut Step, entries: &[Named], caller: u32, names: &[Asked]) -> bool {
    if names.is_empty() {
        return true;
    }
    if names.len() > ENTRIES - entries.len() {
        return false;
    }
    let queued = |a: &Asked| Named { task: caller, excl: a.exclusive as u32, name: a.name };
    let all: Vec<Named> = entries.iter().cloned().chain(names.iter().map(queued)).collect();
    requeue(step, &all);
    true
}
