//! The twelve services, a module each.  Each is called only when no test down to 104
//! refuses, and makes the tests that are left.

pub mod abend;
pub mod attach;
pub mod clear;
pub mod deq;
pub mod detach;
pub mod dispatch;
pub mod end;
pub mod enq;
pub mod freemain;
pub mod getmain;
pub mod post;
pub mod wait;

use self::getmain::Search;
use crate::admission::refusal;
use crate::request::{Answer, Lists, Request};
use crate::tables::Step;

/// Serve one request: the tables change, the codes are written, the answer comes back.  GETMAIN
/// finds its address by the search that is given.
pub fn serve(
    step: &mut Step,
    request: &Request,
    lists: Lists,
    codes: &mut [u8],
    search: Search,
) -> Answer {
    if let Some(number) = refusal(step, request, lists, codes.len()) {
        return Answer::refused(number);
    }
    match *request {
        Request::Attach { caller, lpmod, dpmod, ecb } => {
            attach::attach(step, caller, lpmod, dpmod, ecb)
        }
        Request::Detach { caller, task } => detach::detach(step, caller, task),
        Request::End { caller, code } => end::end(step, caller, code),
        Request::Abend { caller, code, step: whole } => abend::abend(step, caller, code, whole),
        Request::Enq { caller, ret } => enq::enq(step, caller, ret, lists.names, codes),
        Request::Deq { caller, have } => deq::deq(step, caller, have, lists.names, codes),
        Request::Wait { caller, count } => wait::wait(step, caller, count, lists.ecbs),
        Request::Post { ecb, code, .. } => post::post(step, ecb, code),
        Request::Clear { ecb, .. } => clear::clear(step, ecb),
        Request::Getmain { caller, length, subpool, conditional } => {
            getmain::getmain(step, caller, length, subpool, conditional, search)
        }
        Request::Freemain { caller, address, length, subpool } => {
            freemain::freemain(step, caller, address, length, subpool)
        }
        Request::Dispatch => dispatch::dispatch(step),
    }
}

/// "answer 0 if every code is 0, else 4"; "An answer with codes writes one byte per
/// name at the front of the codes area and no other byte."
pub fn answer_with_codes(found: &[u8], codes: &mut [u8]) -> Answer {
    codes[..found.len()].copy_from_slice(found);
    if all_zero(found) {
        Answer::done(0)
    } else {
        Answer { number: 4, value: 0 }
    }
}

pub fn all_zero(found: &[u8]) -> bool {
    found.iter().all(|code| *code == 0)
}
