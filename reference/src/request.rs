//! Requests and answers.

use crate::names::Asked;

/// "an ENQ carries one of five RET kinds"
#[derive(Clone, Copy, PartialEq, Eq, Debug)]
pub enum Ret {
    None,
    Test,
    Use,
    Have,
    Chng,
}

/// "A request is one of twelve services".  "All but DISPATCH name the calling task."
#[derive(Clone, Copy, PartialEq, Eq, Debug)]
pub enum Request {
    Attach { caller: u32, lpmod: u32, dpmod: i32, ecb: Option<u32> },
    Detach { caller: u32, task: u32 },
    End { caller: u32, code: u32 },
    Abend { caller: u32, code: u32, step: bool },
    Enq { caller: u32, ret: Ret },
    Deq { caller: u32, have: bool },
    Wait { caller: u32, count: u32 },
    Post { caller: u32, ecb: u32, code: u32 },
    Clear { caller: u32, ecb: u32 },
    Getmain { caller: u32, length: u32, subpool: u32, conditional: bool },
    Freemain { caller: u32, address: u32, length: u32, subpool: u32 },
    Dispatch,
}

/// "Lists of names and ECBs stand beside it."
#[derive(Clone, Copy)]
pub struct Lists<'a> {
    pub names: &'a [Asked],
    pub ecbs: &'a [u32],
}

/// The number, and what stands besides.
#[derive(Clone, Copy, PartialEq, Eq, Debug)]
pub struct Answer {
    pub number: u32,
    pub value: u32,
}

impl Answer {
    /// "A service that is done answers 0", and besides a value.
    pub fn done(value: u32) -> Answer {
        Answer { number: 0, value }
    }

    /// "A refusal or program error answers its number and 0 besides."
    pub fn refused(number: u32) -> Answer {
        Answer { number, value: 0 }
    }
}

impl Request {
    pub fn caller(&self) -> Option<u32> {
        match *self {
            Request::Attach { caller, .. }
            | Request::Detach { caller, .. }
            | Request::End { caller, .. }
            | Request::Abend { caller, .. }
            | Request::Enq { caller, .. }
            | Request::Deq { caller, .. }
            | Request::Wait { caller, .. }
            | Request::Post { caller, .. }
            | Request::Clear { caller, .. }
            | Request::Getmain { caller, .. }
            | Request::Freemain { caller, .. } => Some(caller),
            Request::Dispatch => None,
        }
    }

    /// "codes are due (ENQ but NONE, DEQ HAVE)"
    pub fn codes_are_due(&self) -> bool {
        match *self {
            Request::Enq { ret, .. } => ret != Ret::None,
            Request::Deq { have, .. } => have,
            _ => false,
        }
    }
}
