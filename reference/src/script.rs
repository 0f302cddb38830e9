//! The reader of job scripts: from a line to what it asks for.

use crate::names::Asked;
use crate::poke::{self, Poke};
use crate::reports::Report;
use crate::request::{Lists, Request, Ret};
use crate::words::{asked, name, number, number_or_none, number_to, signed, Words};

/// "A line is at most 16,383 bytes."
pub const LONGEST: usize = 16_383;
/// "At most 20 names or ECBs on a line"
pub const MOST_LISTED: usize = 20;
/// "CODESLEN (at most 64, else unreadable)"
pub const MOST_CODES: u32 = 64;
/// "ROOM (at most 255, else unreadable)"
pub const MOST_ROOM: u32 = 255;

/// What a line is.
#[derive(Clone, Copy, Debug)]
pub enum Line {
    /// "An empty line, or one whose first byte is `#`, answers nothing."
    Nothing,
    Unreadable,
    Fresh {
        limit: u32,
        disp: u32,
    },
    Request {
        request: Request,
        codes: usize,
    },
    Report {
        report: Report,
        room: usize,
    },
    Dump,
    Poke(Poke),
}

/// The reader keeps the lists of the line it read last.
pub struct Reader {
    names: [Asked; MOST_LISTED],
    name_count: usize,
    ecbs: [u32; MOST_LISTED],
    ecb_count: usize,
}

impl Reader {
    pub fn new() -> Reader {
        Reader {
            names: [Asked::NONE; MOST_LISTED],
            name_count: 0,
            ecbs: [0; MOST_LISTED],
            ecb_count: 0,
        }
    }

    pub fn lists(&self) -> Lists<'_> {
        Lists { names: &self.names[..self.name_count], ecbs: &self.ecbs[..self.ecb_count] }
    }

    /// Read one line, without its LF.
    pub fn read(&mut self, line: &[u8]) -> Line {
        if line.len() > LONGEST {
            return Line::Unreadable;
        }
        if line.is_empty() || line[0] == b'#' {
            return Line::Nothing;
        }
        match Words::of(line) {
            Some(words) => self.read_words(words.all()).unwrap_or(Line::Unreadable),
            None => Line::Unreadable,
        }
    }

    fn read_words(&mut self, words: &[&[u8]]) -> Option<Line> {
        let rest = &words[1..];
        match (words[0], rest) {
            (b"dump", []) => Some(Line::Dump),
            (b"fresh", [limit, disp]) => {
                Some(Line::Fresh { limit: number(limit)?, disp: number(disp)? })
            }
            (b"poke", _) => poke::read(rest).map(Line::Poke),
            (b"enq", [caller, ret, codes, names @ ..]) => self.enq(caller, ret, codes, names),
            (b"deq", [caller, ret, codes, names @ ..]) => self.deq(caller, ret, codes, names),
            (b"wait", [caller, count, ecbs @ ..]) => self.wait(caller, count, ecbs),
            (b"stuck", [room]) => report(Report::Stuck, room),
            (b"queues", [room]) => report(Report::Queues, room),
            (service, _) => {
                let request = plain(service, rest)?;
                Some(Line::Request { request, codes: 0 })
            }
        }
    }

    fn enq(&mut self, caller: &[u8], ret: &[u8], codes: &[u8], names: &[&[u8]]) -> Option<Line> {
        let ret = match ret {
            b"none" => Ret::None,
            b"test" => Ret::Test,
            b"use" => Ret::Use,
            b"have" => Ret::Have,
            b"chng" => Ret::Chng,
            _ => return None,
        };
        let request = Request::Enq { caller: number(caller)?, ret };
        let codes = number_to(codes, MOST_CODES)? as usize;
        self.list_names(names, asked)?;
        Some(Line::Request { request, codes })
    }

    fn deq(&mut self, caller: &[u8], ret: &[u8], codes: &[u8], names: &[&[u8]]) -> Option<Line> {
        let have = match ret {
            b"none" => false,
            b"have" => true,
            _ => return None,
        };
        let request = Request::Deq { caller: number(caller)?, have };
        let codes = number_to(codes, MOST_CODES)? as usize;
        self.list_names(names, |word| Some(Asked { exclusive: false, name: name(word)? }))?;
        Some(Line::Request { request, codes })
    }

    fn wait(&mut self, caller: &[u8], count: &[u8], ecbs: &[&[u8]]) -> Option<Line> {
        let request = Request::Wait { caller: number(caller)?, count: number(count)? };
        if ecbs.len() > MOST_LISTED {
            return None;
        }
        self.ecb_count = ecbs.len();
        for (place, word) in self.ecbs.iter_mut().zip(ecbs) {
            *place = number(word)?;
        }
        Some(Line::Request { request, codes: 0 })
    }

    fn list_names<F: Fn(&[u8]) -> Option<Asked>>(
        &mut self,
        words: &[&[u8]],
        read: F,
    ) -> Option<()> {
        if words.len() > MOST_LISTED {
            return None;
        }
        self.name_count = words.len();
        for (place, word) in self.names.iter_mut().zip(words) {
            *place = read(word)?;
        }
        Some(())
    }
}

/// "ROOM .. is the list area's length in items"
fn report(report: Report, room: &[u8]) -> Option<Line> {
    Some(Line::Report { report, room: number_to(room, MOST_ROOM)? as usize })
}

/// The services without a list.
fn plain(service: &[u8], words: &[&[u8]]) -> Option<Request> {
    Some(match (service, words) {
        (b"attach", [caller, lpmod, dpmod, ecb]) => Request::Attach {
            caller: number(caller)?,
            lpmod: number(lpmod)?,
            dpmod: signed(dpmod)?,
            ecb: number_or_none(ecb)?,
        },
        (b"detach", [caller, task]) => {
            Request::Detach { caller: number(caller)?, task: number(task)? }
        }
        (b"end", [caller, code]) => Request::End { caller: number(caller)?, code: number(code)? },
        (b"abend", [caller, code]) => {
            Request::Abend { caller: number(caller)?, code: number(code)?, step: false }
        }
        (b"abend", [caller, code, b"step"]) => {
            Request::Abend { caller: number(caller)?, code: number(code)?, step: true }
        }
        (b"post", [caller, ecb, code]) => {
            Request::Post { caller: number(caller)?, ecb: number(ecb)?, code: number(code)? }
        }
        (b"clear", [caller, ecb]) => Request::Clear { caller: number(caller)?, ecb: number(ecb)? },
        (b"dispatch", []) => Request::Dispatch,
        _ => return storage(service, words),
    })
}

fn storage(service: &[u8], words: &[&[u8]]) -> Option<Request> {
    Some(match (service, words) {
        (b"getmain", [caller, length, subpool, how]) => Request::Getmain {
            caller: number(caller)?,
            length: number(length)?,
            subpool: number(subpool)?,
            conditional: conditional(how)?,
        },
        (b"freemain", [caller, address, length, subpool]) => Request::Freemain {
            caller: number(caller)?,
            address: number(address)?,
            length: number(length)?,
            subpool: number(subpool)?,
        },
        _ => return None,
    })
}

fn conditional(how: &[u8]) -> Option<bool> {
    match how {
        b"cond" => Some(true),
        b"uncond" => Some(false),
        _ => None,
    }
}
