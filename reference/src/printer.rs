//! What is written for a line.

use crate::name_area::{used, NameArea};
use crate::names::Name;
use crate::reports::queues::Queued;
use crate::reports::stuck::Stuck;
use crate::request::Answer;
use crate::tables::{Area, Ecb, Entry, Step, Task};

/// The byte with which the codes area is filled before each request.
pub const FILL: u8 = 0xee;

pub fn decimal(out: &mut Vec<u8>, mut value: u64) {
    let mut digits = [0u8; 20];
    let mut first = digits.len();
    loop {
        first -= 1;
        digits[first] = b'0' + (value % 10) as u8;
        value /= 10;
        if value == 0 {
            break;
        }
    }
    out.extend_from_slice(&digits[first..]);
}

pub fn hex(out: &mut Vec<u8>, bytes: &[u8]) {
    const DIGITS: &[u8; 16] = b"0123456789abcdef";
    for byte in bytes {
        out.push(DIGITS[(byte >> 4) as usize]);
        out.push(DIGITS[(byte & 15) as usize]);
    }
}

/// `? LINE-NUMBER` and `! LINE-NUMBER`
pub fn mark(out: &mut Vec<u8>, sign: u8, line: u64) {
    out.push(sign);
    out.push(b' ');
    decimal(out, line);
    out.push(b'\n');
}

/// "`NUMBER VALUE`, decimal, and, exactly when after the call some byte of the codes
/// area is not `ee`, ` codes=` and the whole area in hex"
pub fn answer(out: &mut Vec<u8>, answer: Answer, codes: &[u8]) {
    decimal(out, answer.number as u64);
    out.push(b' ');
    decimal(out, answer.value as u64);
    if codes.iter().any(|byte| *byte != FILL) {
        out.extend_from_slice(b" codes=");
        hex(out, codes);
    }
    out.push(b'\n');
}

/// A word and numbers, one space between.
fn row(out: &mut Vec<u8>, word: &str, numbers: &[u32]) {
    out.extend_from_slice(word.as_bytes());
    for value in numbers {
        out.push(b' ');
        decimal(out, *value as u64);
    }
}

/// "MAJOR is 16 hex digits and MINOR the minor part's own bytes in hex (not padded)"
fn name(out: &mut Vec<u8>, name: &Name) {
    hex(out, &name.major);
    out.push(b'.');
    hex(out, name.minor_bytes());
}

/// `stuck TASK MAJOR.MINOR PARTNER`
pub fn stuck(out: &mut Vec<u8>, item: &Stuck) {
    row(out, "stuck", &[item.task]);
    out.push(b' ');
    name(out, &item.name);
    row(out, "", &[item.partner]);
    out.push(b'\n');
}

/// `queue MAJOR.MINOR TASK own` or `.. wait`
pub fn queued(out: &mut Vec<u8>, item: &Queued) {
    out.extend_from_slice(b"queue ");
    name(out, &item.name);
    row(out, "", &[item.task]);
    let state: &[u8] = if item.owns { b" own\n" } else { b" wait\n" };
    out.extend_from_slice(state);
}

/// "the name area up to its last byte not zero; no line if all are zero"
fn names(out: &mut Vec<u8>, area: &NameArea) {
    let used = used(area);
    if used > 0 {
        out.extend_from_slice(b"names ");
        hex(out, &area[..used]);
        out.push(b'\n');
    }
}

/// "Only places with at least one field not zero are printed, in this order, each sort
/// by rising index; `.` ends it."
pub fn dump(out: &mut Vec<u8>, step: &Step) {
    row(out, "step", &[step.over, step.code]);
    out.push(b'\n');
    for (n, t) in step.tasks.iter().enumerate().filter(|(_, t)| **t != Task::NONE) {
        let fields =
            [n as u32, t.state, t.mother, t.limit, t.disp, t.hasecb, t.ecb, t.rwait, t.need];
        row(out, "task", &fields);
        out.push(b'\n');
    }
    for (i, e) in step.entries.iter().enumerate().filter(|(_, e)| **e != Entry::NONE) {
        row(out, "entry", &[i as u32, e.task, e.excl, e.offset]);
        out.push(b'\n');
    }
    names(out, &step.names);
    for (n, e) in step.ecbs.iter().enumerate().filter(|(_, e)| **e != Ecb::NONE) {
        row(out, "ecb", &[n as u32, e.wait, e.complete, e.code, e.waiter]);
        out.push(b'\n');
    }
    for (i, a) in step.areas.iter().enumerate().filter(|(_, a)| **a != Area::NONE) {
        row(out, "area", &[i as u32, a.address, a.length, a.subpool, a.owner]);
        out.push(b'\n');
    }
    out.extend_from_slice(b".\n");
}
