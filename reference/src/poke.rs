//! Poke lines: one raw field of the tables is overwritten.

use crate::held;
use crate::numbers::{AREAS, ECBS, ENTRIES, NAMES, TASKS};
use crate::tables::{Area, Ecb, Entry, Step, Task};
use crate::words::{bytes, major, minor, number, number_to, Bytes};

pub const STEP_FIELDS: [&str; 2] = ["over", "code"];
pub const TASK_FIELDS: [&str; 8] =
    ["state", "mother", "limit", "disp", "hasecb", "ecb", "rwait", "need"];
pub const ENTRY_FIELDS: [&str; 3] = ["task", "excl", "name"];
pub const ECB_FIELDS: [&str; 4] = ["wait", "complete", "code", "waiter"];
pub const AREA_FIELDS: [&str; 4] = ["address", "length", "subpool", "owner"];

/// A readable poke: the place, the field's place in its list, the value.  `Gone` is one of a field
/// that entries had before there was a name area.
#[derive(Clone, Copy, Debug)]
pub enum Poke {
    Step { field: usize, value: u32 },
    Task { place: usize, field: usize, value: u32 },
    Entry { place: usize, field: usize, value: u32 },
    Gone,
    Name { offset: usize, value: Bytes },
    Ecb { place: usize, field: usize, value: u32 },
    Area { place: usize, field: usize, value: u32 },
}

fn field_of(word: &[u8], fields: &[&str]) -> Option<usize> {
    fields.iter().position(|field| field.as_bytes() == word)
}

fn place_of(word: &[u8], places: usize) -> Option<usize> {
    number_to(word, places as u32 - 1).map(|place| place as usize)
}

/// The words after `poke`; "a bad index, field or value is unreadable".
pub fn read(words: &[&[u8]]) -> Option<Poke> {
    match words {
        [b"step", field, value] => {
            Some(Poke::Step { field: field_of(field, &STEP_FIELDS)?, value: number(value)? })
        }
        [b"task", place, field, value] => Some(Poke::Task {
            place: place_of(place, TASKS as usize + 1).filter(|place| *place != 0)?,
            field: field_of(field, &TASK_FIELDS)?,
            value: number(value)?,
        }),
        [b"entry", place, field, value] => read_entry(place_of(place, ENTRIES)?, field, value),
        [b"name", offset, value] => read_name(place_of(offset, NAMES)?, value),
        [b"ecb", place, field, value] => Some(Poke::Ecb {
            place: place_of(place, ECBS as usize)?,
            field: field_of(field, &ECB_FIELDS)?,
            value: number(value)?,
        }),
        [b"area", place, field, value] => Some(Poke::Area {
            place: place_of(place, AREAS)?,
            field: field_of(field, &AREA_FIELDS)?,
            value: number(value)?,
        }),
        _ => None,
    }
}

fn read_entry(place: usize, field: &[u8], value: &[u8]) -> Option<Poke> {
    match field {
        b"length" => number(value).map(|_| Poke::Gone),
        b"major" => major(value).map(|_| Poke::Gone),
        b"minor" => minor(value).map(|_| Poke::Gone),
        _ => {
            let field = field_of(field, &ENTRY_FIELDS)?;
            Some(Poke::Entry { place, field, value: number(value)? })
        }
    }
}

/// "`poke name OFFSET HEX` (1 to 300 bytes within the area)"
fn read_name(offset: usize, value: &[u8]) -> Option<Poke> {
    let value = bytes(value)?;
    if offset + value.all().len() <= NAMES {
        Some(Poke::Name { offset, value })
    } else {
        None
    }
}

/// Carry a poke out.  False, and nothing changed, when the compared tables could not
/// hold the result.
pub fn apply(step: &mut Step, poke: Poke) -> bool {
    match poke {
        Poke::Step { field, value } => poke_step(step, field, value),
        Poke::Task { place, field, value } => {
            let mut task = step.tasks[place];
            *task_field(&mut task, field) = value;
            store(held::task(&task), &mut step.tasks[place], task)
        }
        Poke::Ecb { place, field, value } => {
            let mut ecb = step.ecbs[place];
            *ecb_field(&mut ecb, field) = value;
            store(held::ecb(&ecb), &mut step.ecbs[place], ecb)
        }
        Poke::Area { place, field, value } => {
            let mut area = step.areas[place];
            *area_field(&mut area, field) = value;
            let held = store(held::area(&area), &mut step.areas[place], area);
            step.count_places();
            held
        }
        Poke::Gone => false,
        Poke::Name { offset, value } => {
            let bytes = value.all();
            step.names[offset..offset + bytes.len()].copy_from_slice(bytes);
            true
        }
        Poke::Entry { place, field, value } => {
            let mut entry = step.entries[place];
            *entry_field(&mut entry, field) = value;
            let held = store(held::entry(&entry), &mut step.entries[place], entry);
            step.count_places();
            held
        }
    }
}

fn store<T>(held: bool, place: &mut T, value: T) -> bool {
    if held {
        *place = value;
    }
    held
}

fn poke_step(step: &mut Step, field: usize, value: u32) -> bool {
    let (mut over, mut code) = (step.over, step.code);
    if field == 0 {
        over = value;
    } else {
        code = value;
    }
    if !held::step(over, code) {
        return false;
    }
    step.over = over;
    step.code = code;
    true
}

fn task_field(task: &mut Task, field: usize) -> &mut u32 {
    match field {
        0 => &mut task.state,
        1 => &mut task.mother,
        2 => &mut task.limit,
        3 => &mut task.disp,
        4 => &mut task.hasecb,
        5 => &mut task.ecb,
        6 => &mut task.rwait,
        _ => &mut task.need,
    }
}

fn entry_field(entry: &mut Entry, field: usize) -> &mut u32 {
    match field {
        0 => &mut entry.task,
        1 => &mut entry.excl,
        _ => &mut entry.offset,
    }
}

fn ecb_field(ecb: &mut Ecb, field: usize) -> &mut u32 {
    match field {
        0 => &mut ecb.wait,
        1 => &mut ecb.complete,
        2 => &mut ecb.code,
        _ => &mut ecb.waiter,
    }
}

fn area_field(area: &mut Area, field: usize) -> &mut u32 {
    match field {
        0 => &mut area.address,
        1 => &mut area.length,
        2 => &mut area.subpool,
        _ => &mut area.owner,
    }
}
