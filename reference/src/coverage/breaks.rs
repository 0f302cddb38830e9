//! In which ways names stand wrong in tables that a request or report finds unsound.  A way counts
//! where nothing else is wrong, so that no other field gives the 100.

use super::sights::Sight;
use crate::name_area::{end_at, is_zero, used, HEAD};
use crate::numbers::{MAJOR, MINOR, NAMES};
use crate::sound::is_sound;
use crate::tables::Step;

/// The rules on names, and those on what is unused of them.
const RULES: [&str; 10] = [
    "name-beyond",
    "name-middle",
    "name-gap",
    "name-order",
    "name-whole",
    "name-length",
    "name-once",
    "name-tail",
    "zero-entry",
    "over-names",
];

/// A rule that is broken, and what is seen besides.
const WAYS: [(&str, &str, fn(&Step) -> bool); 16] = [
    ("had an offset beyond the area", "name-beyond", |_| true),
    ("had an offset into the middle of a name", "name-middle", |_| true),
    ("had a name twice", "name-once", |_| true),
    ("had two names in the wrong order", "name-order", |_| true),
    ("had zeros between names", "name-gap", |step| gap(step, is_zero)),
    ("had a name without an entry between others", "name-gap", |step| gap(step, is_one_name)),
    ("had a name without an entry behind the last", "name-tail", |step| {
        step.names.get(end(step)..used(&step.names)).map_or(false, is_one_name)
    }),
    ("had a byte right behind the last name", "name-tail", |step| step.names[end(step)] != 0),
    ("had a byte far behind the last name", "name-tail", |step| used(&step.names) > end(step) + 64),
    ("had a byte at the end of the area", "name-tail", |step| step.names[NAMES - 1] != 0),
    ("had a name cut off before its length byte", "name-whole", |step| {
        starts(step).iter().any(|start| start + MAJOR >= NAMES)
    }),
    ("had a name cut off in its minor part", "name-whole", |step| {
        starts(step).iter().any(|start| end_at(&step.names, *start) > Some(NAMES))
    }),
    ("had a length byte of 0", "name-length", |step| has_length(step, |length| length == 0)),
    ("had a length byte above 44", "name-length", |step| has_length(step, |length| length > 44)),
    ("had an offset in an unused place", "zero-entry", |step| {
        step.used_entries().iter().any(|e| e.task == 0 && e.offset != 0)
    }),
    ("had a byte in the name area of a step over", "over-names", |_| true),
];

/// Of a poke: one byte in a name is another then.
const POKES: [(&str, fn(&Step, &Step) -> bool); 2] = [
    ("changed one byte of a name and left sound tables", |before, after| {
        changes_one_byte(before, after) && is_sound(after)
    }),
    ("changed one byte of a name and left unsound tables", |before, after| {
        changes_one_byte(before, after) && !is_sound(after)
    }),
];

/// Were the tables sound, and is one byte another, none behind the last name?
fn changes_one_byte(before: &Step, after: &Step) -> bool {
    let changed: Vec<usize> =
        (0..NAMES).filter(|at| before.names[*at] != after.names[*at]).collect();
    changed.len() == 1 && changed[0] < used(&before.names) && is_sound(before)
}

/// All that is looked for.
pub fn all() -> Vec<Sight> {
    let ways = WAYS.iter().map(|(what, _, _)| ("tables", *what));
    ways.chain(POKES.iter().map(|(what, _)| ("poke", *what))).collect()
}

/// What a poke shows, by the tables before and after it.
pub fn seen_in_poke(before: &Step, after: &Step) -> Vec<Sight> {
    let shown = POKES.iter().filter(|(_, test)| test(before, after));
    shown.map(|(what, _)| ("poke", *what)).collect()
}

/// What these tables show, which break these rules.
pub fn seen(step: &Step, broken: &[&'static str]) -> Vec<Sight> {
    if !broken.iter().all(|rule| RULES.contains(rule)) {
        return Vec::new();
    }
    let shown = WAYS.iter().filter(|(_, rule, test)| broken.contains(rule) && test(step));
    shown.map(|(what, _, _)| ("tables", *what)).collect()
}

/// Where names begin, by rising offset, those beyond the area left out.
fn starts(step: &Step) -> Vec<usize> {
    let offsets = step.used_entries().iter().filter(|e| e.task != 0).map(|e| e.offset as usize);
    let mut starts: Vec<usize> = offsets.filter(|offset| *offset < NAMES).collect();
    starts.sort();
    starts.dedup();
    starts
}

/// The end of the last name.
fn end(step: &Step) -> usize {
    let ends = starts(step).into_iter().map(|start| end_at(&step.names, start).unwrap_or(NAMES));
    ends.max().unwrap_or(0).min(NAMES - 1)
}

fn has_length<F: Fn(u8) -> bool>(step: &Step, test: F) -> bool {
    starts(step).iter().filter_map(|start| step.names.get(start + MAJOR)).any(|byte| test(*byte))
}

/// Is it a name of legal length, and nothing else?
fn is_one_name(bytes: &[u8]) -> bool {
    let length = bytes.get(MAJOR).cloned().unwrap_or(0) as usize;
    1 <= length && length <= MINOR && bytes.len() <= HEAD + length
}

/// Do bytes that pass lie between two names, or before the first one?
fn gap<F: Fn(&[u8]) -> bool>(step: &Step, test: F) -> bool {
    let mut end = 0;
    for start in starts(step) {
        if end < start && test(&step.names[end..start]) {
            return true;
        }
        end = end_at(&step.names, start).unwrap_or(NAMES);
    }
    false
}
