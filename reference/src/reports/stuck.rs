//! Who is stuck, where, and behind whom.

use crate::control::clash;
use crate::names::Name;
use crate::numbers::TASKS;
use crate::rings::{Marks, Waits};
use crate::tables::Named;

/// A stuck task, "with one name and one stuck task it waits for there".
#[derive(Clone, Copy, PartialEq, Eq, Debug)]
pub struct Stuck {
    pub task: u32,
    pub name: Name,
    pub partner: u32,
}

impl Stuck {
    pub const NONE: Stuck = Stuck { task: 0, name: Name::NONE, partner: 0 };
}

/// "A task on a ring of document 01 is stuck. List every stuck task once, in ascending
/// order".  No stuck task is left out: it waits for the next one on its ring.
pub fn list(entries: &[Named]) -> Vec<Stuck> {
    let stuck = Waits::among(entries).on_rings();
    let tasks = (1..=TASKS).filter(|task| stuck[*task as usize]);
    tasks.filter_map(|task| item(entries, task, &stuck)).collect()
}

/// "its earliest such entry": the first of its entries at which it waits for a stuck task.
fn item(entries: &[Named], task: u32, stuck: &Marks) -> Option<Stuck> {
    let mut own = (0..entries.len()).filter(|place| entries[*place].task == task);
    own.find_map(|place| {
        let partner = partner(entries, place, stuck)?;
        Some(Stuck { task, name: entries[place].name, partner })
    })
}

/// "then the earliest entry ahead": of another stuck task, and one that bars.  Entries of
/// others, and a shared one before a shared one, are passed over.
fn partner(entries: &[Named], place: usize, stuck: &Marks) -> Option<u32> {
    let entry = &entries[place];
    let bars = |e: &&Named| e.task != entry.task && stuck[e.task as usize] && clash(e, entry);
    entries[..place].iter().find(bars).map(|ahead| ahead.task)
}
