//! Who owns each name and who waits for it.

use crate::control::has_control;
use crate::names::Name;
use crate::tables::Named;

/// An entry of a name's queue: of an owner, or of a waiter.
#[derive(Clone, Copy, PartialEq, Eq, Debug)]
pub struct Queued {
    pub name: Name,
    pub task: u32,
    pub owns: bool,
}

impl Queued {
    pub const NONE: Queued = Queued { name: Name::NONE, task: 0, owns: false };
}

/// "for each name in the order of its first entry, its owners and waiters in queue order"
pub fn list(entries: &[Named]) -> Vec<Queued> {
    let mut items = Vec::new();
    for (first, entry) in entries.iter().enumerate() {
        let name = entry.name;
        if entries[..first].iter().any(|earlier| earlier.name == name) {
            continue;
        }
        for place in (first..entries.len()).filter(|place| entries[*place].name == name) {
            let owns = has_control(entries, place);
            items.push(Queued { name, task: entries[place].task, owns });
        }
    }
    items
}
