//! The rules on names: what section 5 of document 02 says of the name area, and what the rules of
//! the queue say of names.
//!
//! The entries are taken in their order.  The offset of each is that of an earlier entry, or it is
//! the end of the names so far, and a whole name lies there that no earlier entry shows.  Behind
//! the last name all is zero.

use crate::control::lacking;
use crate::name_area::{end_at, is_zero};
use crate::names::Name;
use crate::numbers::NAMES;
use crate::tables::{Named, Step};

/// The order decides nothing.
pub const RULES: [(&str, fn(&Seen) -> bool); 11] = [
    ("name-beyond", offsets_in_the_area),
    ("name-middle", no_offset_into_a_name),
    ("name-gap", no_offset_past_the_end),
    ("name-order", no_offset_back),
    ("name-whole", names_whole),
    ("name-length", name_lengths_legal),
    ("name-once", names_once),
    ("name-tail", nothing_behind_the_last),
    ("system-name", no_names_of_the_system),
    ("entry-once", one_entry_per_task_and_name),
    ("resource-wait", resource_waits),
];

/// Where an offset stands that no earlier entry has.
#[derive(Clone, Copy, PartialEq, Eq, Debug)]
enum Stands {
    /// It is the end of the names so far.
    AtTheEnd,
    /// It lies past that end.
    Past,
    /// It lies in a name that an earlier entry shows, and not at its start.
    Middle,
    /// It lies before that end, where no entry has shown a name.
    Back,
    /// It lies past the area.
    Beyond,
}

/// A place of the area that an entry shows and no earlier one.
struct Shown {
    start: usize,
    /// The first byte past the name, which may lie past the area; None with no length byte there.
    end: Option<usize>,
    stands: Stands,
}

impl Shown {
    /// Does a name begin there?  Its place may be wrong, but it is in the area and in no other.
    fn is_name(&self) -> bool {
        self.stands != Stands::Beyond && self.stands != Stands::Middle
    }

    fn is_whole(&self) -> bool {
        self.end.map_or(false, |end| end <= NAMES)
    }
}

/// What is read from the tables, once for all rules.  A place without a task is no entry.
pub struct Seen<'a> {
    step: &'a Step,
    queue: Vec<Named>,
    shown: Vec<Shown>,
    /// The names shown, but for those that are cut off.
    names: Vec<Name>,
    /// The end of the names shown, no further than the area.
    end: usize,
}

impl<'a> Seen<'a> {
    pub fn of(step: &'a Step) -> Seen<'a> {
        let mut seen =
            Seen { step, queue: step.queue(), shown: Vec::new(), names: Vec::new(), end: 0 };
        for (i, entry) in step.used_entries().iter().enumerate().filter(|(_, e)| e.task != 0) {
            seen.take(entry.offset as usize, seen.queue[i].name);
        }
        seen.queue.retain(|entry| entry.task != 0);
        seen
    }

    /// The next entry has this offset, and this is read there.
    fn take(&mut self, start: usize, name: Name) {
        // names so far begin before their end
        if start != self.end && self.shown.iter().any(|shown| shown.start == start) {
            return;
        }
        let end = end_at(&self.step.names, start);
        let shown = Shown { start, end, stands: self.stands(start) };
        if shown.is_name() {
            self.end = self.end.max(shown.end.unwrap_or(NAMES).min(NAMES));
            if shown.is_whole() {
                self.names.push(name);
            }
        }
        self.shown.push(shown);
    }

    fn stands(&self, start: usize) -> Stands {
        let holds = |name: &Shown| {
            name.is_name() && name.start < start && name.end.map_or(true, |end| start < end)
        };
        if start >= NAMES {
            Stands::Beyond
        } else if start == self.end {
            Stands::AtTheEnd
        } else if start > self.end {
            Stands::Past
        } else if self.shown.iter().any(holds) {
            Stands::Middle
        } else {
            Stands::Back
        }
    }

    fn none_stands(&self, wrong: Stands) -> bool {
        self.shown.iter().all(|shown| shown.stands != wrong)
    }
}

/// "in a name area of 16,384 bytes"
fn offsets_in_the_area(seen: &Seen) -> bool {
    seen.none_stands(Stands::Beyond)
}

/// "entries point to it": to a name's start.
fn no_offset_into_a_name(seen: &Seen) -> bool {
    seen.none_stands(Stands::Middle)
}

/// "They stand packed": no byte is left out, and no name that has no entry; "a name leaves with
/// its last entry".
fn no_offset_past_the_end(seen: &Seen) -> bool {
    seen.none_stands(Stands::Past)
}

/// "in the order of first entries".  Where two names stand in the wrong order, the one that is
/// shown first stands past the end as well.
fn no_offset_back(seen: &Seen) -> bool {
    seen.none_stands(Stands::Back)
}

/// A name lies in the area with all of its bytes.
fn names_whole(seen: &Seen) -> bool {
    seen.shown.iter().all(|shown| shown.is_whole() || !shown.is_name())
}

/// "name lengths legal"
fn name_lengths_legal(seen: &Seen) -> bool {
    seen.names.iter().all(|name| name.length_is_legal())
}

/// "Each different name is kept once"
fn names_once(seen: &Seen) -> bool {
    (0..seen.names.len()).all(|i| !seen.names[..i].contains(&seen.names[i]))
}

/// "unused places and fields are zero": the area behind the last name.  Of a step that is over
/// another rule says it.
fn nothing_behind_the_last(seen: &Seen) -> bool {
    seen.step.over != 0 || is_zero(&seen.step.names[seen.end..])
}

/// Document 02, section 2: "Sound tables hold no such name."
fn no_names_of_the_system(seen: &Seen) -> bool {
    seen.queue.iter().all(|e| !e.name.is_the_systems())
}

/// "one at most per task and name"
fn one_entry_per_task_and_name(seen: &Seen) -> bool {
    let entries = &seen.queue;
    let again = |i: usize, e: &Named| e.task == entries[i].task && e.name == entries[i].name;
    (0..entries.len()).all(|i| !entries[..i].iter().any(|e| again(i, e)))
}

/// "A task is in a resource wait exactly when an entry of its lacks control"
fn resource_waits(seen: &Seen) -> bool {
    let lacks = lacking(&seen.queue);
    let tasks = &seen.step.tasks;
    (1..tasks.len()).all(|n| (tasks[n].rwait != 0) == lacks[n])
}
