//! The tables of one step, with every field raw, as a dump shows it.

use std::ops::RangeInclusive;

use crate::name_area::{name_at, put, NameArea};
use crate::names::Name;
use crate::numbers::{is_task, AREAS, ECBS, ENTRIES, NAMES, PAGE, PRIORITY, TASKS};

pub const FREE: u32 = 0;
pub const LIVE: u32 = 1;
pub const ENDED: u32 = 2;

#[derive(Clone, Copy, PartialEq, Eq, Debug)]
pub struct Task {
    pub state: u32,
    pub mother: u32,
    pub limit: u32,
    pub disp: u32,
    pub hasecb: u32,
    pub ecb: u32,
    pub rwait: u32,
    pub need: u32,
}

impl Task {
    pub const NONE: Task =
        Task { state: FREE, mother: 0, limit: 0, disp: 0, hasecb: 0, ecb: 0, rwait: 0, need: 0 };

    pub fn waits(&self) -> bool {
        self.rwait != 0 || self.need != 0
    }

    /// Live and not waiting.
    pub fn is_ready(&self) -> bool {
        self.state == LIVE && !self.waits()
    }
}

/// An entry points to its name: this is where it begins in the name area.
#[derive(Clone, Copy, PartialEq, Eq, Debug)]
pub struct Entry {
    pub task: u32,
    pub excl: u32,
    pub offset: u32,
}

impl Entry {
    pub const NONE: Entry = Entry { task: 0, excl: 0, offset: 0 };
}

/// An entry with the name that it points to.
#[derive(Clone, Copy, PartialEq, Eq, Debug)]
pub struct Named {
    pub task: u32,
    pub excl: u32,
    pub name: Name,
}

#[derive(Clone, Copy, PartialEq, Eq, Debug)]
pub struct Ecb {
    pub wait: u32,
    pub complete: u32,
    pub code: u32,
    pub waiter: u32,
}

impl Ecb {
    pub const NONE: Ecb = Ecb { wait: 0, complete: 0, code: 0, waiter: 0 };
}

#[derive(Clone, Copy, PartialEq, Eq, Debug)]
pub struct Area {
    pub address: u32,
    pub length: u32,
    pub subpool: u32,
    pub owner: u32,
}

impl Area {
    pub const NONE: Area = Area { address: 0, length: 0, subpool: 0, owner: 0 };

    /// The first address past the area; wide, as tables may hold any number.
    pub fn end(&self) -> u64 {
        self.address as u64 + self.length as u64
    }

    pub fn first_page(&self) -> u64 {
        (self.address / PAGE) as u64
    }

    /// The last page touched by an area, whose length is not 0.
    pub fn last_page(&self) -> u64 {
        (self.end() - 1) / PAGE as u64
    }

    /// The pages touched by an area, whose length is not 0.
    pub fn pages(&self) -> RangeInclusive<u64> {
        self.first_page()..=self.last_page()
    }

    pub fn same_owner_and_subpool(&self, other: &Area) -> bool {
        self.owner == other.owner && self.subpool == other.subpool
    }
}

/// One step.  `tasks[0]` is no place and stays `Task::NONE`.  The counts are one
/// more than the highest place in use, so that places from there on are zero.
#[derive(Clone, PartialEq, Eq)]
pub struct Step {
    pub over: u32,
    pub code: u32,
    pub tasks: [Task; TASKS as usize + 1],
    pub entries: [Entry; ENTRIES],
    pub entry_count: usize,
    pub names: NameArea,
    pub ecbs: [Ecb; ECBS as usize],
    pub areas: [Area; AREAS],
    pub area_count: usize,
}

impl Step {
    /// "every table is empty and only the code is kept"
    pub fn over(code: u32) -> Step {
        Step {
            over: 1,
            code,
            tasks: [Task::NONE; TASKS as usize + 1],
            entries: [Entry::NONE; ENTRIES],
            entry_count: 0,
            names: [0; NAMES],
            ecbs: [Ecb::NONE; ECBS as usize],
            areas: [Area::NONE; AREAS],
            area_count: 0,
        }
    }

    /// "Fresh start takes task 1's limit and dispatching priority, each 0 to 255,
    /// dispatching not above limit (else 101, and a step already over with code 0
    /// comes back). All else is empty."
    pub fn fresh(limit: u32, disp: u32) -> (u32, Step) {
        let mut step = Step::over(0);
        if limit > PRIORITY || disp > PRIORITY || disp > limit {
            return (101, step);
        }
        step.over = 0;
        step.tasks[1] = Task { state: LIVE, limit, disp, ..Task::NONE };
        (0, step)
    }

    pub fn used_entries(&self) -> &[Entry] {
        &self.entries[..self.entry_count]
    }

    /// The queue: the entries in their order, each with its name as the area has it.
    pub fn queue(&self) -> Vec<Named> {
        let named = |e: &Entry| Named {
            task: e.task,
            excl: e.excl,
            name: name_at(&self.names, e.offset as usize),
        };
        self.used_entries().iter().map(named).collect()
    }

    /// Put a queue in the place of the one that there is, with a fresh name area.  "Each
    /// different name is kept once, in a name area of 16,384 bytes, and entries point to it.
    /// They stand packed, in the order of first entries; a name leaves with its last entry."
    pub fn store_queue(&mut self, queue: &[Named]) {
        self.entries = [Entry::NONE; ENTRIES];
        self.names = [0; NAMES];
        let mut end = 0;
        for (i, &Named { task, excl, name }) in queue.iter().enumerate() {
            let earlier = queue[..i].iter().position(|earlier| earlier.name == name);
            let offset = match earlier {
                Some(first) => self.entries[first].offset,
                None => {
                    let start = end;
                    end = put(&mut self.names, start, &name);
                    start as u32
                }
            };
            self.entries[i] = Entry { task, excl, offset };
        }
        self.entry_count = queue.len();
    }

    pub fn used_areas(&self) -> &[Area] {
        &self.areas[..self.area_count]
    }

    /// Any number may be asked about; one without a place is no live task.
    pub fn is_live(&self, number: u32) -> bool {
        is_task(number) && self.tasks[number as usize].state == LIVE
    }

    /// Has the task a subtask, "live or ended and not detached"?
    pub fn has_subtask(&self, task: u32) -> bool {
        (1..=TASKS).any(|n| self.is_subtask(n, task))
    }

    pub fn is_subtask(&self, number: u32, mother: u32) -> bool {
        let place = &self.tasks[number as usize];
        place.state != FREE && place.mother == mother
    }

    /// Keep the entries that pass, packed in their order; the rest becomes zero.  The name area
    /// is as it was, so that they still find their names.
    pub fn keep_entries<F: Fn(&Entry) -> bool>(&mut self, keep: F) {
        let mut kept = 0;
        for i in 0..self.entry_count {
            if keep(&self.entries[i]) {
                self.entries[kept] = self.entries[i];
                kept += 1;
            }
        }
        for i in kept..self.entry_count {
            self.entries[i] = Entry::NONE;
        }
        self.entry_count = kept;
    }

    /// Keep the areas that pass, packed in their order; the rest becomes zero.
    pub fn keep_areas<F: Fn(&Area) -> bool>(&mut self, keep: F) {
        let mut kept = 0;
        for i in 0..self.area_count {
            if keep(&self.areas[i]) {
                self.areas[kept] = self.areas[i];
                kept += 1;
            }
        }
        for i in kept..self.area_count {
            self.areas[i] = Area::NONE;
        }
        self.area_count = kept;
    }

    /// Set both counts anew after a poke.
    pub fn count_places(&mut self) {
        let entries = self.entries.iter().rposition(|e| *e != Entry::NONE);
        self.entry_count = entries.map_or(0, |i| i + 1);
        let areas = self.areas.iter().rposition(|a| *a != Area::NONE);
        self.area_count = areas.map_or(0, |i| i + 1);
    }
}
