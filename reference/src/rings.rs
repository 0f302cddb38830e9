//! Who waits for whom, and who is on a ring.

use std::collections::VecDeque;

use crate::control::clash;
use crate::numbers::{is_task, TASKS};
use crate::tables::Named;

/// A yes or no for each task number; place 0 is nobody's.
pub type Marks = [bool; TASKS as usize + 1];

/// For each task, the tasks that it waits for.
pub struct Waits {
    rows: [Marks; TASKS as usize + 1],
}

impl Waits {
    /// "Task A waits for another task B when A has an entry without control and B an
    /// earlier one for that name, one of the two being exclusive".  An entry with such an
    /// earlier one lacks control, so that needs no test of its own.  Tables may hold any
    /// number, so an entry may be of no task.
    pub fn among(entries: &[Named]) -> Waits {
        let mut waits = Waits { rows: [[false; TASKS as usize + 1]; TASKS as usize + 1] };
        for (place, entry) in entries.iter().enumerate() {
            for earlier in entries[..place].iter().filter(|earlier| clash(earlier, entry)) {
                let (a, b) = (entry.task, earlier.task);
                if a != b && is_task(a) && is_task(b) {
                    waits.rows[a as usize][b as usize] = true;
                }
            }
        }
        waits
    }

    /// The tasks that one or more steps lead to: a walk in breadth, which marks the start
    /// only when a step leads back to it.
    pub fn reached_from(&self, start: u32) -> Marks {
        let mut reached = [false; TASKS as usize + 1];
        let mut open = VecDeque::new();
        open.push_back(start as usize);
        while let Some(a) = open.pop_front() {
            for b in 1..=TASKS as usize {
                if self.rows[a][b] && !reached[b] {
                    reached[b] = true;
                    open.push_back(b);
                }
            }
        }
        reached
    }

    /// "a ring is such steps leading back to their start": is the task on one?
    pub fn is_on_ring(&self, task: u32) -> bool {
        self.reached_from(task)[task as usize]
    }

    /// The tasks that are on a ring.
    pub fn on_rings(&self) -> Marks {
        let mut marks = [false; TASKS as usize + 1];
        for task in 1..=TASKS {
            marks[task as usize] = self.is_on_ring(task);
        }
        marks
    }

    /// Is one ring both of this task and of that one?  So when steps lead there and back.
    pub fn share_a_ring(&self, this: u32, that: u32) -> bool {
        self.reached_from(this)[that as usize] && self.reached_from(that)[this as usize]
    }
}
