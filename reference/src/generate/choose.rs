//! Choices from the tables as they stand.

use super::Generator;
use crate::control::entry_of;
use crate::names::{Asked, Name};
use crate::numbers::{ECBS, TASKS};
use crate::tables::{Area, Ecb, ENDED};

impl<'a> Generator<'a> {
    pub fn nobody_is_ready(&self) -> bool {
        self.runner.step.tasks.iter().all(|task| !task.is_ready())
    }

    /// A number that passes a test, if one does.
    pub fn task_where<F: Fn(&Generator, u32) -> bool>(&mut self, test: F) -> Option<u32> {
        let found: Vec<u32> = (1..=TASKS).filter(|n| test(self, *n)).collect();
        if found.is_empty() {
            None
        } else {
            Some(self.random.pick(&found))
        }
    }

    pub fn is_ready(&self, n: u32) -> bool {
        n <= TASKS && self.runner.step.tasks[n as usize].is_ready()
    }

    /// A ready task, rarely task 1, as its errors end the step.
    pub fn caller(&mut self) -> u32 {
        let other = self.task_where(|g, n| n != 1 && g.is_ready(n));
        match other {
            Some(n) if self.random.percent(90) => n,
            _ if self.is_ready(1) => 1,
            Some(n) => n,
            None => 1,
        }
    }

    /// A ready task that passes a test, else any ready one.
    pub fn caller_where<F: Fn(&Generator, u32) -> bool>(&mut self, test: F) -> u32 {
        match self.task_where(|g, n| g.is_ready(n) && test(g, n)) {
            Some(n) => n,
            None => self.caller(),
        }
    }

    /// A caller that may not call: no task, ended, waiting.
    pub fn bad_caller(&mut self) -> u32 {
        let waiting = self.task_where(|g, n| g.runner.step.tasks[n as usize].waits());
        let ended = self.task_where(|g, n| g.runner.step.tasks[n as usize].state == ENDED);
        let free = self.task_where(|g, n| g.runner.step.tasks[n as usize].state == 0);
        let strange = self.random.pick(&[0, 33, 34, 64, 255, 256, 257, 288, 65_537, 4_294_967_295]);
        match self.random.below(5) {
            0 | 1 => waiting.unwrap_or(strange),
            2 => ended.unwrap_or(strange),
            3 => free.unwrap_or(strange),
            _ => strange,
        }
    }

    /// Names are made from a number, so that many differ in little.
    pub fn name_of(&self, number: u32) -> Name {
        let mut name = Name::NONE;
        name.major[7] = (number / 7 % 3) as u8;
        name.major[0] = if number % 11 == 0 { 0xe2 } else { 0 };
        name.length = [1, 2, 44, 43, 8, 3, 1][(number % 7) as usize];
        name.minor[name.length as usize - 1] = (number / 21) as u8;
        if number % 7 == 6 {
            name.minor[0] |= 0x80;
        }
        name
    }

    pub fn any_name(&mut self) -> Name {
        let number = self.random.below(self.habits.names);
        self.name_of(number)
    }

    pub fn held_by(&self, task: u32) -> Vec<Name> {
        let entries = self.runner.step.queue();
        entries.iter().filter(|e| e.task == task).map(|e| e.name).collect()
    }

    pub fn holds(&self, task: u32, name: Name) -> bool {
        entry_of(&self.runner.step.queue(), task, &Asked { exclusive: false, name }).is_some()
    }

    pub fn holds_any(&self, task: u32) -> bool {
        self.runner.step.used_entries().iter().any(|e| e.task == task)
    }

    pub fn has_subtask(&self, task: u32) -> bool {
        self.runner.step.has_subtask(task)
    }

    pub fn subtask_of(&mut self, mother: u32) -> Option<u32> {
        let ended = |g: &Generator, n: u32| g.runner.step.tasks[n as usize].state == ENDED;
        let found = self.task_where(|g, n| g.runner.step.is_subtask(n, mother) && ended(g, n));
        match found {
            Some(n) if self.random.percent(70) => Some(n),
            _ => self.task_where(|g, n| g.runner.step.is_subtask(n, mother)),
        }
    }

    /// The ready task whose chain to task 1 is longest.
    pub fn deepest(&self) -> u32 {
        let depth = |n: u32| {
            let (mut at, mut steps) = (n, 0);
            while at > 1 && at <= TASKS && steps < TASKS {
                at = self.runner.step.tasks[at as usize].mother;
                steps += 1;
            }
            steps
        };
        (1..=TASKS).filter(|n| self.is_ready(*n)).max_by_key(|n| depth(*n)).unwrap_or(1)
    }

    pub fn ecb_where_waited(&mut self, waited: bool) -> Option<u32> {
        let ecbs = &self.runner.step.ecbs;
        let found: Vec<u32> =
            (0..ECBS).filter(|n| (ecbs[*n as usize].wait != 0) == waited).collect();
        if found.is_empty() {
            None
        } else {
            Some(self.random.pick(&found))
        }
    }

    /// The ECB of a live task that nobody waits for yet and that is not complete.
    pub fn ecb_of_a_task(&mut self) -> Option<u32> {
        let task = self.task_where(|g, n| {
            let task = &g.runner.step.tasks[n as usize];
            let free = |ecb: u32| g.runner.step.ecbs[(ecb % ECBS) as usize] == Ecb::NONE;
            task.is_ready() && task.hasecb != 0 && free(task.ecb)
        })?;
        Some(self.runner.step.tasks[task as usize].ecb)
    }

    /// An area that somebody who is ready may free, else any.
    pub fn any_area(&mut self) -> Option<Area> {
        let areas = self.runner.step.used_areas();
        let ready = |area: &&Area| area.owner == 0 || self.is_ready(area.owner);
        let free: Vec<Area> = areas.iter().filter(ready).cloned().collect();
        let all = areas.to_vec();
        if all.is_empty() {
            return None;
        }
        let from = if free.is_empty() || self.random.one_in(40) { all } else { free };
        Some(self.random.pick(&from))
    }
}
