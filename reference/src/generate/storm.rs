//! The kind `reports`: a step with 32 tasks and 128 entries, rings among them; then mostly
//! reports, while task 1 opens rings by DETACH and tasks that are ready close new ones.

use std::io::Result;

use super::lines::text_of;
use super::Generator;
use crate::names::Name;
use crate::numbers::{ENTRIES, LIST, TASKS};
use crate::rings::Waits;

/// What a task asks for while it has names of its own: all in one request, as it waits then.
type Asks = Vec<(u32, Vec<String>)>;

impl<'a> Generator<'a> {
    /// One turn: mostly a report.
    pub fn storm(&mut self) -> Result<()> {
        if self.runner.step.over != 0 || self.random.one_in(800) {
            return self.build_storm();
        }
        if self.nobody_is_ready() {
            // all 32 are stuck, and nobody is left to open a ring
            return if self.random.one_in(40) { self.build_storm() } else { self.report() };
        }
        match self.random.below(100) {
            0..=2 => self.change_rings(),
            3 => self.say("dispatch").map(|_| ()),
            _ => self.report(),
        }
    }

    /// Every task takes two names, then asks for others'.  Task 1 takes what is left of the
    /// entries and mostly stays ready.
    fn build_storm(&mut self) -> Result<()> {
        self.say("fresh 255 100")?;
        for _ in 1..TASKS {
            self.say("attach 1 0 0 -")?;
        }
        for task in 1..=TASKS {
            self.take_own_names(task)?;
        }
        let everybody = self.random.one_in(4);
        let mut asks = self.planned_asks(if everybody { 1 } else { 2 });
        let planned: usize = asks.iter().map(|(_, names)| names.len()).sum();
        self.fill_for_task_1(ENTRIES - planned)?;
        while !asks.is_empty() {
            let next = self.random.below(asks.len() as u32) as usize;
            let (task, names) = asks.swap_remove(next);
            self.say(&format!("enq {} none 0 {}", task, names.join(" ")))?;
        }
        Ok(())
    }

    /// The tasks from `first` on, in groups one after the other: each asks for a name of the
    /// next in its group, and the last for one of the first, which makes a ring; or in a few
    /// groups for one of task 1.
    fn planned_asks(&mut self, first: u32) -> Asks {
        let mut asks = Asks::new();
        let mut from = first;
        while from <= TASKS {
            let left = TASKS + 1 - from;
            let size = self.random.pick(&[2, 2, 2, 3, 3, 4, 5, 7, 11]).min(left);
            // nobody is left alone
            let size = if left == size + 1 { left } else { size };
            let open = first != 1 && self.random.one_in(5);
            for task in from..from + size {
                let last = task == from + size - 1;
                let next = if !last {
                    task + 1
                } else if open {
                    1
                } else {
                    from
                };
                asks.push((task, self.asked_beside(task, next)));
            }
            from += size;
        }
        asks
    }

    /// The next one's name, exclusive, and mostly another task's in any mode, before or after.
    /// A few tasks' names are asked for more often, so that queues grow behind them.
    fn asked_beside(&mut self, task: u32, next: u32) -> Vec<String> {
        let mut names = vec![format!("E:{}", text_of(&storm_name(next, 0)))];
        let other = self.random.pick(&[1, 1, 4, 9, 9, 20, 31, 32]);
        if other == task || self.random.one_in(4) {
            return names;
        }
        let place = self.random.below(2);
        let mode = self.random.pick(&["S", "S", "E"]);
        let beside = format!("{}:{}", mode, text_of(&storm_name(other, 1)));
        names.insert(place as usize, beside);
        names
    }

    /// An exclusive name and one in any mode that nobody has asked for yet.
    fn take_own_names(&mut self, task: u32) -> Result<()> {
        let unused = self.unused_names(task, 2);
        let mode = self.random.pick(&["S", "S", "E"]);
        let line = format!(
            "enq {} none 0 E:{} {}:{}",
            task,
            text_of(&unused[0]),
            mode,
            text_of(&unused[1])
        );
        self.say(&line).map(|_| ())
    }

    fn unused_names(&self, task: u32, count: usize) -> Vec<Name> {
        let queue = self.runner.step.queue();
        let used = |name: &Name| queue.iter().any(|e| e.name == *name);
        (0..)
            .map(|number| storm_name(task, number))
            .filter(|name| !used(name))
            .take(count)
            .collect()
    }

    /// Task 1 takes names until so many entries are there.
    fn fill_for_task_1(&mut self, wanted: usize) -> Result<()> {
        while self.is_ready(1) && self.runner.step.entry_count < wanted {
            let count = LIST.min(wanted - self.runner.step.entry_count);
            let mut line = "enq 1 none 0".to_string();
            for name in self.unused_names(1, count) {
                line += &format!(" S:{}", text_of(&name));
            }
            self.say(&line)?;
        }
        Ok(())
    }

    /// Task 1 gives names back until so many entries are free, if it has as many.
    fn make_room(&mut self, wanted: usize) -> Result<()> {
        let free = ENTRIES - self.runner.step.entry_count;
        let held = self.held_by(1);
        let mut line = "deq 1 none 0".to_string();
        for name in held.iter().rev().take(LIST.min(wanted.saturating_sub(free))) {
            line += &format!(" {}", text_of(name));
        }
        if line.contains('.') {
            self.say(&line)?;
        }
        Ok(())
    }

    /// Open a ring, or close one where tasks are ready for it.
    fn change_rings(&mut self) -> Result<()> {
        let marks = Waits::among(&self.runner.step.queue()).on_rings();
        let stuck: Vec<u32> = (2..=TASKS).filter(|task| marks[*task as usize]).collect();
        let ready: Vec<u32> = (2..=TASKS).filter(|task| self.is_ready(*task)).collect();
        if ready.len() > 1 && (stuck.is_empty() || self.random.one_in(2)) {
            self.close_ring(&ready)?;
        } else if !stuck.is_empty() {
            let task = self.random.pick(&stuck);
            self.say(&format!("detach 1 {}", task))?;
            self.report()?;
            self.say("attach 1 0 0 -")?;
        } else {
            return self.build_storm();
        }
        self.fill_for_task_1(ENTRIES)
    }

    /// Each asks for a name that the next one has.
    fn close_ring(&mut self, ready: &[u32]) -> Result<()> {
        let size = self.random.between(2, 5).min(ready.len() as u32) as usize;
        let ring = &ready[ready.len() - size..];
        self.make_room(3 * size)?;
        for task in ring.iter() {
            if !self.holds_any(*task) {
                self.take_own_names(*task)?;
            }
        }
        for (i, task) in ring.iter().enumerate() {
            let next = ring[(i + 1) % size];
            let mut names = self.held_by(next);
            names.retain(|name| !self.holds(*task, *name));
            if let Some(name) = names.first() {
                self.say(&format!("enq {} none 0 E:{}", task, text_of(name)))?;
            }
        }
        Ok(())
    }
}

/// A name of a task's own, by a number.
fn storm_name(task: u32, number: u32) -> Name {
    let mut name = Name { length: 1 + task % 3, ..Name::NONE };
    name.major[7] = number as u8;
    name.minor[task as usize % 3] = task as u8;
    name
}
