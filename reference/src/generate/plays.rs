//! Short plays: rings, the one-request habit, full tables, deep trees.

use std::io::Result;

use super::lines::text_of;
use super::Generator;
use crate::names::Name;
use crate::numbers::{AREAS, ENTRIES, LIST, TASKS};
use crate::rings::Waits;

impl<'a> Generator<'a> {
    /// Tasks that each take a name of their own and then ask for the next one's.
    pub fn ring(&mut self) -> Result<()> {
        let ready: Vec<u32> = (2..=TASKS).filter(|n| self.is_ready(*n)).collect();
        let size = self.random.pick(&[2, 2, 3, 4, 6, 10, 20]).min(ready.len());
        if size < 2 {
            let line = self.attach_line();
            return self.say(&line).map(|_| ());
        }
        let base = 100 + self.random.below(50) * 10;
        let names: Vec<Name> = (0..size).map(|i| self.name_of(base + i as u32)).collect();
        for i in 0..size {
            self.take_name(ready[i], &names[i])?;
        }
        let closed = self.random.percent(80);
        for i in 0..(if closed { size } else { size - 1 }) {
            self.take_beside(ready[i], &names[i], &names[(i + 1) % size])?;
        }
        self.say("dump")?;
        self.report()?;
        for _ in 0..self.random.below(8) {
            self.request()?;
        }
        self.break_ring(ready[0])
    }

    pub fn take_name(&mut self, task: u32, name: &Name) -> Result<()> {
        let ret = self.random.pick(&["none 0", "have 1", "have 2"]);
        let mode = if self.random.percent(85) { "E" } else { "S" };
        self.say(&format!("enq {} {} {}:{}", task, ret, mode, text_of(name))).map(|_| ())
    }

    /// A ready task above ends what leads to the ring.
    fn break_ring(&mut self, task: u32) -> Result<()> {
        let (mut at, mut child) = (task, task);
        while at > 1 && !(at != task && self.is_ready(at)) {
            child = at;
            at = self.runner.step.tasks[at as usize].mother;
        }
        let on_ring = Waits::among(&self.runner.step.queue()).is_on_ring(task);
        if on_ring && at != 0 && self.is_ready(at) {
            self.say(&format!("detach {} {}", at, child))?;
            self.say("dispatch")?;
            self.report()?;
        }
        Ok(())
    }

    /// Each task makes one queued ENQ and gives all of it back before the next.
    pub fn habit(&mut self) -> Result<()> {
        let caller = self.caller_where(|_, n| n != 1);
        let held = self.held_by(caller);
        if self.random.percent(15) {
            let sort = self.random.pick(&[0, 0, 0, 1, 2, 7, 11, 12, 13]);
            let line = self.line_of(sort);
            return self.say(&line).map(|_| ());
        }
        if !held.is_empty() && self.random.one_in(40) {
            // skips all, so that the task has queued nothing more and keeps to its habit
            let line = self.line_with_skips(caller, LIST, 0);
            return self.say(&line).map(|_| ());
        }
        if !held.is_empty() {
            let mut line = format!("deq {} none 0", caller);
            held.iter().take(16).for_each(|name| line += &format!(" {}", text_of(name)));
            return self.say(&line).map(|_| ());
        }
        let mut names: Vec<Name> = Vec::new();
        for _ in 0..self.random.pick(&[1, 2, 3, 16]) {
            let name = self.any_name();
            if !names.contains(&name) {
                names.push(name);
            }
        }
        if names.len() < LIST && self.random.one_in(40) {
            // refused, so that the task has queued nothing and keeps to its habit
            names.push(self.system_name());
        }
        let ret = self.random.pick(&["none 0", "none 0", "have 16", "use 16"]);
        let mut line = format!("enq {} {}", caller, ret);
        for name in names {
            line += if self.random.one_in(2) { " S:" } else { " E:" };
            line += &text_of(&name);
        }
        self.say(&line).map(|_| ())
    }

    /// Fill one of the tables to its last place and go on past it.
    pub fn fill(&mut self) -> Result<()> {
        match self.random.below(4) {
            0 => self.fill_tasks()?,
            1 => self.fill_areas()?,
            _ => self.fill_entries()?,
        }
        for _ in 0..self.random.below(10) {
            self.request()?;
        }
        Ok(())
    }

    fn fill_tasks(&mut self) -> Result<()> {
        for _ in 0..TASKS {
            let line = self.attach_line();
            self.say(&line)?;
        }
        Ok(())
    }

    fn fill_areas(&mut self) -> Result<()> {
        for _ in 0..AREAS {
            let line = format!("getmain {} {} 0 cond", self.caller(), self.random.between(1, 24));
            self.say(&line)?;
        }
        for _ in 0..5 {
            let line = self.line_of(9);
            self.say(&line)?;
        }
        Ok(())
    }

    fn fill_entries(&mut self) -> Result<()> {
        let mut number = self.random.below(50);
        while self.runner.step.entry_count < ENTRIES - self.random.below(3) as usize {
            let caller = self.caller();
            let wanted = self.random.pick(&[16, 8, 3, 1]);
            let free = (ENTRIES - self.runner.step.entry_count) as u32;
            let mut line =
                format!("enq {} {}", caller, self.random.pick(&["none 0", "use 16", "have 16"]));
            let from = number;
            while number < from + wanted.min(free) {
                let mode = self.random.pick(&["S", "S", "E"]);
                line += &format!(" {}:ff{:014x}.{:02x}", mode, number, caller);
                number += 1;
            }
            let before = self.runner.step.entry_count;
            self.say(&line)?;
            if self.runner.step.entry_count <= before {
                break;
            }
        }
        for _ in 0..3 {
            let line = self.line_of(4);
            self.say(&line)?;
        }
        self.skips_in_a_crowd()?;
        let line = self.system_enq_line();
        self.say(&line)?;
        self.report()?;
        Ok(())
    }

    /// A chain of tasks, each the mother of the next, then an end somewhere in it.
    pub fn deep_tree(&mut self) -> Result<()> {
        let depth = self.random.between(5, 31);
        for _ in 0..depth {
            let mother = self.deepest();
            let ecb = self.random.below(64).to_string();
            let ecb = if self.random.one_in(3) { "-" } else { ecb.as_str() };
            let lpmod = self.random.below(20);
            self.say(&format!("attach {} {} 3 {}", mother, lpmod, ecb))?;
        }
        for _ in 0..self.random.below(20) {
            self.request()?;
        }
        let sort = self.random.pick(&[1, 1, 2, 3]);
        let line = self.line_of(sort);
        self.say(&line)?;
        self.say("dump").map(|_| ())
    }
}
