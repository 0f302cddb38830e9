//! Names that come, go and change places: tasks take names of a few, so that a name has entries of
//! several tasks; then they leave in every way there is, with a dump after each.

use std::io::Result;

use super::lines::text_of;
use super::Generator;
use crate::names::Name;
use crate::numbers::TASKS;

impl<'a> Generator<'a> {
    pub fn shuffle(&mut self) -> Result<()> {
        self.gather()?;
        let base = self.random.below(300);
        let count = self.random.between(2, 6);
        let names: Vec<Name> = (0..count).map(|i| self.name_of(base + i)).collect();
        for _ in 0..self.random.between(4, 12) {
            self.take_some(&names)?;
        }
        self.say("dump")?;
        for _ in 0..self.random.between(2, 6) {
            self.leave(&names)?;
            self.say("dump")?;
            if self.random.one_in(4) {
                self.report()?;
            }
            if self.random.one_in(2) {
                self.take_some(&names)?;
            }
        }
        Ok(())
    }

    /// A few names with several entries each; the last entry, mostly, is a shared one for a name
    /// that has one.
    pub fn take_for_twins(&mut self) -> Result<()> {
        let names: Vec<Name> = (0..4).map(|i| self.name_of(i)).collect();
        for _ in self.runner.step.entry_count..6 {
            self.take_some(&names)?;
        }
        let queue = self.runner.step.queue();
        let is_exclusive = |name: Name| queue.iter().any(|e| e.excl != 0 && e.name == name);
        let shared: Vec<Name> =
            queue.iter().map(|e| e.name).filter(|name| !is_exclusive(*name)).collect();
        if shared.is_empty() {
            return Ok(());
        }
        let name = self.random.pick(&shared);
        let caller = self.caller_where(|g, n| !g.holds(n, name));
        self.say(&format!("enq {} use 1 S:{}", caller, text_of(&name))).map(|_| ())
    }

    /// Six tasks that are ready, beside task 1.
    fn gather(&mut self) -> Result<()> {
        for _ in 0..6 {
            let ready = (2..=TASKS).filter(|n| self.is_ready(*n)).count();
            if ready < 6 {
                let line = self.attach_line();
                self.say(&line)?;
            }
        }
        Ok(())
    }

    /// A task asks for up to three of the names, mostly shared, so that few wait.
    fn take_some(&mut self, names: &[Name]) -> Result<()> {
        let caller = self.caller_where(|_, n| n != 1);
        let mut words = Vec::new();
        let wanted = self.random.pick(&[1, 1, 2, 2, 3]);
        let from = self.random.below(names.len() as u32) as usize;
        for i in 0..wanted.min(names.len()) {
            let name = names[(from + i) % names.len()];
            if !self.holds(caller, name) {
                let mode = if self.random.percent(85) { "S" } else { "E" };
                words.push(format!("{}:{}", mode, text_of(&name)));
            }
        }
        if words.is_empty() {
            return Ok(());
        }
        let ret = self.random.pick(&["none 0", "use 3", "have 3", "have 3", "test 3"]);
        self.say(&format!("enq {} {} {}", caller, ret, words.join(" "))).map(|_| ())
    }

    /// A task that has names gives some back, or ends, or is ended.
    fn leave(&mut self, names: &[Name]) -> Result<()> {
        let caller = self.caller_where(|g, n| n != 1 && g.holds_any(n));
        let held = self.held_by(caller);
        if held.is_empty() {
            return self.take_some(names);
        }
        let mother = self.runner.step.tasks[caller as usize].mother;
        let line = match self.random.below(10) {
            0..=2 => self.give_back(caller, &held),
            3 => format!("end {} 7", caller),
            4 => format!("abend {} 8", caller),
            5 if self.is_ready(mother) => format!("detach {} {}", mother, caller),
            5 => format!("end {} 9", caller),
            _ => self.error_line(caller, &held)?,
        };
        self.say(&line).map(|_| ())
    }

    /// DEQ with some of the names, and in HAVE now and then with one more.
    fn give_back(&mut self, caller: u32, held: &[Name]) -> String {
        let from = self.random.below(held.len() as u32) as usize;
        let most = self.random.between(1, 3) as usize;
        let mut list: Vec<String> = held[from..].iter().take(most).map(text_of).collect();
        if self.random.one_in(2) {
            return format!("deq {} none 0 {}", caller, list.join(" "));
        }
        let more = self.any_name();
        if !held.contains(&more) && self.random.one_in(3) {
            list.push(text_of(&more));
        }
        format!("deq {} have 4 {}", caller, list.join(" "))
    }

    /// A line that is a program error of a task that has names: one of the eight.
    fn error_line(&mut self, caller: u32, held: &[Name]) -> Result<String> {
        let number = self.random.between(201, 208);
        let waited = self.ecb_where_waited(true);
        Ok(match number {
            201 => format!("enq {} none 0 S:{}", caller, text_of(&self.random.pick(held))),
            202 => format!("deq {} none 0 {} ee00000000000000.ee", caller, text_of(&held[0])),
            203 => match waited {
                Some(ecb) => format!("wait {} 0 {}", caller, ecb),
                None => return self.wait_and_wait(caller),
            },
            204 => format!("wait {} 2 {}", caller, self.random.below(64)),
            205 => {
                self.say(&format!("getmain {} 8 1 cond", caller))?;
                format!("getmain {} 131072 1 uncond", caller)
            }
            206 => format!("freemain {} 131064 8 126", caller),
            207 => {
                self.say(&format!("attach {} 0 0 -", caller))?;
                format!("end {} 0", caller)
            }
            _ => format!("detach {} {}", caller, caller),
        })
    }

    /// Another task waits for an ECB, and then this one would.
    fn wait_and_wait(&mut self, caller: u32) -> Result<String> {
        let other = self.caller_where(|_, n| n != 1 && n != caller);
        let ecb = self.ecb_where_waited(false).unwrap_or(0);
        if other != caller {
            self.say(&format!("clear {} {}", other, ecb))?;
            self.say(&format!("wait {} 1 {}", other, ecb))?;
        }
        Ok(format!("wait {} 0 {}", caller, ecb))
    }
}
