//! HAVE with names that the caller has already: it skips these and queues the others, the
//! fresh ones.

use std::io::Result;

use super::lines::text_of;
use super::Generator;
use crate::names::Name;
use crate::numbers::{ENTRIES, LIST};

impl<'a> Generator<'a> {
    /// HAVE of a task that has names, with some of them, and mostly with fresh ones too.
    pub fn skip_line(&mut self) -> String {
        let caller = self.caller_where(|g, n| g.holds_any(n));
        let length = self.random.pick(&[1, 2, 2, 2, 3, 3, 5, LIST]);
        let most = length.min(self.held_by(caller).len()) as u32;
        let held = self.random.between(most.min(1), most) as usize;
        let fresh = if held > 0 && self.random.one_in(4) { 0 } else { length - held };
        self.line_with_skips(caller, held, fresh)
    }

    /// HAVE with up to so many of the caller's names, and with so many fresh ones anywhere
    /// between them, in any modes.  A task that has no name asks for one.
    pub fn line_with_skips(&mut self, caller: u32, held: usize, fresh: usize) -> String {
        let own = self.some_held(caller, held);
        let mut names = own.clone();
        let taken = self.random.pick(&[0, 0, 15, 50]);
        for _ in 0..(if own.is_empty() { fresh.max(1) } else { fresh }) {
            let name = self.fresh_name(caller, &names, taken);
            let place = self.random.below(names.len() as u32 + 1);
            names.insert(place as usize, name);
        }
        let mut words = self.in_modes(&names, "have");
        let mut codes = self.codes_length(words.len());
        if !own.is_empty() && self.random.one_in(7) {
            codes = self.spoil_whole(&mut words, &own, codes);
        }
        format!("enq {} have {} {}", caller, codes, words.join(" "))
    }

    /// Up to so many of a task's names, in any order.
    fn some_held(&mut self, task: u32, most: usize) -> Vec<Name> {
        let mut all = self.held_by(task);
        let mut some = Vec::new();
        while some.len() < most && !all.is_empty() {
            let place = self.random.below(all.len() as u32);
            some.push(all.swap_remove(place as usize));
        }
        some
    }

    /// A name that neither the caller nor the list has: with this chance in a hundred one that
    /// another task has, else one that nobody has asked for.
    fn fresh_name(&mut self, caller: u32, beside: &[Name], taken: u32) -> Name {
        let names: Vec<Name> = self.runner.step.queue().iter().map(|e| e.name).collect();
        if self.random.percent(taken) {
            let is_fresh = |name: &&Name| !self.holds(caller, **name) && !beside.contains(name);
            let others: Vec<Name> = names.iter().filter(is_fresh).cloned().collect();
            if !others.is_empty() {
                return self.random.pick(&others);
            }
        }
        let mut number = 300 + self.random.below(60);
        let mut name = self.name_of(number);
        while names.contains(&name) || beside.contains(&name) {
            number += 1;
            name = self.name_of(number);
        }
        name
    }

    /// What refuses the whole list, though the names to be queued would pass: a name that is
    /// skipped stands twice, one of the system's, too many names, or a codes area that is long
    /// enough for the others.  Answers the length of the codes area.
    fn spoil_whole(&mut self, words: &mut Vec<String>, own: &[Name], codes: u32) -> u32 {
        let length = words.len();
        let place = self.random.below(length as u32 + 1) as usize;
        let mode = self.random.pick(&["S", "E"]);
        match self.random.below(4) {
            0 => words.insert(place, format!("{}:{}", mode, text_of(&self.random.pick(own)))),
            1 => words.insert(place, format!("{}:{}", mode, text_of(&self.system_name()))),
            2 => {
                let others = (0..).map(|i| format!("{}:{:016x}.ff", mode, i));
                words.extend(others.take((LIST + 1).saturating_sub(length)));
            }
            _ => return self.random.between((length - own.len()) as u32, length as u32 - 1),
        }
        codes
    }

    /// With hardly an entry free: one fresh name more than fits, then fewer and as many as fit
    /// although the whole list would not, and then none.
    pub fn skips_in_a_crowd(&mut self) -> Result<()> {
        self.give_some_back()?;
        for less in [0, 2, 1, 1].iter() {
            let held = self.random.pick(&[1, 2, 3, LIST]);
            let caller = self.caller_where(|g, n| g.held_by(n).len() >= held);
            let free = ENTRIES - self.runner.step.entry_count;
            let fresh = (free + 1).saturating_sub(*less).min(LIST - 1);
            let line = self.line_with_skips(caller, held.min(LIST - fresh), fresh);
            self.say(&line)?;
        }
        Ok(())
    }

    /// A task gives a few of its names back, or none.
    fn give_some_back(&mut self) -> Result<()> {
        let caller = self.caller_where(|g, n| g.held_by(n).len() > 5);
        let mut names = self.held_by(caller);
        names.truncate(self.random.below(5) as usize);
        if names.is_empty() {
            return Ok(());
        }
        let list: String = names.iter().map(|name| format!(" {}", text_of(name))).collect();
        self.say(&format!("deq {} none 0{}", caller, list)).map(|_| ())
    }

    /// A task that has one name asks for the next, and now and then for both, of which it skips
    /// its own.
    pub fn take_beside(&mut self, task: u32, own: &Name, next: &Name) -> Result<()> {
        if !self.random.one_in(4) {
            return self.take_name(task, next);
        }
        let names = if self.random.one_in(2) { [*own, *next] } else { [*next, *own] };
        let words = self.in_modes(&names, "have");
        self.say(&format!("enq {} have 2 {}", task, words.join(" "))).map(|_| ())
    }
}
