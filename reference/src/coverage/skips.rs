//! What HAVE comes to with names that the caller has an entry for, which it skips.  Other names
//! are fresh; a list with names of both sorts is a mixed one.

use super::made::{Made, Test};
use super::sights::Sight;
use crate::control::has_control;
use crate::names::{stands_twice, Asked};
use crate::numbers::LIST;
use crate::rings::Waits;
use crate::tables::Named;

/// Some skipped: which, and what becomes of the caller.
const SOME: [(&str, Test); 10] = [
    ("skipped some names and queued the others", |made| made.skips_some()),
    ("skipped the first name of a mixed list", |made| made.skips_some() && made.has_at(0)),
    ("skipped the last name of a mixed list", |made| {
        made.skips_some() && made.has_at(made.names.len() - 1)
    }),
    ("skipped names between fresh ones", |made| {
        made.skips_some() && !made.has_at(0) && !made.has_at(made.names.len() - 1)
    }),
    ("skipped some of 16 names", |made| made.skips_some() && made.names.len() == LIST),
    ("skipped some names and made the caller wait", |made| made.skips_some() && made.waits()),
    ("skipped some names and let the caller go on", |made| made.skips_some() && !made.waits()),
    ("skipped some names and queued a free one and a taken one", |made| {
        made.skips_some() && made.queues(|n| n == 0) && made.queues(|n| n > 0)
    }),
    ("skipped some names and joined the owners of another", |made| {
        made.skips_some() && made.queues(|n| n > 0) && !made.waits()
    }),
    ("skipped some names and closed a ring", |made| made.skips_some() && made.is_on_ring()),
];

/// All skipped, and what a skipped entry may be.
const SKIPPED: [(&str, Test); 8] = [
    ("skipped the only name", |made| made.skips_all() && made.names.len() == 1),
    ("skipped all of several names", |made| made.skips_all() && made.names.len() > 1),
    ("skipped all of 16 names", |made| made.skips_all() && made.names.len() == LIST),
    ("skipped all names with 128 entries in use", |made| made.skips_all() && made.free() == 0),
    ("skipped a shared entry asked for exclusive", |made| {
        made.skips(|entry, asked| entry.excl == 0 && asked.exclusive)
    }),
    ("skipped an exclusive entry asked for shared", |made| {
        made.skips(|entry, asked| entry.excl != 0 && !asked.exclusive)
    }),
    ("skipped one of several owners' entries asked for exclusive", |made| {
        made.skips(|entry, asked| entry.excl == 0 && asked.exclusive && made.another(asked, true))
    }),
    ("skipped an entry that others wait behind", |made| {
        made.skips(|_, asked| made.another(asked, false))
    }),
];

/// Near a full queue: "105 counts only the names to be queued."
const CROWDED: [(&str, Test); 6] = [
    ("answered 105 to a mixed list", |made| made.is_short_of_entries()),
    ("answered 105 to a mixed list with one fresh name too many", |made| {
        made.is_short_of_entries() && made.free() > 0 && made.fresh() == made.free() + 1
    }),
    ("answered 105 to a mixed list with 128 entries in use", |made| {
        made.is_short_of_entries() && made.free() == 0
    }),
    ("queued fresh names though the whole list would not fit", |made| {
        made.skips_some() && made.names.len() > made.free()
    }),
    ("queued fresh names that just fit, and skipped some", |made| {
        made.skips_some() && made.fresh() == made.free()
    }),
    ("left an entry free though the whole list would not fit", |made| {
        made.skips_some() && made.names.len() > made.free() && made.fresh() < made.free()
    }),
];

/// What refuses the whole list, though the names to be queued would pass.
const WHOLE: [(&str, Test); 5] = [
    ("answered 104 with an area long enough for the fresh names", |made| {
        made.answer.number == 104 && made.is_mixed() && made.codes.len() >= made.fresh()
    }),
    ("answered 104 to names that the caller has all", |made| {
        made.answer.number == 104 && made.fresh() == 0
    }),
    ("answered 101 to a name that the caller has, twice", |made| {
        made.answer.number == 101 && made.has_a_held_one_twice()
    }),
    ("answered 101 to more than 16 names, no more than 16 fresh", |made| {
        made.answer.number == 101 && made.names.len() > LIST && made.fresh() <= LIST
    }),
    ("answered 110 beside a name that the caller has", |made| {
        made.answer.number == 110 && made.caller_has_some()
    }),
];

/// All that is looked for.
pub fn looked_for() -> Vec<(Sight, Test)> {
    let all = SOME.iter().chain(&SKIPPED).chain(&CROWDED).chain(&WHOLE);
    all.map(|(what, test)| (("enq-have", *what), *test)).collect()
}

impl<'a> Made<'a> {
    fn has_at(&self, place: usize) -> bool {
        self.has(&self.names[place])
    }

    fn is_mixed(&self) -> bool {
        0 < self.fresh() && self.fresh() < self.names.len()
    }

    /// A mixed list was answered 4, and each fresh name has a new entry.
    fn skips_some(&self) -> bool {
        self.answer.number == 4
            && self.is_mixed()
            && self.after.entry_count == self.before.entry_count + self.fresh()
    }

    /// Every name was the caller's, and nothing has changed.
    fn skips_all(&self) -> bool {
        self.answer.number == 4 && self.fresh() == 0 && self.before == self.after
    }

    fn is_short_of_entries(&self) -> bool {
        self.answer.number == 105 && self.is_mixed()
    }

    /// Is the caller in a resource wait now?  Only asked once it was served.
    fn waits(&self) -> bool {
        self.after.tasks[self.caller() as usize].rwait != 0
    }

    fn is_on_ring(&self) -> bool {
        Waits::among(&self.after.queue()).is_on_ring(self.caller())
    }

    /// Does the number of entries that there were for one of the fresh names pass?
    fn queues<F: Fn(usize) -> bool>(&self, test: F) -> bool {
        let entries = self.before.queue();
        let queued = |asked: &Asked| entries.iter().filter(|e| e.name == asked.name).count();
        self.names.iter().any(|asked| !self.has(asked) && test(queued(asked)))
    }

    /// Was an entry of the caller's skipped that stands as it stood, and does it pass beside what
    /// was asked for?
    fn skips<F: Fn(&Named, &Asked) -> bool>(&self, test: F) -> bool {
        let stood = self.before.queue().into_iter().zip(self.after.queue());
        let mut kept = stood.filter(|(b, a)| b == a && b.task == self.caller());
        let passes = |e: &Named| self.names.iter().any(|a| a.name == e.name && test(e, a));
        self.answer.number == 4 && kept.any(|(entry, _)| passes(&entry))
    }

    /// Had another task an entry for this name, with control or without?
    fn another(&self, asked: &Asked, owns: bool) -> bool {
        let entries = self.before.queue();
        let is_such = |i: usize| entries[i].task != self.caller() && entries[i].name == asked.name;
        (0..entries.len()).any(|i| is_such(i) && has_control(&entries, i) == owns)
    }

    /// Does a name stand twice that the caller has?
    fn has_a_held_one_twice(&self) -> bool {
        let held = self.names.iter().filter(|asked| self.has(asked));
        stands_twice(&held.cloned().collect::<Vec<Asked>>())
    }
}
