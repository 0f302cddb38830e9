//! What requests make of the name area: which names come, go and change their places.

use super::sights::Sight;
use crate::names::Name;
use crate::request::{Answer, Request};
use crate::tables::{Named, Step};

type Test = fn(&Change) -> bool;

/// Of whatever takes entries away and leaves others.
const GOING: [(&str, Test); 5] = [
    ("took a name away", |change| change.goes()),
    ("moved a name", |change| change.moves()),
    (REORDERED, |change| change.reorders()),
    ("kept a name for another entry", |change| change.keeps_a_name()),
    ("took an entry away and left the area as it was", |change| {
        change.takes_entries() && change.before.names == change.after.names
    }),
];

/// What was seen last, where a dump is the next line: the new order shows.
const REORDERED: &str = "changed the order of names";
const DUMPED: &str = "changed the order of names, and a dump followed";

/// Of each program error.
const ERROR: [(&str, Test); 3] = [
    ("took a name away", |change| change.goes()),
    ("moved a name", |change| change.moves()),
    ("kept a name for another entry", |change| change.keeps_a_name()),
];

/// Of an ENQ that queues.
const COMING: [(&str, Test); 3] = [
    ("put a name behind the last", |change| change.comes()),
    ("found its names in the area", |change| change.finds() && !change.comes()),
    ("found a name in the area and put another behind the last", |change| {
        change.finds() && change.comes()
    }),
];

/// Of the end of the step.
const EMPTIED: (&str, Test) =
    ("emptied the area", |change| change.after.over != 0 && !change.old.is_empty());

const GOING_WORDS: [&str; 6] = ["deq-none", "deq-have", "detach", "end", "abend", "error"];
const COMING_WORDS: [&str; 3] = ["enq-none", "enq-use", "enq-have"];
const ENDING_WORDS: [&str; 3] = ["end", "abend-step", "error"];
const ERRORS: [(u32, &str); 8] = [
    (201, "201"),
    (202, "202"),
    (203, "203"),
    (204, "204"),
    (205, "205"),
    (206, "206"),
    (207, "207"),
    (208, "208"),
];

fn looked_for() -> Vec<(Sight, Test)> {
    let mut all = Vec::new();
    let mut add = |word: &'static str, tests: &[(&'static str, Test)]| {
        all.extend(tests.iter().map(|(what, test)| ((word, *what), *test)));
    };
    GOING_WORDS.iter().for_each(|word| add(word, &GOING));
    ERRORS.iter().for_each(|(_, word)| add(word, &ERROR));
    COMING_WORDS.iter().for_each(|word| add(word, &COMING));
    ENDING_WORDS.iter().for_each(|word| add(word, &[EMPTIED]));
    all
}

/// All that is looked for.
pub fn all() -> Vec<Sight> {
    let of_requests = looked_for().into_iter().map(|(sight, _)| sight);
    of_requests.chain(GOING_WORDS.iter().map(|word| (*word, DUMPED))).collect()
}

/// What a dump shows of the sights that the line before it made.
pub fn seen_in_dump(sights: &[Sight]) -> Vec<Sight> {
    let reordered = sights.iter().filter(|sight| sight.1 == REORDERED);
    reordered.map(|(word, _)| (*word, DUMPED)).collect()
}

/// What a request shows that wasn't answered 100; `word` is its own, and a program error goes by
/// its number.
pub fn seen(
    word: &'static str,
    request: &Request,
    before: &Step,
    after: &Step,
    answer: Answer,
) -> Vec<Sight> {
    let error = ERRORS.iter().find(|(number, _)| *number == answer.number);
    let words = match error {
        Some((_, number)) => ["error", *number],
        None => [word, ""],
    };
    if before.names == after.names && before.entries == after.entries {
        return Vec::new();
    }
    let is_enq = matches!(request, Request::Enq { .. });
    let change = Change { before, after, old: before.queue(), new: after.queue(), is_enq };
    let shown =
        looked_for().into_iter().filter(|(sight, test)| words.contains(&sight.0) && test(&change));
    shown.map(|(sight, _)| sight).collect()
}

/// The tables before and after, and the queues.
struct Change<'a> {
    before: &'a Step,
    after: &'a Step,
    old: Vec<Named>,
    new: Vec<Named>,
    is_enq: bool,
}

/// Where a queue's first entry for a name points to.
fn offset_of(step: &Step, queue: &[Named], name: &Name) -> Option<u32> {
    queue.iter().position(|entry| entry.name == *name).map(|i| step.entries[i].offset)
}

impl<'a> Change<'a> {
    fn new_offset(&self, name: &Name) -> Option<u32> {
        offset_of(self.after, &self.new, name)
    }

    fn old_offset(&self, name: &Name) -> Option<u32> {
        offset_of(self.before, &self.old, name)
    }

    /// Where each name was and is that there is before and after.
    fn kept(&self) -> Vec<(u32, u32)> {
        let both = |e: &Named| Some((self.old_offset(&e.name)?, self.new_offset(&e.name)?));
        self.old.iter().filter_map(both).collect()
    }

    fn takes_entries(&self) -> bool {
        0 < self.new.len() && self.new.len() < self.old.len()
    }

    fn goes(&self) -> bool {
        self.takes_entries() && self.old.iter().any(|e| self.new_offset(&e.name).is_none())
    }

    fn moves(&self) -> bool {
        self.takes_entries() && self.kept().iter().any(|(old, new)| old != new)
    }

    fn reorders(&self) -> bool {
        let kept = self.kept();
        self.takes_entries() && kept.iter().any(|a| kept.iter().any(|b| a.0 < b.0 && b.1 < a.1))
    }

    /// Has an entry gone whose name stays?
    fn keeps_a_name(&self) -> bool {
        let gone = self.old.iter().filter(|e| !self.is_left(e));
        self.takes_entries() && gone.map(|e| self.new_offset(&e.name)).any(|new| new.is_some())
    }

    fn is_left(&self, entry: &Named) -> bool {
        self.new.iter().any(|e| e.task == entry.task && e.name == entry.name)
    }

    /// The entries that are queued now.
    fn queued(&self) -> &[Named] {
        if self.is_enq && self.old.len() <= self.new.len() {
            &self.new[self.old.len()..]
        } else {
            &[]
        }
    }

    fn comes(&self) -> bool {
        self.queued().iter().any(|e| self.old_offset(&e.name).is_none())
    }

    fn finds(&self) -> bool {
        self.queued().iter().any(|e| self.old_offset(&e.name).is_some())
    }
}
