//! A request of ENQ, DEQ or GETMAIN that was made, and tests of what it shows.

use super::sights::Sight;
use crate::control::entry_of;
use crate::names::Asked;
use crate::numbers::ENTRIES;
use crate::request::{Answer, Request};
use crate::tables::Step;

/// The tables before it and after it, its names, the codes area after it; GETMAIN has neither
/// names nor codes.
pub struct Made<'a> {
    pub before: &'a Step,
    pub after: &'a Step,
    pub request: Request,
    pub names: &'a [Asked],
    pub codes: &'a [u8],
    pub answer: Answer,
}

pub type Test = fn(&Made) -> bool;

/// What a request with this word shows of all that is looked for; `enq` is any RET kind.
pub fn seen(looked_for: Vec<(Sight, Test)>, word: &str, made: &Made) -> Vec<Sight> {
    let is_enq = matches!(made.request, Request::Enq { .. });
    let fits = |sight: &Sight| sight.0 == word || (is_enq && sight.0 == "enq");
    let shown = looked_for.into_iter().filter(|(sight, test)| fits(sight) && test(made));
    shown.map(|(sight, _)| sight).collect()
}

impl<'a> Made<'a> {
    pub fn caller(&self) -> u32 {
        self.request.caller().unwrap_or(0)
    }

    /// Had the caller an entry for the name?
    pub fn has(&self, asked: &Asked) -> bool {
        entry_of(&self.before.queue(), self.caller(), asked).is_some()
    }

    /// How many names of the list the caller had no entry for.
    pub fn fresh(&self) -> usize {
        self.names.iter().filter(|asked| !self.has(asked)).count()
    }

    /// How many entries were free.
    pub fn free(&self) -> usize {
        ENTRIES - self.before.entry_count
    }

    pub fn caller_has_some(&self) -> bool {
        self.names.iter().any(|asked| self.has(asked))
    }

    pub fn area_is_short(&self) -> bool {
        self.request.codes_are_due() && self.codes.len() < self.names.len()
    }
}
