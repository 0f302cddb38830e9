//! The rules of the section "Sound tables" of document 01, and those that document 02 adds, each
//! a function.  Every rule can be asked about any tables, whatever the others say.

mod fields;
mod names;

use self::names::Seen;
use crate::tables::Step;

/// Cheap rules come first.
pub fn is_sound(step: &Step) -> bool {
    fields::RULES.iter().all(|(_, rule)| rule(step)) && {
        let seen = Seen::of(step);
        names::RULES.iter().all(|(_, rule)| rule(&seen))
    }
}

/// What the rules are called.
pub fn rules() -> Vec<&'static str> {
    let of_fields = fields::RULES.iter().map(|(name, _)| *name);
    of_fields.chain(names::RULES.iter().map(|(name, _)| *name)).collect()
}

/// The rules that these tables break.
pub fn broken(step: &Step) -> Vec<&'static str> {
    let seen = Seen::of(step);
    let fields = fields::RULES.iter().filter(|(_, rule)| !rule(step)).map(|(name, _)| *name);
    let names = names::RULES.iter().filter(|(_, rule)| !rule(&seen)).map(|(name, _)| *name);
    fields.chain(names).collect()
}
