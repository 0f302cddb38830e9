//! The two reports of document 02, section 1.  Each looks at the tables and changes none;
//! no caller is named.

pub mod queues;
pub mod stuck;

use crate::admission::tables_refusal;
use crate::request::Answer;
use crate::tables::{Named, Step};

#[derive(Clone, Copy, PartialEq, Eq, Debug)]
pub enum Report {
    Stuck,
    Queues,
}

/// Put a report's list at the front of the area lent for it, and answer how long it is.
/// "After 100 and 108, a list area too short gives 104, unchanged": too short is one with
/// less room than this list needs, so that an empty list finds room anywhere.
pub fn report<T, L>(step: &Step, list: L, area: &mut [T]) -> Answer
where
    T: Copy,
    L: Fn(&[Named]) -> Vec<T>,
{
    if let Some(number) = tables_refusal(step) {
        return Answer::refused(number);
    }
    let items = list(&step.queue());
    if area.len() < items.len() {
        return Answer::refused(104);
    }
    area[..items.len()].copy_from_slice(&items);
    Answer::done(items.len() as u32)
}
