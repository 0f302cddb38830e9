//! FREEMAIN

use super::getmain::owner_of;
use crate::ending::program_error;
use crate::numbers::rounded;
use crate::request::Answer;
use crate::tables::{Area, Step};

/// "names address, length (1 to 131,072, rounded alike) and subpool, and must match one
/// whole area of that owner, else 206"
pub fn freemain(step: &mut Step, caller: u32, address: u32, length: u32, subpool: u32) -> Answer {
    let named =
        Area { address, length: rounded(length), subpool, owner: owner_of(subpool, caller) };
    if !step.used_areas().contains(&named) {
        return program_error(step, caller, 206);
    }
    step.keep_areas(|area| *area != named);
    Answer::done(0)
}
