//! CLEAR

use crate::request::Answer;
use crate::tables::{Ecb, Step};

/// "CLEAR makes the word zero."
pub fn clear(step: &mut Step, ecb: u32) -> Answer {
    // 109: CLEAR of an ECB with its wait bit on
    if step.ecbs[ecb as usize].wait != 0 {
        return Answer::refused(109);
    }
    step.ecbs[ecb as usize] = Ecb::NONE;
    Answer::done(0)
}
