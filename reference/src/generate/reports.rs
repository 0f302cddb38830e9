//! Lines that ask for a report.

use std::io::Result;

use super::Generator;
use crate::rings::Waits;

impl<'a> Generator<'a> {
    /// One of the two reports.
    pub fn report(&mut self) -> Result<()> {
        let line = if self.random.percent(65) { self.stuck_line() } else { self.queues_line() };
        self.say(&line).map(|_| ())
    }

    pub fn stuck_line(&mut self) -> String {
        let marks = Waits::among(&self.runner.step.queue()).on_rings();
        let needed = marks.iter().filter(|mark| **mark).count() as u32;
        format!("stuck {}", self.room_for(needed))
    }

    pub fn queues_line(&mut self) -> String {
        let needed = self.runner.step.entry_count as u32;
        format!("queues {}", self.room_for(needed))
    }

    /// List areas are mostly long enough: exact, one item longer, the longest.  Others are
    /// one item short, or shorter; and one in a hundred is longer than a line may say.
    fn room_for(&mut self, needed: u32) -> u32 {
        match self.random.below(100) {
            0 => 256,
            1..=7 => 255,
            8..=12 => 0,
            13..=15 => self.random.below(needed + 1),
            16..=27 => needed.saturating_sub(1),
            28..=45 => needed + 1,
            46..=55 => needed + self.random.below(40),
            _ => needed,
        }
    }
}
