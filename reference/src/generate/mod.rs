//! A generator of job scripts by seed and kind.  It follows the tables with the
//! reference's own runner, so that most requests are meaningful and deep states are
//! reached.

mod aimed;
mod broken;
mod choose;
mod garble;
mod habits;
mod lines;
mod names;
mod plays;
mod reports;
mod shuffle;
mod skips;
mod storm;
mod system;

use std::io::{Result, Write};

use self::habits::{habits_of, Habits};
use crate::random::Random;
use crate::runner::{Outcome, Runner};
use crate::sound::is_sound;

pub const KINDS: [&str; 11] = [
    "mixed", "tasks", "queue", "events", "storage", "broken", "text", "full", "habit", "rings",
    "reports",
];

pub struct Generator<'a> {
    random: Random,
    runner: Runner,
    output: &'a mut dyn Write,
    /// Requests and reports so far.
    asked: u64,
    /// Requests since the last dump; a report changes nothing.
    since_dump: u32,
    /// An entry has gone since the last dump, so that names may have moved.
    gone: bool,
    habits: Habits,
}

/// Write a script of about `count` requests and reports.
pub fn generate(seed: u64, kind: &str, count: u64, output: &mut dyn Write) -> Result<bool> {
    let place = match KINDS.iter().position(|known| *known == kind) {
        Some(place) => place as u64,
        None => return Ok(false),
    };
    let mut random = Random::new(seed.wrapping_mul(1000).wrapping_add(place));
    random.next();
    let habits = habits_of(kind);
    let runner = Runner::new();
    let mut generator =
        Generator { random, runner, output, asked: 0, since_dump: 0, gone: false, habits };
    generator.say(&format!("# {} {} {}", kind, seed, count))?;
    while generator.asked < count {
        generator.turn(kind)?;
    }
    // "the last LF may be missing"
    let end: &[u8] = generator.random.pick(&[b"dump\n", b"dump"]);
    output.write_all(end)?;
    Ok(true)
}

impl<'a> Generator<'a> {
    /// Write a line and follow it.
    fn say(&mut self, line: &str) -> Result<Outcome> {
        self.say_bytes(line.as_bytes())
    }

    fn say_bytes(&mut self, line: &[u8]) -> Result<Outcome> {
        self.output.write_all(line)?;
        self.output.write_all(b"\n")?;
        let entries = self.runner.step.entry_count;
        let outcome = self.runner.take(line);
        match outcome {
            Outcome::Served(..) | Outcome::Started(..) => {
                self.asked += 1;
                self.since_dump += 1;
                self.gone |=
                    0 < self.runner.step.entry_count && self.runner.step.entry_count < entries;
            }
            Outcome::Reported(..) => self.asked += 1,
            Outcome::Dumped => {
                self.since_dump = 0;
                self.gone = false;
            }
            _ => {}
        }
        Ok(outcome)
    }

    /// Some lines of a kind.
    fn turn(&mut self, kind: &str) -> Result<()> {
        if self.since_dump > 40 || self.gone && self.random.one_in(10) {
            self.say("dump")?;
        }
        if kind == "reports" {
            return self.storm();
        }
        if self.runner.step.over != 0 || !is_sound(&self.runner.step) {
            return self.over();
        }
        if self.nobody_is_ready() {
            return self.idle();
        }
        match kind {
            "broken" if self.random.one_in(4) => self.break_and_mend(),
            "text" if self.random.one_in(3) => self.text_line(),
            "rings" if self.random.one_in(10) => self.ring(),
            "queue" if self.random.one_in(60) => self.shuffle(),
            "habit" => self.habit(),
            "full" if self.random.one_in(60) => self.fill(),
            "tasks" if self.random.one_in(40) => self.deep_tree(),
            "mixed" if self.random.one_in(60) => self.any_play(),
            _ => self.request(),
        }
    }

    fn any_play(&mut self) -> Result<()> {
        match self.random.below(8) {
            0 => self.break_and_mend(),
            1 => self.text_line(),
            2 => self.ring(),
            3 => self.deep_tree(),
            4 => self.fill(),
            5 | 6 => self.shuffle(),
            _ => self.fresh(),
        }
    }

    /// The step is over: a few requests that get 108, then a fresh start.
    fn over(&mut self) -> Result<()> {
        if self.random.one_in(3) {
            self.say("dump")?;
        }
        for _ in 0..self.random.below(3) {
            self.request()?;
        }
        if self.random.one_in(10) {
            self.poke_step()?;
        }
        self.fresh()
    }

    /// Nobody is ready: requests get 103 and 102, DISPATCH answers 0; then a fresh start.
    fn idle(&mut self) -> Result<()> {
        self.say("dispatch")?;
        for _ in 0..self.random.below(3) {
            self.request()?;
        }
        self.say("dump")?;
        self.fresh()
    }

    fn fresh(&mut self) -> Result<()> {
        let limit = self.random.pick(&[255, 255, 200, 128, 40, 10, 1, 0]);
        let disp = self.random.between(0, limit);
        if self.random.one_in(12) {
            let bad = self.random.pick(&[
                (256, 0),
                (255, 256),
                (5, 6),
                (u32::max_value(), u32::max_value()),
                (0, 1),
            ]);
            self.say(&format!("fresh {} {}", bad.0, bad.1))?;
        }
        self.say(&format!("fresh {} {}", limit, disp))?;
        for _ in 0..self.random.below(6) {
            let line = self.attach_line();
            self.say(&line)?;
        }
        Ok(())
    }
}
