//! Runs a script, line by line.

use std::io::{BufRead, Result, Write};

use crate::poke;
use crate::printer::{self, FILL};
use crate::quick;
use crate::reports::queues::{self, Queued};
use crate::reports::stuck::{self, Stuck};
use crate::reports::{report, Report};
use crate::request::{Answer, Lists, Request};
use crate::script::{Line, Reader, MOST_CODES};
use crate::services::getmain::{self, Search};
use crate::services::serve;
use crate::tables::Step;

/// What a line came to.
#[derive(Clone, Copy, Debug)]
pub enum Outcome {
    Nothing,
    Unreadable,
    NotHeld,
    Poked,
    Dumped,
    Started(Answer),
    Served(Request, Answer),
    Reported(Report, Answer),
}

pub struct Runner {
    pub step: Step,
    pub line: u64,
    reader: Reader,
    search: Search,
    codes: [u8; MOST_CODES as usize],
    codes_length: usize,
    /// The list areas, as long as the last line lent them.
    pub stuck: Vec<Stuck>,
    pub queued: Vec<Queued>,
}

impl Runner {
    /// One whose GETMAIN tries each multiple of 8, by the words of document 01.
    pub fn new() -> Runner {
        Runner::with(getmain::lowest_fit)
    }

    /// One whose GETMAIN takes the short walk; only to be timed.
    pub fn quick() -> Runner {
        Runner::with(quick::lowest_fit)
    }

    /// "Before the first `fresh` the tables are those of a step over with code 0."
    fn with(search: Search) -> Runner {
        Runner {
            step: Step::over(0),
            line: 0,
            reader: Reader::new(),
            search,
            codes: [FILL; MOST_CODES as usize],
            codes_length: 0,
            stuck: Vec::new(),
            queued: Vec::new(),
        }
    }

    /// Take one line, without its LF.
    pub fn take(&mut self, line: &[u8]) -> Outcome {
        self.line += 1;
        self.codes_length = 0;
        match self.reader.read(line) {
            Line::Nothing => Outcome::Nothing,
            Line::Unreadable => Outcome::Unreadable,
            Line::Dump => Outcome::Dumped,
            Line::Fresh { limit, disp } => {
                let (number, step) = Step::fresh(limit, disp);
                self.step = step;
                Outcome::Started(Answer { number, value: 0 })
            }
            Line::Poke(poke) => {
                if poke::apply(&mut self.step, poke) {
                    Outcome::Poked
                } else {
                    Outcome::NotHeld
                }
            }
            Line::Request { request, codes } => {
                self.codes_length = codes;
                let area = &mut self.codes[..codes];
                for byte in area.iter_mut() {
                    *byte = FILL;
                }
                let answer =
                    serve(&mut self.step, &request, self.reader.lists(), area, self.search);
                Outcome::Served(request, answer)
            }
            Line::Report { report, room } => Outcome::Reported(report, self.report(report, room)),
        }
    }

    /// The lists of the line just taken.
    pub fn lists(&self) -> Lists<'_> {
        self.reader.lists()
    }

    /// The codes area of the line just taken, as it was lent and then written.
    pub fn codes(&self) -> &[u8] {
        &self.codes[..self.codes_length]
    }

    /// Lend a list area of so many items and have a report written there.
    fn report(&mut self, which: Report, room: usize) -> Answer {
        match which {
            Report::Stuck => {
                self.stuck = vec![Stuck::NONE; room];
                report(&self.step, stuck::list, &mut self.stuck)
            }
            Report::Queues => {
                self.queued = vec![Queued::NONE; room];
                report(&self.step, queues::list, &mut self.queued)
            }
        }
    }

    /// Write what the line just taken answers.
    pub fn print(&self, outcome: &Outcome, out: &mut Vec<u8>) {
        match *outcome {
            Outcome::Nothing => {}
            Outcome::Unreadable => printer::mark(out, b'?', self.line),
            Outcome::NotHeld => printer::mark(out, b'!', self.line),
            Outcome::Poked => out.extend_from_slice(b"ok\n"),
            Outcome::Dumped => printer::dump(out, &self.step),
            Outcome::Started(answer) | Outcome::Served(_, answer) => {
                printer::answer(out, answer, self.codes())
            }
            Outcome::Reported(report, answer) => {
                printer::answer(out, answer, &[]);
                self.print_list(report, answer.value as usize, out);
            }
        }
    }

    /// The items of the report just made, one to a line; a refusal has none.
    fn print_list(&self, report: Report, count: usize, out: &mut Vec<u8>) {
        match report {
            Report::Stuck => self.stuck[..count].iter().for_each(|item| printer::stuck(out, item)),
            Report::Queues => {
                self.queued[..count].iter().for_each(|item| printer::queued(out, item))
            }
        }
    }
}

/// Go through the lines of a script; "the last LF may be missing".
pub fn each_line<R: BufRead, F: FnMut(&[u8]) -> Result<()>>(
    input: &mut R,
    mut each: F,
) -> Result<()> {
    let mut line = Vec::new();
    loop {
        line.clear();
        if input.read_until(b'\n', &mut line)? == 0 {
            return Ok(());
        }
        if line.last() == Some(&b'\n') {
            line.pop();
        }
        each(&line)?;
    }
}

/// Answer a whole script.
pub fn run<R: BufRead, W: Write>(mut runner: Runner, input: &mut R, output: &mut W) -> Result<()> {
    let mut out = Vec::new();
    each_line(input, |line| {
        let outcome = runner.take(line);
        runner.print(&outcome, &mut out);
        if out.len() >= 1 << 16 {
            output.write_all(&out)?;
            out.clear();
        }
        Ok(())
    })?;
    output.write_all(&out)?;
    output.flush()
}
