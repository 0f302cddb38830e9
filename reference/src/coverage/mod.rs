//! Counts what a script reaches: answers per service and report, rules of sound tables
//! broken, the ways in which names stand wrong, what requests make of the name area, what the lists
//! of the reports show, what the system's names come to, what HAVE skips, which addresses GETMAIN
//! gives.

pub mod breaks;
mod made;
pub mod packing;
pub mod readings;
pub mod sights;
pub mod skips;
pub mod storage;
mod system;

use std::collections::BTreeMap;
use std::io::{BufRead, Result, Write};
use std::mem;

use self::made::{Made, Test};
use self::sights::Sight;
use crate::reports::Report;
use crate::request::{Answer, Request, Ret};
use crate::rings::Waits;
use crate::runner::{each_line, Outcome, Runner};
use crate::sound::{broken, rules};
use crate::tables::{Step, Task, ENDED, FREE, LIVE};

/// Each service and report with the answers that it can give.
const EXPECTED: [(&str, &[u32]); 21] = [
    ("fresh", &[0, 101]),
    ("attach", &[0, 100, 101, 102, 103, 106, 108]),
    ("detach", &[0, 100, 101, 102, 103, 108, 208]),
    ("end", &[0, 100, 101, 102, 103, 108, 207]),
    ("abend", &[0, 100, 101, 102, 103, 108]),
    ("abend-step", &[0, 100, 101, 102, 103, 108]),
    ("enq-none", &[0, 100, 101, 102, 103, 105, 108, 110, 201]),
    ("enq-test", &[0, 4, 100, 101, 102, 103, 104, 108, 110]),
    ("enq-use", &[0, 4, 100, 101, 102, 103, 104, 105, 108, 110]),
    ("enq-have", &[0, 4, 100, 101, 102, 103, 104, 105, 108, 110]),
    ("enq-chng", &[0, 4, 100, 101, 102, 103, 104, 108, 110]),
    ("deq-none", &[0, 100, 101, 102, 103, 108, 202]),
    ("deq-have", &[0, 4, 100, 101, 102, 103, 104, 108]),
    ("wait", &[0, 100, 101, 102, 103, 108, 203, 204]),
    ("post", &[0, 100, 101, 102, 103, 108]),
    ("clear", &[0, 100, 101, 102, 103, 108, 109]),
    ("getmain", &[0, 4, 100, 101, 102, 103, 107, 108, 205]),
    ("freemain", &[0, 100, 101, 102, 103, 108, 206]),
    ("dispatch", &[0, 100, 108]),
    ("stuck", &[0, 100, 104, 108]),
    ("queues", &[0, 100, 104, 108]),
];

/// All that is looked for in requests of ENQ, DEQ and GETMAIN, beside their answers.
fn of_requests() -> Vec<(Sight, Test)> {
    let mut all = system::looked_for();
    all.extend(skips::looked_for());
    all.extend(storage::looked_for());
    all.extend(readings::looked_for());
    all
}

/// All that is looked for beside answers and rules.
fn all_sights() -> Vec<Sight> {
    let mut all = sights::all();
    all.extend(breaks::all());
    all.extend(packing::all());
    all.extend(of_requests().iter().map(|(sight, _)| *sight));
    all
}

fn word(request: &Request) -> &'static str {
    match *request {
        Request::Attach { .. } => "attach",
        Request::Detach { .. } => "detach",
        Request::End { .. } => "end",
        Request::Abend { step: false, .. } => "abend",
        Request::Abend { .. } => "abend-step",
        Request::Enq { ret: Ret::None, .. } => "enq-none",
        Request::Enq { ret: Ret::Test, .. } => "enq-test",
        Request::Enq { ret: Ret::Use, .. } => "enq-use",
        Request::Enq { ret: Ret::Have, .. } => "enq-have",
        Request::Enq { ret: Ret::Chng, .. } => "enq-chng",
        Request::Deq { have: false, .. } => "deq-none",
        Request::Deq { .. } => "deq-have",
        Request::Wait { .. } => "wait",
        Request::Post { .. } => "post",
        Request::Clear { .. } => "clear",
        Request::Getmain { .. } => "getmain",
        Request::Freemain { .. } => "freemain",
        Request::Dispatch => "dispatch",
    }
}

#[derive(Default)]
struct Counts {
    answers: BTreeMap<(&'static str, u32), u64>,
    /// Per rule: requests that found it broken, and alone broken.
    rules: BTreeMap<&'static str, (u64, u64)>,
    other: BTreeMap<&'static str, u64>,
    most: BTreeMap<&'static str, u64>,
    events: BTreeMap<String, u64>,
    sights: BTreeMap<Sight, u64>,
    /// What the last line made of the name area.
    packed: Vec<Sight>,
}

impl Counts {
    fn one(&mut self, what: &'static str) {
        *self.other.entry(what).or_insert(0) += 1;
    }

    fn high(&mut self, what: &'static str, value: u64) {
        let most = self.most.entry(what).or_insert(0);
        *most = value.max(*most);
    }

    fn answer(&mut self, word: &'static str, answer: Answer) {
        *self.answers.entry((word, answer.number)).or_insert(0) += 1;
    }

    fn see(&mut self, sights: Vec<Sight>) {
        for sight in sights {
            *self.sights.entry(sight).or_insert(0) += 1;
        }
    }

    fn unsound(&mut self, runner: &Runner) {
        let broken = broken(&runner.step);
        for name in broken.iter() {
            let counts = self.rules.entry(name).or_insert((0, 0));
            counts.0 += 1;
            counts.1 += (broken.len() == 1) as u64;
        }
        self.see(breaks::seen(&runner.step, &broken));
    }

    fn state(&mut self, runner: &Runner) {
        let step = &runner.step;
        self.high("tasks", step.tasks.iter().filter(|t| t.state != 0).count() as u64);
        self.high("tasks waiting", step.tasks.iter().filter(|t| t.waits()).count() as u64);
        self.high("entries", step.entry_count as u64);
        self.high("areas", step.area_count as u64);
        self.high("posts needed", step.tasks.iter().map(|t| t.need as u64).max().unwrap_or(0));
        let on_rings = Waits::among(&step.queue()).on_rings();
        let rings = on_rings.iter().filter(|mark| **mark).count();
        self.high("tasks on rings", rings as u64);
        if rings > 0 {
            self.one("requests answered with a ring there");
        }
    }

    fn take(&mut self, runner: &mut Runner, line: &[u8]) {
        let before = runner.step.clone();
        let packed = mem::take(&mut self.packed);
        match runner.take(line) {
            Outcome::Nothing => self.one("empty lines and comments"),
            Outcome::Unreadable => self.one("unreadable lines"),
            Outcome::NotHeld => self.one("pokes not held"),
            Outcome::Poked => {
                self.one("pokes");
                self.see(breaks::seen_in_poke(&before, &runner.step));
            }
            Outcome::Dumped => {
                self.one("dumps");
                self.see(packing::seen_in_dump(&packed));
            }
            Outcome::Started(answer) => {
                self.one("requests");
                self.answer("fresh", answer);
            }
            Outcome::Reported(report, answer) => self.reported(runner, report, answer),
            Outcome::Served(request, answer) => {
                self.one("requests");
                self.answer(word(&request), answer);
                self.shown(&before, runner, request, answer);
                if answer.number == 100 {
                    self.unsound(runner);
                } else {
                    self.state(runner);
                    self.change(&before, &runner.step, &request, answer);
                    let word = word(&request);
                    self.packed = packing::seen(word, &request, &before, &runner.step, answer);
                    self.see(self.packed.clone());
                }
            }
        }
    }

    /// A report changes nothing; its list may show something.
    fn reported(&mut self, runner: &Runner, report: Report, answer: Answer) {
        self.one("reports");
        let word = match report {
            Report::Stuck => "stuck",
            Report::Queues => "queues",
        };
        self.answer(word, answer);
        if answer.number == 100 {
            self.unsound(runner);
        } else if answer.number != 108 {
            self.see(sights::seen(runner, report));
        }
    }

    /// What ENQ and DEQ made of the names on their lists, and which address GETMAIN gave.
    fn shown(&mut self, before: &Step, runner: &Runner, request: Request, answer: Answer) {
        let (names, codes) = match request {
            Request::Enq { .. } | Request::Deq { .. } => (runner.lists().names, runner.codes()),
            Request::Getmain { .. } => (&[][..], &[][..]),
            _ => return,
        };
        let made = Made { before, after: &runner.step, request, names, codes, answer };
        self.see(made::seen(of_requests(), word(&request), &made));
    }

    /// What a request changed.
    fn change(&mut self, before: &Step, after: &Step, request: &Request, answer: Answer) {
        let word = word(request);
        let mut event = |what: &str| {
            *self.events.entry(format!("{} {}", word, what)).or_insert(0) += 1;
        };
        if after.over != before.over {
            event(&format!("answering {} ended the step", answer.number));
            return;
        }
        let count = |test: &dyn Fn(&Task, &Task) -> bool| {
            before.tasks.iter().zip(after.tasks.iter()).filter(|(b, a)| test(b, a)).count()
        };
        let woken = count(&|b, a| b.rwait != 0 && a.is_ready());
        let posted = count(&|b, a| b.need != 0 && a.is_ready());
        let freed = count(&|b, a| b.state != FREE && a.state == FREE);
        let events = [
            ("woke a task of the queue", woken > 0),
            ("woke several tasks of the queue", woken > 1),
            ("woke a task that waited for posts", posted > 0),
            ("counted a post and woke nobody", count(&|b, a| a.need != 0 && a.need < b.need) > 0),
            ("made the caller wait for names", count(&|b, a| b.rwait < a.rwait) > 0),
            ("made the caller wait for posts", count(&|b, a| b.need < a.need) > 0),
            ("kept an ended place", count(&|b, a| b.state == LIVE && a.state == ENDED) > 0),
            ("freed a place", freed > 0),
            ("freed more than four places", freed > 4),
            ("freed an area", after.area_count < before.area_count),
            ("took an entry away", after.entry_count < before.entry_count),
            ("answered 0 0", answer == Answer::done(0)),
        ];
        events.iter().filter(|(_, happened)| *happened).for_each(|(what, _)| event(what));
    }

    fn print(&self, output: &mut dyn Write) -> Result<()> {
        for (word, numbers) in EXPECTED.iter() {
            write!(output, "{:<11}", word)?;
            for number in numbers.iter() {
                let count = self.answers.get(&(*word, *number)).cloned().unwrap_or(0);
                write!(output, " {}:{}", number, count)?;
            }
            writeln!(output)?;
        }
        for name in rules() {
            let (all, alone) = self.rules.get(name).cloned().unwrap_or((0, 0));
            writeln!(output, "rule {:<15} broken {} alone {}", name, all, alone)?;
        }
        for (what, count) in self.events.iter() {
            writeln!(output, "{}: {}", what, count)?;
        }
        for sight in all_sights() {
            let count = self.sights.get(&sight).cloned().unwrap_or(0);
            writeln!(output, "{} {}: {}", sight.0, sight.1, count)?;
        }
        for (what, count) in self.other.iter() {
            writeln!(output, "{}: {}", what, count)?;
        }
        for (what, value) in self.most.iter() {
            writeln!(output, "most {}: {}", what, value)?;
        }
        self.print_gaps(output)
    }

    fn print_gaps(&self, output: &mut dyn Write) -> Result<()> {
        for (word, numbers) in EXPECTED.iter() {
            for number in numbers.iter().filter(|n| !self.answers.contains_key(&(*word, **n))) {
                writeln!(output, "gap: {} never answered {}", word, number)?;
            }
        }
        for (word, number) in self.answers.keys() {
            let known = EXPECTED.iter().any(|(w, numbers)| w == word && numbers.contains(number));
            if !known {
                writeln!(output, "strange: {} answered {}", word, number)?;
            }
        }
        for name in rules().iter().filter(|name| !self.rules.contains_key(*name)) {
            writeln!(output, "gap: rule {} never broken", name)?;
        }
        for sight in all_sights().iter().filter(|sight| !self.sights.contains_key(*sight)) {
            writeln!(output, "gap: {} never {}", sight.0, sight.1)?;
        }
        Ok(())
    }
}

pub fn report<R: BufRead>(input: &mut R, output: &mut dyn Write) -> Result<()> {
    let mut counts = Counts::default();
    let mut runner = Runner::new();
    each_line(input, |line| {
        counts.take(&mut runner, line);
        Ok(())
    })?;
    counts.print(output)
}
