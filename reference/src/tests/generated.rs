//! Generated scripts: what must hold at every request.

use crate::coverage::{self, breaks, packing, readings, sights::Sight, skips, storage};
use crate::generate::{generate, KINDS};
use crate::names::Asked;
use crate::numbers::{AREAS, ENTRIES, TASKS};
use crate::reports::Report;
use crate::request::{Answer, Lists, Request, Ret};
use crate::rings::Waits;
use crate::runner::{each_line, run, Outcome, Runner};
use crate::services::getmain::lowest_fit;
use crate::services::serve;
use crate::sound::is_sound;
use crate::tables::Step;

fn script(seed: u64, kind: &str, count: u64) -> Vec<u8> {
    let mut out = Vec::new();
    assert!(generate(seed, kind, count, &mut out).unwrap());
    out
}

/// Calls back with the tables before and after each request and report of a script; a
/// report changes nothing.
fn each_request<F: FnMut(&Runner, &Runner, Answer)>(script: &[u8], mut each: F) {
    let mut runner = Runner::new();
    let mut before = Runner::new();
    each_line(&mut &script[..], |line| {
        before.step = runner.step.clone();
        match runner.take(line) {
            Outcome::Served(_, answer) => each(&before, &runner, answer),
            Outcome::Reported(_, answer) => {
                assert!(before.step == runner.step, "{}", runner.line);
                each(&before, &runner, answer);
            }
            _ => {}
        }
        Ok(())
    })
    .unwrap();
}

#[test]
fn the_same_for_a_seed() {
    for kind in KINDS.iter() {
        assert!(script(3, kind, 300) == script(3, kind, 300));
        assert!(script(3, kind, 300) != script(4, kind, 300));
    }
    assert!(!generate(1, "no such kind", 1, &mut Vec::new()).unwrap());
}

#[test]
fn sound_tables_stay_sound_and_refusals_change_nothing() {
    for kind in KINDS.iter() {
        each_request(&script(1, kind, 1500), |before, after, answer| {
            let line = after.line;
            assert_eq!(answer.number == 100, !is_sound(&before.step), "{} {}", kind, line);
            if answer.number == 100 || 101 <= answer.number && answer.number <= 110 {
                assert!(before.step == after.step, "{} {}", kind, line);
            } else {
                assert!(is_sound(&after.step), "{} {}", kind, line);
            }
            if answer.number >= 100 {
                assert_eq!(answer.value, 0);
            }
        });
    }
}

/// "One-request habit": no ring is ever reached; without it there are some.
#[test]
fn rings() {
    let on_rings = |kind: &str| {
        let mut found = 0;
        each_request(&script(1, kind, 1500), |_, after, _| {
            let on_rings = Waits::among(&after.step.queue()).on_rings();
            found += on_rings.iter().filter(|mark| **mark).count();
        });
        found
    };
    assert_eq!(on_rings("habit"), 0);
    assert!(on_rings("rings") > 50);
}

/// The kind `reports`: full tables with rings, and mostly reports.
#[test]
fn reports() {
    let mut runner = Runner::new();
    let (mut others, mut lists, mut full, mut stuck) = (0, 0, 0, 0);
    each_line(&mut &script(1, "reports", 3000)[..], |line| {
        match runner.take(line) {
            Outcome::Served(..) => others += 1,
            Outcome::Reported(report, answer) => {
                lists += 1;
                let tasks = runner.step.tasks.iter().filter(|task| task.state != 0).count();
                full += (tasks == TASKS as usize && runner.step.entry_count == ENTRIES) as u32;
                stuck += (report == Report::Stuck && answer.value > 3) as u32;
            }
            _ => {}
        }
        Ok(())
    })
    .unwrap();
    assert!(others > 100 && lists > 2 * others, "{} {}", others, lists);
    assert!(10 * full > 9 * lists && 3 * stuck > lists, "{} {} {}", full, stuck, lists);
}

/// What NONE answers, and leaves, with the names that the caller has no entry for.
fn rest_by_none(before: &Step, caller: u32, names: &[Asked]) -> (u32, Step) {
    let queue = before.queue();
    let held = |a: &Asked| queue.iter().any(|e| e.task == caller && e.name == a.name);
    let rest: Vec<Asked> = names.iter().filter(|asked| !held(asked)).cloned().collect();
    let mut after = before.clone();
    if rest.is_empty() {
        return (0, after);
    }
    let request = Request::Enq { caller, ret: Ret::None };
    let lists = Lists { names: &rest, ecbs: &[] };
    let answer = serve(&mut after, &request, lists, &mut [], lowest_fit);
    (answer.number, after)
}

/// "names with code 8 skipped and the rest queued": HAVE leaves what NONE with the rest would,
/// and is refused with 105 exactly where that is.
#[test]
fn have_is_none_with_the_rest() {
    let mut seen = [0; 3];
    for kind in KINDS.iter() {
        let mut runner = Runner::new();
        each_line(&mut &script(3, kind, 1500)[..], |line| {
            let before = runner.step.clone();
            if let Outcome::Served(Request::Enq { caller, ret: Ret::Have }, answer) =
                runner.take(line)
            {
                if let Some(place) = [0, 4, 105].iter().position(|n| *n == answer.number) {
                    let (number, after) = rest_by_none(&before, caller, runner.lists().names);
                    assert_eq!(answer.number == 105, number == 105, "{} {}", kind, runner.line);
                    assert!(runner.step == after, "{} {}", kind, runner.line);
                    seen[place] += 1;
                }
            }
            Ok(())
        })
        .unwrap();
    }
    assert!(seen.iter().all(|count| *count > 10), "{:?}", seen);
}

/// How much of what is looked for is missing from a script.
fn missing(script: &[u8], looked_for: &[Sight]) -> usize {
    let mut out = Vec::new();
    coverage::report(&mut &script[..], &mut out).unwrap();
    let text = String::from_utf8(out).unwrap();
    let gap = |sight: &Sight| format!("gap: {} never {}", sight.0, sight.1);
    looked_for.iter().filter(|sight| text.lines().any(|line| line == gap(sight))).count()
}

/// Scripts of seed 1, one after the other.
fn scripts(kinds: &[(&str, u64)]) -> Vec<u8> {
    let mut all = Vec::new();
    for (kind, count) in kinds {
        all.extend(script(1, kind, *count));
        all.push(b'\n');
    }
    all
}

/// A few scripts reach all of it; where HAVE skips nothing, none of it.
#[test]
fn have_skips_names() {
    let skips: Vec<Sight> = skips::looked_for().iter().map(|(sight, _)| *sight).collect();
    let all = scripts(&[("queue", 4000), ("full", 4000), ("rings", 1000)]);
    assert_eq!(missing(&all, &skips), 0);
    let few = b"fresh 9 9\nenq 1 have 1 S:0000000000000000.00\nenq 1 have 1 S:0000000000000000.01";
    assert_eq!(missing(few, &skips), skips.len());
}

/// A few scripts break names in every way and make every change of the name area.  One request
/// for a name makes one.
#[test]
fn names_break_and_move() {
    let ways = breaks::all();
    assert_eq!(missing(&scripts(&[("broken", 9000), ("mixed", 4000)]), &ways), 0);
    let changes = packing::all();
    assert_eq!(missing(&scripts(&[("queue", 6000), ("mixed", 9000)]), &changes), 0);
    let few = b"fresh 9 9\nenq 1 have 1 S:0000000000000000.00\ndump\ndispatch";
    assert_eq!(missing(few, &ways), ways.len());
    assert_eq!(missing(few, &changes), changes.len() - 1);
}

/// A few scripts reach all that is looked for in GETMAIN's answers; what they reach by luck alone,
/// a full table where there is no room either, is put behind them.  One request reaches little.
#[test]
fn getmain_gives_addresses() {
    let looked_for = storage::looked_for().into_iter().chain(readings::looked_for());
    let storage: Vec<Sight> = looked_for.map(|(sight, _)| sight).collect();
    let mut all = scripts(&[("storage", 9000), ("mixed", 9000), ("full", 3000)]);
    all.extend_from_slice(b"fresh 9 9\n");
    all.extend_from_slice(&b"getmain 1 8 0 cond\n".repeat(AREAS));
    all.extend_from_slice(b"getmain 1 131072 0 cond\n");
    assert_eq!(missing(&all, &storage), 0);
    assert_eq!(missing(b"fresh 9 9\ngetmain 1 8 1 cond", &storage), storage.len() - 1);
}

/// The short walk, which is only timed, answers what the search by the words does.
#[test]
fn quick_answers_alike() {
    for kind in KINDS.iter() {
        let script = script(2, kind, 1500);
        let said = |runner: Runner| {
            let mut out = Vec::new();
            run(runner, &mut &script[..], &mut out).unwrap();
            out
        };
        assert!(said(Runner::new()) == said(Runner::quick()), "{}", kind);
    }
}
