//! The rules on names against another way to say them: names stand right exactly when packing the
//! queue anew, as it is read, changes nothing.

use crate::generate::generate;
use crate::numbers::{NAMES, TASKS};
use crate::random::Random;
use crate::runner::{each_line, Outcome, Runner};
use crate::sound::broken;
use crate::tables::Step;

/// Are all names legal, and is nothing changed by packing?  A place without a task is no entry.
fn is_packed(step: &Step) -> bool {
    let mut queue = step.queue();
    queue.retain(|entry| entry.task != 0);
    let mut packed = step.clone();
    packed.store_queue(&queue);
    queue.iter().all(|entry| entry.name.length_is_legal())
        && packed.names == step.names
        && packed.entries == step.entries
}

/// Do the rules say the same of a step that runs?  Those on the queue's places say a part of it.
fn rules_agree(step: &Step) -> bool {
    let of_names =
        |rule: &&str| rule.starts_with("name-") || ["zero-entry", "packed-entry"].contains(rule);
    step.over != 0 || is_packed(step) != broken(step).iter().any(of_names)
}

/// Tables of generated scripts, as pokes and requests leave them.
#[test]
fn in_generated_scripts() {
    let mut seen = [0; 2];
    for (kind, count) in [("broken", 6000), ("mixed", 3000), ("queue", 2000), ("text", 1000)] {
        let mut script = Vec::new();
        assert!(generate(5, kind, count, &mut script).unwrap());
        let mut runner = Runner::new();
        each_line(&mut &script[..], |line| {
            if let Outcome::Poked | Outcome::Served(..) = runner.take(line) {
                assert!(rules_agree(&runner.step), "{} {}", kind, runner.line);
                seen[is_packed(&runner.step) as usize] += 1;
            }
            Ok(())
        })
        .unwrap();
    }
    assert!(seen[0] > 500 && seen[1] > 5000, "{:?}", seen);
}

/// Small areas at random: few bytes, so that offsets and lengths often fit.
#[test]
fn in_small_areas() {
    let mut random = Random::new(11);
    let mut seen = [0; 2];
    for _ in 0..20_000 {
        let mut step = Step::fresh(9, 9).1;
        let length = random.between(1, 2) as u8;
        let count = random.between(1, 4) as usize;
        for i in 0..count {
            step.entries[i].task = random.between(1, TASKS);
            step.entries[i].offset = random.below(3) * (9 + length as u32);
            if random.one_in(20) {
                step.entries[i].offset = random.pick(&[1, 8, 9, 33, 16_374, 16_383, 16_384]);
            }
        }
        for at in 0..random.between(1, 3) as usize {
            let start = at * (9 + length as usize);
            step.names[start] = random.below(2) as u8;
            step.names[start + 8] = if random.one_in(20) { 0 } else { length };
        }
        if random.one_in(20) {
            step.names[random.pick(&[0, 8, 9, 30, NAMES - 1])] ^= 1;
        }
        step.count_places();
        assert!(rules_agree(&step), "{:?} {:?}", step.used_entries(), &step.names[..40]);
        seen[is_packed(&step) as usize] += 1;
    }
    assert!(seen[0] > 2000 && seen[1] > 500, "{:?}", seen);
}
