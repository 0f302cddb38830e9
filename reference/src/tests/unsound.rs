//! Each rule of sound tables, broken from tables that keep them all.

use super::dumped;
use crate::names::SYSTEM;
use crate::runner::Runner;
use crate::sound::{broken, is_sound};
use crate::tables::{Area, Step};

/// Task 2 live with an ECB, 3 ended, 4 in an ECB wait, 5 in a resource wait.
fn full_life() -> Step {
    let mut runner = Runner::new();
    for line in [
        "fresh 200 100",
        "attach 1 10 0 5",
        "attach 1 0 0 6",
        "attach 2 0 0 -",
        "attach 2 0 0 -",
        "end 3 9",
        "wait 4 2 10 11 12",
        "enq 1 none 0 E:0000000000000001.01",
        "enq 5 none 0 S:0000000000000001.01 S:0000000000000001.02",
        "getmain 1 8 0 uncond",
        "getmain 2 16 7 uncond",
        "getmain 2 16 7 uncond",
        "getmain 4294967295 0 0 cond",
    ]
    .iter()
    {
        runner.take(line.as_bytes());
    }
    runner.step
}

fn breaks<F: Fn(&mut Step)>(name: &str, change: F) {
    let mut step = full_life();
    change(&mut step);
    step.count_places();
    assert!(broken(&step).contains(&name), "{} not among {:?}", name, broken(&step));
    assert!(!is_sound(&step));
}

#[test]
fn the_start_is_sound() {
    assert!(is_sound(&full_life()));
    assert!(is_sound(&Step::over(0)) && is_sound(&Step::over(4095)));
    assert!(!is_sound(&Step::over(4096)));
}

#[test]
fn step_and_tasks() {
    breaks("over-empty", |s| s.over = 1);
    breaks("range-step", |s| s.over = 2);
    breaks("range-step", |s| s.code = 4096);
    breaks("zero-step", |s| s.code = 1);
    breaks("range-task", |s| s.tasks[2].state = 3);
    breaks("range-task", |s| s.tasks[2].limit = 256);
    breaks("range-task", |s| s.tasks[2].ecb = 64);
    breaks("range-task", |s| s.tasks[2].hasecb = 2);
    breaks("range-task", |s| s.tasks[5].rwait = 2);
    breaks("range-task", |s| s.tasks[2].mother = 33);
    breaks("zero-task", |s| s.tasks[7].disp = 1);
    breaks("zero-task", |s| s.tasks[2].hasecb = 0);
    breaks("task-1", |s| s.tasks[1].state = 2);
    breaks("task-1", |s| s.tasks[1].mother = 2);
    breaks("task-1", |s| s.tasks[1].hasecb = 1);
    breaks("mother-live", |s| s.tasks[4].mother = 3);
    breaks("mother-live", |s| s.tasks[2].mother = 0);
    breaks("mother-live", |s| s.tasks[2].mother = 4294967295);
    breaks("chain", |s| s.tasks[2].mother = 2);
    breaks("chain", |s| s.tasks[2].mother = 4);
    breaks("disp-limit", |s| s.tasks[2].disp = 191);
    breaks("ended-ecb", |s| s.tasks[3].hasecb = 0);
    breaks("ended-nothing", |s| s.tasks[3].need = 1);
    breaks("ended-nothing", |s| s.tasks[3].rwait = 1);
}

#[test]
fn entries() {
    breaks("range-entry", |s| s.entries[0].task = 33);
    breaks("range-entry", |s| s.entries[0].excl = 2);
    breaks("packed-entry", |s| s.entries[4] = s.entries[2]);
    breaks("zero-entry", |s| s.entries[0].task = 0);
    breaks("zero-entry", |s| s.entries[3].excl = 1);
    breaks("entry-live", |s| s.entries[0].task = 3);
    breaks("entry-live", |s| s.entries[0].task = 9);
    breaks("entry-once", |s| s.entries[3] = s.entries[0]);
    breaks("entry-once", |s| s.entries[0].task = 5);
    breaks("resource-wait", |s| s.entries[0].offset = 20);
    breaks("resource-wait", |s| s.entries[0].excl = 0);
    breaks("resource-wait", |s| s.tasks[5].rwait = 0);
    breaks("resource-wait", |s| s.tasks[2].rwait = 1);
    breaks("one-wait", |s| s.tasks[5].need = 1);
}

/// Beside the rule on name lengths, and apart from it.  The names lie at 0 and 10.
#[test]
fn names_of_the_system() {
    let poke = |s: &mut Step, offset: usize| s.names[offset..offset + 3].copy_from_slice(&SYSTEM);
    for offset in [0, 10] {
        breaks("system-name", |s| poke(s, offset));
    }
    let mut step = full_life();
    poke(&mut step, 10);
    assert_eq!(broken(&step), ["system-name"]);
    step.names[18..20].copy_from_slice(&[0, 0]);
    assert_eq!(broken(&step), ["name-length", "system-name"]);
    step.names[12] += 1;
    assert_eq!(broken(&step), ["name-length"]);
}

#[test]
fn ecbs() {
    breaks("range-ecb", |s| s.ecbs[0].wait = 2);
    breaks("range-ecb", |s| s.ecbs[0].complete = 2);
    breaks("range-ecb", |s| s.ecbs[6].code = 1 << 30);
    breaks("range-ecb", |s| s.ecbs[10].waiter = 33);
    breaks("zero-ecb", |s| s.ecbs[0].waiter = 1);
    breaks("wait-bit", |s| s.ecbs[10].wait = 0);
    breaks("wait-bit", |s| s.ecbs[10].waiter = 0);
    breaks("wait-bit", |s| s.ecbs[10].waiter = 1);
    breaks("wait-bit", |s| s.ecbs[10].waiter = 3);
    breaks("wait-bit", |s| s.tasks[4].need = 0);
    breaks("wait-need", |s| s.tasks[4].need = 4);
    breaks("wait-need", |s| s.tasks[2].need = 1);
    breaks("wait-complete", |s| s.ecbs[10].complete = 1);
    breaks("code-zero", |s| s.ecbs[0].code = 1);
    let mut step = full_life();
    step.tasks[4].need = 3;
    assert!(is_sound(&step));
}

#[test]
fn areas() {
    breaks("range-area", |s| s.areas[1].length = 0);
    breaks("range-area", |s| s.areas[1].address = 131_072);
    breaks("range-area", |s| s.areas[1].subpool = 128);
    breaks("range-area", |s| s.areas[1].owner = 33);
    breaks("packed-area", |s| s.areas[4] = s.areas[2]);
    breaks("area-shape", |s| s.areas[1].address += 4);
    breaks("area-shape", |s| s.areas[2].length = 12);
    breaks("area-shape", |s| s.areas[2].length = 131_072);
    breaks("area-owner", |s| s.areas[0].owner = 1);
    breaks("area-owner", |s| s.areas[1].subpool = 0);
    breaks("area-owner", |s| s.areas[2].owner = 3);
    breaks("area-apart", |s| s.areas[1].length = 24);
    breaks("area-rising", |s| s.areas.swap(1, 2));
    breaks("area-pages", |s| s.areas[2].subpool = 8);
    breaks("area-pages", |s| s.areas[2].owner = 1);
    breaks("area-pages", |s| s.areas[0].length = 4104);
    breaks("area-pages", |s| s.areas[3] = Area { address: 4128, length: 8, subpool: 0, owner: 0 });
}

#[test]
fn the_dump_of_the_start() {
    let script = "fresh 1 1\nattach 1 0 0 63\nwait 2 1 0";
    assert_eq!(dumped(script, "task"), ["task 1 1 0 1 1 0 0 0 0", "task 2 1 1 1 1 1 63 0 1"]);
}
