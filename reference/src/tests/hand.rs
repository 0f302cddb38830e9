//! "Checked by hand": the cases of document 01, with their numbers.

use super::{answers, dumped, expect};
use crate::services::attach::priorities;
use crate::tables::Task;

const N: &str = "c1c2c3c4c5c6c7c8.d1";

/// Tasks A = 2, B = 3, C = 4, D = 5 of mother 1, and case 1's four requests.
fn four() -> String {
    let mut script = "fresh 255 100\n".to_string();
    for _ in 0..4 {
        script += "attach 1 0 0 -\n";
    }
    for (task, mode) in [(2, "S"), (3, "S"), (4, "E"), (5, "S")].iter() {
        script += &format!("enq {} none 0 {}:{}\n", task, mode, N);
    }
    script
}

/// The tasks from 2 on that are in a resource wait.
fn waiting(script: &str) -> Vec<u32> {
    dumped(script, "task")
        .iter()
        .map(|line| line.split(' ').map(|w| w.parse().unwrap_or(0)).collect::<Vec<u32>>())
        .filter(|fields| fields[8] == 1)
        .map(|fields| fields[1])
        .collect()
}

fn last(script: &str) -> String {
    answers(script).pop().unwrap()
}

#[test]
fn case_1_shared_owners_and_waiters() {
    assert_eq!(waiting(&four()), [4, 5]);
    assert_eq!(dumped(&four(), "entry").len(), 4);
}

#[test]
fn case_2_chng() {
    let mut script = four();
    script += &format!("enq 3 chng 1 E:{}\n", N);
    assert_eq!(last(&script), "4 0 codes=04");
    script += &format!("deq 2 none 0 {}\n", N);
    assert_eq!(last(&script), "0 0");
    script += &format!("enq 3 chng 1 E:{}\n", N);
    assert_eq!(last(&script), "0 0 codes=00");
    assert_eq!(waiting(&script), [4, 5]);
    assert!(dumped(&script, "entry 0 3 1 ").len() == 1, "B is exclusive");
}

#[test]
fn case_3_one_after_the_other() {
    let mut script = four();
    script += &format!("deq 2 none 0 {}\nenq 3 chng 1 E:{}\ndeq 3 none 0 {}\n", N, N, N);
    assert_eq!(waiting(&script), [5]);
    script += &format!("deq 4 none 0 {}\n", N);
    assert_eq!(last(&script), "0 0");
    assert!(waiting(&script).is_empty());
    assert!(dumped(&script, "entry 0 5 0 ").len() == 1);
}

#[test]
fn case_4_detach_of_a_waiter() {
    let script = four() + "detach 1 4\n";
    assert_eq!(last(&script), "0 0");
    assert!(waiting(&script).is_empty());
    assert_eq!(dumped(&script, "entry").len(), 3);
}

#[test]
fn cases_5_and_6_priorities() {
    let mother = Task { limit: 200, disp: 150, ..Task::NONE };
    assert_eq!(priorities(&mother, 30, 40), (170, 170));
    assert_eq!(priorities(&mother, 0, -160), (200, 0));
    assert_eq!(priorities(&mother, 255, 0), (0, 0));
    expect(&[
        ("fresh 200 150", "0 0"),
        ("attach 1 30 40 -", "0 2"),
        ("attach 1 0 -160 -", "0 3"),
        ("attach 1 255 0 -", "0 4"),
        (
            "dump",
            "step 0 0\ntask 1 1 0 200 150 0 0 0 0\ntask 2 1 1 170 170 0 0 0 0
            task 3 1 1 200 0 0 0 0 0\ntask 4 1 1 0 0 0 0 0 0",
        ),
    ]);
}

#[test]
fn cases_7_and_8_storage() {
    expect(&[
        ("fresh 1 1", "0 0"),
        ("getmain 1 100 10 uncond", "0 0"),
        ("getmain 1 400 10 uncond", "0 104"),
        ("getmain 1 8 0 uncond", "0 4096"),
        ("getmain 1 4000 10 uncond", "0 8192"),
        ("freemain 1 0 100 10", "0 0"),
        ("getmain 1 8 5 uncond", "0 12288"),
    ]);
}

#[test]
fn case_9_no_room() {
    expect(&[
        ("fresh 1 1", "0 0"),
        ("getmain 1 131072 3 uncond", "0 0"),
        ("getmain 1 8 3 cond", "4 0"),
        ("getmain 1 8 3 uncond", "205 0"),
        ("dump", "step 1 205"),
        ("dispatch", "108 0"),
    ]);
}

#[test]
fn case_10_wait_and_post() {
    expect(&[
        ("fresh 9 9", "0 0"),
        ("attach 1 0 0 -", "0 2"),
        ("post 1 1 77", "0 0"),
        ("wait 2 2 1 2 3", "0 0"),
        (
            "dump",
            "step 0 0\ntask 1 1 0 9 9 0 0 0 0\ntask 2 1 1 9 9 0 0 0 1\necb 1 0 1 77 0
            ecb 2 1 0 0 2\necb 3 1 0 0 2",
        ),
        ("post 1 3 5", "0 0"),
        (
            "dump",
            "step 0 0\ntask 1 1 0 9 9 0 0 0 0\ntask 2 1 1 9 9 0 0 0 0\necb 1 0 1 77 0
            ecb 3 0 1 5 0",
        ),
    ]);
}

#[test]
fn case_11_limits() {
    let mut script = "fresh 1 1\n".to_string();
    script += &format!("enq 1 none 0 S:0000000000000000.{}\n", "ab".repeat(44));
    assert_eq!(last(&script), "0 0");
    script += &format!("enq 1 none 0 S:0000000000000000.{}\n", "ab".repeat(45));
    assert_eq!(last(&script), "101 0");
    for i in 2..=128 {
        script += &format!("enq 1 none 0 S:0000000000000000.{:02x}\n", i);
        assert_eq!(last(&script), "0 0", "entry {}", i);
    }
    assert_eq!(dumped(&script, "entry").len(), 128);
    script += "enq 1 none 0 S:0000000000000000.ff\n";
    assert_eq!(last(&script), "105 0");
}

#[test]
fn slips() {
    // a new shared request does not join shared owners past a waiting exclusive one
    let script = four() + &format!("enq 1 use 1 S:{}\n", N);
    assert_eq!(last(&script), "4 0 codes=04");
    // a multi-name waiter wakes when it has all
    expect(&[
        ("fresh 9 9", "0 0"),
        ("attach 1 0 0 -", "0 2"),
        ("attach 1 0 0 -", "0 3"),
        ("enq 1 none 0 E:0000000000000000.01", "0 0"),
        ("enq 2 none 0 E:0000000000000000.02", "0 0"),
        ("enq 3 have 2 E:0000000000000000.01 E:0000000000000000.02", "0 0 codes=0000"),
        ("deq 1 none 0 0000000000000000.01", "0 0"),
        ("end 3 0", "103 0"),
        ("deq 2 none 0 0000000000000000.02", "0 0"),
        ("end 3 0", "0 0"),
    ]);
}
