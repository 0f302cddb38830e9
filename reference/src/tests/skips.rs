//! Document 02, section 3, worked by hand: HAVE goes name by name.

use std::ops::Range;

use super::{answers, dumped, expect, queued};

const A: &str = "0000000000000000.0a";
const B: &str = "0000000000000000.0b";
const C: &str = "0000000000000000.0c";
const D: &str = "0000000000000000.0d";

/// Tasks 2 and 3; task 2 has A shared and B exclusive.
const START: &str = "fresh 9 9\nattach 1 0 0 -\nattach 1 0 0 -\n\
    enq 2 none 0 S:0000000000000000.0a E:0000000000000000.0b\n";

fn last(script: &str) -> String {
    answers(script).pop().unwrap()
}

/// What stands in the entries: task, mode, minor part.
fn queue_of(script: &str) -> Vec<String> {
    queued(script).iter().map(|told| told.replace("0000000000000000.", "")).collect()
}

/// The tasks in a resource wait.
fn waiting(script: &str) -> Vec<String> {
    let tasks = dumped(script, "task");
    let waits = |line: &&String| line.split(' ').nth(8) == Some("1");
    tasks.iter().filter(waits).map(|line| line[5..6].to_string()).collect()
}

/// After the script the line answers so, and the tables are as they were.
fn unchanged(script: &str, line: &str, answer: &str) {
    let whole = format!("{}{}", script, line);
    assert_eq!(last(&whole), answer, "{}", line);
    assert_eq!(dumped(&whole, ""), dumped(script, ""), "{}", line);
}

/// 8 exactly where the caller has an entry, whatever its mode and the one that is asked for.
#[test]
fn some_are_skipped_and_the_rest_queued() {
    let script = format!("{}enq 2 have 5 E:{} S:{} S:{} E:{}", START, C, A, D, B);
    assert_eq!(last(&script), "4 0 codes=00080008ee");
    assert_eq!(queue_of(&script), ["2 S 0a", "2 E 0b", "2 E 0c", "2 S 0d"]);
    assert!(waiting(&script).is_empty());
}

#[test]
fn wherever_the_skipped_stand() {
    for (list, codes, queued) in [
        ([A, B, D], "080800", ["2 S 0d"].as_slice()),
        ([A, D, B], "080008", &["2 S 0d"]),
        ([D, A, B], "000808", &["2 S 0d"]),
        ([D, C, A], "000008", &["2 S 0d", "2 S 0c"]),
        ([D, A, C], "000800", &["2 S 0d", "2 S 0c"]),
        ([B, D, C], "080000", &["2 S 0d", "2 S 0c"]),
    ]
    .iter()
    {
        let script = format!("{}enq 2 have 3 S:{} S:{} S:{}", START, list[0], list[1], list[2]);
        assert_eq!(last(&script), format!("4 0 codes={}", codes));
        assert_eq!(queue_of(&script)[..2], ["2 S 0a", "2 E 0b"]);
        assert_eq!(queue_of(&script)[2..], **queued);
    }
}

/// "HAVE: caller has no entry" is 0 whoever else has one.
#[test]
fn entries_of_others_are_not_skipped() {
    let script = format!("{}enq 3 have 2 S:{} S:{}", START, A, C);
    assert_eq!(last(&script), "0 0 codes=0000");
    assert_eq!(queue_of(&script)[2..], ["3 S 0a", "3 S 0c"]);
    let script = format!("{}\nenq 3 have 3 S:{} S:{} S:{}", script, C, D, A);
    assert_eq!(last(&script), "4 0 codes=080008");
    assert_eq!(queue_of(&script)[4..], ["3 S 0d"]);
}

/// "A wait shows only in the tables."
#[test]
fn a_caller_that_waits_besides() {
    let mut script = format!("{}enq 3 none 0 E:{} E:{}\n", START, C, D);
    script += &format!("enq 2 have 4 S:{} E:{} S:{} S:{}\n", D, A, B, C);
    assert_eq!(last(&script), "4 0 codes=00080800");
    assert_eq!(queue_of(&script), ["2 S 0a", "2 E 0b", "3 E 0c", "3 E 0d", "2 S 0d", "2 S 0c"]);
    assert_eq!(waiting(&script), ["2"]);
    assert_eq!(last(&format!("{}end 2 0", script)), "103 0");
    // it waits until all have control
    script += &format!("deq 3 none 0 {}\n", C);
    assert_eq!(waiting(&script), ["2"]);
    script += &format!("deq 3 none 0 {}\n", D);
    assert!(waiting(&script).is_empty());
    script += &format!("deq 2 have 4 {} {} {} {}\n", A, B, C, D);
    assert_eq!(last(&script), "0 0 codes=00000000");
}

#[test]
fn shared_names_of_others() {
    // beside shared owners it goes on, behind a waiter it waits
    let script = format!("{}enq 3 none 0 S:{}\n", START, C);
    let joined = format!("{}enq 2 have 2 S:{} S:{}", script, C, B);
    assert_eq!(last(&joined), "4 0 codes=0008");
    assert!(waiting(&joined).is_empty());
    let behind = format!("{}enq 1 none 0 E:{}\nenq 2 have 2 S:{} S:{}", script, C, C, B);
    assert_eq!(last(&behind), "4 0 codes=0008");
    assert_eq!(waiting(&behind), ["1", "2"]);
}

#[test]
fn all_are_skipped() {
    unchanged(START, &format!("enq 2 have 1 S:{}", A), "4 0 codes=08");
    unchanged(START, &format!("enq 2 have 3 S:{} E:{}", A, B), "4 0 codes=0808ee");
    unchanged(START, &format!("enq 2 have 2 S:{} E:{}", B, A), "4 0 codes=0808");
    // others own A too, and wait for both
    let others = format!("{}enq 3 none 0 S:{} S:{}\nenq 1 none 0 E:{}\n", START, A, B, A);
    assert_eq!(waiting(&others), ["1", "3"]);
    unchanged(&others, &format!("enq 2 have 2 E:{} S:{}", A, B), "4 0 codes=0808");
    // once queued, the same list is skipped
    let script = format!("{}enq 3 have 2 S:{} E:{}\n", START, C, D);
    assert_eq!(last(&script), "0 0 codes=0000");
    unchanged(&script, &format!("enq 3 have 2 S:{} E:{}", C, D), "4 0 codes=0808");
}

/// 112 entries of task 1, and so many of task 2, whose names begin with ff.
fn crowded(of_task_2: u32) -> String {
    let mut script = "fresh 9 9\nattach 1 0 0 -\n".to_string();
    for i in 0..7 {
        script += &format!("enq 1 none 0{}\n", names(&format!("{:02x}", i), 0..16));
    }
    script + &format!("enq 2 none 0{}\n", names("ff", 0..of_task_2))
}

/// Names, shared, that begin with this byte, each with its number as the minor part.
fn names(front: &str, numbers: Range<u32>) -> String {
    numbers.map(|k| format!(" S:{}00000000000000.{:02x}", front, k)).collect()
}

#[test]
fn all_are_skipped_in_a_full_queue() {
    let script = crowded(16);
    assert_eq!(dumped(&script, "entry").len(), 128);
    let of_16 = format!("4 0 codes={}", "08".repeat(16));
    unchanged(&script, &format!("enq 2 have 16{}", names("ff", 0..16)), &of_16);
    unchanged(&script, &format!("enq 1 have 16{}", names("03", 0..16)), &of_16);
    unchanged(&script, &format!("enq 2 have 1{}", names("ff", 7..8)), "4 0 codes=08");
}

/// "105 counts only the names to be queued."
#[test]
fn too_few_entries_are_free() {
    // entries of task 2 (what it has less than 16 is free), names that it has on the list, names
    // that it hasn't, whether these fit
    for (all, held, fresh, fits) in [
        (16, 1, 1, false),
        (16, 15, 1, false),
        (15, 1, 1, true),
        (15, 15, 1, true),
        (15, 1, 2, false),
        (15, 14, 2, false),
        (13, 3, 3, true),
        (13, 13, 3, true),
        (13, 3, 4, false),
        (13, 2, 2, true),
        (8, 8, 8, true),
        (7, 7, 9, true),
        (8, 7, 9, false),
        (1, 1, 15, true),
        (2, 1, 15, false),
    ]
    .iter()
    {
        let script = crowded(*all);
        let list = names("ff", 0..*held) + &names("ee", 0..*fresh);
        let line = format!("enq 2 have 16{}", list);
        if !*fits {
            unchanged(&script, &line, "105 0");
            continue;
        }
        let (skipped, queued) = (*held as usize, *fresh as usize);
        let area =
            "08".repeat(skipped) + &"00".repeat(queued) + &"ee".repeat(16 - skipped - queued);
        let whole = format!("{}{}", script, line);
        assert_eq!(last(&whole), format!("4 0 codes={}", area), "{}", line);
        assert_eq!(dumped(&whole, "entry").len(), 112 + *all as usize + queued);
    }
}

/// It is counted alike wherever the skipped names stand.
#[test]
fn the_last_entry() {
    let held = names("ff", 0..2);
    for fresh_first in [true, false].iter() {
        let fresh = names("ee", 0..1);
        let list = if *fresh_first { fresh + &held } else { held.clone() + &fresh };
        unchanged(&crowded(16), &format!("enq 2 have 3{}", list), "105 0");
        let whole = format!("{}enq 2 have 3{}", crowded(15), list);
        let codes = if *fresh_first { "000808" } else { "080800" };
        assert_eq!(last(&whole), format!("4 0 codes={}", codes));
        assert_eq!(queued(&whole)[127], "2 S ee00000000000000.00");
    }
}

#[test]
fn sixteen_names() {
    let mut script = format!("{}enq 3 none 0", START);
    script += &names("ff", 0..8);
    let mixed: String =
        (0..8).map(|k| names("ee", k..k + 1) + &names("ff", 7 - k..8 - k)).collect();
    script += &format!("\nenq 3 have 16{}", mixed);
    assert_eq!(last(&script), format!("4 0 codes={}", "0008".repeat(8)));
    let entries = queued(&script);
    assert_eq!(entries.len(), 2 + 8 + 8);
    for (k, entry) in entries[10..].iter().enumerate() {
        assert_eq!(*entry, format!("3 S ee00000000000000.{:02x}", k));
    }
}

/// 101, 110 and 104 look at the whole list, also at the names that would be skipped.
#[test]
fn what_refuses_the_whole_list() {
    unchanged(START, &format!("enq 2 have 1 S:{} S:{}", A, C), "104 0");
    unchanged(START, &format!("enq 2 have 2 S:{} S:{} E:{}", C, A, B), "104 0");
    unchanged(START, &format!("enq 2 have 0 S:{}", A), "104 0");
    unchanged(START, &format!("enq 2 have 3 S:{} S:{} E:{}", C, A, A), "101 0");
    unchanged(START, &format!("enq 2 have 3 S:{} S:{} S:{}", A, C, A), "101 0");
    unchanged(START, &format!("enq 2 have 3 S:{} S:{}/45", A, C), "101 0");
    unchanged(START, &format!("enq 2 have 3 S:{} S:{}/0", A, C), "101 0");
    unchanged(START, &format!("enq 2 have 2 S:{} E:e2e8e2c4e2d54040.01", A), "110 0");
    unchanged(START, &format!("enq 2 have 0 E:e2e8e2c4e2d54040.01 S:{}", A), "110 0");
    let many = format!("enq 2 have 20 S:{} E:{}{}", A, B, names("ee", 0..15));
    unchanged(START, &many, "101 0");
    let held = names("ff", 0..16);
    unchanged(&crowded(16), &format!("enq 2 have 20{}{}", held, names("00", 0..1)), "101 0");
    unchanged(&crowded(16), &format!("enq 2 have 15{}", held), "104 0");
}

/// NONE, USE, TEST and CHNG are what they were.
#[test]
fn the_other_kinds() {
    unchanged(START, &format!("enq 2 use 2 S:{} S:{}", A, C), "4 0 codes=0800");
    unchanged(START, &format!("enq 2 use 2 S:{} S:{}", C, B), "4 0 codes=0008");
    unchanged(START, &format!("enq 2 test 2 S:{} S:{}", A, C), "4 0 codes=0800");
    unchanged(START, &format!("enq 2 chng 2 E:{} E:{}", A, C), "4 0 codes=0008");
    unchanged(&crowded(16), &format!("enq 2 use 2{}", names("ff", 0..2)), "4 0 codes=0808");
    let script = format!("{}enq 2 none 0 S:{} S:{}", START, C, A);
    assert_eq!(last(&script), "201 0");
    assert!(dumped(&script, "task 2").is_empty() && dumped(&script, "entry").is_empty());
}

/// "a HAVE that queues while the caller has an older entry": two such make a ring.
#[test]
fn a_ring() {
    expect(&[
        ("fresh 9 9", "0 0"),
        ("attach 1 0 0 -", "0 2"),
        ("attach 1 0 0 -", "0 3"),
        (&format!("enq 2 have 1 E:{}", A), "0 0 codes=00"),
        (&format!("enq 3 have 1 E:{}", B), "0 0 codes=00"),
        (&format!("enq 2 have 2 E:{} E:{}", A, B), "4 0 codes=0800"),
        ("stuck 0", "0 0"),
        (&format!("enq 3 have 2 E:{} E:{}", A, B), "4 0 codes=0008"),
        ("stuck 2", &format!("0 2\nstuck 2 {} 3\nstuck 3 {} 2", B, A)),
        (
            "queues 4",
            &format!(
                "0 4\nqueue {} 2 own\nqueue {} 3 wait\nqueue {} 3 own\nqueue {} 2 wait",
                A, A, B, B
            ),
        ),
        ("detach 1 3", "0 0"),
        (&format!("deq 2 have 2 {} {}", A, B), "0 0 codes=0000"),
    ]);
}
