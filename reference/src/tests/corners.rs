//! Corners: the readings taken where document 01 can be read in two ways.

use super::{answers, dumped, expect};

const X: &str = "0000000000000000.01";

#[test]
fn r1_a_caller_without_a_place_is_102() {
    expect(&[
        ("fresh 9 9", "0 0"),
        ("attach 0 999 0 -", "102 0"),
        ("clear 33 64", "102 0"),
        ("end 4294967295 4096", "102 0"),
        ("enq 2 none 0", "102 0"),
    ]);
}

#[test]
fn r3_one_name_in_two_modes_stands_twice() {
    expect(&[
        ("fresh 9 9", "0 0"),
        (&format!("enq 1 none 0 S:{} E:{}", X, X), "101 0"),
        (&format!("deq 1 have 2 {} {}", X, X), "101 0"),
        ("enq 1 none 0 S:0000000000000000.0102/1 E:0000000000000000.01ff/1", "101 0"),
        ("enq 1 none 0 S:0000000000000000.01 S:0000000000000000.0100", "0 0"),
    ]);
}

#[test]
fn r5_an_end_leaves_a_complete_ecb() {
    expect(&[
        ("fresh 9 9", "0 0"),
        ("attach 1 0 0 7", "0 2"),
        ("attach 1 0 0 7", "0 3"),
        ("end 2 11", "0 0"),
        ("end 3 12", "0 0"),
        (
            "dump",
            "step 0 0\ntask 1 1 0 9 9 0 0 0 0\ntask 2 2 1 9 9 1 7 0 0
            task 3 2 1 9 9 1 7 0 0\necb 7 0 1 11 0",
        ),
        ("clear 1 7", "0 0"),
        ("detach 1 2", "0 0"),
        ("dump", "step 0 0\ntask 1 1 0 9 9 0 0 0 0\ntask 3 2 1 9 9 1 7 0 0"),
    ]);
}

#[test]
fn r6_an_end_wakes_the_waiter_on_its_ecb() {
    expect(&[
        ("fresh 9 9", "0 0"),
        ("attach 1 0 0 7", "0 2"),
        ("wait 1 1 7 8", "0 0"),
        ("abend 2 0", "0 0"),
        ("dump", "step 0 0\ntask 1 1 0 9 9 0 0 0 0\ntask 2 2 1 9 9 1 7 0 0\necb 7 0 1 0 0"),
    ]);
}

#[test]
fn r7_a_waiter_that_is_ended() {
    let script =
        "fresh 9 9\nattach 1 0 0 7\nattach 2 0 0 8\nwait 3 2 8 9 10\npost 1 9 1\nabend 2 5";
    assert_eq!(answers(script).pop().unwrap(), "0 0");
    assert_eq!(dumped(script, "ecb"), ["ecb 7 0 1 5 0", "ecb 9 0 1 1 0"]);
    assert_eq!(dumped(script, "task"), ["task 1 1 0 9 9 0 0 0 0", "task 2 2 1 9 9 1 7 0 0"]);
}

/// 120 entries of task 1 and 8 of task 2, each in lists of 8.
fn full_queue() -> String {
    let mut script = "fresh 9 9\nattach 1 0 0 -\n".to_string();
    for i in 0..16 {
        script += if i == 15 { "enq 2 none 0" } else { "enq 1 none 0" };
        for k in 0..8 {
            script += &format!(" S:00000000000000{:02x}.{:02x}", i, k);
        }
        script += "\n";
    }
    script
}

#[test]
fn r8_and_r9_full_queue() {
    let last = |line: &str| answers(&(full_queue() + line)).pop().unwrap();
    // all codes 0, so entries are to be queued: 105, codes area untouched
    assert_eq!(last("enq 2 use 4 S:0000000000000000.00"), "105 0");
    assert_eq!(last("enq 2 have 4 S:0000000000000000.00"), "105 0");
    assert_eq!(last("enq 2 test 4 S:0000000000000000.00"), "0 0 codes=00eeeeee");
    // USE with a code not 0: nothing is to be queued
    assert_eq!(last("enq 2 use 2 S:0000000000000000.00 S:000000000000000f.00"), "4 0 codes=0008");
    assert_eq!(last("enq 2 use 2 E:0000000000000000.00 S:000000000000000f.00"), "4 0 codes=0408");
    // HAVE: the name with code 0 is to be queued; where every code is 8, none is
    assert_eq!(last("enq 2 have 2 S:0000000000000000.00 S:000000000000000f.00"), "105 0");
    assert_eq!(last("enq 2 have 2 S:000000000000000f.01 S:000000000000000f.00"), "4 0 codes=0808");
    // 201 before 105
    assert_eq!(last("enq 2 none 0 S:0000000000000000.00 S:000000000000000f.00"), "201 0");
    assert_eq!(dumped(&(full_queue() + "enq 2 none 0 S:000000000000000f.00"), "entry").len(), 120);
}

#[test]
fn r10_and_r11_chng() {
    expect(&[
        ("fresh 9 9", "0 0"),
        ("attach 1 0 0 -", "0 2"),
        ("enq 1 none 0 S:0000000000000000.01 E:0000000000000000.02", "0 0"),
        ("enq 2 none 0 E:0000000000000000.01", "0 0"),
        ("enq 1 chng 2 E:0000000000000000.01 S:0000000000000000.02", "101 0"),
        (
            "enq 1 chng 3 E:0000000000000000.01 E:0000000000000000.02 E:0000000000000000.03",
            "4 0 codes=000008",
        ),
        ("enq 1 chng 2 E:0000000000000000.01 E:0000000000000000.02", "0 0 codes=0000"),
        ("end 2 0", "103 0"),
    ]);
}

#[test]
fn r13_203_whatever_the_count() {
    let base = "fresh 9 9\nattach 1 0 0 -\nattach 1 0 0 -\nwait 2 1 5\n";
    let last = |line: &str| answers(&(base.to_string() + line)).pop().unwrap();
    assert_eq!(last("wait 3 0 5"), "203 0");
    assert_eq!(last("wait 3 2 5"), "204 0");
    assert_eq!(last("wait 3 4294967295 5 6"), "204 0");
    assert_eq!(last("wait 3 0 6"), "0 0");
    assert_eq!(last("wait 3 0"), "101 0");
}

#[test]
fn r14_107_before_any_search() {
    let mut script = "fresh 9 9\n".to_string();
    for _ in 0..128 {
        script += "getmain 1 1 0 uncond\n";
    }
    script += "getmain 1 131072 0 uncond\ngetmain 1 131072 1 cond\ngetmain 1 0 1 cond\n";
    let got = answers(&script);
    assert_eq!(got[128], "0 1016");
    assert_eq!(&got[129..], ["107 0", "107 0", "101 0"]);
}

#[test]
fn r16_freemain() {
    let base = "fresh 9 9\nattach 1 0 0 -\ngetmain 2 100 7 uncond\ngetmain 1 20 0 uncond\n";
    let last = |line: &str| answers(&(base.to_string() + line)).pop().unwrap();
    assert_eq!(last("freemain 2 0 97 7"), "0 0");
    assert_eq!(last("freemain 2 0 104 7"), "0 0");
    assert_eq!(last("freemain 2 0 96 7"), "206 0");
    assert_eq!(last("freemain 2 1 100 7"), "206 0");
    assert_eq!(last("freemain 1 0 100 7"), "206 0");
    assert_eq!(last("freemain 2 131072 100 7"), "101 0");
    assert_eq!(last("freemain 2 4096 24 0"), "0 0");
}

#[test]
fn r18_the_code_of_a_step_over() {
    expect(&[
        ("dispatch", "108 0"),
        ("poke step code 4095", "ok"),
        ("dispatch", "108 0"),
        ("poke step code 4096", "ok"),
        ("dispatch", "100 0"),
    ]);
}

#[test]
fn r20_true_of_every_run_but_no_rule() {
    expect(&[
        ("fresh 9 9", "0 0"),
        ("attach 1 0 0 5", "0 2"),
        ("poke task 2 limit 200", "ok"),
        ("poke task 2 disp 100", "ok"),
        ("dispatch", "0 2"),
        ("poke task 2 state 2", "ok"),
        ("dispatch", "0 1"),
    ]);
}

#[test]
fn r24_and_d1_detach() {
    let base = "fresh 9 9\nattach 1 0 0 -\nattach 2 0 0 -\nattach 1 0 0 -\n";
    let last = |line: &str| answers(&(base.to_string() + line)).pop().unwrap();
    assert_eq!(last("detach 4 5"), "208 0");
    assert_eq!(last("detach 4 4"), "208 0");
    assert_eq!(last("detach 4 3"), "208 0");
    assert_eq!(last("detach 4 33"), "101 0");
    assert_eq!(last("detach 4 0"), "101 0");
    assert_eq!(last("detach 1 3"), "208 0");
    assert_eq!(dumped(&(base.to_string() + "detach 1 3"), "step"), ["step 1 208"]);
    assert_eq!(dumped(&(base.to_string() + "detach 1 2"), "task").len(), 2);
}

#[test]
fn e3_end_with_subtasks() {
    expect(&[
        ("fresh 9 9", "0 0"),
        ("attach 1 0 0 3", "0 2"),
        ("attach 2 0 0 4", "0 3"),
        ("end 3 1", "0 0"),
        ("end 2 1", "207 0"),
        ("dump", "step 0 0\ntask 1 1 0 9 9 0 0 0 0\ntask 2 2 1 9 9 1 3 0 0\necb 3 0 1 207 0\necb 4 0 1 1 0"),
        ("end 1 1", "207 0"),
        ("dump", "step 1 207"),
    ]);
}

#[test]
fn p1_a_complete_ecb_keeps_its_code() {
    expect(&[
        ("fresh 9 9", "0 0"),
        ("post 1 0 1073741823", "0 0"),
        ("post 1 0 5", "0 0"),
        ("post 1 0 1073741824", "101 0"),
        ("dump", "step 0 0\ntask 1 1 0 9 9 0 0 0 0\necb 0 0 1 1073741823 0"),
    ]);
}

#[test]
fn m7_and_m8_pages() {
    expect(&[
        ("fresh 9 9", "0 0"),
        ("getmain 1 1008 0 uncond", "0 0"),
        ("getmain 1 4000 0 uncond", "0 1008"),
        ("getmain 1 8 1 uncond", "0 8192"),
        ("getmain 1 8000 0 uncond", "0 12288"),
        ("getmain 1 3000 0 uncond", "0 5008"),
    ]);
}

#[test]
fn dispatch_takes_the_lowest_of_equals() {
    expect(&[
        ("fresh 9 5", "0 0"),
        ("attach 1 0 1 -", "0 2"),
        ("attach 1 0 1 -", "0 3"),
        ("dispatch", "0 2"),
        ("wait 2 1 0", "0 0"),
        ("dispatch", "0 3"),
        ("wait 3 1 1", "0 0"),
        ("wait 1 1 2", "0 0"),
        ("dispatch", "0 0"),
    ]);
}
