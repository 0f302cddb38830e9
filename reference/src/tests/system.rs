//! Document 02, section 2, worked by hand: the system's names.

use super::{answers, dumped, expect, queued};
use crate::generate::{generate, KINDS};
use crate::printer::FILL;
use crate::request::{Request, Ret};
use crate::runner::{each_line, Outcome, Runner};

/// SYSDSN in EBCDIC, with blanks.
const SYS: &str = "e2e8e2c4e2d54040.01";
const A: &str = "0000000000000000.0a";
const B: &str = "0000000000000000.0b";

/// RET kinds with a codes area as long as a list of three.
const RETS: [&str; 5] = ["none 0", "test 3", "use 3", "have 3", "chng 3"];

/// Task 2 with ECB 7 owns A, shared, and has storage.
const START: &str = "fresh 9 9\nattach 1 0 0 7\nenq 2 none 0 S:0000000000000000.0a\n\
    getmain 2 8 1 uncond\n";

fn last(line: &str) -> String {
    answers(&format!("{}{}", START, line)).pop().unwrap()
}

/// The answer is this refusal, with no code written, and the tables are as they were.
fn refused(number: u32, line: &str) {
    assert_eq!(last(line), format!("{} 0", number), "{}", line);
    let after = dumped(&format!("{}{}", START, line), "");
    assert_eq!(after, dumped(START, ""), "{}", line);
}

#[test]
fn every_ret_kind_is_110() {
    for ret in RETS.iter() {
        refused(110, &format!("enq 2 {} E:{}", ret, SYS));
        refused(110, &format!("enq 2 {} E:{} E:{} E:{}", ret, A, B, SYS));
        refused(110, &format!("enq 2 {} E:{} E:{} E:{}", ret, B, SYS, A));
        refused(110, &format!("enq 2 {} E:{} E:{} E:{}", ret, SYS, A, B));
        refused(110, &format!("enq 2 {} E:E2E8E2C4e2d54040.02 E:{}", ret, SYS));
    }
    for ret in RETS[..4].iter() {
        refused(110, &format!("enq 2 {} S:{}", ret, SYS));
    }
}

#[test]
fn all_that_begins_with_the_three_bytes() {
    for rest in ["0000000000", "ffffffffff", "4040404040", "e2e8e2e2e8"].iter() {
        refused(110, &format!("enq 2 none 0 E:e2e8e2{}.01", rest));
        refused(110, &format!("enq 2 none 0 E:e2e8e2{}.01/44", rest));
    }
}

#[test]
fn after_101() {
    for ret in RETS.iter() {
        refused(101, &format!("enq 2 {} E:e2e8e2c4e2d54040.", ret));
        refused(101, &format!("enq 2 {} E:{}/0", ret, SYS));
        refused(101, &format!("enq 2 {} E:{}/45", ret, SYS));
        refused(101, &format!("enq 2 {} E:{} E:{}", ret, SYS, SYS));
        refused(101, &format!("enq 2 {} E:{} S:{}", ret, SYS, SYS));
        refused(101, &format!("enq 2 {} E:{} E:{} E:{}", ret, SYS, B, B));
        refused(101, &format!("enq 2 {} E:{} E:{}/0", ret, SYS, B));
    }
    refused(101, &format!("enq 2 chng 3 S:{}", SYS));
    refused(101, &format!("enq 2 chng 3 E:{} S:{}", SYS, A));
    let many: String = (1..17).map(|i| format!(" S:{}/{}", A, i)).collect();
    refused(101, &format!("enq 2 none 0 S:{}{}", SYS, many));
}

#[test]
fn before_104() {
    for ret in ["test", "use", "have", "chng"].iter() {
        refused(110, &format!("enq 2 {} 0 E:{}", ret, SYS));
        refused(110, &format!("enq 2 {} 1 E:{} E:{}", ret, B, SYS));
        refused(104, &format!("enq 2 {} 0 E:{}", ret, B));
        refused(101, &format!("enq 2 {} 0 E:{}/0", ret, SYS));
    }
}

/// 201 and 105 are never reached with such a name.
#[test]
fn before_201_and_105() {
    refused(110, &format!("enq 2 none 0 S:{} S:{}", A, SYS));
    let mut script = "fresh 9 9\n".to_string();
    for i in 0..8 {
        script += "enq 1 none 0";
        (0..16).for_each(|k| script += &format!(" S:00000000000000{:02x}.{:02x}", i, k));
        script += "\n";
    }
    let last = |line: &str| answers(&format!("{}{}", script, line)).pop().unwrap();
    for ret in RETS[2..4].iter().chain(&RETS[..1]) {
        assert_eq!(last(&format!("enq 1 {} S:ff00000000000000.01", ret)), "105 0");
        assert_eq!(last(&format!("enq 1 {} S:{}", ret, SYS)), "110 0");
    }
}

#[test]
fn after_100_108_102_and_103() {
    let line = |caller: u32| format!("enq {} test 0 E:{}", caller, SYS);
    expect(&[
        (&line(1), "108 0"),
        ("fresh 9 9", "0 0"),
        ("attach 1 0 0 5", "0 2"),
        ("attach 1 0 0 6", "0 3"),
        ("attach 1 0 0 -", "0 4"),
        ("wait 2 1 0", "0 0"),
        ("end 3 0", "0 0"),
        (&format!("enq 1 none 0 E:{}", A), "0 0"),
        (&format!("enq 4 none 0 S:{}", A), "0 0"),
        (&line(2), "103 0"),
        (&line(4), "103 0"),
        (&line(3), "102 0"),
        (&line(9), "102 0"),
        (&line(0), "102 0"),
        (&line(1), "110 0"),
        ("poke task 1 disp 10", "ok"),
        (&line(1), "100 0"),
        ("poke task 1 disp 9", "ok"),
        ("abend 1 5 step", "0 0"),
        (&line(1), "108 0"),
    ]);
}

#[test]
fn names_that_are_nearly_such() {
    for name in [
        "e2e8e3c4e2d54040.01",
        "e2e8e1ffffffffff.01",
        "e2e8000000000000.e2",
        "e2e9e2c4e2d54040.01",
        "e3e8e2c4e2d54040.01",
        "00e2e8e200000000.01",
        "e2e2e8e200000000.01",
        "0000000000e2e8e2.01",
        "e8e2e2c4e2d54040.01",
        "0000000000000000.e2e8e2",
        "e200000000000000.e8e2",
        "53595344534e2020.01",
        "a2a8a2c4e2d54040.01",
    ]
    .iter()
    {
        for (ret, answer) in
            [("none 0", "0 0"), ("use 1", "0 0 codes=00"), ("have 1", "0 0 codes=00")].iter()
        {
            let line = format!("enq 2 {} E:{}", ret, name);
            assert_eq!(last(&line), *answer, "{}", line);
            let entries = queued(&format!("{}{}", START, line));
            assert_eq!(entries.len(), 2, "{}", line);
            assert_eq!(entries[1], format!("2 E {}", name), "{}", line);
        }
        assert_eq!(last(&format!("enq 2 test 1 E:{}", name)), "0 0 codes=00");
        assert_eq!(last(&format!("enq 2 chng 1 E:{}", name)), "4 0 codes=08");
    }
}

#[test]
fn deq_is_not_changed() {
    refused(104, &format!("deq 2 have 0 {}", SYS));
    refused(101, &format!("deq 2 have 2 {} {}", SYS, SYS));
    assert_eq!(last(&format!("deq 2 have 1 {}", SYS)), "4 0 codes=08");
    let line = format!("deq 2 have 3 {} {}", SYS, A);
    assert_eq!(last(&line), "4 0 codes=0800ee");
    assert!(dumped(&format!("{}{}", START, line), "entry").is_empty());
    for line in [format!("deq 2 none 0 {}", SYS), format!("deq 2 none 0 {} {}", A, SYS)].iter() {
        let script = format!("{}{}", START, line);
        assert_eq!(last(line), "202 0");
        let ended = ["step 0 0", "task 1 1 0 9 9 0 0 0 0", "task 2 2 1 9 9 1 7 0 0"];
        assert_eq!(dumped(&script, "")[..3], ended);
        assert_eq!(dumped(&script, "")[3..], ["ecb 7 0 1 202 0", "."]);
    }
}

/// Every service and both reports.
const ANYTHING: [&str; 21] = [
    "attach 1 0 0 -",
    "detach 1 2",
    "end 2 0",
    "abend 2 0",
    "abend 1 0 step",
    "enq 2 none 0 S:0000000000000000.0b",
    "enq 2 test 1 S:0000000000000000.0b",
    "enq 2 chng 1 E:e2e8e2c4e2d54040.0a",
    "enq 2 none 0 S:e2e8e2c4e2d54040.0a",
    "enq 2 none 0 S:e2e8e2c4e2d54040.",
    "deq 2 none 0 e2e8e2c4e2d54040.0a",
    "deq 2 have 1 e2e8e2c4e2d54040.0a",
    "wait 2 1 0",
    "post 2 0 0",
    "clear 2 0",
    "getmain 2 8 1 cond",
    "freemain 2 0 8 1",
    "dispatch",
    "stuck 32",
    "queues 128",
    "queues 0",
];

#[test]
fn sound_tables_hold_no_such_name() {
    let poked = format!("{}poke name 0 e2e8e2c4e2d54040\n", START);
    for line in ANYTHING.iter() {
        assert_eq!(answers(&format!("{}{}", poked, line)).pop().unwrap(), "100 0", "{}", line);
    }
    let mended = format!("{}poke name 2 e3\ndispatch", poked);
    assert_eq!(answers(&mended).pop().unwrap(), "0 1");
    let minor = format!("{}poke name 8 03e2e8e2\n", START);
    assert_eq!(answers(&(minor + "dispatch")).pop().unwrap(), "0 1");
}

/// Does the line ask for a name of the system?  By its text: the mode, a colon, the bytes.
fn asks_for_the_systems(line: &[u8]) -> bool {
    let text = String::from_utf8_lossy(line).to_lowercase();
    text.split(' ').any(|word| word.starts_with("s:e2e8e2") || word.starts_with("e:e2e8e2"))
}

/// In generated scripts of every kind: 110 or a test before it, exactly with such a name; and
/// every RET kind gets there.
#[test]
fn generated_names() {
    let mut seen = [0; 5];
    for kind in KINDS.iter() {
        let mut script = Vec::new();
        assert!(generate(2, kind, 4000, &mut script).unwrap());
        let mut runner = Runner::new();
        each_line(&mut &script[..], |line| {
            let before = runner.step.clone();
            if let Outcome::Served(Request::Enq { ret, .. }, answer) = runner.take(line) {
                let system = asks_for_the_systems(line);
                let sooner = [100, 108, 102, 103, 101].contains(&answer.number);
                assert_eq!(answer.number == 110, system && !sooner, "{} {}", kind, runner.line);
                if system {
                    assert!(before == runner.step, "{} {}", kind, runner.line);
                    assert!(runner.codes().iter().all(|byte| *byte == FILL));
                }
                seen[place_of(ret)] += (answer.number == 110) as u32;
            }
            Ok(())
        })
        .unwrap();
    }
    assert!(seen.iter().all(|count| *count > 10), "{:?}", seen);
}

fn place_of(ret: Ret) -> usize {
    match ret {
        Ret::None => 0,
        Ret::Test => 1,
        Ret::Use => 2,
        Ret::Have => 3,
        Ret::Chng => 4,
    }
}
