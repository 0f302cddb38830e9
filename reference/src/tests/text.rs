//! The form of scripts.

use super::{answers, dumped, expect, names_of, output};

#[test]
fn nothing_and_the_last_line() {
    assert_eq!(output(b""), b"");
    assert_eq!(output(b"\n\n# comment\n#"), b"");
    assert_eq!(output(b"\nx"), b"? 2\n");
    assert_eq!(output(b"dump"), b"step 1 0\n.\n");
    assert_eq!(output(b"dispatch\r\n"), b"? 1\n");
    assert_eq!(output(b"dispatch\0\n\0\n#\0\n"), b"? 1\n? 2\n");
    assert_eq!(output(b"\xff\n \n"), b"? 1\n? 2\n");
}

const UNREADABLE: [&str; 109] = [
    " dispatch",
    "dispatch ",
    "dispatch x",
    "Dispatch",
    "dump x",
    "dump ",
    "fresh",
    "fresh 1",
    "fresh 1 2 3",
    "fresh  1 2",
    "fresh +1 2",
    "fresh 1 -2",
    "fresh 4294967296 0",
    "fresh 00000000001 0",
    "fresh 1\t2",
    "attach 1 0 0",
    "attach 1 0 +1 -",
    "attach 1 0 - -",
    "attach 1 0 2147483648 -",
    "attach 1 0 -2147483649 -",
    "attach 1 0 --1 -",
    "attach - 0 0 -",
    "attach 1 -1 0 -",
    "attach 1 0 0 -1",
    "detach 1",
    "detach 1 2 3",
    "end 1",
    "abend 1 0 STEP",
    "abend 1 0 step step",
    "abend 1 0 ",
    "enq 1 none",
    "enq 1 None 0",
    "enq 1 all 0",
    "deq 1 test 0",
    "enq 1 none 65",
    "enq 1 none 0 0000000000000000.00",
    "deq 1 none 0 S:0000000000000000.00",
    "enq 1 none 0 s:0000000000000000.00",
    "enq 1 none 0 S:000000000000000.00",
    "enq 1 none 0 S:00000000000000000.00",
    "enq 1 none 0 S:0000000000000000",
    "enq 1 none 0 S:0000000000000000.0",
    "enq 1 none 0 S:0000000000000000.0g",
    "enq 1 none 0 S:0000000000000000.00/",
    "enq 1 none 0 S:0000000000000000.00/301",
    "enq 1 none 0 S:0000000000000000.00/1/1",
    "enq 1 none 0 S:0000000000000000.00/-1",
    "enq 1 none 0 S:0000000000000000/1",
    "wait 1",
    "wait",
    "wait 1 x",
    "post 1 2",
    "clear 1",
    "getmain 1 8 0",
    "getmain 1 8 0 COND",
    "getmain 1 8 0 cond x",
    "freemain 1 0 8",
    "poke",
    "poke step",
    "poke step over",
    "poke step mother 1",
    "poke step over 4294967296",
    "poke step 0 over 1",
    "poke task 0 state 1",
    "poke task 33 state 1",
    "poke task 1 task 1",
    "poke entry 128 task 1",
    "poke entry 0 major 00",
    "poke entry 0 minor 00",
    "poke entry 0 length",
    "poke entry 0 length x",
    "poke entry 0 length 4294967296",
    "poke entry 128 length 1",
    "poke entry 0 name",
    "poke entry 0 name x",
    "poke entry 0 name -1",
    "poke entry 0 name 4294967296",
    "poke entry 128 name 0",
    "poke entry 0 offset 0",
    "poke name",
    "poke name 0",
    "poke name 0 ",
    "poke name 0 0",
    "poke name 0 000",
    "poke name 0 0g",
    "poke name 0 00 00",
    "poke name x 00",
    "poke name -1 00",
    "poke name 16384 00",
    "poke name 16383 0000",
    "poke names 0 00",
    "poke entry 0 major 000000000000000g",
    "poke ecb 64 wait 0",
    "poke ecb 0 need 1",
    "poke area 128 owner 0",
    "poke area 0 task 0",
    "poke area 0 owner x",
    "poke task 1 limit -1",
    "stuck",
    "stuck ",
    "stuck 256",
    "stuck 4294967295",
    "stuck -1",
    "stuck 1 2",
    "Stuck 1",
    "queues",
    "queues 256",
    "queues x",
    "queue 1",
];

#[test]
fn unreadable_lines() {
    for line in UNREADABLE.iter() {
        assert_eq!(answers(line), ["? 1"], "{}", line);
    }
}

#[test]
fn readable_variants() {
    for (line, answer) in [
        ("fresh 0000000001 01", "0 0"),
        ("attach 0000000300 9999 0 -", "108 0"),
        ("attach 1 0 -0 -", "108 0"),
        ("attach 1 0 -2147483648 4294967295", "108 0"),
        ("attach 1 0 2147483647 0", "108 0"),
        ("abend 1 0 step", "108 0"),
        ("enq 1 none 64", "108 0"),
        ("enq 1 none 0000000000 E:abcdefABCDEF0123./0000000300", "108 0"),
        ("deq 1 have 0 abcdefABCDEF0123.", "108 0"),
        ("wait 1 4294967295", "108 0"),
        ("poke task 01 state 0", "ok"),
        ("poke area 0000000127 owner 0", "ok"),
    ]
    .iter()
    {
        assert_eq!(answers(line), [*answer], "{}", line);
    }
}

#[test]
fn twenty_names_and_ecbs() {
    let names = |n: usize| -> String { (0..n).map(|i| format!(" E:{:016x}.00", i)).collect() };
    let ecbs = |n: usize| -> String { (0..n).map(|i| format!(" {}", i)).collect() };
    for (n, names_answer) in [(16, "0 0"), (17, "101 0"), (20, "101 0"), (21, "? 2")].iter() {
        assert_eq!(answers(&format!("fresh 1 1\nenq 1 none 0{}", names(*n)))[1], *names_answer);
        assert_eq!(answers(&format!("fresh 1 1\nwait 1 0{}", ecbs(*n)))[1], *names_answer);
        let deq = format!("fresh 1 1\ndeq 1 have 64{}", names(*n)).replace("E:", "");
        let wanted = names_answer.replace("0 0", "4 0 codes=");
        assert!(answers(&deq)[1].starts_with(&wanted) || *n != 16, "{}", n);
    }
}

#[test]
fn minor_names() {
    let longest = format!("enq 1 none 0 E:0000000000000000.{}", "aB".repeat(300));
    assert_eq!(answers(&format!("fresh 1 1\n{}", longest))[1], "101 0");
    assert_eq!(answers(&format!("fresh 1 1\n{}/2", longest))[1], "0 0");
    assert_eq!(answers(&format!("fresh 1 1\n{}aa/2", longest))[1], "? 2");
    let kept = format!("fresh 1 1\n{}/2", longest);
    assert_eq!(dumped(&kept, "entry"), ["entry 0 1 1 0"]);
    assert_eq!(dumped(&kept, "names"), ["names 000000000000000002abab"]);
    let padded = "fresh 1 1\nenq 1 none 0 S:FF00000000000000.01/44 E:00000000000000FE.02";
    assert_eq!(dumped(padded, "entry"), ["entry 0 1 0 0", "entry 1 1 1 53"]);
    let rest = "00".repeat(43);
    assert_eq!(
        dumped(padded, "names"),
        [format!("names ff000000000000002c01{}00000000000000fe0102", rest)]
    );
}

#[test]
fn long_lines() {
    let comment = format!("#{}\nx", "a".repeat(16_382));
    assert_eq!(answers(&comment), ["? 2"]);
    assert_eq!(answers(&"a".repeat(16_383)), ["? 1"]);
    assert_eq!(answers(&format!("{}\ndispatch", " ".repeat(20_000))), ["? 1", "108 0"]);
    let names: String =
        (0..20).map(|i| format!(" E:{:016x}.{}/0000000001", i, "ab".repeat(300))).collect();
    assert_eq!(answers(&format!("fresh 1 1\nenq 0000000001 none 0000000064{}", names))[1], "101 0");
}

#[test]
fn a_million_lines() {
    let mut script = b"\n".repeat(999_999);
    script.extend_from_slice(b"?");
    assert_eq!(output(&script), b"? 1000000\n");
}

#[test]
fn pokes_and_dumps() {
    expect(&[
        ("poke step over 0", "ok"),
        ("poke task 32 limit 7", "ok"),
        ("poke entry 3 name 0000065535", "ok"),
        ("poke entry 127 excl 1", "ok"),
        ("poke name 00002 Af", "ok"),
        ("poke name 3 0000", "ok"),
        ("poke ecb 63 code 9", "ok"),
        ("poke area 127 address 1", "ok"),
        (
            "dump",
            "step 0 0\ntask 32 0 0 7 0 0 0 0 0\nentry 3 0 0 65535\nentry 127 0 1 0
             names 0000af\necb 63 0 0 9 0\narea 127 1 0 0 0",
        ),
        ("dispatch", "100 0"),
        ("fresh 3 2", "0 0"),
        ("dispatch", "0 1"),
    ]);
}

#[test]
fn what_cannot_be_held() {
    expect(&[
        ("poke step over 2", "! 1"),
        ("poke task 1 state 3", "! 2"),
        ("poke task 1 hasecb 2", "! 3"),
        ("poke entry 0 excl 2", "! 4"),
        ("poke ecb 0 wait 1", "! 5"),
        ("poke ecb 0 waiter 1", "! 6"),
        ("poke ecb 0 complete 2", "! 7"),
        ("poke step code 65536", "! 8"),
        ("poke task 1 limit 256", "! 9"),
        ("poke task 1 ecb 1", "! 10"),
        ("poke task 1 need 1", "! 11"),
        ("poke entry 0 name 65536", "! 12"),
        ("poke area 0 owner 256", "! 13"),
        ("poke entry 0 task 256", "! 14"),
        ("poke entry 0 name 4294967295", "! 15"),
        ("poke entry 0 length 1", "! 16"),
        ("poke entry 127 length 4294967295", "! 17"),
        ("poke entry 0 major 0000000000000000", "! 18"),
        (&format!("poke entry 0 minor {}", "aB".repeat(44)), "! 19"),
        ("dump", "step 1 0"),
    ]);
}

/// "1 to 300 bytes within the area"
#[test]
fn pokes_of_the_name_area() {
    let bytes = |count: usize| "a0".repeat(count);
    let at_the_end = format!("poke name 16084 {}", bytes(300));
    assert_eq!(answers(&at_the_end), ["ok"]);
    assert_eq!(names_of(&at_the_end), "00".repeat(16_084) + &bytes(300));
    assert_eq!(answers(&format!("poke name 16085 {}", bytes(300))), ["? 1"]);
    assert_eq!(answers(&format!("poke name 0 {}", bytes(301))), ["? 1"]);
    expect(&[
        ("poke name 16383 01", "ok"),
        ("dispatch", "100 0"),
        ("poke name 0000016383 00", "ok"),
        ("dispatch", "108 0"),
        ("dump", "step 1 0"),
    ]);
}
