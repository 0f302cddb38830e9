//! The order of the refusals, and their bounds.

use super::{answers, dumped, expect};

#[test]
fn fresh() {
    expect(&[
        ("fresh 255 255", "0 0"),
        ("fresh 256 0", "101 0"),
        ("dump", "step 1 0"),
        ("fresh 5 6", "101 0"),
        ("fresh 0 0", "0 0"),
        ("dump", "step 0 0\ntask 1 1 0 0 0 0 0 0 0"),
    ]);
}

#[test]
fn numbers_out_of_range() {
    for line in [
        "attach 1 256 0 -",
        "attach 1 0 256 -",
        "attach 1 0 -256 -",
        "attach 1 0 -2147483648 -",
        "attach 1 0 0 64",
        "detach 1 0",
        "detach 1 33",
        "end 1 4096",
        "abend 1 4096",
        "abend 1 4294967295 step",
        "enq 1 none 0",
        "enq 1 test 0 S:0000000000000000.",
        "deq 1 have 0",
        "deq 1 none 0 0000000000000000.00/45",
        "wait 1 0 64",
        "wait 1 9 1 2 1",
        "wait 1 1 0 1 2 3 4 5 6 7 8 9 10 11 12 13 14 15 16",
        "post 1 64 0",
        "clear 1 64",
        "getmain 1 0 0 cond",
        "getmain 1 131073 0 cond",
        "getmain 1 1 128 uncond",
        "freemain 1 131072 8 0",
        "freemain 1 0 0 0",
        "freemain 1 0 8 128",
    ]
    .iter()
    {
        assert_eq!(answers(&format!("fresh 9 9\n{}", line))[1], "101 0", "{}", line);
    }
}

#[test]
fn numbers_at_the_edge() {
    for line in [
        "attach 1 255 255 63",
        "attach 1 0 -255 0",
        "end 1 4095",
        "abend 1 4095 step",
        "wait 1 0 63",
        "wait 1 0 0 1 2 3 4 5 6 7 8 9 10 11 12 13 14 15",
        "post 1 63 1073741823",
        "getmain 1 131072 127 uncond",
    ]
    .iter()
    {
        assert!(answers(&format!("fresh 9 9\n{}", line))[1].starts_with("0 "), "{}", line);
    }
}

#[test]
fn order_of_tests() {
    // 102 and 103 before 101, 101 before 104
    expect(&[
        ("enq 9 test 0", "108 0"),
        ("fresh 9 9", "0 0"),
        ("attach 1 0 0 -", "0 2"),
        ("wait 2 1 0", "0 0"),
        ("clear 2 99", "103 0"),
        ("clear 3 99", "102 0"),
        ("enq 1 test 0 S:0000000000000000.", "101 0"),
        ("enq 1 test 0 S:0000000000000000.00", "104 0"),
        ("enq 1 none 0 S:0000000000000000.00", "0 0"),
        ("deq 1 have 0 0000000000000000.00", "104 0"),
        ("clear 1 0", "109 0"),
        ("poke task 1 disp 10", "ok"),
        ("clear 9 99", "100 0"),
        ("poke task 1 disp 9", "ok"),
        ("clear 1 1", "0 0"),
    ]);
}

#[test]
fn attach_with_all_places_in_use() {
    let mut script = "fresh 9 9\n".to_string();
    for _ in 0..31 {
        script += "attach 1 0 0 1\n";
    }
    script += "end 32 0\nattach 1 0 0 -\nattach 1 0 256 -\nattach 32 0 0 -\n";
    let got = answers(&script);
    assert_eq!(got[31], "0 32");
    assert_eq!(&got[32..], ["0 0", "106 0", "101 0", "102 0"]);
}

#[test]
fn codes_are_written_in_front_only() {
    expect(&[
        ("fresh 9 9", "0 0"),
        ("enq 1 use 3 S:0000000000000000.00 E:0000000000000000.01", "0 0 codes=0000ee"),
        ("enq 1 have 4 S:0000000000000000.00 E:0000000000000000.02", "4 0 codes=0800eeee"),
        ("deq 1 have 4 0000000000000000.03 0000000000000000.02", "4 0 codes=0800eeee"),
        ("deq 1 none 4 0000000000000000.00 0000000000000000.01", "0 0"),
        ("enq 1 none 64 S:0000000000000000.00", "0 0"),
    ]);
}

#[test]
fn a_program_error_posts_and_frees() {
    let script = "fresh 9 9\nattach 1 0 0 3\nattach 2 0 0 4\nwait 1 1 3\n\
        enq 3 none 0 E:0000000000000000.00\ngetmain 2 8 0 uncond\ngetmain 2 8 1 uncond\n\
        deq 2 none 0 0000000000000000.07";
    assert_eq!(answers(script).pop().unwrap(), "202 0");
    assert_eq!(dumped(script, "task"), ["task 1 1 0 9 9 0 0 0 0", "task 2 2 1 9 9 1 3 0 0"]);
    assert_eq!(dumped(script, "ecb"), ["ecb 3 0 1 202 0"]);
    assert_eq!(dumped(script, "area"), ["area 0 0 8 0 0"]);
    assert!(dumped(script, "entry").is_empty());
}
