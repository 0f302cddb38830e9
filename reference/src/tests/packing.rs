//! The name area, worked by hand: "Each different name is kept once, in a name area of 16,384
//! bytes, and entries point to it. They stand packed, in the order of first entries; a name leaves
//! with its last entry."

use super::{answers, dumped, expect, names_of, queued};

/// Names with minor parts of 1, 2 and 3 bytes, as lines say them and as they lie in the area.
const X: (&str, &str) = ("00000000000000c1.01", "00000000000000c10101");
const Y: (&str, &str) = ("00000000000000c2.0202", "00000000000000c2020202");
const Z: (&str, &str) = ("c300000000000000.030303", "c30000000000000003030303");

fn area(names: &[(&str, &str)]) -> String {
    names.iter().map(|name| name.1).collect()
}

/// Tasks 2 to 6, daughters of task 1; each has ECB 7 but for 5 and 6.
const TASKS: &str = "fresh 9 9\nattach 1 0 0 7\nattach 1 0 0 7\nattach 1 0 0 7\nattach 1 0 0 -\n\
    attach 1 0 0 -\n";

/// T1 x, T2 y, T3 x: tasks 2, 3 and 4.
fn x_y_x() -> String {
    format!("{}enq 2 none 0 S:{}\nenq 3 none 0 S:{}\nenq 4 none 0 S:{}\n", TASKS, X.0, Y.0, X.0)
}

fn last(script: &str) -> String {
    answers(script).pop().unwrap()
}

#[test]
fn each_name_once() {
    let script = x_y_x();
    assert_eq!(dumped(&script, "entry"), ["entry 0 2 0 0", "entry 1 3 0 10", "entry 2 4 0 0"]);
    assert_eq!(names_of(&script), area(&[X, Y]));
    let script = script + &format!("enq 5 have 3 E:{} S:{} S:{}\n", Z.0, Y.0, X.0);
    assert_eq!(last(&script), "0 0 codes=000000");
    let entries = ["entry 3 5 1 21", "entry 4 5 0 10", "entry 5 5 0 0"];
    assert_eq!(dumped(&script, "entry")[3..], entries);
    assert_eq!(names_of(&script), area(&[X, Y, Z]));
}

#[test]
fn names_that_differ_in_little() {
    let script = "fresh 9 9\nenq 1 none 0 S:0000000000000000.00 S:0000000000000000.0000 \
        S:0000000000000000.01 S:0000000000000001.00\n";
    let entries = ["entry 0 1 0 0", "entry 1 1 0 10", "entry 2 1 0 21", "entry 3 1 0 31"];
    assert_eq!(dumped(script, "entry"), entries);
    let names = "00000000000000000100000000000000000002000000000000000000000101000000000000000101";
    assert_eq!(names_of(script), names);
}

/// The line ends with the last byte not zero, wherever the last name ends.
#[test]
fn the_line_of_names() {
    assert!(dumped("fresh 9 9", "names").is_empty());
    let zeros = "fresh 9 9\nenq 1 none 0 S:0000000000000000.0000\n";
    assert_eq!(dumped(zeros, "names"), ["names 000000000000000002"]);
    expect(&[
        ("fresh 9 9", "0 0"),
        (&format!("enq 1 none 0 E:{}", X.0), "0 0"),
        ("post 1 3 0", "0 0"),
        (
            "dump",
            "step 0 0\ntask 1 1 0 9 9 0 0 0 0\nentry 0 1 1 0\nnames 00000000000000c10101
            ecb 3 0 1 0 0",
        ),
        (&format!("deq 1 none 0 {}", X.0), "0 0"),
        ("dump", "step 0 0\ntask 1 1 0 9 9 0 0 0 0\necb 3 0 1 0 0"),
    ]);
}

/// T1 leaves x: the area holds y, x.
#[test]
fn order_after_deq() {
    for ret in ["none 0", "have 1"].iter() {
        let script = x_y_x() + &format!("deq 2 {} {}\n", ret, X.0);
        assert_eq!(dumped(&script, "entry"), ["entry 0 3 0 0", "entry 1 4 0 11"]);
        assert_eq!(names_of(&script), area(&[Y, X]));
    }
    // a later entry goes: nothing moves
    let script = x_y_x() + &format!("deq 4 none 0 {}\n", X.0);
    assert_eq!(dumped(&script, "entry"), ["entry 0 2 0 0", "entry 1 3 0 10"]);
    assert_eq!(names_of(&script), area(&[X, Y]));
    // the last entry of a name goes, and the name with it; it comes back behind the others
    let script = x_y_x() + &format!("enq 5 none 0 S:{}\ndeq 3 none 0 {}\n", Z.0, Y.0);
    assert_eq!(names_of(&script), area(&[X, Z]));
    assert_eq!(dumped(&script, "entry")[2], "entry 2 5 0 10");
    let script = script + &format!("enq 3 none 0 S:{}\n", Y.0);
    assert_eq!(names_of(&script), area(&[X, Z, Y]));
}

#[test]
fn deq_of_several_names() {
    let script = format!("{}enq 2 none 0 S:{} S:{} S:{}\n", TASKS, X.0, Y.0, Z.0);
    let script = script + &format!("enq 3 none 0 S:{} S:{}\n", Z.0, X.0);
    assert_eq!(names_of(&script), area(&[X, Y, Z]));
    let two = script.clone() + &format!("deq 2 have 3 {} {}\n", Y.0, X.0);
    assert_eq!(last(&two), "0 0 codes=0000ee");
    assert_eq!(names_of(&two), area(&[Z, X]));
    assert_eq!(dumped(&two, "entry"), ["entry 0 2 0 0", "entry 1 3 0 0", "entry 2 3 0 12"]);
    let three = script + &format!("deq 2 none 0 {} {} {}\n", Z.0, Y.0, X.0);
    assert_eq!(names_of(&three), area(&[Z, X]));
    let none = three + &format!("deq 3 none 0 {} {}\n", X.0, Z.0);
    assert_eq!(names_of(&none), "");
}

/// HAVE that releases nothing leaves all as it is.
#[test]
fn deq_of_nothing() {
    let script = x_y_x();
    let line = format!("deq 2 have 2 {} {}\n", Y.0, Z.0);
    assert_eq!(last(&(script.clone() + &line)), "4 0 codes=0808");
    assert_eq!(dumped(&(script.clone() + &line), ""), dumped(&script, ""));
}

/// Task 2, which is first for x, ends in each of the ways: y, x are left, as after its DEQ.
#[test]
fn order_after_each_ending() {
    let long = "attach 2 0 0 -\n";
    for (prepared, line, answer) in [
        ("", "end 2 5", "0 0"),
        ("", "abend 2 5", "0 0"),
        ("", "detach 1 2", "0 0"),
        (long, "abend 2 5", "0 0"),
        (long, "detach 1 2", "0 0"),
        ("", "enq 2 none 0 S:00000000000000c1.01", "201 0"),
        ("", "deq 2 none 0 00000000000000c1.01 00000000000000c2.0202", "202 0"),
        ("wait 6 1 9\n", "wait 2 0 9", "203 0"),
        ("", "wait 2 2 9", "204 0"),
        ("getmain 1 8 0 uncond\n", "getmain 2 131072 1 uncond", "205 0"),
        ("", "freemain 2 0 8 1", "206 0"),
        (long, "end 2 5", "207 0"),
        ("", "detach 2 3", "208 0"),
    ]
    .iter()
    {
        let script = format!("{}{}{}\n", x_y_x(), prepared, line);
        assert_eq!(last(&script), *answer, "{}", line);
        assert_eq!(dumped(&script, "entry"), ["entry 0 3 0 0", "entry 1 4 0 11"], "{}", line);
        assert_eq!(names_of(&script), area(&[Y, X]), "{}", line);
        assert_eq!(last(&(script + "dispatch")), "0 1", "{}", line);
    }
}

/// A task ends with all below it: what each had goes, and what is left is packed.
#[test]
fn an_end_of_several_tasks() {
    let script = format!(
        "{}attach 2 0 0 -\nenq 7 none 0 S:{}\nenq 5 none 0 S:{}\nenq 2 none 0 S:{} S:{}\n\
        enq 4 none 0 S:{} S:{}\n",
        TASKS, X.0, Y.0, Z.0, Y.0, X.0, Z.0
    );
    assert_eq!(names_of(&script), area(&[X, Y, Z]));
    for line in ["abend 2 0", "detach 1 2", "end 2 0", "enq 2 none 0 S:00000000000000c2.0202"] {
        let script = format!("{}{}\n", script, line);
        assert_eq!(names_of(&script), area(&[Y, X, Z]), "{}", line);
        let entries = ["entry 0 5 0 0", "entry 1 4 0 11", "entry 2 4 0 21"];
        assert_eq!(dumped(&script, "entry"), entries, "{}", line);
    }
}

/// "every table is empty and only the code is kept"
#[test]
fn the_end_of_the_step() {
    for (line, code) in [("abend 3 6 step", 6), ("end 1 4", 207), ("abend 1 4", 4)].iter() {
        let script = format!("{}{}\n", x_y_x(), line);
        assert_eq!(dumped(&script, ""), [format!("step 1 {}", code), ".".to_string()], "{}", line);
    }
    let script = x_y_x() + "fresh 3 3\n";
    assert_eq!(names_of(&script), "");
}

/// After the script the line answers so, and all is as it was.
fn unchanged(script: &str, line: &str, answer: &str) {
    let whole = format!("{}{}\n", script, line);
    assert_eq!(last(&whole), answer, "{}", line);
    assert_eq!(dumped(&whole, ""), dumped(script, ""), "{}", line);
}

#[test]
fn what_leaves_the_area_as_it_was() {
    let script = x_y_x();
    let w = "00000000000000c4.04";
    unchanged(&script, &format!("enq 5 test 2 S:{} S:{}", w, X.0), "0 0 codes=0000");
    unchanged(&script, &format!("enq 5 use 2 E:{} E:{}", w, X.0), "4 0 codes=0004");
    unchanged(&script, &format!("enq 5 chng 1 E:{}", w), "4 0 codes=08");
    unchanged(&script, &format!("enq 2 have 1 S:{}", X.0), "4 0 codes=08");
    unchanged(&script, &format!("enq 5 have 1 S:{} S:{}", w, Z.0), "104 0");
    unchanged(&script, &format!("enq 5 none 0 S:{} S:{}", w, w), "101 0");
    unchanged(&script, &format!("enq 5 none 0 S:{} S:{}/45", w, Z.0), "101 0");
    unchanged(&script, &format!("enq 5 none 0 S:{} S:e2e8e20000000000.01", w), "110 0");
    unchanged(&script, &format!("enq 9 none 0 S:{}", w), "102 0");
    let waiting = script.clone() + "wait 5 1 1\n";
    unchanged(&waiting, &format!("enq 5 none 0 S:{}", w), "103 0");
    unchanged(&script, "stuck 0", "0 0");
    // CHNG changes a mode and moves nothing
    let changed = format!("{}enq 3 chng 1 E:{}\n", script, Y.0);
    assert_eq!(last(&changed), "0 0 codes=00");
    assert_eq!(dumped(&changed, "entry"), ["entry 0 2 0 0", "entry 1 3 1 10", "entry 2 4 0 0"]);
    assert_eq!(names_of(&changed), area(&[X, Y]));
}

/// 105 puts no name behind the last, also where some of the list would fit.
#[test]
fn a_full_queue() {
    let mut script = "fresh 9 9\n".to_string();
    for i in 0..127 {
        let minor = format!("{:02x}", i).repeat(44);
        script += &format!("enq 1 none 0 S:00000000000000ff.{}\n", minor);
    }
    let new = "S:0000000000000000.01 S:0000000000000000.02";
    for ret in ["none 0", "use 2", "have 2"].iter() {
        unchanged(&script, &format!("enq 1 {} {}", ret, new), "105 0");
    }
    // the longest names in all 128 entries: 128 * 53 = 6784 bytes
    let script = format!("{}enq 1 none 0 S:00000000000000ff.{}\n", script, "ff".repeat(44));
    assert_eq!(last(&script), "0 0");
    assert_eq!(names_of(&script).len(), 2 * 6784);
    assert_eq!(dumped(&script, "entry")[127], "entry 127 1 0 6731");
    assert_eq!(queued(&script)[127], format!("1 S 00000000000000ff.{}", "ff".repeat(44)));
    unchanged(&script, "enq 1 have 1 S:0000000000000000.01", "105 0");
}
