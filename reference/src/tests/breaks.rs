//! Names that stand wrong, each way by its own rule, and every request is answered 100.

use super::answers;
use crate::runner::Runner;
use crate::sound::{broken, is_sound};

/// Tasks 2, 3 and 4 share x; y and z have one entry each.  x lies at 0, y at 10, z at 21; the
/// names end at 33.
const START: &str = "fresh 9 9\nattach 1 0 0 -\nattach 1 0 0 -\nattach 1 0 0 -\n\
    enq 2 none 0 S:00000000000000c1.01 S:00000000000000c2.0202 S:00000000000000c3.030303\n\
    enq 3 none 0 S:00000000000000c1.01\nenq 4 none 0 S:00000000000000c1.01\n";

const X: &str = "00000000000000c10101";
const Y: &str = "00000000000000c2020202";
const Z: &str = "00000000000000c303030303";

/// Every service, and both reports.
const ANYTHING: [&str; 15] = [
    "attach 1 0 0 -",
    "detach 1 2",
    "end 2 0",
    "abend 2 0",
    "enq 2 test 1 S:0000000000000000.0b",
    "enq 2 none 0 S:00000000000000c1.01",
    "deq 2 none 0 00000000000000c1.01",
    "wait 2 1 0",
    "post 2 0 0",
    "clear 2 0",
    "getmain 2 8 1 cond",
    "freemain 2 0 8 1",
    "dispatch",
    "stuck 32",
    "queues 128",
];

fn after(script: &str) -> Runner {
    let mut runner = Runner::new();
    script.lines().for_each(|line| {
        runner.take(line.as_bytes());
    });
    runner
}

/// The pokes break these rules and no other; whatever is asked for is answered 100 and changes
/// nothing.
fn breaks_from(start: &str, pokes: &[&str], rules: &[&str]) {
    let script = format!("{}{}\n", start, pokes.join("\n"));
    let oks = answers(&script).iter().filter(|answer| *answer == "ok").count();
    assert_eq!(oks, script.matches("poke").count(), "{:?}", pokes);
    assert_eq!(broken(&after(&script).step), rules, "{:?}", pokes);
    for line in ANYTHING.iter() {
        let mut runner = after(&script);
        let before = runner.step.clone();
        assert_eq!(answers(&(script.clone() + line)).pop().unwrap(), "100 0", "{}", line);
        runner.take(line.as_bytes());
        assert!(before == runner.step, "{}", line);
    }
}

fn breaks(rules: &[&str], pokes: &[&str]) {
    breaks_from(START, pokes, rules);
}

fn stays_sound(pokes: &[&str]) {
    assert!(is_sound(&after(&format!("{}{}", START, pokes.join("\n"))).step), "{:?}", pokes);
}

#[test]
fn the_start() {
    stays_sound(&[]);
    // a poke of what is there; a byte that makes another name of it
    stays_sound(&[&format!("poke name 10 {}", Y), "poke entry 4 name 0"]);
    stays_sound(&["poke name 0 c1", "poke name 32 04"]);
    // the last name one byte longer: the byte behind it is zero
    stays_sound(&["poke name 29 04"]);
}

#[test]
fn an_offset_beyond_the_area() {
    for offset in ["16384", "65535"].iter() {
        breaks(&["name-beyond"], &[&format!("poke entry 4 name {}", offset)]);
    }
    // its name stays without an entry
    breaks(&["name-beyond", "name-gap"], &["poke entry 1 name 16384"]);
    breaks(&["name-beyond", "name-tail"], &["poke entry 2 name 16384"]);
}

#[test]
fn an_offset_into_the_middle_of_a_name() {
    for offset in [1, 8, 9, 11, 20, 22, 32].iter() {
        breaks(&["name-middle"], &[&format!("poke entry 4 name {}", offset)]);
    }
}

#[test]
fn a_name_twice() {
    breaks(&["name-once"], &[&format!("poke name 33 {}", X), "poke entry 4 name 33"]);
    // two names of one length become one
    let poke = "poke name 21 00000000000000c2020202";
    breaks(&["name-once", "entry-once"], &[poke, "poke name 32 00"]);
}

#[test]
fn two_names_in_the_wrong_order() {
    let pokes = ["poke entry 1 name 22", "poke entry 2 name 10"];
    let bytes = format!("poke name 10 {}{}", Z, Y);
    breaks(&["name-gap", "name-order"], &[&bytes, pokes[0], pokes[1]]);
    // two entries change their names: z comes before y
    breaks(&["name-gap", "name-order"], &["poke entry 1 name 21", "poke entry 2 name 10"]);
    // the order in which names came, and not that of first entries now
    let start = format!("{}deq 2 none 0 00000000000000c1.01\n", START);
    let pokes = [
        format!("poke name 0 {}{}{}", X, Y, Z),
        "poke entry 0 name 10".to_string(),
        "poke entry 1 name 21".to_string(),
        "poke entry 2 name 0".to_string(),
        "poke entry 3 name 0".to_string(),
    ];
    let pokes: Vec<&str> = pokes.iter().map(|poke| poke.as_str()).collect();
    breaks_from(&start, &pokes, &["name-gap", "name-order"]);
}

#[test]
fn a_gap() {
    // z a byte further on, with a byte of zero or another before it
    for byte in ["00", "ff"].iter() {
        let poke = format!("poke name 21 {}{}", byte, Z);
        breaks(&["name-gap"], &[&poke, "poke entry 2 name 22"]);
    }
    // all of them further on
    let poke = format!("poke name 0 00{}{}{}", X, Y, Z);
    let entries: Vec<String> = [(0, 1), (1, 11), (2, 22), (3, 1), (4, 1)]
        .iter()
        .map(|(entry, offset)| format!("poke entry {} name {}", entry, offset))
        .collect();
    let mut pokes: Vec<&str> = entries.iter().map(|line| line.as_str()).collect();
    pokes.push(&poke);
    breaks(&["name-gap"], &pokes);
    // the last name is one byte shorter than its place
    breaks(&["name-gap"], &["poke name 18 01"]);
}

#[test]
fn a_name_without_an_entry() {
    // between others
    let poke = format!("poke name 10 00000000000000c40104{}{}", Y, Z);
    breaks(&["name-gap"], &[&poke, "poke entry 1 name 20", "poke entry 2 name 31"]);
    breaks(&["name-gap"], &["poke entry 1 name 0", "poke entry 1 task 1"]);
    // behind the last
    breaks(&["name-tail"], &["poke name 33 00000000000000c40104"]);
    breaks(&["name-tail"], &["poke entry 2 name 10", "poke entry 2 task 1"]);
    // the queue is empty, and a name is left
    let start = "fresh 9 9\nattach 1 0 0 -\n";
    breaks_from(start, &[&format!("poke name 0 {}", X)], &["name-tail"]);
}

#[test]
fn a_name_cut_off() {
    // no length byte in the area; the last byte missing; all of the minor part missing
    for left in [1, 8].iter() {
        let poke = format!("poke entry 4 name {}", 16384 - left);
        breaks(&["name-gap", "name-whole"], &[&poke]);
    }
    breaks(&["name-gap", "name-whole"], &["poke entry 4 name 16373", "poke name 16381 03"]);
    breaks(&["name-gap", "name-whole"], &["poke entry 4 name 16375", "poke name 16383 01"]);
    // one that just fits stands too far on, and nothing else is wrong
    breaks(&["name-gap"], &["poke entry 4 name 16373", "poke name 16381 02"]);
}

#[test]
fn a_length_byte() {
    breaks(&["name-length"], &["poke name 29 00000000"]);
    breaks(&["name-length"], &["poke entry 4 name 33"]);
    breaks(&["name-length", "name-tail"], &["poke name 29 00"]);
    for length in ["2d", "ff"].iter() {
        breaks(&["name-length"], &[&format!("poke name 29 {}", length)]);
    }
    stays_sound(&["poke name 29 2c"]);
}

#[test]
fn a_byte_behind_the_last_name() {
    for at in [33, 34, 41, 42, 300, 6784, 16383].iter() {
        breaks(&["name-tail"], &[&format!("poke name {} 01", at)]);
    }
}

#[test]
fn an_unused_place_with_an_offset() {
    for offset in ["1", "10", "33", "16384", "65535"].iter() {
        breaks(&["zero-entry"], &[&format!("poke entry 5 name {}", offset)]);
        let far = format!("poke entry 127 name {}", offset);
        breaks(&["packed-entry", "zero-entry"], &[&far]);
    }
    breaks_from("fresh 9 9\nattach 1 0 0 -\n", &["poke entry 0 name 1"], &["zero-entry"]);
}

#[test]
fn a_step_over_with_a_byte_left() {
    for start in ["", "fresh 9 9\nend 1 5\n"].iter() {
        for at in [0, 9, 16383].iter() {
            breaks_from(start, &[&format!("poke name {} 01", at)], &["over-names"]);
        }
    }
}

/// As before: a name of the system, an entry twice, a wait that is none.
#[test]
fn what_the_names_are() {
    breaks(&["system-name"], &["poke name 21 e2e8e2"]);
    breaks(&["entry-once"], &["poke entry 4 task 3"]);
    breaks(&["resource-wait"], &["poke entry 4 excl 1"]);
}
