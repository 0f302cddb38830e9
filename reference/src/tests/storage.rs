//! GETMAIN's addresses, worked by hand.  "The answer is the lowest multiple of 8 at which the area
//! lies in the region, meets no area, and touches no page that holds an area of another owner or
//! subpool."  Pages are numbered from 0; page 1 begins at 4096, 2 at 8192, 3 at 12288, 4 at 16384.

use super::{answers, dumped, expect};

/// 8 bytes of each of subpools 1 to 32, for task 1.  Page after page holds an area of another
/// subpool, so each gets a page of its own.
fn one_a_page() -> String {
    let lines = (1..=32).map(|subpool| format!("getmain 1 8 {} uncond\n", subpool));
    "fresh 9 9\n".to_string() + &lines.collect::<String>()
}

fn last(script: &str) -> String {
    answers(script).pop().unwrap()
}

#[test]
fn every_page_is_held() {
    // subpool 1 at 0, 2 at 4096, .., 32 at 31 * 4096 = 126976, the last page
    let got = answers(&one_a_page());
    for page in 0..32 {
        assert_eq!(got[page + 1], format!("0 {}", page * 4096));
    }
    // each page is held by another subpool: 4, and nothing changed
    let mut script = one_a_page() + "getmain 1 8 33 cond\n";
    assert_eq!(last(&script), "4 0");
    assert_eq!(dumped(&script, ""), dumped(&one_a_page(), ""));
    // the last page is subpool 32's own: 126976 + 8
    script += "getmain 1 8 32 cond\n";
    assert_eq!(last(&script), "0 126984");
    // page 5, at 5 * 4096 = 20480, is freed, and it is the only free one
    script += "freemain 1 20480 8 6\ngetmain 1 8 33 uncond\n";
    assert_eq!(last(&script), "0 20480");
    // no page is left; task 1's end is the step's
    script += "getmain 1 8 34 uncond\n";
    assert_eq!(last(&script), "205 0");
    assert_eq!(dumped(&script, ""), ["step 1 205", "."]);
}

#[test]
fn areas_without_gaps() {
    // area k at 8 * k: each begins at the end of the one before, in page 0
    let mut script = "fresh 9 9\n".to_string() + &"getmain 1 8 5 uncond\n".repeat(127);
    let got = answers(&script);
    for k in 0..127 {
        assert_eq!(got[k + 1], format!("0 {}", 8 * k));
    }
    // the 128th at the last end, 127 * 8
    script += "getmain 1 8 5 uncond\n";
    assert_eq!(last(&script), "0 1016");
    // 128 areas in use: 107, though there is room behind them and on 31 pages
    script += "getmain 1 8 5 uncond\ngetmain 1 8 5 cond\ngetmain 1 8 6 cond\n";
    assert_eq!(answers(&script)[129..], ["107 0", "107 0", "107 0"]);
    // one in the middle goes, and the next has just that room
    script += "freemain 1 512 8 5\ngetmain 1 8 5 cond\ngetmain 1 8 5 cond\n";
    assert_eq!(answers(&script)[132..], ["0 0", "0 512", "107 0"]);
}

#[test]
fn the_end_of_an_area() {
    expect(&[
        ("fresh 9 9", "0 0"),
        // 0 to 104, 104 to 112
        ("getmain 1 100 1 uncond", "0 0"),
        ("getmain 1 8 1 uncond", "0 104"),
        // 112 to 4112: pages 0 and 1, and nothing lies on page 1
        ("getmain 1 4000 1 uncond", "0 112"),
        // pages 0 and 1 hold subpool 1
        ("getmain 1 8 2 uncond", "0 8192"),
        // 4112 to 8192 is the rest of page 1, to its last byte
        ("getmain 1 4080 1 uncond", "0 4112"),
        // the end, 8192, begins a page that holds subpool 2
        ("getmain 1 8 1 uncond", "0 12288"),
    ]);
}

#[test]
fn holes() {
    expect(&[
        ("fresh 9 9", "0 0"),
        // 0 to 104, 104 to 504, 504 to 512; then 104 to 504 is a hole of 400
        ("getmain 1 100 1 uncond", "0 0"),
        ("getmain 1 400 1 uncond", "0 104"),
        ("getmain 1 8 1 uncond", "0 504"),
        ("freemain 1 104 400 1", "0 0"),
        // 401 is 408: the hole is 8 bytes too short
        ("getmain 1 401 1 uncond", "0 512"),
        // 393 is 400: it just fits
        ("getmain 1 393 1 uncond", "0 104"),
        // 512 + 408
        ("getmain 1 1 1 uncond", "0 920"),
        // the hole again, and two areas that fill it
        ("freemain 1 104 400 1", "0 0"),
        ("getmain 1 200 1 uncond", "0 104"),
        ("getmain 1 200 1 uncond", "0 304"),
        ("getmain 1 8 1 uncond", "0 928"),
    ]);
}

#[test]
fn past_another_owner() {
    expect(&[
        ("fresh 9 9", "0 0"),
        ("attach 1 0 0 -", "0 2"),
        // task 2: 0 to 5000, pages 0 and 1
        ("getmain 2 5000 1 uncond", "0 0"),
        // the subpool's number is the same, the owner another: past the rest of page 1
        ("getmain 1 8 1 uncond", "0 8192"),
        ("getmain 2 8 1 uncond", "0 5000"),
        // the owner is the same, the subpool another; page 2 is task 1's
        ("getmain 2 8 2 uncond", "0 12288"),
        // page 0 is free now, and page 1 holds 5000 to 5008 of task 2
        ("freemain 2 0 5000 1", "0 0"),
        // the lowest is 0, though task 1 has a page with room, from 8200 on
        ("getmain 1 8 1 uncond", "0 0"),
        // 8 to 4104 meets no area, but touches page 1 by 8 bytes; so do all above it in page 0.
        // From 8200 it would touch page 3, task 2's.  Page 4 is the next.
        ("getmain 1 4096 1 uncond", "0 16384"),
        // 8 to 4096 touches page 0 only
        ("getmain 1 4088 1 uncond", "0 8"),
    ]);
}

#[test]
fn several_pages() {
    expect(&[
        ("fresh 9 9", "0 0"),
        ("attach 1 0 0 -", "0 2"),
        // page 0; pages 1 and 2; page 3; then pages 1 and 2 are free between those of task 2
        ("getmain 2 8 1 uncond", "0 0"),
        ("getmain 1 8192 1 uncond", "0 4096"),
        ("getmain 2 8 2 uncond", "0 12288"),
        ("freemain 1 4096 8192 1", "0 0"),
        // 8193 is 8200, 8 bytes too many: past page 3, 16384 to 24584
        ("getmain 1 8193 1 uncond", "0 16384"),
        // 8192 just fit
        ("getmain 1 8192 1 uncond", "0 4096"),
        // 24584 to 28584 is on page 6 (24576 to 28672), which task 1 has
        ("getmain 1 4000 1 uncond", "0 24584"),
        // the rest of page 6 is 88 bytes; task 2 may not have them
        ("getmain 2 8 3 uncond", "0 28672"),
        ("getmain 1 88 1 uncond", "0 28584"),
        ("getmain 1 8 1 uncond", "0 32768"),
    ]);
}

#[test]
fn the_steps_and_a_tasks() {
    expect(&[
        ("fresh 9 9", "0 0"),
        ("attach 1 0 0 -", "0 2"),
        ("getmain 1 8 1 uncond", "0 0"),
        // subpool 0 is the step's, whoever asks: on no page of task 1's, and one after the other
        ("getmain 2 8 0 uncond", "0 4096"),
        ("getmain 1 8 0 uncond", "0 4104"),
        ("getmain 2 8 1 uncond", "0 8192"),
        ("getmain 1 8 1 uncond", "0 8"),
        // task 2's area at 8192 goes with it; the step's stay
        ("end 2 0", "0 0"),
        ("getmain 1 8 2 uncond", "0 8192"),
        // task 1 may free what task 2 got for the step; the hole is 8 bytes, 16 don't fit
        ("freemain 1 4096 8 0", "0 0"),
        ("getmain 1 16 0 uncond", "0 4112"),
        ("getmain 1 8 0 uncond", "0 4096"),
    ]);
}

#[test]
fn the_end_of_the_region() {
    expect(&[
        ("fresh 9 9", "0 0"),
        // all but the last 8 bytes
        ("getmain 1 131064 1 uncond", "0 0"),
        // 9 is 16, beyond the region; another subpool would touch the last page
        ("getmain 1 9 1 cond", "4 0"),
        ("getmain 1 8 2 cond", "4 0"),
        ("getmain 1 8 1 cond", "0 131064"),
        ("getmain 1 1 1 cond", "4 0"),
        // the last page keeps its last 8 bytes; pages 0 to 30 have 31 * 4096 = 126976
        ("freemain 1 0 131064 1", "0 0"),
        ("getmain 1 126976 2 cond", "0 0"),
        // 4088 bytes are free before the last 8, for subpool 1 alone
        ("getmain 1 8 2 cond", "4 0"),
        ("getmain 1 4089 1 cond", "4 0"),
        ("getmain 1 4088 1 cond", "0 126976"),
        ("getmain 1 1 1 uncond", "205 0"),
    ]);
}

#[test]
fn a_lower_page_goes_before_the_end_of_an_area() {
    expect(&[
        ("fresh 9 9", "0 0"),
        ("getmain 1 8 1 uncond", "0 0"),
        ("getmain 1 8 2 uncond", "0 4096"),
        ("freemain 1 0 8 1", "0 0"),
        ("getmain 1 8 2 uncond", "0 0"),
        // from 8 on, up to 4096, it would meet the area at 4096
        ("getmain 1 4096 2 uncond", "0 4104"),
        ("getmain 1 4088 2 uncond", "0 8"),
        // 4104 + 4096
        ("getmain 1 8 2 uncond", "0 8200"),
    ]);
}
