//! What coverage says of a GETMAIN: tables that were poked, one request, and all that it shows.

use super::answers;
use crate::coverage::{self, readings, storage};

/// What is shown by the one GETMAIN of a script that pokes these areas (address, length, subpool,
/// owner) into a step with task 2 besides; `answer` is what it has to answer.
fn shown(areas: &[[u32; 4]], line: &str, answer: &str) -> Vec<String> {
    let mut script = "fresh 9 9\nattach 1 0 0 -\n".to_string();
    for (i, area) in areas.iter().enumerate() {
        for (field, value) in ["address", "length", "subpool", "owner"].iter().zip(area) {
            script += &format!("poke area {} {} {}\n", i, field, value);
        }
    }
    script += line;
    assert_eq!(answers(&script).pop().unwrap(), answer, "{}", script);
    let mut out = Vec::new();
    coverage::report(&mut script.as_bytes(), &mut out).unwrap();
    let text = String::from_utf8(out).unwrap();
    let all = storage::looked_for().into_iter().chain(readings::looked_for());
    let is_shown = |what: &&str| text.lines().any(|l| l == format!("getmain {}: 1", what));
    all.map(|(sight, _)| sight.1).filter(is_shown).map(|what| what.to_string()).collect()
}

const PAGE_START: &str = "gave a page start, not 0 and no area's end";
const OWN_END: &str = "gave the end of its holder's area, no page start";
const PAST: &str = "went past another holder's area that ends in the middle of a page";
const REST: &str = "went past another holder's area though the rest of its page is long enough";
const NO_PAGES: &str = "answered otherwise than without pages";
const FIRST_PAGE: &str = "answered otherwise than by the first page alone";
const LAST_PAGE: &str = "answered otherwise than by the last page alone";
const OWNERS: &str = "answered otherwise than by owners alone";
const SUBPOOLS: &str = "answered otherwise than by subpools alone";

#[test]
fn addresses() {
    let own = |length| [[0, length, 1, 1]];
    assert_eq!(shown(&[], "getmain 1 8 1 cond", "0 0"), ["gave address 0"]);
    assert_eq!(shown(&own(104), "getmain 1 8 1 cond", "0 104"), [OWN_END]);
    let at_page = ["gave the end of its holder's area, a page start"];
    assert_eq!(shown(&own(4096), "getmain 1 8 1 cond", "0 4096"), at_page);
    let others = ["gave the end of another holder's area"];
    assert_eq!(shown(&own(4096), "getmain 1 8 2 cond", "0 4096"), others);
    let pages = "gave an area of more than one page";
    let from_middle = "gave an area of more than one page from the middle of one";
    assert_eq!(shown(&own(8), "getmain 1 4096 1 cond", "0 8"), [OWN_END, pages, from_middle]);
    let last = [OWN_END, "gave the end of the region"];
    assert_eq!(shown(&own(131064), "getmain 1 8 1 cond", "0 131064"), last);
}

#[test]
fn holes() {
    let areas = [[0, 104, 1, 1], [504, 8, 1, 1]];
    let below = "gave a hole below an area of its holder";
    let fits = "gave a hole that just fits between two areas of its holder";
    assert_eq!(shown(&areas, "getmain 1 392 1 cond", "0 104"), [OWN_END, below]);
    assert_eq!(shown(&areas, "getmain 1 400 1 cond", "0 104"), [OWN_END, below, fits]);
    let short = [OWN_END, "passed over a hole 8 bytes too short"];
    assert_eq!(shown(&areas, "getmain 1 401 1 cond", "0 512"), short);
    assert_eq!(shown(&areas, "getmain 1 409 1 cond", "0 512"), [OWN_END]);
}

#[test]
fn other_holders() {
    let past = |which: [u32; 2]| [[0, 8, which[0], which[1]]];
    let of_task_2 = shown(&past([1, 2]), "getmain 1 8 1 cond", "0 4096");
    assert_eq!(of_task_2, [PAGE_START, PAST, REST, NO_PAGES, SUBPOOLS]);
    let of_subpool_2 = shown(&past([2, 1]), "getmain 1 8 1 cond", "0 4096");
    assert_eq!(of_subpool_2, [PAGE_START, PAST, REST, NO_PAGES, OWNERS]);
    let for_step = "went past a task's area for the step";
    let of_task_1 = shown(&past([1, 1]), "getmain 1 8 0 cond", "0 4096");
    assert_eq!(of_task_1, [PAGE_START, PAST, REST, for_step, NO_PAGES]);
    let (pages, of_step) = (
        "went past another holder's area of more than one page",
        "went past the step's area for a task",
    );
    let of_the_step = shown(&[[0, 5000, 0, 0]], "getmain 1 8 1 cond", "0 8192");
    assert_eq!(of_the_step, [PAGE_START, PAST, REST, pages, of_step, NO_PAGES]);
    // 8 to 4104 touches page 1 by 8 bytes, 8 to 4096 doesn't
    let areas = [[0, 8, 1, 1], [5000, 8, 1, 2]];
    let run = "passed over a run long enough";
    let touches = shown(&areas, "getmain 1 4096 1 cond", "0 8192");
    assert_eq!(touches, [PAGE_START, run, PAST, NO_PAGES, FIRST_PAGE, LAST_PAGE, SUBPOOLS]);
    let fits = [OWN_END, "gave a hole that just fits below another holder's page"];
    assert_eq!(shown(&areas, "getmain 1 4088 1 cond", "0 8"), fits);
}

#[test]
fn no_address() {
    let on_each_page = |owner| (0..32).map(|page| [page * 4096, 8, 1, owner]).collect::<Vec<_>>();
    for (how, number) in [("cond", 4), ("uncond", 205)].iter() {
        let answer = format!("{} 0", number);
        let line = |length: u32| format!("getmain 1 {} 1 {}", length, how);
        let bytes = format!("answered {} though bytes enough are free", number);
        let run = format!("answered {} though a run is long enough", number);
        let barred = shown(&on_each_page(2), &line(8), &answer);
        assert_eq!(barred, [bytes.as_str(), &run, NO_PAGES, SUBPOOLS]);
        let every = "every run is too short, though bytes enough are free";
        let short = shown(&on_each_page(1), &line(4096), &answer);
        assert_eq!(short, [bytes, format!("answered {} as {}", number, every)]);
        // 32 * 4088 = 130816 bytes are free
        assert!(shown(&on_each_page(1), &line(130824), &answer).is_empty());
    }
    let full: Vec<[u32; 4]> = (0..128).map(|k| [8 * k, 8, 1, 1]).collect();
    let room = shown(&full, "getmain 1 8 1 cond", "107 0");
    assert_eq!(room, ["answered 107 though there is room"]);
    let none = shown(&full, "getmain 1 131072 1 cond", "107 0");
    assert_eq!(none, ["answered 107 where there is no room"]);
}

/// Only a request that was served shows something.
#[test]
fn refusals() {
    let area = [[0, 8, 1, 2]];
    assert!(shown(&area, "getmain 1 0 1 cond", "101 0").is_empty());
    assert!(shown(&area, "getmain 3 8 1 cond", "102 0").is_empty());
    assert!(shown(&[[4, 8, 1, 2]], "getmain 1 8 1 cond", "100 0").is_empty());
}
