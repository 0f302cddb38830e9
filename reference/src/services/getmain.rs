//! GETMAIN

use crate::ending::program_error;
use crate::numbers::{rounded, AREAS, GRAIN, REGION};
use crate::request::Answer;
use crate::tables::{Area, Step};

/// "Subpool 0 belongs to the step, any other to the calling task."
pub fn owner_of(subpool: u32, caller: u32) -> u32 {
    if subpool == 0 {
        0
    } else {
        caller
    }
}

/// A way to find the address, from the areas that there are, by rising address, and the area
/// that is wanted, whose address doesn't count.
pub type Search = fn(&[Area], &Area) -> Option<u32>;

/// "If none exists: answer 4, address 0 and nothing changed when conditional, error 205
/// when not."
pub fn getmain(
    step: &mut Step,
    caller: u32,
    length: u32,
    subpool: u32,
    conditional: bool,
    search: Search,
) -> Answer {
    // 107: GETMAIN with 128 areas in use (before any search)
    if step.area_count == AREAS {
        return Answer::refused(107);
    }
    let wanted =
        Area { address: 0, length: rounded(length), subpool, owner: owner_of(subpool, caller) };
    match search(step.used_areas(), &wanted) {
        Some(address) => {
            insert(step, Area { address, ..wanted });
            Answer::done(address)
        }
        None if conditional => Answer { number: 4, value: 0 },
        None => program_error(step, caller, 205),
    }
}

/// "The answer is the lowest multiple of 8 at which the area lies in the region, meets no area,
/// and touches no page that holds an area of another owner or subpool."  Each multiple of 8 is
/// tried in turn, from 0 on, and the first that passes is the answer.  From where the area would
/// end beyond the region, no higher one has it in the region.
pub fn lowest_fit(areas: &[Area], wanted: &Area) -> Option<u32> {
    let mut tried = Area { address: 0, ..*wanted };
    while lies_in_the_region(&tried) {
        if !areas.iter().any(|there| meets(&tried, there) || touches_a_page_of(&tried, there)) {
            return Some(tried.address);
        }
        tried.address += GRAIN;
    }
    None
}

/// "lies in the region": no address is below 0, so its end decides.
fn lies_in_the_region(tried: &Area) -> bool {
    tried.end() <= REGION as u64
}

/// "meets no area": they have a byte in common.
fn meets(tried: &Area, there: &Area) -> bool {
    (tried.address as u64) < there.end() && (there.address as u64) < tried.end()
}

/// "touches no page that holds an area of another owner or subpool": each page that it touches is
/// judged, and a page holds an area that has a byte there.
fn touches_a_page_of(tried: &Area, there: &Area) -> bool {
    !tried.same_owner_and_subpool(there) && tried.pages().any(|page| there.pages().contains(&page))
}

/// "areas by rising address"
fn insert(step: &mut Step, area: Area) {
    let place = step.used_areas().iter().take_while(|there| there.address < area.address).count();
    for i in (place..step.area_count).rev() {
        step.areas[i + 1] = step.areas[i];
    }
    step.areas[place] = area;
    step.area_count += 1;
}
