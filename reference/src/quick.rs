//! A short walk to GETMAIN's address.  It is a yardstick of speed and nothing else: others are
//! timed beside it (`reference quick`), since beside a search that tries each multiple of 8 any
//! program would look fast.  Whatever is compared with others, `services::getmain::lowest_fit`
//! answers.

use crate::numbers::{PAGE, REGION};
use crate::tables::Area;

/// One walk by rising address: an area that hinders at one address hinders at every higher one
/// up to its end (or the end of its last page), and those walked past lie lower.
pub fn lowest_fit(areas: &[Area], wanted: &Area) -> Option<u32> {
    let mut tried = Area { address: 0, ..*wanted };
    for there in areas {
        if hinders(there, &tried) {
            tried.address = if there.same_owner_and_subpool(wanted) {
                there.address + there.length
            } else {
                (there.last_page() as u32 + 1) * PAGE
            };
        }
    }
    if tried.end() <= REGION as u64 {
        Some(tried.address)
    } else {
        None
    }
}

/// Why an area can't lie where it is: it meets the other one, or, of another owner or subpool,
/// touches one of its pages.
fn hinders(there: &Area, tried: &Area) -> bool {
    if there.same_owner_and_subpool(tried) {
        (tried.address as u64) < there.end() && (there.address as u64) < tried.end()
    } else {
        tried.first_page() <= there.last_page() && there.first_page() <= tried.last_page()
    }
}
