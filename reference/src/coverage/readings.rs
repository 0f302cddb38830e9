//! Wrong readings of GETMAIN's rule of pages: requests that they would answer otherwise, so that
//! a program that takes one of them gives itself away.  (To judge the first page and the last
//! alone is not wrong: a page between them is covered, so what it holds is met.)

use std::ops::RangeInclusive;

use super::made::{Made, Test};
use super::sights::Sight;
use crate::numbers::{GRAIN, REGION};
use crate::tables::Area;

const WRONG: [(&str, Test); 5] = [
    ("answered otherwise than without pages", |made| {
        made.is_told_from(|_, _| false, |area| area.pages())
    }),
    ("answered otherwise than by the first page alone", |made| {
        made.is_told_from(is_foreign, |area| area.first_page()..=area.first_page())
    }),
    ("answered otherwise than by the last page alone", |made| {
        made.is_told_from(is_foreign, |area| area.last_page()..=area.last_page())
    }),
    ("answered otherwise than by owners alone", |made| {
        made.is_told_from(|a, b| a.owner != b.owner, |area| area.pages())
    }),
    ("answered otherwise than by subpools alone", |made| {
        made.is_told_from(|a, b| a.subpool != b.subpool, |area| area.pages())
    }),
];

/// All that is looked for.
pub fn looked_for() -> Vec<(Sight, Test)> {
    WRONG.iter().map(|(what, test)| (("getmain", *what), *test)).collect()
}

/// Are two areas of different holders?
type Foreign = fn(&Area, &Area) -> bool;
/// Which pages of the area are judged?
type Judged = fn(&Area) -> RangeInclusive<u64>;

fn is_foreign(a: &Area, b: &Area) -> bool {
    !a.same_owner_and_subpool(b)
}

fn may_lie(areas: &[Area], tried: &Area, foreign: Foreign, judged: Judged) -> bool {
    areas.iter().all(|there| {
        let apart = tried.end() <= there.address as u64 || there.end() <= tried.address as u64;
        let barred = || judged(tried).any(|page| there.pages().contains(&page));
        apart && !(foreign(tried, there) && barred())
    })
}

impl<'a> Made<'a> {
    /// Was a search made, and would it by this reading have come to another address, or to none,
    /// or to one where there was none?
    fn is_told_from(&self, foreign: Foreign, judged: Judged) -> bool {
        let found = match self.answer.number {
            0 => Some(self.answer.value),
            4 | 205 => None,
            _ => return false,
        };
        let (areas, wanted) = (self.before.used_areas(), self.wanted());
        let mut addresses = (0..=REGION - wanted.length).step_by(GRAIN as usize);
        let fits = |address: u32| may_lie(areas, &Area { address, ..wanted }, foreign, judged);
        addresses.find(|address| fits(*address)) != found
    }
}
