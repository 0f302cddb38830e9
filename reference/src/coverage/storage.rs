//! What GETMAIN comes to: which address it gives, what it goes past, and what bars it where it
//! gives none.  A holder is an owner with a subpool; a run is what lies free between two areas
//! that follow each other, or before the first or past the last of them.

use super::made::{Made, Test};
use super::sights::Sight;
use crate::numbers::{rounded, GRAIN, PAGE, REGION};
use crate::request::Request;
use crate::services::getmain::{lowest_fit, owner_of};
use crate::tables::Area;

/// Which address was given.
const GIVEN: [(&str, Test); 8] = [
    ("gave address 0", |made| made.gave(|area| area.address == 0)),
    ("gave a page start, not 0 and no area's end", |made| {
        made.gave(|area| area.address != 0 && starts_page(area) && !made.follows(area, |_| true))
    }),
    ("gave the end of its holder's area, no page start", |made| {
        made.gave(|area| !starts_page(area) && made.follows(area, |there| holds(there, area)))
    }),
    ("gave the end of its holder's area, a page start", |made| {
        made.gave(|area| starts_page(area) && made.follows(area, |there| holds(there, area)))
    }),
    ("gave the end of another holder's area", |made| {
        made.gave(|area| made.follows(area, |there| !holds(there, area)))
    }),
    ("gave an area of more than one page", |made| {
        made.gave(|area| area.first_page() < area.last_page())
    }),
    ("gave an area of more than one page from the middle of one", |made| {
        made.gave(|area| !starts_page(area) && area.first_page() < area.last_page())
    }),
    ("gave the end of the region", |made| made.gave(|area| area.end() == REGION as u64)),
];

/// What lies about the area that was given.
const ABOUT: [(&str, Test); 10] = [
    ("gave a hole below an area of its holder", |made| {
        made.gave_beside(|area, there| holds(there, area) && area.end() <= there.address as u64)
    }),
    ("gave a hole that just fits between two areas of its holder", |made| {
        made.gave(|area| {
            let holder_is_next =
                |there: &Area| holds(there, area) && area.end() == there.address as u64;
            made.follows(area, |there| holds(there, area))
                && made.before.used_areas().iter().any(holder_is_next)
        })
    }),
    ("gave a hole that just fits below another holder's page", |made| {
        made.gave_beside(|area, there| {
            !holds(there, area) && area.end() == there.first_page() * PAGE as u64
        })
    }),
    ("passed over a hole 8 bytes too short", |made| {
        made.gave(|area| {
            let is_such = |run: &Run| run.1 <= area.address as u64 && is_8_short(run, area);
            made.runs().iter().any(is_such)
        })
    }),
    ("passed over a run long enough", |made| {
        made.gave(|area| {
            let is_such = |run: &Run| run.1 <= area.address as u64 && is_enough(run, area);
            made.runs().iter().any(is_such)
        })
    }),
    ("went past another holder's area that ends in the middle of a page", |made| {
        made.gave_beside(goes_past)
    }),
    ("went past another holder's area though the rest of its page is long enough", |made| {
        made.gave_beside(|area, there| {
            goes_past(area, there) && area.address as u64 - there.end() >= area.length as u64
        })
    }),
    ("went past another holder's area of more than one page", |made| {
        made.gave_beside(|area, there| {
            goes_past(area, there) && there.first_page() < there.last_page()
        })
    }),
    ("went past the step's area for a task", |made| {
        made.gave_beside(|area, there| goes_past(area, there) && there.owner == 0)
    }),
    ("went past a task's area for the step", |made| {
        made.gave_beside(|area, there| goes_past(area, there) && area.owner == 0)
    }),
];

/// No address was given, though one might have been looked for.
const NONE: [(&str, Test); 8] = [
    ("answered 4 though bytes enough are free", |made| {
        made.answer.number == 4 && made.bytes_are_enough()
    }),
    ("answered 4 though a run is long enough", |made| {
        made.answer.number == 4 && made.a_run_is_enough()
    }),
    ("answered 4 as every run is too short, though bytes enough are free", |made| {
        made.answer.number == 4 && made.bytes_are_enough() && !made.a_run_is_enough()
    }),
    ("answered 205 though bytes enough are free", |made| {
        made.answer.number == 205 && made.bytes_are_enough()
    }),
    ("answered 205 though a run is long enough", |made| {
        made.answer.number == 205 && made.a_run_is_enough()
    }),
    ("answered 205 as every run is too short, though bytes enough are free", |made| {
        made.answer.number == 205 && made.bytes_are_enough() && !made.a_run_is_enough()
    }),
    ("answered 107 though there is room", |made| made.answer.number == 107 && made.has_room()),
    ("answered 107 where there is no room", |made| made.answer.number == 107 && !made.has_room()),
];

/// All that is looked for.
pub fn looked_for() -> Vec<(Sight, Test)> {
    let all = GIVEN.iter().chain(&ABOUT).chain(&NONE);
    all.map(|(what, test)| (("getmain", *what), *test)).collect()
}

/// The first address of a run, and the first past it.
type Run = (u64, u64);

fn is_enough(run: &Run, area: &Area) -> bool {
    run.1 - run.0 >= area.length as u64
}

fn is_8_short(run: &Run, area: &Area) -> bool {
    run.0 < run.1 && run.1 - run.0 + GRAIN as u64 == area.length as u64
}

fn starts_page(area: &Area) -> bool {
    area.address % PAGE == 0
}

/// Is this area of the same holder?
fn holds(there: &Area, area: &Area) -> bool {
    there.same_owner_and_subpool(area)
}

/// Does the area begin with the page after the other holder's last, which that one doesn't fill?
fn goes_past(area: &Area, there: &Area) -> bool {
    !holds(there, area)
        && there.end() % PAGE as u64 != 0
        && area.address as u64 == (there.last_page() + 1) * PAGE as u64
}

impl<'a> Made<'a> {
    /// The area that was asked for, wherever.
    pub fn wanted(&self) -> Area {
        match self.request {
            Request::Getmain { caller, length, subpool, .. } => {
                let owner = owner_of(subpool, caller);
                Area { address: 0, length: rounded(length), subpool, owner }
            }
            _ => Area::NONE,
        }
    }

    /// Was an area given, and does it pass?
    fn gave<F: Fn(&Area) -> bool>(&self, test: F) -> bool {
        self.answer.number == 0 && test(&Area { address: self.answer.value, ..self.wanted() })
    }

    /// Was an area given that passes beside one of those that there were?
    fn gave_beside<F: Fn(&Area, &Area) -> bool>(&self, test: F) -> bool {
        self.gave(|area| self.before.used_areas().iter().any(|there| test(area, there)))
    }

    /// Is its address the end of an area that passes?
    fn follows<F: Fn(&Area) -> bool>(&self, area: &Area, test: F) -> bool {
        let areas = self.before.used_areas();
        areas.iter().any(|there| there.end() == area.address as u64 && test(there))
    }

    /// What lay free, from an area's end to the next one's start.
    fn runs(&self) -> Vec<Run> {
        let areas = self.before.used_areas();
        let starts = [0].into_iter().chain(areas.iter().map(|there| there.end()));
        let ends = areas.iter().map(|there| there.address as u64).chain([REGION as u64]);
        starts.zip(ends).collect()
    }

    fn a_run_is_enough(&self) -> bool {
        self.runs().iter().any(|run| is_enough(run, &self.wanted()))
    }

    fn bytes_are_enough(&self) -> bool {
        let free: u64 = self.runs().iter().map(|run| run.1 - run.0).sum();
        free >= self.wanted().length as u64
    }

    fn has_room(&self) -> bool {
        lowest_fit(self.before.used_areas(), &self.wanted()).is_some()
    }
}
