//! What the two reports can show: how their lists fit the room, and what stands in them.

use crate::control::{clash, has_control};
use crate::numbers::{ENTRIES, TASKS};
use crate::reports::queues::{self, Queued};
use crate::reports::stuck::{self, Stuck};
use crate::reports::Report;
use crate::rings::Waits;
use crate::runner::Runner;
use crate::tables::Named;

/// The word of a report or request, and what it shows.
pub type Sight = (&'static str, &'static str);

/// Of both: the room that was lent, and what the list needs.
const ROOMS: [(&str, fn(usize, usize) -> bool); 5] = [
    ("had room for one item too few", |room, needed| room + 1 == needed),
    ("had exact room", |room, needed| 0 < needed && room == needed),
    ("had more room", |room, needed| 0 < needed && needed < room),
    ("listed nothing", |_, needed| needed == 0),
    ("listed nothing in an empty area", |room, needed| needed == 0 && room == 0),
];

/// Of the first report's list.
const STUCK: [(&str, fn(&[Named], &[Stuck]) -> bool); 12] = [
    ("listed a ring", |_, items| !items.is_empty()),
    ("listed a ring with task 1", |_, items| items.iter().any(|item| item.task == 1)),
    ("listed a ring with task 32", |_, items| items.iter().any(|item| item.task == TASKS)),
    ("listed all 32 tasks", |_, items| items.len() == TASKS as usize),
    ("listed two that name each other", two_name_each_other),
    ("listed two without a common ring", two_without_a_common_ring),
    ("named a partner who names another", partner_names_another),
    ("named a partner on another ring", partner_on_another_ring),
    ("named a later entry than one that waits", later_entry_named),
    ("passed over an entry of a task not stuck", other_passed_over),
    ("passed over a shared entry of a stuck task", shared_passed_over),
    ("left out a task that waits for a stuck one", waiting_left_out),
];

/// Of the second report's list.
const QUEUES: [(&str, fn(&[Named], &[Queued]) -> bool); 5] = [
    ("listed 128 entries", |_, items| items.len() == ENTRIES),
    ("listed several owners of a name", several_owners),
    ("listed an owner that waits elsewhere", owner_waits_elsewhere),
    ("listed a shared waiter behind a shared owner", shared_behind_shared),
    ("brought entries together that stand apart", entries_brought_together),
];

/// All that is looked for.
pub fn all() -> Vec<Sight> {
    let mut all = Vec::new();
    for word in ["stuck", "queues"].iter() {
        all.extend(ROOMS.iter().map(|(what, _)| (*word, *what)));
    }
    all.extend(STUCK.iter().map(|(what, _)| ("stuck", *what)));
    all.extend(QUEUES.iter().map(|(what, _)| ("queues", *what)));
    all
}

/// What the report just made shows; the step is sound and runs.
pub fn seen(runner: &Runner, report: Report) -> Vec<Sight> {
    let entries = &runner.step.queue()[..];
    match report {
        Report::Stuck => {
            seen_in("stuck", entries, &stuck::list(entries), runner.stuck.len(), &STUCK)
        }
        Report::Queues => {
            seen_in("queues", entries, &queues::list(entries), runner.queued.len(), &QUEUES)
        }
    }
}

fn seen_in<T>(
    word: &'static str,
    entries: &[Named],
    items: &[T],
    room: usize,
    shown: &[(&'static str, fn(&[Named], &[T]) -> bool)],
) -> Vec<Sight> {
    let needed = items.len();
    let fit = ROOMS.iter().filter(|(_, test)| test(room, needed)).map(|(what, _)| *what);
    let told = shown.iter().filter(|(_, test)| needed <= room && test(entries, items));
    fit.chain(told.map(|(what, _)| *what)).map(|what| (word, what)).collect()
}

fn item_of(items: &[Stuck], task: u32) -> Option<&Stuck> {
    items.iter().find(|item| item.task == task)
}

/// The place of the entry that an item names.
fn place_of(entries: &[Named], item: &Stuck) -> usize {
    let named = |e: &Named| e.task == item.task && e.name == item.name;
    entries.iter().position(named).unwrap_or(0)
}

fn two_name_each_other(_: &[Named], items: &[Stuck]) -> bool {
    let back = |item: &Stuck| item_of(items, item.partner).map(|other| other.partner);
    items.iter().any(|item| back(item) == Some(item.task))
}

fn partner_names_another(_: &[Named], items: &[Stuck]) -> bool {
    let back = |item: &Stuck| item_of(items, item.partner).map(|other| other.partner);
    items.iter().any(|item| back(item) != Some(item.task))
}

fn two_without_a_common_ring(entries: &[Named], items: &[Stuck]) -> bool {
    let waits = Waits::among(entries);
    items.iter().any(|item| !waits.share_a_ring(items[0].task, item.task))
}

fn partner_on_another_ring(entries: &[Named], items: &[Stuck]) -> bool {
    let waits = Waits::among(entries);
    items.iter().any(|item| !waits.share_a_ring(item.task, item.partner))
}

fn later_entry_named(entries: &[Named], items: &[Stuck]) -> bool {
    let lacks = |place: usize| !has_control(entries, place);
    items.iter().any(|item| {
        (0..place_of(entries, item)).any(|place| entries[place].task == item.task && lacks(place))
    })
}

/// Is an entry ahead of the partner's, for the item's name, of this sort?
fn passed_over<F>(entries: &[Named], items: &[Stuck], sort: F) -> bool
where
    F: Fn(&Named, &Named) -> bool,
{
    items.iter().any(|item| {
        let entry = &entries[place_of(entries, item)];
        let queue = entries.iter().filter(|e| e.name == item.name);
        let mut ahead = queue.take_while(|e| e.task != item.partner);
        ahead.any(|e| sort(e, entry))
    })
}

fn other_passed_over(entries: &[Named], items: &[Stuck]) -> bool {
    passed_over(entries, items, |e, entry| item_of(items, e.task).is_none() && clash(e, entry))
}

fn shared_passed_over(entries: &[Named], items: &[Stuck]) -> bool {
    passed_over(entries, items, |e, entry| item_of(items, e.task).is_some() && !clash(e, entry))
}

fn waiting_left_out(entries: &[Named], items: &[Stuck]) -> bool {
    let waits = Waits::among(entries);
    let waits_for_stuck = |task: u32| {
        let reached = waits.reached_from(task);
        items.iter().any(|item| reached[item.task as usize])
    };
    (1..=TASKS).any(|task| item_of(items, task).is_none() && waits_for_stuck(task))
}

fn several_owners(_: &[Named], items: &[Queued]) -> bool {
    items.windows(2).any(|pair| pair[0].name == pair[1].name && pair[1].owns)
}

fn owner_waits_elsewhere(_: &[Named], items: &[Queued]) -> bool {
    let waits = |task: u32| items.iter().any(|item| item.task == task && !item.owns);
    items.iter().any(|item| item.owns && waits(item.task))
}

fn shared_behind_shared(entries: &[Named], _: &[Queued]) -> bool {
    let shared_owner = |e: &Named| {
        entries.iter().position(|first| first.name == e.name).map(|i| entries[i].excl == 0)
    };
    (0..entries.len()).any(|place| {
        let entry = &entries[place];
        entry.excl == 0 && !has_control(entries, place) && shared_owner(entry) == Some(true)
    })
}

fn entries_brought_together(entries: &[Named], items: &[Queued]) -> bool {
    entries.iter().zip(items).any(|(entry, item)| entry.name != item.name)
}
