//! Shortened walks against the words of the document, over many tables.

use crate::control::has_control;
use crate::names::Name;
use crate::numbers::{GRAIN, PAGE, REGION, TASKS};
use crate::quick;
use crate::random::Random;
use crate::reports::stuck;
use crate::rings::Waits;
use crate::runner::Runner;
use crate::services::getmain;
use crate::sound::is_sound;
use crate::tables::{Area, Named};

fn meets(a: &Area, b: &Area) -> bool {
    (a.address as u64) < b.end() && (b.address as u64) < a.end()
}

fn shares_a_page(a: &Area, b: &Area) -> bool {
    (0..REGION / PAGE)
        .map(|page| Area { address: page * PAGE, length: PAGE, ..Area::NONE })
        .any(|page| meets(a, &page) && meets(b, &page))
}

fn may_lie(areas: &[Area], tried: &Area) -> bool {
    areas.iter().all(|there| {
        !meets(there, tried)
            && (there.same_owner_and_subpool(tried) || !shares_a_page(there, tried))
    })
}

/// A third voice: the first run that is long enough, on a map of the region that says of each 8
/// bytes whether they are taken by an area or lie on a page of another holder.
fn fit_on_a_map(areas: &[Area], wanted: &Area) -> Option<u32> {
    let grains = (REGION / GRAIN) as usize;
    let mut closed = vec![false; grains];
    for area in areas {
        let (mut first, mut end) = (area.address, area.address + area.length);
        if !area.same_owner_and_subpool(wanted) {
            first = first / PAGE * PAGE;
            end = ((end - 1) / PAGE + 1) * PAGE;
        }
        (first / GRAIN..end / GRAIN).for_each(|grain| closed[grain as usize] = true);
    }
    let mut run = 0;
    for grain in 0..grains {
        run = if closed[grain] { 0 } else { run + 1 };
        if run == (wanted.length / GRAIN) as usize {
            return Some((grain + 1 - run) as u32 * GRAIN);
        }
    }
    None
}

/// What the three searches agree on.
fn fit(areas: &[Area], wanted: &Area) -> Option<u32> {
    let found = getmain::lowest_fit(areas, wanted);
    assert_eq!(found, quick::lowest_fit(areas, wanted), "{:?} in {:?}", wanted, areas);
    assert_eq!(found, fit_on_a_map(areas, wanted), "{:?} in {:?}", wanted, areas);
    found
}

/// Document 02, section 4: "Only the region's start, page starts and the ends of areas can be the
/// lowest fit."  Which of these it is: 0 for none, 1 for the region's start, 2 for a page start, 3
/// for the end of an area, 4 for both, 5 for an end below an area of the same holder.
fn sort_of(areas: &[Area], wanted: &Area, found: Option<u32>) -> usize {
    let address = match found {
        Some(address) => address,
        None => return 0,
    };
    let ends = areas.iter().any(|there| there.end() == address as u64);
    let below = |there: &Area| there.same_owner_and_subpool(wanted) && address < there.address;
    match (address, address % PAGE == 0, ends) {
        (0, _, _) => 1,
        (_, true, false) => 2,
        (_, true, true) => 4,
        (_, false, true) => 3 + 2 * areas.iter().any(below) as usize,
        _ => panic!("{:?} at {} in {:?}", wanted, address, areas),
    }
}

/// An area of one of five holders, mostly small, now and then of whole pages.
fn some_area(random: &mut Random) -> Area {
    let most = random.pick(&[20, 200, 200, 3000]);
    let mut length = (1 + random.below(most)) * GRAIN;
    if random.one_in(8) {
        length = (1 + random.below(3)) * PAGE;
    }
    let subpool = random.below(3);
    let owner = if subpool == 0 { 0 } else { 1 + random.below(2) };
    Area { address: 0, length, subpool, owner }
}

/// Tables as GETMAIN and FREEMAIN make them.
#[test]
fn the_lowest_fit_in_tables_of_a_run() {
    let mut random = Random::new(5);
    let mut areas: Vec<Area> = Vec::new();
    let mut seen = [0; 6];
    for turn in 0..2000 {
        if turn % 250 == 0 {
            areas.clear();
        }
        if !areas.is_empty() && random.one_in(3) {
            let gone = random.below(areas.len() as u32) as usize;
            areas.remove(gone);
        }
        let wanted = some_area(&mut random);
        let found = fit(&areas, &wanted);
        seen[sort_of(&areas, &wanted, found)] += 1;
        if let Some(address) = found {
            areas.push(Area { address, ..wanted });
            areas.sort_by_key(|area| area.address);
        }
    }
    assert!(seen.iter().all(|count| *count > 10), "{:?}", seen);
}

/// Areas that obey GETMAIN's rules, wherever they lie, as pokes may put them.
#[test]
fn the_lowest_fit_wherever_areas_lie() {
    let mut random = Random::new(9);
    let mut seen = [0; 6];
    for _ in 0..500 {
        let mut areas: Vec<Area> = Vec::new();
        for _ in 0..random.pick(&[3, 30, 300]) {
            let grain = random.pick(&[GRAIN, GRAIN, PAGE]);
            let address = random.below(REGION / grain) * grain;
            let area = Area { address, ..some_area(&mut random) };
            if area.end() <= REGION as u64 && may_lie(&areas, &area) {
                areas.push(area);
            }
        }
        areas.sort_by_key(|area| area.address);
        for _ in 0..5 {
            let wanted = some_area(&mut random);
            let found = fit(&areas, &wanted);
            seen[sort_of(&areas, &wanted, found)] += 1;
        }
    }
    assert!(seen.iter().all(|count| *count > 10), "{:?}", seen);
}

/// Neighbours only, against every pair.
#[test]
fn areas_apart_for_every_pair() {
    let mut random = Random::new(6);
    let mut runner = Runner::new();
    let mut seen = [0; 2];
    for _ in 0..4_000 {
        runner.take(b"fresh 9 9");
        runner.take(b"attach 1 0 0 -");
        let mut address = 0;
        let count = 1 + random.below(5) as usize;
        for i in 0..count {
            address += random.below(300) * GRAIN;
            let subpool = random.below(2);
            let owner = subpool * (1 + random.below(2));
            runner.step.areas[i] =
                Area { address, length: GRAIN * (1 + random.below(200)), subpool, owner };
        }
        runner.step.count_places();
        let areas = runner.step.used_areas();
        let mut right = true;
        for i in 0..areas.len() {
            right &= areas[i].end() <= REGION as u64 && may_lie(&areas[..i], &areas[i]);
            right &= i == 0 || areas[i - 1].address < areas[i].address;
        }
        assert_eq!(is_sound(&runner.step), right, "{:?}", areas);
        seen[right as usize] += 1;
    }
    assert!(seen[0] > 400 && seen[1] > 400);
}

/// "first for its name, or when it and every entry before it for that name are shared"
#[test]
fn control_by_its_words() {
    let mut random = Random::new(7);
    for _ in 0..20_000 {
        let mut entries = [Named { task: 0, excl: 0, name: Name::NONE }; 8];
        for entry in entries.iter_mut() {
            entry.excl = random.below(2);
            entry.name = Name { length: 1 + random.below(2), ..Name::NONE };
        }
        for i in 0..entries.len() {
            let mut before = entries[..i].iter().filter(|e| e.name == entries[i].name).peekable();
            let first = before.peek().is_none();
            let shared = entries[i].excl == 0 && before.all(|e| e.excl == 0);
            assert_eq!(has_control(&entries, i), first || shared);
        }
    }
}

/// "A has an entry without control and B an earlier one for that name, one of the two being
/// exclusive"
fn waits_at(entries: &[Named], place: usize, b: u32) -> bool {
    let entry = &entries[place];
    let bars = |e: &Named| e.name == entry.name && (e.excl == 1 || entry.excl == 1);
    b != entry.task
        && !has_control(entries, place)
        && entries[..place].iter().any(|e| e.task == b && bars(e))
}

fn places_of(entries: &[Named], task: u32) -> impl Iterator<Item = usize> + '_ {
    (0..entries.len()).filter(move |place| entries[*place].task == task)
}

/// Is there a chain of so many steps or fewer from one task to another?
fn steps_lead(waits: &[Vec<bool>], from: usize, to: usize, most: u32) -> bool {
    waits[from][to]
        || (most > 1
            && (0..waits.len()).any(|b| waits[from][b] && steps_lead(waits, b, to, most - 1)))
}

/// Queues of a few tasks, the numbers up to 32: rings and the first report by the words.
#[test]
fn rings_by_their_words() {
    let mut random = Random::new(8);
    let tasks = [1, 2, 9, 31, 32];
    let mut seen = [0; 6];
    for _ in 0..20_000 {
        let mut entries = Vec::new();
        for _ in 0..random.between(2, 16) {
            let name = Name { length: 1 + random.below(4), ..Name::NONE };
            let task = random.pick(&tasks);
            if !entries.iter().any(|e: &Named| e.task == task && e.name == name) {
                entries.push(Named { task, excl: random.below(2), name });
            }
        }
        let waits_for = |a, b| places_of(&entries, a).any(|place| waits_at(&entries, place, b));
        let waits: Vec<Vec<bool>> =
            tasks.iter().map(|a| tasks.iter().map(|b| waits_for(*a, *b)).collect()).collect();
        let on_ring = |i: usize| steps_lead(&waits, i, i, tasks.len() as u32);
        let stuck: Vec<u32> = (0..5).filter(|i| on_ring(*i)).map(|i| tasks[i]).collect();
        let marks = Waits::among(&entries).on_rings();
        let marked: Vec<u32> = (1..=TASKS).filter(|task| marks[*task as usize]).collect();
        assert_eq!(marked, stuck, "{:?}", entries);
        check_items(&entries, &stuck);
        seen[stuck.len()] += 1;
    }
    assert!(seen[1] == 0 && seen.iter().filter(|count| **count > 20).count() == 5, "{:?}", seen);
}

/// Each stuck task once; no earlier entry and no earlier partner would do.
fn check_items(entries: &[Named], stuck: &[u32]) {
    let items = stuck::list(entries);
    assert_eq!(items.iter().map(|item| item.task).collect::<Vec<u32>>(), stuck);
    for item in items {
        let waits_there = |place: &usize| stuck.iter().any(|b| waits_at(entries, *place, *b));
        let place = places_of(entries, item.task).find(waits_there).unwrap();
        assert_eq!(item.name, entries[place].name);
        let first = |b: u32| entries.iter().position(|e| e.task == b && e.name == item.name);
        let partners = stuck.iter().filter(|b| waits_at(entries, place, **b));
        assert_eq!(Some(&item.partner), partners.min_by_key(|b| first(**b)));
    }
}
