//! The two reports of document 02, section 1, worked by hand.

use super::{answers, dumped};
use crate::names::Name;
use crate::reports::queues::{self, Queued};
use crate::reports::report;
use crate::reports::stuck::{self, Stuck};
use crate::request::Answer;
use crate::runner::Runner;

/// A step with tasks 1 to `tasks`, all daughters of task 1, and what they ask for: a task
/// with names, of which `E:a` and `S:a` are for the name with the minor part 0a.
fn step(tasks: u32, asked: &[&str]) -> String {
    let mut script = "fresh 9 9\n".to_string();
    (1..tasks).for_each(|_| script += "attach 1 0 0 -\n");
    for request in asked {
        let mut words = request.split(' ');
        script += &format!("enq {} none 0", words.next().unwrap());
        words
            .for_each(|word| script += &format!(" {}0000000000000000.0{}", &word[..2], &word[2..]));
        script += "\n";
    }
    script
}

/// What the line answers after the script, each name as its one digit.
fn told(script: &str, line: &str) -> Vec<String> {
    let before = answers(script).len();
    let after = answers(&format!("{}{}", script, line)).split_off(before);
    after.iter().map(|answer| answer.replace("0000000000000000.0", "")).collect()
}

/// Two that wait for each other.
const PAIR: [&str; 4] = ["2 E:a", "3 E:b", "2 E:b", "3 E:a"];

fn pair_and(more: &[&'static str]) -> Vec<&'static str> {
    PAIR.iter().chain(more).cloned().collect()
}

#[test]
fn a_ring_of_two_and_a_third_behind() {
    // 4 waits for both, and nobody for 4
    let script = step(4, &pair_and(&["4 E:a"]));
    assert_eq!(dumped(&script, "task").iter().filter(|task| task.ends_with(" 1 0")).count(), 3);
    assert_eq!(told(&script, "stuck 2"), ["0 2", "stuck 2 b 3", "stuck 3 a 2"]);
    assert_eq!(
        told(&script, "queues 5"),
        [
            "0 5",
            "queue a 2 own",
            "queue a 3 wait",
            "queue a 4 wait",
            "queue b 3 own",
            "queue b 2 wait"
        ]
    );
}

#[test]
fn a_ring_of_three() {
    let script = step(4, &["4 E:c", "3 E:b", "2 E:a", "3 E:c", "4 E:a", "2 E:b"]);
    assert_eq!(told(&script, "stuck 3"), ["0 3", "stuck 2 b 3", "stuck 3 c 4", "stuck 4 a 2"]);
}

#[test]
fn two_rings_that_share_a_task() {
    // 3 and 4 wait for 2; 2 waits for 4 at d, and after that for 3 at c
    let script = step(4, &["2 E:a E:b", "3 E:c", "4 E:d", "3 E:a", "4 E:b", "2 E:d E:c"]);
    assert_eq!(told(&script, "stuck 9"), ["0 3", "stuck 2 d 4", "stuck 3 a 2", "stuck 4 b 2"]);
}

#[test]
fn a_task_waits_elsewhere_for_somebody_not_stuck() {
    // 2 waits at c for 4, who is ready, and at d for 5, who waits for 4 in no ring
    let script = step(5, &["4 E:c", "5 E:d", "5 E:c", "2 E:a", "3 E:b", "2 E:c E:d E:b", "3 E:a"]);
    assert_eq!(told(&script, "stuck 2"), ["0 2", "stuck 2 b 3", "stuck 3 a 2"]);
}

#[test]
fn the_place_in_the_queue_decides_which_entry_is_earliest() {
    // 2's entry for b stands before that for a, though a's queue began first
    let script = step(4, &["3 E:a", "4 E:b", "2 E:c", "2 E:b E:a", "3 E:c", "4 E:c"]);
    assert_eq!(told(&script, "stuck 3"), ["0 3", "stuck 2 b 4", "stuck 3 c 2", "stuck 4 c 2"]);
}

#[test]
fn shared_before_shared_is_passed_over() {
    // at a: 2 shared, 3 exclusive, 4 shared; 4 waits for 3 there and not for 2
    let script = step(4, &["2 S:a", "3 E:b", "4 E:c", "3 E:a", "4 S:a", "2 E:c"]);
    assert_eq!(told(&script, "stuck 3"), ["0 3", "stuck 2 c 4", "stuck 3 a 2", "stuck 4 a 3"]);
    // a shared entry bars an exclusive one: with 4 exclusive, it waits for 2 and 3 there
    let script = step(4, &["2 S:a", "3 E:b", "4 E:c", "3 E:a", "4 E:a", "2 E:c"]);
    assert_eq!(told(&script, "stuck 3"), ["0 3", "stuck 2 c 4", "stuck 3 a 2", "stuck 4 a 2"]);
}

#[test]
fn who_is_not_stuck_is_passed_over() {
    // at a: 5 shared, 2 shared, 3 exclusive; 3 waits for 5 too, who is ready
    let script = step(5, &["5 S:a", "2 S:a", "3 E:b", "3 E:a", "2 E:b"]);
    assert_eq!(told(&script, "stuck 2"), ["0 2", "stuck 2 b 3", "stuck 3 a 2"]);
}

#[test]
fn a_partner_on_another_ring() {
    // 4 and 5 wait for each other; 4 waits for 2 besides, and no step leads back from there
    let script = step(5, &pair_and(&["4 E:c", "5 E:d", "4 E:a E:d", "5 E:c"]));
    assert_eq!(
        told(&script, "stuck 4"),
        ["0 4", "stuck 2 b 3", "stuck 3 a 2", "stuck 4 a 2", "stuck 5 c 4"]
    );
}

#[test]
fn a_task_between_two_rings() {
    // 4 waits for 2, and 5 for 4: 5 and 6 are on a ring, 4 waits for one and is on none
    let script = step(6, &pair_and(&["4 E:c", "5 E:d", "6 E:e", "4 E:a", "5 E:c E:e", "6 E:d"]));
    assert_eq!(
        told(&script, "stuck 4"),
        ["0 4", "stuck 2 b 3", "stuck 3 a 2", "stuck 5 e 6", "stuck 6 d 5"]
    );
}

#[test]
fn a_ring_that_passes_task_32() {
    let script = step(32, &["31 E:a", "32 E:b", "1 E:c", "32 E:c", "31 E:b", "1 E:a"]);
    assert_eq!(told(&script, "stuck 3"), ["0 3", "stuck 1 a 31", "stuck 31 b 32", "stuck 32 c 1"]);
    assert_eq!(told(&script, "dispatch"), ["0 2"]);
}

#[test]
fn all_32_tasks() {
    let mut script = step(32, &[]);
    for turn in 0..2 {
        for task in 1..=32 {
            let name = if turn == 0 { task } else { task % 32 + 1 };
            script += &format!("enq {} none 0 E:0000000000000000.{:02x}\n", task, name);
        }
    }
    assert_eq!(told(&script, "stuck 31"), ["104 0"]);
    let list = answers(&(script.clone() + "stuck 32")).split_off(96);
    assert_eq!(list[0], "0 32");
    for task in 1..=32 {
        let next = task % 32 + 1;
        let item = format!("stuck {} 0000000000000000.{:02x} {}", task, next, next);
        assert_eq!(list[task], item);
    }
    assert_eq!(told(&script, "dispatch"), ["0 0"]);
}

#[test]
fn room() {
    let script = step(4, &pair_and(&["4 E:a"]));
    let first = |line: &str| told(&script, line)[0].clone();
    assert_eq!(told(&script, "stuck 0"), ["104 0"]);
    assert_eq!(told(&script, "stuck 1"), ["104 0"]);
    assert_eq!(told(&script, "stuck 2").len(), 3);
    assert_eq!(told(&script, "stuck 3"), told(&script, "stuck 2"));
    assert_eq!(told(&script, "stuck 255"), told(&script, "stuck 2"));
    assert_eq!(told(&script, "queues 0"), ["104 0"]);
    assert_eq!(told(&script, "queues 4"), ["104 0"]);
    assert_eq!(told(&script, "queues 5").len(), 6);
    assert_eq!(told(&script, "queues 6"), told(&script, "queues 5"));
    assert_eq!(told(&script, "queues 255"), told(&script, "queues 5"));
    assert_eq!((first("stuck 256"), first("queues 256")), ("? 10".to_string(), "? 10".to_string()));
    assert_eq!(first("stuck 0000000002"), "0 2");
}

#[test]
fn an_empty_area_is_enough_for_nobody() {
    assert_eq!(told(&step(3, &[]), "stuck 0\nqueues 0"), ["0 0", "0 0"]);
    // 3 waits for 2, who is ready
    let script = step(3, &["2 E:a", "3 E:a"]);
    assert_eq!(told(&script, "stuck 0"), ["0 0"]);
    assert_eq!(told(&script, "stuck 255"), ["0 0"]);
    assert_eq!(told(&script, "queues 1"), ["104 0"]);
}

#[test]
fn unsound_tables_and_a_step_over() {
    let script = step(3, &PAIR) + "poke task 3 rwait 0\n";
    assert_eq!(told(&script, "stuck 0\nstuck 9\nqueues 0\nqueues 9"), ["100 0"; 4]);
    assert_eq!(told(&script, "poke task 3 rwait 1\nstuck 9")[..2], ["ok", "0 2"]);
    let script = step(3, &PAIR) + "abend 1 5 step\n";
    assert_eq!(told(&script, "stuck 0\nstuck 9\nqueues 0\nqueues 9"), ["108 0"; 4]);
    assert_eq!(told("", "stuck 0\nqueues 0"), ["108 0"; 2]);
    let script = "poke step code 4096\n";
    assert_eq!(told(script, "stuck 0\nqueues 255"), ["100 0"; 2]);
}

#[test]
fn a_detach_opens_the_ring() {
    let script = step(4, &pair_and(&["4 E:a"])) + "detach 1 3\n";
    assert_eq!(told(&script, "stuck 0"), ["0 0"]);
    assert_eq!(
        told(&script, "queues 3"),
        ["0 3", "queue a 2 own", "queue a 4 wait", "queue b 2 own"]
    );
    // a ring of three without one of its tasks is none; 4 waits for 2
    let script = step(4, &["2 E:a", "3 E:b", "4 E:c", "2 E:b", "3 E:c", "4 E:a"]) + "detach 1 3\n";
    assert_eq!(told(&script, "stuck 0"), ["0 0"]);
}

#[test]
fn queues_by_their_first_entries() {
    // at a two shared owners, an exclusive waiter, and a shared one behind it
    let script = step(5, &["2 S:a E:b", "3 S:a", "4 E:a", "5 S:c S:b S:a"]);
    assert_eq!(
        told(&script, "queues 7"),
        [
            "0 7",
            "queue a 2 own",
            "queue a 3 own",
            "queue a 4 wait",
            "queue a 5 wait",
            "queue b 2 own",
            "queue b 5 wait",
            "queue c 5 own"
        ]
    );
}

#[test]
fn names_as_they_are_printed() {
    let long = "Ab".repeat(44);
    let script = format!(
        "fresh 9 9\nenq 1 none 0 E:ABCDEF0000000001.00 S:abcdef0000000001.0000 S:00000000000000ff.{}\n",
        long
    );
    assert_eq!(
        answers(&(script + "queues 3")).split_off(2),
        [
            "0 3",
            "queue abcdef0000000001.00 1 own",
            "queue abcdef0000000001.0000 1 own",
            &format!("queue 00000000000000ff.{} 1 own", long.to_lowercase())
        ]
    );
}

fn runner_after(script: &str) -> Runner {
    let mut runner = Runner::new();
    script.lines().for_each(|line| {
        runner.take(line.as_bytes());
    });
    runner
}

/// "a list area too short gives 104, unchanged"; past the list it is left as it was.
#[test]
fn the_list_area() {
    let runner = runner_after(&step(3, &PAIR));
    let no_item = Stuck { task: 77, name: Name::NONE, partner: 78 };
    let mut area = [no_item; 4];
    assert_eq!(report(&runner.step, stuck::list, &mut area[..1]), Answer::refused(104));
    assert_eq!(area, [no_item; 4]);
    assert_eq!(report(&runner.step, stuck::list, &mut area[..3]), Answer::done(2));
    assert_eq!((area[0].task, area[1].task), (2, 3));
    assert_eq!(area[2..], [no_item; 2]);
    let no_item = Queued { name: Name::NONE, task: 77, owns: true };
    let mut area = [no_item; 6];
    assert_eq!(report(&runner.step, queues::list, &mut area[..3]), Answer::refused(104));
    assert_eq!(area, [no_item; 6]);
    assert_eq!(report(&runner.step, queues::list, &mut area), Answer::done(4));
    assert_eq!(area[4..], [no_item; 2]);
    let over = runner_after("fresh 9 9\nend 1 0");
    assert_eq!(report(&over.step, queues::list, &mut area[4..]), Answer::refused(108));
    assert_eq!(area[4..], [no_item; 2]);
}
