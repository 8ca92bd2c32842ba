//! The compiled program against the second program's command: what both print for the same folder and standard input.

use std::fs;
use std::path::Path;

use harness::events::{events_of, STEP};
use harness::programs::{folder_for, printed, proved, second};
use harness::random::Random;
use harness::report::{bytes_of, save, Histogram};
use harness::rosters::{largest, made, passing, step, WHOLE_CASE, WORK};
use harness::sizes::{EVENT_SIZE, LARGEST_ROSTER, MOST_EVENTS, MOST_OBJECTS, MOST_TASKS};

const CASES: u64 = 600;
/// Of each refusal a few are enough: the run's own test has hundreds of each.
const LEAST: usize = 5;

/// The number on a line `refused N ..`, or 0.
fn number_of(text: &str) -> u8 {
    let mut words = text.split_whitespace();
    match words.next() {
        Some("refused") => words.next().unwrap().parse().unwrap(),
        _ => 0,
    }
}

fn roster_of(random: &mut Random, seed: u64) -> Vec<u8> {
    match seed % 5 {
        0 => made(10 * (seed / 5) + 6),
        1 => made(seed),
        _ => passing(random).bytes(),
    }
}

#[test]
fn the_program_agrees_with_the_second_programs_command() {
    let (proved, second) = (proved(), second());
    let mut answers = Histogram::new();
    for seed in 0..CASES {
        let mut random = Random::new(seed);
        let roster = roster_of(&mut random, seed);
        let events = events_of(&mut random);
        let folder = folder_for(&format!("seed-{seed}"));
        if !random.once_in(40) {
            fs::write(folder.join("roster.bin"), &roster).unwrap();
        }
        fs::write(folder.join("events.bin"), &events).unwrap();
        let found = printed(&proved, &folder);
        let wanted = printed(&second, &folder);
        assert!(
            found == wanted,
            "seed {seed}, {}: printed\n{}but wanted\n{}",
            save("program", seed, &roster, &events),
            found.0,
            wanted.0
        );
        assert!(found.1, "seed {seed}: the program failed");
        answers.count(number_of(&found.0));
        fs::remove_dir_all(&folder).unwrap();
    }
    answers.print("programs by answer");
    answers.require(&[0, 11, 12, 13, 14, 15, 16, 17, 18, 19, 20, 21], LEAST);
}

/// The line of a folder that has this in place of its roster.
fn alone(name: &str, prepare: impl Fn(&Path), events: &[u8]) -> String {
    let folder = folder_for(name);
    fs::write(folder.join("events.bin"), events).unwrap();
    prepare(&folder.join("roster.bin"));
    let (text, ended_well) = printed(&proved(), &folder);
    assert!(ended_well, "{name}");
    fs::remove_dir_all(&folder).unwrap();
    text
}

#[test]
fn odd_files_are_refused() {
    let whole = bytes_of(WHOLE_CASE);
    let good = |at: &Path| fs::write(at, &whole).unwrap();
    assert_eq!(alone("missing", |_| {}, &[]), "refused 11\n");
    assert_eq!(
        alone("folder", |at| fs::create_dir(at).unwrap(), &[]),
        "refused 11\n"
    );
    assert_eq!(
        alone("empty", |at| fs::write(at, []).unwrap(), &[]),
        "refused 11\n"
    );
    let far = [65_535, 65_536, 65_537, 200_000];
    for length in [LARGEST_ROSTER + 1].into_iter().chain(far) {
        let long = vec![0; length];
        let lines = alone("long", |at| fs::write(at, &long).unwrap(), &[]);
        assert_eq!(lines, "refused 11\n", "{length}");
    }
    let most = EVENT_SIZE * MOST_EVENTS;
    for length in [most + 1, LARGEST_ROSTER].into_iter().chain(far) {
        let lines = alone("long-events", good, &vec![0; length]);
        assert_eq!(lines, "refused 21\n", "{length}");
    }
    assert_eq!(alone("no-events", good, &[]), "passed\nend\n");
    assert_eq!(alone("odd-events", good, &[3, 0, 0]), "refused 21\n");
}

/// Good files of the largest size, and the same with a little more behind it.
#[test]
fn files_at_their_limits() {
    let whole = bytes_of(WHOLE_CASE);
    let good = |at: &Path| fs::write(at, &whole).unwrap();
    let lines = alone("most-events", good, &STEP.repeat(MOST_EVENTS));
    assert_eq!(lines.lines().count(), MOST_EVENTS + 2);
    assert!(lines.starts_with("passed\n0 0 2\n0 0 0\n"));
    assert!(lines.ends_with("5 - 0\nend\n"));
    for more in [1, 2, MOST_EVENTS, MOST_EVENTS + 1, 2 * MOST_EVENTS] {
        let lines = alone("more-events", good, &STEP.repeat(MOST_EVENTS + more));
        assert_eq!(lines, "refused 21\n", "{more} steps more");
    }
    for more in [1, 7] {
        let events = [&STEP.repeat(MOST_EVENTS)[..], &[0; 7][..more]].concat();
        let lines = alone("stray-bytes", good, &events);
        assert_eq!(lines, "refused 21\n", "{more} bytes more");
    }
    let roster = largest(1, 1).bytes();
    let most = |at: &Path| fs::write(at, &roster).unwrap();
    assert_eq!(alone("most-roster", most, &[]), "passed\nend\n");
    for more in [1, 8, LARGEST_ROSTER, 2 * LARGEST_ROSTER] {
        let roster = [&roster[..], &vec![0; more]].concat();
        let lines = alone("more-roster", |at| fs::write(at, &roster).unwrap(), &[]);
        assert_eq!(lines, "refused 11\n", "{more} bytes more");
    }
}

/// The place of a fault far back in a script, with every number of digits.
#[test]
fn a_late_fault_is_named() {
    for (tasks, objects) in [(1, 1), (MOST_TASKS, MOST_OBJECTS)] {
        let last = largest(tasks, objects).scripts[tasks - 1].len() - 1;
        for index in [0, 9, 10, 99, 100, 255, 256, 999, 1000, 9999, 10_000, last] {
            let mut plan = largest(tasks, objects);
            plan.scripts[tasks - 1][index] = step(WORK, 1, 0);
            let prepare = |at: &Path| fs::write(at, plan.bytes()).unwrap();
            let wanted = format!("refused 16 {} {index}\n", tasks - 1);
            assert_eq!(alone("late-fault", prepare, &[]), wanted);
        }
    }
}
