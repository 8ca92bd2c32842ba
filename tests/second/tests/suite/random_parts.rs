//! Request 2026-03 on random parts: the reckoned answer, the reader's answer on the file that would
//! be written, and one file for the same parts alone.

use std::thread;

use crate::support::{delay, enter, leave, release, set, Random, RawStep, AGAIN, SUSPEND, WORK};
use crate::writer::{form, given, judged, laid_out, parts, reckoned, size, written, DONE};
use second::roster;
use second::writer::{file, length, read, Parts};

/// A seed that is printed when its case ends in a panic, wherever that is.
struct Printed(u64);

impl Drop for Printed {
    fn drop(&mut self) {
        if thread::panicking() {
            eprintln!("seed {}", self.0);
        }
    }
}

/// A step that is good in most places.
fn random_step(random: &mut Random, tasks: usize, objects: usize) -> RawStep {
    let object = random.index(objects.max(1)) as u8;
    let task = random.index(tasks) as u8;
    match random.below(8) {
        0 if objects > 0 => enter(object),
        1 if objects > 0 => leave(object),
        2 => delay(random.below(65536) as u16),
        3 => SUSPEND,
        4 => release(task),
        5 => set(task, 1 + random.below(32) as u16),
        _ => WORK,
    }
}

/// Good parts: mostly small, now and then of full counts or close to the limit.
fn random_parts(random: &mut Random) -> Parts {
    let (tasks, objects) = match random.below(16) {
        0 => (60 + random.index(5), 28 + random.index(5)),
        _ => (1 + random.index(4), random.index(4)),
    };
    let mut all = Vec::new();
    for _ in 0..tasks {
        let steps = random.index(5);
        let step = |_| random_step(random, tasks, objects);
        let mut script: Vec<RawStep> = (0..steps).map(step).collect();
        if random.below(4) == 0 {
            script.push(AGAIN);
        }
        all.push((1 + random.below(32) as u8, script));
    }
    let ceilings: Vec<u8> = (0..objects).map(|_| 1 + random.below(32) as u8).collect();
    let mut parts = parts(&all, &ceilings);
    if random.below(16) == 0 {
        stretch(random, &mut parts);
    }
    parts
}

/// Lengthens the first script from its front until the file is around the limit.
fn stretch(random: &mut Random, parts: &mut Parts) {
    let steps = (60000 - size(parts)) / 4 + random.index(4) - 2;
    parts.lengths[0] += steps as u16;
    let front = random_step(random, 1, 0).repeat(steps);
    parts.steps.splice(0..0, front);
}

/// Puts a value into a list somewhere, if the list is not empty.
fn put<T>(random: &mut Random, list: &mut [T], value: T) {
    if !list.is_empty() {
        let at = random.index(list.len());
        list[at] = value;
    }
}

/// A change that often breaks a rule.
fn damage(random: &mut Random, parts: &mut Parts) {
    let odd = [0, 1, 2, 8, 31, 32, 33, 64, 128, 255];
    let value = odd[random.index(odd.len())];
    let few = random.index(3);
    let many = 30 + random.index(40);
    match random.below(14) {
        0 => put(random, &mut parts.bases, value),
        1 => put(random, &mut parts.ceilings, value),
        2 => put(random, &mut parts.lengths, few as u16),
        3 => parts.lengths.push(few as u16),
        4 => drop(parts.lengths.pop()),
        5 => parts.lengths.reverse(),
        6 => parts.steps.extend(WORK.repeat(few)),
        7 => parts.steps.push(value),
        8 => drop(parts.steps.pop()),
        9 => parts.ceilings.resize(many, 20),
        10 => {
            parts.bases.resize(many, 20);
            parts.lengths.resize(many, 0);
        }
        11 => {
            parts.bases.clear();
            parts.lengths.clear();
        }
        _ => put(random, &mut parts.steps, value),
    }
}

/// Parts with up to two changes, and some room, mostly near the length of their file.
fn random_case(seed: u64) -> (Parts, usize) {
    let mut random = Random::new(seed);
    let mut parts = random_parts(&mut random);
    for _ in 0..random.below(3) {
        damage(&mut random, &mut parts);
    }
    let room = match random.below(4) {
        0 => random.index(size(&parts) + 1),
        _ => size(&parts) + random.index(6) - 1,
    };
    (parts, room)
}

#[test]
fn random_parts_get_the_reckoned_answer_and_file() {
    let mut met = [0; 23];
    for seed in 0..10_000 {
        let _printed = Printed(seed);
        let (parts, room) = random_case(seed);
        let expected = reckoned(&parts, room);
        let (given, bytes) = written(&parts, room);
        assert_eq!(given, expected);
        if given == DONE {
            assert_eq!(bytes, laid_out(&parts));
            assert_eq!(bytes.len(), length(&parts));
            assert_eq!(read(&bytes), Ok(parts));
        }
        met[usize::from(given.0)] += 1;
    }
    let met = [0, 11, 13, 14, 15, 16, 22].map(|number| met[number]);
    assert!(met.iter().all(|&count| count > 50), "{met:?}");
}

#[test]
fn the_form_of_the_file_that_would_be_written_gives_the_same_answer() {
    let mut met = [0; 17];
    for seed in 0..10_000 {
        let _printed = Printed(seed);
        let (parts, _) = random_case(seed);
        let (given, bytes) = (judged(&parts), file(&parts));
        // No file shows lengths that do not add up, and to the reader 11 comes first.
        let expected = match bytes.len() {
            _ if given.0 == 14 => continue,
            14..=60000 => given,
            _ => (11, 0, 0),
        };
        assert_eq!(form(&bytes), expected);
        met[usize::from(expected.0)] += 1;
    }
    let met = [0, 11, 13, 15, 16].map(|number| met[number]);
    assert!(met.iter().all(|&count| count > 50), "{met:?}");
}

#[test]
fn random_rosters_have_the_same_parts_exactly_when_their_bytes_agree() {
    let (mut same, mut different) = (0, 0);
    for seed in 0..10_000 {
        let _printed = Printed(seed);
        let mut random = Random::new(seed);
        let one = random_parts(&mut random);
        let mut other = one.clone();
        for _ in 0..random.below(3) {
            damage(&mut random, &mut other);
        }
        if judged(&one) != DONE || judged(&other) != DONE {
            continue;
        }
        let files = (file(&one), file(&other));
        assert_eq!(files.0 == files.1, one == other);
        // The steps as they are understood, too.
        let rosters = (roster::read(&files.0), roster::read(&files.1));
        assert_eq!(rosters.0 == rosters.1, one == other);
        same += u32::from(one == other);
        different += u32::from(one != other);
    }
    assert!(same > 500 && different > 500, "{same}, {different}");
}

#[test]
fn rosters_from_elsewhere_are_written_again_byte_for_byte() {
    let (mut passed, mut refused) = (0, 0);
    for seed in 0..10_000 {
        let _printed = Printed(seed);
        let mut random = Random::new(seed);
        let one = random_parts(&mut random);
        if size(&one) > 60000 {
            continue;
        }
        let mut bytes = laid_out(&one);
        for _ in 0..random.below(3) {
            let value = random.below(34) as u8;
            put(&mut random, &mut bytes, value);
        }
        match read(&bytes) {
            Ok(other) => {
                assert_eq!(written(&other, bytes.len()), (DONE, bytes.clone()));
                assert_eq!(one == other, bytes == laid_out(&one));
                passed += 1;
            }
            Err(refusal) => {
                assert_eq!(given(refusal), form(&bytes));
                refused += 1;
            }
        }
    }
    assert!(passed > 2000 && refused > 2000, "{passed}, {refused}");
}
