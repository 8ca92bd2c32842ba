//! Request 2026-03: the writer of rosters beside the second program, its answers by hand, and what is written read back.

use std::collections::HashMap;

use dispatch::raw;
use harness::compare::compare_roster;
use harness::parts::{fill_up, lengthen, lent, made, nothing, parts_of, shown};
use harness::random::Random;
use harness::report::{bytes_of, hex, Histogram};
use harness::rosters::{
    self, busiest, every_step, largest, most_rows, most_steps, passing, plant, step, Plan, Step,
    AGAIN, DELAY, ENTER, LEAVE, RELEASE, SET, STEP_SIZE, WHOLE_CASE, WORK,
};
use harness::sizes::{LARGEST_ROSTER, MOST_OBJECTS, MOST_TASKS, SMALLEST_ROSTER};
use harness::writers::{compare_write, file_of, read_by_library, Given, Library, Writer};
use second::writer::{self, length, Parts};

const CASES: u64 = 24_000;
const LEAST: usize = 200;

/// The answers of the writer, in the order in which they are tried.
const ANSWERS: [u8; 7] = [13, 14, 15, 16, 11, 22, 0];

/// All three calls with a buffer of this size, held to the second program; gives the number of the answer.
fn compare(parts: &Parts, room: usize, input: &str) -> u8 {
    let input = || format!("{input}, room {room}, {}", shown(parts));
    compare_write(&Library, parts, room).unwrap_or_else(|wrong| panic!("{wrong}, {}", input()))
}

/// The same, held to an answer worked out by hand.
fn assert_answer(parts: &Parts, room: usize, wanted: Given, input: &str) {
    compare(parts, room, input);
    let found = Library.answer(parts, room as u64);
    assert_eq!(found, wanted, "{input}, room {room}, {}", shown(parts));
}

/// A change of parts.
fn changed(parts: &Parts, change: impl Fn(&mut Parts)) -> Parts {
    let mut parts = parts.clone();
    change(&mut parts);
    parts
}

#[test]
fn writing_agrees_with_the_second_program() {
    let mut histogram = Histogram::new();
    let mut long = 0;
    for seed in 0..CASES {
        let (parts, room) = lent(seed);
        let number = compare(&parts, room, &format!("seed {seed}"));
        histogram.count(number);
        long += usize::from(number == 0 && length(&parts) > LARGEST_ROSTER / 2);
    }
    histogram.print("writings by answer");
    histogram.require(&ANSWERS, LEAST);
    histogram.require_no_other(&ANSWERS);
    assert!(histogram.of(0) * 3 >= CASES as usize, "a third is written");
    assert!(long >= LEAST, "{long} long files");
}

/// Too short by some bytes, just enough, and much too long: only the file's own bytes are written.
#[test]
fn every_buffer_around_the_length_of_the_file() {
    let mut cases: Vec<Parts> = (0..400)
        .map(|seed| parts_of(&passing(&mut Random::new(seed))))
        .collect();
    let shortest = changed(&nothing(), |p| {
        p.bases.push(1);
        p.lengths.push(0);
    });
    assert_eq!(length(&shortest), SMALLEST_ROSTER);
    cases.extend([shortest, parts_of(&busiest()), parts_of(&most_rows())]);
    for (case, parts) in cases.iter().enumerate() {
        let size = length(parts);
        let input = format!("case {case}");
        let short = [0, 1, size / 2].into_iter().chain(size - 9..size);
        for room in short {
            assert_answer(parts, room, (22, 0, 0), &input);
        }
        for room in (size..=size + 9).chain([2 * size, LARGEST_ROSTER + 10_000]) {
            assert_answer(parts, room, (0, 0, 0), &input);
        }
    }
}

/// A buffer that is asked about, but not lent, may be of any size.
#[test]
fn every_number_of_room() {
    let parts = parts_of(&every_step());
    let size = length(&parts) as u64;
    for high in [1 << 8, 1 << 16, 1 << 32, 1 << 48, 1 << 63] {
        for room in [high - 1, high, high + size - 1, u64::MAX - high, u64::MAX] {
            assert_eq!(Library.answer(&parts, room).0, 0, "room {room}");
        }
    }
}

/// Document 01's whole case, by hand, and with the ceiling that only the check refuses.
#[test]
fn the_whole_case() {
    let mut parts = Parts {
        bases: vec![10, 20],
        ceilings: vec![20],
        lengths: vec![3, 3],
        steps: bytes_of("01000000 04000000 02000000 03000500 01000000 02000000"),
    };
    assert_eq!(file_of(&parts), Ok(bytes_of(WHOLE_CASE)));
    parts.ceilings = vec![19];
    let low = file_of(&parts).unwrap();
    assert_eq!(raw::check(&low), (18, 1, 1));
    let mut wanted = bytes_of(WHOLE_CASE);
    wanted[36] = 19;
    assert_eq!(low, wanted);
}

/// What the check refuses with 17 to 20 is written.
#[test]
fn the_check_is_not_applied() {
    let mut histogram = Histogram::new();
    for seed in 0..800 {
        let mut random = Random::new(seed);
        let mut plan = passing(&mut random);
        plant(&mut random, &mut plan, 17 + (seed % 4) as u8);
        let parts = parts_of(&plan);
        if length(&parts) > LARGEST_ROSTER {
            continue;
        }
        let file = file_of(&parts);
        let input = || format!("seed {seed}, {}", shown(&parts));
        assert_eq!(file, Ok(plan.bytes()), "{}", input());
        histogram.count(raw::check(&plan.bytes()).0);
    }
    histogram.print("written, by answer of the check");
    histogram.require(&[17, 18, 19, 20], 100);
}

/// Parts with one fault and no other: the answer to them with its place, whatever the buffer.
fn faults() -> Vec<(Given, Parts)> {
    let good = parts_of(&every_step());
    let at = |number: u8, change: &dyn Fn(&mut Parts)| ((number, 0, 0), changed(&good, change));
    let bad_step = |task: usize, step: usize, bytes: [u8; STEP_SIZE]| {
        let index = step + if task == 1 { 9 } else { 0 };
        let wrong = changed(&good, |p| {
            p.steps[STEP_SIZE * index..][..STEP_SIZE].copy_from_slice(&bytes)
        });
        ((16, task, step), wrong)
    };
    vec![
        at(13, &|p| *p = nothing()),
        at(13, &|p| {
            p.bases.resize(MOST_TASKS + 1, 5);
            p.lengths.resize(MOST_TASKS + 1, 0);
        }),
        at(13, &|p| p.ceilings.resize(MOST_OBJECTS + 1, 32)),
        at(14, &|p| p.lengths[0] -= 1),
        at(14, &|p| p.lengths.push(0)),
        at(14, &|p| p.steps.push(0)),
        at(15, &|p| p.bases[0] = 0),
        at(15, &|p| p.bases[2] = 33),
        at(15, &|p| p.ceilings[0] = 0),
        at(15, &|p| p.ceilings[1] = 33),
        bad_step(0, 0, [0, 0, 0, 0]),
        bad_step(0, 1, [SET, 3, 9, 0]),
        bad_step(0, 5, [AGAIN, 0, 0, 0]),
        bad_step(0, 8, [9, 0, 0, 0]),
        bad_step(1, 0, [SET, 0, 1, 1]),
        bad_step(1, 3, [LEAVE, 2, 0, 0]),
        at(11, &|p| fill_up(p, 1, 1)),
    ]
}

#[test]
fn every_refusal_by_hand() {
    for (wanted, parts) in faults() {
        for room in [0, 1, LARGEST_ROSTER - 1, LARGEST_ROSTER, 80_000] {
            assert_answer(&parts, room, wanted, "by hand");
        }
    }
}

/// Two faults in one: the one that is tried first is answered, whichever has the lower number.
#[test]
fn the_first_of_two_faults() {
    let rank = |number: u8| ANSWERS.iter().position(|a| *a == number);
    let spoil = |parts: &mut Parts, number: u8| match number {
        13 => parts.ceilings.resize(MOST_OBJECTS + 1, 32),
        14 => parts.lengths.insert(1, 0),
        15 => parts.ceilings[0] = 33,
        // no code at all, wherever the scripts are cut
        16 => parts.steps[0] = 9,
        _ => fill_up(parts, 1, 1),
    };
    let numbers = [13, 14, 15, 16, 11, 22];
    for first in numbers {
        for second in numbers {
            let mut parts = parts_of(&every_step());
            // a length that is off would hide how long the file is
            for number in [11, 16, 15, 14, 13] {
                if first == number || second == number {
                    spoil(&mut parts, number);
                }
            }
            let room = match first == 22 || second == 22 {
                true => length(&parts) - 1,
                false => length(&parts),
            };
            let wanted = if rank(first) <= rank(second) {
                first
            } else {
                second
            };
            let input = format!("{first} and {second}");
            assert_answer(&parts, room, (wanted, 0, 0), &input);
        }
    }
}

/// Lengths off by a step, the steps by a byte or a step, an entry more or less at each place: all 14.
#[test]
fn lengths_that_do_not_add_up() {
    for seed in 0..300 {
        let parts = parts_of(&passing(&mut Random::new(seed)));
        let off = |change: &dyn Fn(&mut Parts)| {
            let wrong = changed(&parts, change);
            let room = length(&parts) + 8;
            assert_answer(&wrong, room, (14, 0, 0), &format!("seed {seed}"));
        };
        for t in 0..parts.lengths.len() {
            off(&|p| p.lengths[t] += 1);
            off(&|p| p.lengths[t] = p.lengths[t].wrapping_sub(1));
            off(&|p| p.lengths[t] = p.lengths[t].wrapping_mul(4).wrapping_add(1));
            off(&|p| drop(p.lengths.drain(t..=t)));
        }
        for t in 0..=parts.lengths.len() {
            off(&|p| p.lengths.insert(t, 0));
            off(&|p| p.lengths.insert(t, 1));
        }
        for more in 1..=STEP_SIZE + 1 {
            off(&|p| p.steps.extend(vec![0; more]));
            if more <= parts.steps.len() {
                off(&|p| p.steps.truncate(p.steps.len() - more));
            }
        }
        off(&|p| p.lengths.clear());
    }
}

/// Lengths that add up only if their sum, or its bytes, is kept in too few bits.
#[test]
fn lengths_that_add_up_in_few_bits() {
    let works = |count: usize| step(WORK, 0, 0).bytes().repeat(count);
    let cases: [(&[u16], usize); 8] = [
        (&[1 << 14], 0),
        (&[(1 << 14) + 3], 3),
        (&[1 << 15, 1 << 15], 0),
        (&[u16::MAX, 2], 1),
        (&[1 << 14; 4], 0),
        (&[u16::MAX; MOST_TASKS], (1 << 16) - MOST_TASKS),
        (&[1 << 15; MOST_TASKS], 0),
        (&[256], 0),
    ];
    for (lengths, steps) in cases {
        let parts = Parts {
            bases: vec![1; lengths.len()],
            ceilings: Vec::new(),
            lengths: lengths.to_vec(),
            steps: works(steps),
        };
        assert_answer(&parts, 1000, (14, 0, 0), "few bits");
    }
}

/// The steps are cut by the lengths alone: an Again in the middle of all is the last of its script, or it is not.
#[test]
fn scripts_are_cut_where_the_lengths_say() {
    let works = [step(WORK, 0, 0); 4];
    let [a, b, c, d] = works.map(Step::bytes);
    let again = step(AGAIN, 0, 0).bytes();
    let steps = [a, b, again, c, d].concat();
    for first in 0..=5 {
        let parts = Parts {
            bases: vec![7, 8],
            ceilings: Vec::new(),
            lengths: vec![first, 5 - first],
            steps: steps.clone(),
        };
        let wanted = match first {
            3 => (0, 0, 0),
            0..=2 => (16, 1, 2 - usize::from(first)),
            _ => (16, 0, 2),
        };
        assert_answer(&parts, 100, wanted, "cut");
    }
}

/// Files of exactly the largest size, or as near to it as whole steps come; one step more is 11, and a bad step before that 16.
#[test]
fn files_of_the_largest_size() {
    let most = [(1, 1), (2, 0), (1, 0), (3, 1), (MOST_TASKS, 0)];
    for (tasks, objects) in most.into_iter().chain([(MOST_TASKS, MOST_OBJECTS)]) {
        let parts = parts_of(&largest(tasks, objects));
        let input = format!("{tasks} tasks, {objects} objects");
        let size = length(&parts);
        let near = LARGEST_ROSTER - STEP_SIZE + 1..=LARGEST_ROSTER;
        assert!(near.contains(&size), "{input}");
        assert_answer(&parts, size - 1, (22, 0, 0), &input);
        assert_answer(&parts, size, (0, 0, 0), &input);
        let file = file_of(&parts).unwrap();
        assert_eq!(file, largest(tasks, objects).bytes(), "{input}");
        assert_eq!(compare_roster(&file, &input), 0);
        for task in [0, tasks - 1] {
            let longer = changed(&parts, |p| lengthen(p, task, 1));
            for room in [0, size, size + STEP_SIZE, 2 * size] {
                assert_answer(&longer, room, (11, 0, 0), &input);
            }
            let bad = changed(&longer, |p| *p.steps.last_mut().unwrap() = 1);
            let last = bad.lengths[tasks - 1] as usize - 1;
            assert_answer(&bad, 0, (16, tasks - 1, last), &input);
        }
    }
}

/// Every length of a file within some steps of the largest, by any number of objects.
#[test]
fn files_around_the_largest_size() {
    for objects in 0..=MOST_OBJECTS {
        let most = most_steps(2, objects);
        for steps in most - 3..=most + 20 {
            let mut parts = changed(&nothing(), |p| {
                p.bases = vec![1, 32];
                p.ceilings = vec![9; objects];
                p.lengths = vec![0, 0];
            });
            lengthen(&mut parts, 1, steps);
            let number = if steps <= most { 0 } else { 11 };
            let size = length(&parts);
            let input = format!("{objects} objects, {steps} steps");
            assert_answer(&parts, size, (number, 0, 0), &input);
        }
    }
}

/// Scripts far longer than any file has: they are looked at to their ends, and the place is told in full.
#[test]
fn a_bad_step_far_behind() {
    let longest = usize::from(u16::MAX);
    for (before, steps) in [
        (0, 15_001),
        (0, 16_384),
        (1, 40_000),
        (0, longest),
        (3, longest),
    ] {
        let mut parts = changed(&nothing(), |p| {
            p.bases = vec![1; before + 1];
            p.lengths = vec![0; before + 1];
        });
        for task in 0..before {
            lengthen(&mut parts, task, longest);
        }
        lengthen(&mut parts, before, steps);
        let input = format!("{steps} steps behind {before} scripts");
        // not shown in full, being so long
        let answer = |parts: &Parts| {
            let number = compare_write(&Library, parts, 100);
            let number = number.unwrap_or_else(|wrong| panic!("{wrong}, {input}"));
            (number, Library.answer(parts, 100))
        };
        assert_eq!(answer(&parts), (11, (11, 0, 0)), "{input}");
        for at in [0, 15_000, steps - 1] {
            let behind = STEP_SIZE * (longest * before + at);
            for bytes in [
                [WORK, 0, 0, 1],
                [0, 0, 0, 0],
                [RELEASE, before as u8 + 1, 0, 0],
            ] {
                let bad = changed(&parts, |p| {
                    p.steps[behind..][..STEP_SIZE].copy_from_slice(&bytes)
                });
                let wanted = (16, (16, before, at));
                assert_eq!(answer(&bad), wanted, "step {at} {bytes:?}, {input}");
            }
        }
    }
}

/// All tasks with the longest scripts there can be.
#[test]
fn the_most_steps_that_can_be_lent() {
    let steps = MOST_TASKS * usize::from(u16::MAX);
    let mut parts = Parts {
        bases: vec![15; MOST_TASKS],
        ceilings: vec![15; MOST_OBJECTS],
        lengths: vec![u16::MAX; MOST_TASKS],
        steps: step(DELAY, 0, 9).bytes().repeat(steps),
    };
    assert_eq!(compare_write(&Library, &parts, 70_000), Ok(11));
    let last = STEP_SIZE * (steps - 1);
    parts.steps[last] = ENTER;
    assert_eq!(compare_write(&Library, &parts, 70_000), Ok(16));
    let place = (16, MOST_TASKS - 1, usize::from(u16::MAX) - 1);
    assert_eq!(Library.answer(&parts, 70_000), place);
    parts.steps.truncate(last);
    assert_eq!(compare_write(&Library, &parts, 70_000), Ok(14));
}

/// What the library wrote is read by the second program, and what that wrote by the library: both give back the parts.
#[test]
fn what_is_written_reads_back() {
    let mut written = 0;
    for seed in 0..CASES / 2 {
        let parts = made(seed);
        let input = || format!("seed {seed}, {}", shown(&parts));
        let Ok(file) = file_of(&parts) else {
            continue;
        };
        written += 1;
        assert_eq!(writer::read(&file).as_ref(), Ok(&parts), "{}", input());
        let file = writer::file(&parts);
        assert_eq!(raw::form(&file), (0, 0, 0), "{}", input());
        assert_eq!(read_by_library(&file), parts, "{}", input());
    }
    assert!(written >= 5_000, "{written} files");
}

/// A roster that passes 11 to 16, read by the library and written again, has the same bytes.
#[test]
fn a_roster_is_written_again() {
    let mut read = 0;
    for seed in 0..CASES / 2 {
        let roster = rosters::made(seed);
        if raw::form(&roster).0 != 0 {
            continue;
        }
        read += 1;
        let input = || format!("seed {seed}, roster {}", hex(&roster));
        let parts = read_by_library(&roster);
        assert_eq!(writer::read(&roster).as_ref(), Ok(&parts), "{}", input());
        assert_eq!(file_of(&parts).as_ref(), Ok(&roster), "{}", input());
    }
    assert!(read >= 5_000, "{read} rosters");
}

/// No two files agree whose parts do not, and no two parts whose files do not.
struct Known {
    files: HashMap<Vec<u8>, Parts>,
}

impl Known {
    /// The file of parts that are written, put beside all others.
    fn add(&mut self, parts: &Parts, input: &str) {
        let file = file_of(parts).unwrap_or_else(|r| panic!("{r:?}, {input}, {}", shown(parts)));
        let other = self.files.entry(file).or_insert_with(|| parts.clone());
        let input = || format!("{input}, {}, {}", shown(parts), shown(other));
        assert_eq!(other, parts, "one file, {}", input());
    }
}

/// A few steps that any roster of an object has.
const FEW: [Step; 5] = [
    step(WORK, 0, 0),
    step(ENTER, 0, 0),
    step(DELAY, 0, 1),
    step(DELAY, 0, 256),
    step(SET, 0, 1),
];

/// Every script of at most so many of these steps.
fn scripts(most: usize) -> Vec<Vec<Step>> {
    let mut all = vec![Vec::new()];
    let mut last = all.clone();
    for _ in 0..most {
        let longer = |script: &Vec<Step>| FEW.map(|s| [&script[..], &[s]].concat());
        last = last.iter().flat_map(longer).collect();
        all.extend(last.clone());
    }
    all
}

/// All small rosters of one and two tasks: there are as many files as parts.
#[test]
fn different_parts_never_have_the_same_bytes() {
    let mut known = Known {
        files: HashMap::new(),
    };
    let mut count = 0;
    let mut add = |bases: &[u8], ceilings: &[u8], scripts: &[&Vec<Step>]| {
        let plan = Plan {
            bases: bases.to_vec(),
            ceilings: ceilings.to_vec(),
            scripts: scripts.iter().map(|s| s.to_vec()).collect(),
        };
        known.add(&parts_of(&plan), "small");
        count += 1;
    };
    let (short, long) = (scripts(2), scripts(4));
    for ceilings in [&[1][..], &[2], &[1, 1], &[1, 2], &[2, 1]] {
        for base in [1, 2, 32] {
            long.iter().for_each(|s| add(&[base], ceilings, &[s]));
            for (first, second) in short.iter().flat_map(|a| short.iter().map(move |b| (a, b))) {
                add(&[1, base], ceilings, &[first, second]);
            }
        }
    }
    assert_eq!((known.files.len(), count > 25_000), (count, true));
}

/// One part changed a little, in every way that still passes: the bytes are others, as many as the changes.
#[test]
fn a_changed_part_changes_the_bytes() {
    let mut neighbours = 0;
    for seed in 0..300 {
        let parts = parts_of(&passing(&mut Random::new(seed)));
        if length(&parts) > 2_000 {
            continue;
        }
        let file = file_of(&parts).unwrap();
        for other in near(&parts) {
            let input = || format!("seed {seed}, {}, {}", shown(&parts), shown(&other));
            if let Ok(changed) = file_of(&other) {
                neighbours += 1;
                assert_ne!(changed, file, "{}", input());
                assert_eq!(read_by_library(&changed), other, "{}", input());
            }
        }
    }
    assert!(neighbours >= 5_000, "{neighbours} neighbours");
}

/// Parts that differ in one place: a base, a ceiling, a byte of a step, a step moved to the next script, a task or object more.
fn near(parts: &Parts) -> Vec<Parts> {
    let mut all = Vec::new();
    let mut push = |change: &dyn Fn(&mut Parts)| all.push(changed(parts, change));
    let other = |value: u8| 1 + value % 32;
    for t in 0..parts.bases.len() {
        push(&|p| p.bases[t] = other(p.bases[t]));
        if t > 0 && parts.lengths[t - 1] > 0 {
            push(&|p| {
                p.lengths[t - 1] -= 1;
                p.lengths[t] += 1;
            });
        }
    }
    for o in 0..parts.ceilings.len() {
        push(&|p| p.ceilings[o] = other(p.ceilings[o]));
    }
    for at in 0..parts.steps.len() {
        push(&|p| p.steps[at] ^= 1);
    }
    push(&|p| p.ceilings.push(32));
    push(&|p| {
        p.bases.push(1);
        p.lengths.push(0);
    });
    all
}

/// Every byte of some small rosters set to every value: one that still passes 11 to 16 reads differently, by both programs.
#[test]
fn a_changed_roster_that_passes_reads_differently() {
    let mut passing = 0;
    for plan in [every_step(), rosters::passing(&mut Random::new(3))] {
        let roster = plan.bytes();
        let parts = parts_of(&plan);
        assert_eq!(read_by_library(&roster), parts);
        for at in 0..roster.len() {
            for value in (0..=255).filter(|value| *value != roster[at]) {
                let mut changed = roster.clone();
                changed[at] = value;
                if raw::form(&changed).0 != 0 {
                    continue;
                }
                passing += 1;
                let input = || format!("byte {at} as {value}, roster {}", hex(&roster));
                let found = read_by_library(&changed);
                assert_ne!(found, parts, "{}", input());
                assert_eq!(writer::read(&changed), Ok(found), "{}", input());
            }
        }
    }
    assert!(passing >= 200, "{passing} changed rosters pass");
}

/// The same with random rosters and random changes of one to three bytes.
#[test]
fn two_rosters_that_pass_have_the_same_parts_if_their_bytes_agree() {
    let mut passing = 0;
    for seed in 0..CASES {
        let mut random = Random::new(seed);
        let roster = rosters::made(seed / 4);
        let mut other = roster.clone();
        for _ in 0..random.within(1, 3).min(roster.len()) {
            let at = random.below(roster.len());
            let any = random.byte();
            other[at] = random.pick(&[roster[at] ^ 1, roster[at].wrapping_add(1), any]);
        }
        let (Ok(first), Ok(second)) = (writer::read(&roster), writer::read(&other)) else {
            continue;
        };
        passing += usize::from(roster != other);
        let input = || format!("seed {seed}, {}, {}", hex(&roster), hex(&other));
        assert_eq!(first == second, roster == other, "{}", input());
        assert_eq!(file_of(&first), Ok(roster.clone()), "{}", input());
        assert_eq!(file_of(&second), Ok(other.clone()), "{}", input());
    }
    assert!(passing >= 1_000, "{passing} pairs");
}

/// Bases, ceilings, steps and the buffer may start at any address.
#[test]
fn slices_at_any_address() {
    let plan = every_step();
    let parts = parts_of(&plan);
    let moved = |bytes: &[u8], by: usize| [vec![0; by], bytes.to_vec()].concat();
    for by in 0..8 {
        let bases = moved(&parts.bases, by);
        let ceilings = moved(&parts.ceilings, 7 - by);
        let steps = moved(&parts.steps, (by + 3) % 8);
        let mut buffer = vec![0xA5; length(&parts) + by];
        let answer = raw::write(
            &bases[by..],
            &ceilings[7 - by..],
            &parts.lengths,
            &steps[(by + 3) % 8..],
            &mut buffer[by..],
        );
        assert_eq!(answer, (0, 0, 0), "moved by {by}");
        assert_eq!(hex(&buffer[by..]), hex(&plan.bytes()), "moved by {by}");
    }
}
