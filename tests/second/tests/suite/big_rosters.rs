//! Request 2026-07: rosters of up to 64 tasks, 32 objects and 60,000 bytes, read, checked and run.

use crate::program::printed_for;
use crate::random::holders_are_single;
use crate::support::{
    clock_event, delay, done, enter, leave, place, refused, release, release_event, replies,
    roster, set, set_event, verdict, Random, RawStep, Record, Reply, AGAIN, STEP, SUSPEND, WORK,
};
use crate::whole_case::whole_roster;
use second::roster::{admit, base, ceiling, read, script, step, step_count};
use second::run::{decode, printed, run, Command, Run};
use second::sound::broken;

/// A task of a roster: its base and its script.
type RawTask = (u8, Vec<RawStep>);

/// One task of 14,996 steps and one object: 59,984 + 6 + 2 + 8 bytes.
fn long() -> Vec<u8> {
    roster(&[(15, vec![WORK; 14996])], &[15])
}

/// How many steps a task of the full roster has.
fn full_steps(t: usize) -> usize {
    if t == 63 {
        270
    } else {
        232
    }
}

/// 64 tasks and 32 objects: 63 * 928 + 1080 bytes of scripts, then 384 + 64 + 8. The steps of a
/// task are told from those of another by their Delay.
fn full() -> Vec<u8> {
    let task = |t: usize| (15, vec![delay(t as u16); full_steps(t)]);
    let tasks: Vec<RawTask> = (0..64).map(task).collect();
    roster(&tasks, &[20; 32])
}

/// The verdict with the byte at this distance from the roster's end changed.
fn changed_from_end(bytes: &[u8], distance: usize, value: u8) -> (u8, usize, usize) {
    let mut bytes = bytes.to_vec();
    let at = bytes.len() - distance;
    assert_ne!(bytes[at], value);
    bytes[at] = value;
    verdict(&bytes)
}

/// 64 tasks of base 1, the last with this script and the others without a step.
fn last_with(script: &[RawStep]) -> Vec<RawTask> {
    let mut tasks = vec![(1, vec![]); 64];
    tasks[63].1 = script.to_vec();
    tasks
}

// Length.

#[test]
fn rosters_of_60000_bytes_pass() {
    assert_eq!((long().len(), full().len()), (60000, 60000));
    assert_eq!(verdict(&long()), (0, 0, 0));
    assert_eq!(verdict(&full()), (0, 0, 0));
    // The tables start at 59,990 and 59,984, and at 59,928 and 59,544.
    assert_eq!(long()[59992..], [0x52, 0x35, 1, 1, 0x56, 0xEA, 0x50, 0xEA]);
    assert_eq!(
        full()[59992..],
        [0x52, 0x35, 64, 32, 0x18, 0xEA, 0x98, 0xE8]
    );
}

#[test]
fn rosters_of_60001_bytes_are_11() {
    for good in [long(), full()] {
        for at in [0, 4, 32768, 59544, 59992, 60000] {
            let mut bytes = good.clone();
            bytes.insert(at, 0);
            assert_eq!(bytes.len(), 60001);
            assert_eq!(verdict(&bytes), (11, 0, 0), "a byte more at {at}");
            assert_eq!(script(&bytes, 0), Err(11));
            assert_eq!(ceiling(&bytes, 0), Err(11));
        }
    }
}

#[test]
fn longer_rosters_that_are_well_laid_out_are_11() {
    let of = |steps: usize, objects: usize| roster(&[(15, vec![WORK; steps])], &vec![15; objects]);
    for (steps, objects, length) in [
        (14996, 2, 60002),
        (14997, 1, 60004),
        (15000, 1, 60016),
        (16380, 0, 65534),
    ] {
        let bytes = of(steps, objects);
        assert_eq!(bytes.len(), length);
        assert_eq!(verdict(&bytes), (11, 0, 0), "{length} bytes");
    }
    // One object less, and one step less.
    assert_eq!((of(14996, 0).len(), of(14995, 1).len()), (59998, 59996));
    assert_eq!(verdict(&of(14996, 0)), (0, 0, 0));
    assert_eq!(verdict(&of(14995, 1)), (0, 0, 0));
}

#[test]
fn the_length_comes_before_the_mark_and_is_counted_whole() {
    assert_eq!(verdict(&[0; 60000]), (12, 0, 0));
    for length in [60001, 65534, 65535, 65536, 65550, 65536 + 60000] {
        assert_eq!(verdict(&vec![0; length]), (11, 0, 0), "{length} bytes");
    }
    let padded = [vec![0; 65536], whole_roster()].concat();
    assert_eq!(verdict(&padded), (11, 0, 0));
}

#[test]
fn rosters_between_the_old_and_the_new_limit_are_ordinary() {
    for steps in [8187, 8188, 8189, 8190, 10000, 12345, 14990] {
        for objects in [0, 1, 2, 32] {
            if 14 + 4 * steps + 2 * objects > 60000 {
                continue;
            }
            let bytes = roster(&[(15, vec![WORK; steps])], &vec![15; objects]);
            assert_eq!(verdict(&bytes), (0, 0, 0), "{} bytes", bytes.len());
            assert_eq!(step_count(&bytes, 0), Ok(steps as u64));
            // A stray byte is off the layout and not too long.
            let longer = [&[0][..], &bytes].concat();
            assert_eq!(verdict(&longer), (14, 0, 0), "{} bytes", longer.len());
        }
    }
}

// Counts.

#[test]
fn counts_past_64_tasks_or_32_objects_are_13() {
    let full = full();
    for count in 65..=255 {
        assert_eq!(changed_from_end(&full, 6, count), (13, 0, 0), "{count}");
    }
    for count in 33..=255 {
        assert_eq!(changed_from_end(&full, 5, count), (13, 0, 0), "{count}");
    }
    assert_eq!(changed_from_end(&full, 6, 0), (13, 0, 0));
    // Counts in range that do not fit the bytes.
    for count in 1..64 {
        assert_eq!(changed_from_end(&full, 6, count), (14, 0, 0), "{count}");
    }
    for count in 0..32 {
        assert_eq!(changed_from_end(&full, 5, count), (14, 0, 0), "{count}");
    }
}

#[test]
fn every_count_up_to_64_tasks_and_32_objects_passes() {
    let of = |tasks: usize, objects: usize| {
        let tasks = vec![(15, vec![WORK]); tasks];
        verdict(&roster(&tasks, &vec![15; objects]))
    };
    for tasks in 1..=64 {
        for objects in 0..=32 {
            assert_eq!(of(tasks, objects), (0, 0, 0), "{tasks}, {objects}");
        }
        assert_eq!(of(tasks, 33), (13, 0, 0), "{tasks} tasks");
    }
    for objects in 0..=33 {
        assert_eq!(of(65, objects), (13, 0, 0), "{objects} objects");
    }
}

#[test]
fn steps_name_tasks_up_to_63_and_objects_up_to_31() {
    let judged = |step: RawStep| verdict(&roster(&last_with(&[WORK, step]), &[15; 32]));
    for t in 0..=255 {
        let releases = if t < 64 { (0, 0, 0) } else { (16, 63, 1) };
        assert_eq!(judged(release(t)), releases, "task {t}");
        let sets = match t {
            0..=62 => (20, 63, 1),
            63 => (0, 0, 0),
            _ => (16, 63, 1),
        };
        assert_eq!(judged(set(t, 15)), sets, "task {t}");
    }
    for o in 0..=255 {
        let (enters, leaves) = match o {
            0..=31 => ((17, 63, 2), (19, 63, 1)),
            _ => ((16, 63, 1), (16, 63, 1)),
        };
        assert_eq!(judged(enter(o)), enters, "object {o}");
        assert_eq!(judged(leave(o)), leaves, "object {o}");
    }
}

#[test]
fn the_values_of_every_row_of_a_full_roster_count() {
    // The rows of the tasks start at 59,544 and those of the objects at 59,928.
    let tasks = (0..64).map(|t| 59544 + 6 * t);
    let objects = (0..32).map(|o| 59928 + 2 * o);
    let good = full();
    for at in tasks.chain(objects) {
        for (at, value) in [(at, 0), (at, 33), (at, 64), (at + 1, 1), (at + 1, 128)] {
            let mut bytes = good.clone();
            bytes[at] = value;
            assert_eq!(verdict(&bytes), (15, 0, 0), "byte {at} as {value}");
        }
    }
}

#[test]
fn more_tasks_bring_no_more_priorities_to_a_roster() {
    for p in [33, 63, 64, 65] {
        assert_eq!(verdict(&roster(&vec![(p, vec![]); 64], &[])), (15, 0, 0));
        assert_eq!(verdict(&roster(&last_with(&[]), &[p; 32])), (15, 0, 0));
        let sets = roster(&last_with(&[set(63, u16::from(p))]), &[]);
        assert_eq!(verdict(&sets), (16, 63, 0));
    }
}

// Scripts.

#[test]
fn the_scripts_of_a_full_roster_are_handed_back() {
    let bytes = full();
    for t in 0..64 {
        let start = 928 * t;
        let part = script(&bytes, t).expect("a script");
        assert_eq!(part.as_ptr(), bytes[start..].as_ptr(), "task {t}");
        assert_eq!(part, delay(t as u16).repeat(full_steps(t)), "task {t}");
    }
    assert_eq!(step_count(&bytes, 63), Ok(270));
    assert_eq!(step(&bytes, 63, 269), Ok([3, 0, 63, 0]));
    assert_eq!(step(&bytes, 63, 270), Ok([0; 4]));
    assert_eq!((base(&bytes, 63), base(&bytes, 64)), (Ok(15), Err(1)));
    assert_eq!((ceiling(&bytes, 31), ceiling(&bytes, 32)), (Ok(20), Err(2)));
    assert_eq!(script(&bytes, 64), Err(1));
    assert_eq!(step(&bytes, 64, 0), Err(1));
}

#[test]
fn the_longest_script_is_looked_up_to_its_end() {
    let mut bytes = long();
    bytes[59980..59984].copy_from_slice(&delay(515));
    assert_eq!(script(&bytes, 0), Ok(&bytes[..59984]));
    assert_eq!(step_count(&bytes, 0), Ok(14996));
    assert_eq!(step(&bytes, 0, 14994), Ok(WORK));
    assert_eq!(step(&bytes, 0, 14995), Ok([3, 0, 3, 2]));
    for index in [14996, 14997, 65536, 65536 + 14995, u64::MAX] {
        assert_eq!(step(&bytes, 0, index), Ok([0; 4]), "step {index}");
    }
}

#[test]
fn a_script_can_start_and_end_on_either_side_of_32768() {
    for (steps, low, high) in [
        (8191, 0xFC, 0x7F),
        (8192, 0x00, 0x80),
        (8193, 0x04, 0x80),
        (14992, 0x40, 0xEA),
    ] {
        let tasks = [(10, vec![WORK; steps]), (20, vec![delay(9), SUSPEND])];
        let bytes = roster(&tasks, &[]);
        assert_eq!(verdict(&bytes), (0, 0, 0), "{steps} steps");
        assert_eq!(
            script(&bytes, 1),
            Ok(&bytes[4 * steps..4 * steps + 8]),
            "{steps} steps"
        );
        assert_eq!(step(&bytes, 1, 0), Ok([3, 0, 9, 0]));
        assert_eq!(step_count(&bytes, 0), Ok(steps as u64));
        // The length of the first script, and the start of the second: each bit of them counts.
        for distance in [16, 12] {
            let at = bytes.len() - distance;
            assert_eq!(bytes[at..at + 2], [low, high]);
            for bit in 0..8 {
                let (low, high) = (low ^ 1 << bit, high ^ 1 << bit);
                assert_eq!(changed_from_end(&bytes, distance, low), (14, 0, 0));
                assert_eq!(changed_from_end(&bytes, distance - 1, high), (14, 0, 0));
            }
        }
    }
}

#[test]
fn an_empty_script_starts_at_the_end_of_the_longest() {
    // 59,976 + 12 + 2 + 8 bytes.
    let bytes = roster(&[(10, vec![WORK; 14994]), (20, vec![])], &[20]);
    assert_eq!((bytes.len(), verdict(&bytes)), (59998, (0, 0, 0)));
    assert_eq!(script(&bytes, 1), Ok(&[][..]));
    // 59,976 as the start of the second script is 48 EA.
    assert_eq!(bytes[59984..59986], [0x48, 0xEA]);
    assert_eq!(changed_from_end(&bytes, 14, 0x44), (14, 0, 0));
    assert_eq!(changed_from_end(&bytes, 13, 0x6A), (14, 0, 0));
}

#[test]
fn lengths_that_add_up_past_65535_are_14() {
    // 65,532 and 12 bytes are 65,544, and its 16 lower bits are the 8 bytes of both scripts.
    let mut bytes = roster(&[(10, vec![WORK]), (20, vec![WORK])], &[]);
    let rows = [10, 0, 0, 0, 0xFC, 0xFF, 20, 0, 0xFC, 0xFF, 12, 0];
    assert_eq!(verdict(&bytes), (0, 0, 0));
    bytes[8..20].copy_from_slice(&rows);
    assert_eq!(verdict(&bytes), (14, 0, 0));
}

#[test]
fn the_starts_of_the_tables_count_to_their_last_bit() {
    for bytes in [long(), full()] {
        for distance in 1..=4 {
            let right = bytes[60000 - distance];
            for bit in 0..8 {
                let wrong = right ^ 1 << bit;
                assert_eq!(changed_from_end(&bytes, distance, wrong), (14, 0, 0));
            }
        }
    }
}

#[test]
fn bad_steps_far_behind_are_named() {
    for place in [8191, 8192, 8193, 14995] {
        let mut bytes = long();
        bytes[4 * place] = 0;
        assert_eq!(verdict(&bytes), (16, 0, place));
        assert_eq!(printed(&bytes, &[]), format!("refused 16 0 {place}\n"));
    }
    // An Again that is not the last step.
    for place in [0, 6803, 14994] {
        let mut bytes = long();
        bytes[4 * place] = 8;
        assert_eq!(verdict(&bytes), (16, 0, place));
    }
    let mut bytes = full();
    bytes[59544 - 4] = 0;
    assert_eq!(verdict(&bytes), (16, 63, 269));
    assert_eq!(printed(&bytes, &[]), "refused 16 63 269\n");
    bytes[928 * 36] = 0;
    assert_eq!(verdict(&bytes), (16, 36, 0));
}

// The check with 32 nested objects.

/// The verdict on the last of 64 tasks with a script in parts.
fn checked(parts: &[&[RawStep]], ceilings: &[u8]) -> (u8, usize, usize) {
    verdict(&roster(&last_with(&parts.concat()), ceilings))
}

/// Enter of all 32 objects in number order: steps 0 to 31.
fn down() -> Vec<RawStep> {
    (0..32).map(enter).collect()
}

/// Leave of all 32 objects, the last first.
fn up() -> Vec<RawStep> {
    (0..32).rev().map(leave).collect()
}

/// Ceilings from 1 to 32 in order.
fn rising() -> Vec<u8> {
    (1..=32).collect()
}

#[test]
fn thirty_two_nested_objects_pass() {
    let inside = [WORK, release(0), release(63), set(63, 1)];
    for ceilings in [vec![1; 32], vec![15; 32], vec![32; 32], rising()] {
        assert_eq!(checked(&[&down(), &up()], &ceilings), (0, 0, 0));
        let parts: [&[RawStep]; 4] = [&down(), &inside, &up(), &[AGAIN]];
        assert_eq!(checked(&parts, &ceilings), (0, 0, 0));
        let twice: [&[RawStep]; 5] = [&down(), &up(), &[SUSPEND], &down(), &up()];
        assert_eq!(checked(&twice, &ceilings), (0, 0, 0));
    }
}

#[test]
fn blocking_again_or_end_inside_32_objects_is_17() {
    for step in [delay(0), delay(1), SUSPEND] {
        assert_eq!(checked(&[&down(), &[step], &up()], &[15; 32]), (17, 63, 32));
        // 31 of them are left again.
        let late: [&[RawStep]; 4] = [&down(), &up()[..31], &[step], &up()[31..]];
        assert_eq!(checked(&late, &rising()), (17, 63, 63));
        let outside: [&[RawStep]; 3] = [&down(), &up(), &[step]];
        assert_eq!(checked(&outside, &rising()), (0, 0, 0));
    }
    assert_eq!(checked(&[&down(), &[AGAIN]], &[15; 32]), (17, 63, 32));
    assert_eq!(checked(&[&down()], &[15; 32]), (17, 63, 32));
    assert_eq!(checked(&[&down(), &up()[..31]], &rising()), (17, 63, 63));
}

#[test]
fn enter_of_each_of_32_held_objects_is_17() {
    for o in 0..32 {
        // Also where its ceiling is below one that is held.
        for ceilings in [vec![15; 32], rising()] {
            let verdict = checked(&[&down(), &[enter(o)]], &ceilings);
            assert_eq!(verdict, (17, 63, 32), "object {o}");
        }
    }
}

#[test]
fn a_low_ceiling_among_32_is_18_at_its_enter() {
    for low in 1..32 {
        let mut ceilings = vec![15; 32];
        ceilings[low] = 14;
        let verdict = checked(&[&down(), &up()], &ceilings);
        assert_eq!(verdict, (18, 63, low));
        // One that is higher makes the one behind it too low.
        let mut ceilings = vec![15; 32];
        ceilings[low - 1] = 16;
        let verdict = checked(&[&down(), &up()], &ceilings);
        assert_eq!(verdict, (18, 63, low));
    }
    // The last two of the rising ceilings are exchanged.
    let mut ceilings = rising();
    ceilings.swap(30, 31);
    assert_eq!(checked(&[&down(), &up()], &ceilings), (18, 63, 31));
}

#[test]
fn an_own_set_far_behind_makes_ceilings_too_low() {
    let with_set = |p: u16| [up(), vec![set(63, p)]].concat();
    // The first Enter is step 0; in the rising ceilings it is that of object 0, ceiling 1.
    assert_eq!(checked(&[&down(), &with_set(15)], &[15; 32]), (0, 0, 0));
    assert_eq!(checked(&[&down(), &with_set(16)], &[15; 32]), (18, 63, 0));
    assert_eq!(checked(&[&down(), &with_set(1)], &rising()), (0, 0, 0));
    assert_eq!(checked(&[&down(), &with_set(2)], &rising()), (18, 63, 0));
}

#[test]
fn leave_of_an_outer_object_of_32_is_19() {
    for o in 0..31 {
        let verdict = checked(&[&down(), &[leave(o)]], &[15; 32]);
        assert_eq!(verdict, (19, 63, 32), "object {o}");
    }
    // The innermost twice; all in the order of their Enters; and one Leave too many.
    let twice = checked(&[&down(), &[leave(31), leave(31)]], &rising());
    assert_eq!(twice, (19, 63, 33));
    let outer_first: Vec<RawStep> = (0..32).map(leave).collect();
    assert_eq!(checked(&[&down(), &outer_first], &rising()), (19, 63, 32));
    let more: [&[RawStep]; 3] = [&down(), &up(), &[leave(0)]];
    assert_eq!(checked(&more, &rising()), (19, 63, 64));
}

#[test]
fn set_of_each_other_task_inside_32_objects_is_20() {
    for t in 0..63 {
        let verdict = checked(&[&down(), &[set(t, 1)], &up()], &[15; 32]);
        assert_eq!(verdict, (20, 63, 32), "task {t}");
    }
}

#[test]
fn the_first_fault_in_order_of_64_tasks_is_named() {
    let mut tasks = last_with(&[leave(0)]);
    assert_eq!(verdict(&roster(&tasks, &[15; 32])), (19, 63, 0));
    for t in (0..63).rev() {
        tasks[t].1 = [down(), up(), vec![enter(31)]].concat();
        assert_eq!(verdict(&roster(&tasks, &[15; 32])), (17, t, 65));
    }
}

#[test]
fn the_end_of_the_longest_script_is_named() {
    let mut bytes = long();
    bytes[..4].copy_from_slice(&enter(0));
    assert_eq!(verdict(&bytes), (17, 0, 14996));
    assert_eq!(printed(&bytes, &[]), "refused 17 0 14996\n");
    bytes[59980..59984].copy_from_slice(&leave(0));
    assert_eq!(verdict(&bytes), (0, 0, 0));
    bytes[59980..59984].copy_from_slice(&AGAIN);
    assert_eq!(verdict(&bytes), (17, 0, 14995));
    // Left at once, with an own Set above the ceiling at the end.
    bytes[4..8].copy_from_slice(&leave(0));
    assert_eq!(verdict(&bytes), (0, 0, 0));
    bytes[59980..59984].copy_from_slice(&set(0, 16));
    assert_eq!(verdict(&bytes), (18, 0, 0));
}

// Runs.

#[test]
fn the_longest_script_is_run_to_its_end() {
    let mut run = Run::start(admit(&long()).expect("it passes"));
    for place in 1..=14996 {
        assert_eq!(run.take(Command::Step), done(0));
        assert_eq!(run.places, [place]);
    }
    assert_eq!(run.take(Command::Step), done(2));
    assert_eq!((run.running_byte(), &run.places), (255, &vec![14996]));
    assert_eq!(run.take(Command::Step), refused(5));
}

#[test]
fn a_script_that_starts_past_32768_is_run() {
    let tasks = [(10, vec![WORK; 8192]), (20, vec![delay(5), SUSPEND])];
    let events = [
        (STEP, (0, 0, 2)),
        (clock_event(4), (0, 0, 0)),
        (clock_event(5), (0, 1, 1)),
        (STEP, (0, 0, 2)),
        (STEP, (0, 0, 0)),
        (release_event(1), (0, 1, 1)),
        // At the end of its script it finishes.
        (STEP, (0, 0, 2)),
        (release_event(1), (0, 0, 0)),
    ];
    let (events, expected): (Vec<Record>, Vec<Reply>) = events.into_iter().unzip();
    assert_eq!(replies(&roster(&tasks, &[]), &events), expected);
}

#[test]
fn sixty_four_tasks_take_turns_for_a_whole_run() {
    let bytes = roster(&vec![(10, vec![delay(0), AGAIN]); 64], &[]);
    let given = replies(&bytes, &[STEP; 4096]);
    // Once around by Delay 0; then each goes back, runs on, and gives way at its next step.
    let turn = |t: u8| (0, (t + 1) % 64, 2);
    let first = (0..64).map(turn);
    let later = (0..64).flat_map(|t| [(0, t, 0), turn(t)]).cycle();
    let expected: Vec<Reply> = first.chain(later).take(4096).collect();
    assert_eq!(given, expected);
}

#[test]
fn sixty_four_tasks_wake_at_one_reading_of_a_run() {
    // Task t is due at 64 - t, so that they become ready from the last to the first.
    let tasks: Vec<RawTask> = (0..64).map(|t| (10, vec![delay(64 - t)])).collect();
    let events = [vec![STEP; 64], vec![clock_event(64)], vec![STEP; 65]].concat();
    let mut expected: Vec<Reply> = (1..64).map(|t| (0, t, 2)).collect();
    expected.push((0, 255, 2));
    expected.extend((0..64).rev().map(|t| (0, t, 2)));
    expected.extend([(0, 255, 2), (5, 255, 0)]);
    assert_eq!(replies(&roster(&tasks, &[]), &events), expected);
}

#[test]
fn events_name_tasks_up_to_63() {
    let mut tasks = vec![(10, vec![WORK, AGAIN]); 64];
    tasks[63] = (20, vec![SUSPEND, AGAIN]);
    let events = [
        (STEP, (0, 0, 2)),
        (release_event(64), (1, 0, 0)),
        (release_event(127), (1, 0, 0)),
        (release_event(191), (1, 0, 0)),
        (release_event(255), (1, 0, 0)),
        (set_event(64, 32), (1, 0, 0)),
        (set_event(127, 32), (1, 0, 0)),
        (set_event(63, 33), (3, 0, 0)),
        (set_event(63, 64), (3, 0, 0)),
        (set_event(63, 9), (0, 0, 0)),
        // Task 63 is released at 9, and then it is raised above 0.
        (release_event(63), (0, 0, 0)),
        (set_event(63, 32), (0, 63, 1)),
        (set_event(62, 32), (0, 63, 0)),
        // Back to its first step, where it is suspended: 62 runs.
        (STEP, (0, 63, 0)),
        (STEP, (0, 62, 2)),
    ];
    let (events, expected): (Vec<Record>, Vec<Reply>) = events.into_iter().unzip();
    assert_eq!(replies(&roster(&tasks, &[]), &events), expected);
}

#[test]
fn a_task_releases_63_others_by_its_steps() {
    // The others are suspended first; each that is released preempts task 0, and ends.
    let mut tasks = vec![(20, vec![SUSPEND]); 64];
    tasks[0] = (10, (1..64).map(release).collect());
    let suspended = (2..64).chain([0]).map(|t| (0, t, 2));
    let released = (1..64).flat_map(|t| [(0, t, 1), (0, 0, 2)]);
    let expected: Vec<Reply> = suspended.chain(released).collect();
    assert_eq!(replies(&roster(&tasks, &[]), &[STEP; 189]), expected);
}

#[test]
fn thirty_two_objects_are_entered_and_left_in_a_run() {
    // The other task is ready at 16 when the first is inside all objects.
    let tasks = [(1, [down(), up()].concat()), (16, vec![SUSPEND])];
    let events = [
        vec![STEP; 33],
        vec![release_event(1)],
        vec![STEP; 17],
        vec![STEP; 17],
    ]
    .concat();
    let mut expected = vec![(0, 0, 2)];
    expected.extend([(0, 0, 0); 32 + 1 + 16]);
    // Left below 16 it gives way, the other ends, and it leaves the rest and ends.
    expected.extend([(0, 1, 1), (0, 0, 2)]);
    expected.extend([(0, 0, 0); 15]);
    expected.push((0, 255, 2));
    assert_eq!(replies(&roster(&tasks, &rising()), &events), expected);
}

#[test]
fn bigger_rosters_bring_no_more_events() {
    for bytes in [long(), full()] {
        let number = |records: usize| {
            let mut buffer = vec![0xEE; 3 * records];
            let result = run(&bytes, &STEP.repeat(records), &mut buffer);
            assert!(result.is_ok() || buffer.iter().all(|&byte| byte == 0xEE));
            place(result)
        };
        assert_eq!(number(4096), (0, 0, 0));
        for records in [4097, 7500, 8191, 8192] {
            assert_eq!(number(records), (21, 0, 0), "{records} records");
        }
    }
}

#[test]
fn the_command_runs_a_full_roster() {
    // 0 is at the tail by Delay 0; 1 to 63 are delayed until 1 to 63; 0 goes on alone.
    let events = [STEP.repeat(65), clock_event(63).to_vec()].concat();
    let mut lines = String::from("passed\n");
    for t in (1..64).chain([0]) {
        lines += &format!("0 {t} 2\n");
    }
    // 0 is picked again, and all the others are ready behind it.
    lines += "0 0 0\n0 0 0\nend\n";
    assert_eq!(printed(&full(), &events), lines);
    assert_eq!(printed_for("full", &full(), &events), lines);
    let longer = [&[0][..], &full()].concat();
    assert_eq!(printed_for("over_full", &longer, &events), "refused 11\n");
}

// Random rosters.

/// Any step that a roster of so many tasks and objects may have, except Again.
fn random_step(random: &mut Random, tasks: usize, objects: usize) -> RawStep {
    let t = random.index(tasks) as u8;
    match random.below(7) {
        0 if objects > 0 => enter(random.index(objects) as u8),
        1 if objects > 0 => leave(random.index(objects) as u8),
        2 => delay(random.below(1 << 16) as u16),
        3 => SUSPEND,
        4 => release(t),
        5 => set(t, 1 + random.below(32) as u16),
        _ => WORK,
    }
}

/// Tasks with random steps that leave no room for another step, and ceilings.
fn random_parts(random: &mut Random) -> (Vec<RawTask>, Vec<u8>) {
    let (tasks, objects) = (1 + random.index(64), random.index(33));
    let priority = |random: &mut Random| 1 + random.below(32) as u8;
    let ceilings: Vec<u8> = (0..objects).map(|_| priority(random)).collect();
    let mut room = (60000 - 8 - 6 * tasks - 2 * objects) / 4;
    let share = 2 * room / tasks;
    let mut parts: Vec<RawTask> = Vec::new();
    for t in 0..tasks {
        let steps = if t + 1 < tasks {
            random.index(share + 1).min(room)
        } else {
            room
        };
        room -= steps;
        let script = (0..steps).map(|_| random_step(random, tasks, objects));
        let script: Vec<RawStep> = script.collect();
        parts.push((priority(random), script));
    }
    (parts, ceilings)
}

#[test]
fn random_rosters_of_the_longest_read_back() {
    for seed in 0..40 {
        let mut random = Random::new(seed);
        let (parts, ceilings) = random_parts(&mut random);
        let bytes = roster(&parts, &ceilings);
        assert!((59997..=60000).contains(&bytes.len()), "seed {seed}");
        let found = read(&bytes).expect("its form is right");
        let bases: Vec<u64> = parts.iter().map(|part| u64::from(part.0)).collect();
        assert_eq!(found.bases(), bases, "seed {seed}");
        let ceilings: Vec<u64> = ceilings.iter().copied().map(u64::from).collect();
        assert_eq!(found.ceilings, ceilings, "seed {seed}");
        let mut start = 0;
        for (t, (_, steps)) in parts.iter().enumerate() {
            assert_eq!(found.tasks[t].script.len(), steps.len(), "seed {seed}");
            let end = start + 4 * steps.len();
            assert_eq!(bytes[start..end], steps.concat(), "seed {seed}");
            // A lookup reads the whole roster, so not every task is looked up.
            if t % 16 == 0 || t + 1 == parts.len() {
                assert_eq!(script(&bytes, t), Ok(&bytes[start..end]), "seed {seed}");
            }
            start = end;
        }
        let one_more = [&[0; 4][..], &bytes].concat();
        assert_eq!(verdict(&one_more), (11, 0, 0), "seed {seed}");
    }
}

/// A script that passes the check with the rising ceilings: objects from the base up, nested.
fn random_script(random: &mut Random, base: u8) -> Vec<RawStep> {
    let inside: Vec<u8> = (base - 1..32).filter(|_| random.below(4) == 0).collect();
    let mut script: Vec<RawStep> = inside.iter().map(|&o| enter(o)).collect();
    script.push(release(random.below(64) as u8));
    script.extend(inside.iter().rev().map(|&o| leave(o)));
    script.push(delay(random.below(5) as u16));
    if random.below(3) == 0 {
        script.push(SUSPEND);
    }
    script.push(AGAIN);
    script
}

fn random_event(random: &mut Random, index: u64) -> Record {
    match random.below(32) {
        0..=3 => clock_event(index / 4 + random.below(3)),
        4..=7 => release_event(random.below(65) as u8),
        8 => set_event(random.below(65) as u8, 1 + random.below(33)),
        _ => STEP,
    }
}

#[test]
fn random_runs_of_64_tasks_and_32_objects_stay_sound() {
    let mut met = [0; 11];
    for seed in 0..40 {
        let mut random = Random::new(seed);
        let task = |random: &mut Random| {
            let base = 1 + random.below(32) as u8;
            (base, random_script(random, base))
        };
        let tasks: Vec<RawTask> = (0..64).map(|_| task(&mut random)).collect();
        let bytes = roster(&tasks, &rising());
        let events: Vec<Record> = (0..300).map(|n| random_event(&mut random, n)).collect();
        let commands = decode(&events.concat()).expect("good records");
        let mut run = Run::start(admit(&bytes).expect("it passes"));
        for (reply, command) in replies(&bytes, &events).into_iter().zip(commands) {
            let outcome = run.take(command);
            let taken = (outcome.answer, run.running_byte(), outcome.report);
            assert_eq!(reply, taken, "seed {seed}, {command:?}");
            assert_eq!(broken(&run.state), [""; 0], "seed {seed}, {command:?}");
            assert!(holders_are_single(&run.state), "seed {seed}, {command:?}");
            met[usize::from(reply.0)] += 1;
        }
    }
    // 8 comes of a Set from outside; otherwise the check leaves no refusal of a step.
    let answers: Vec<usize> = (0..11).filter(|&number| met[number] > 0).collect();
    assert_eq!(answers, [0, 1, 3, 4, 8], "{met:?}");
}
