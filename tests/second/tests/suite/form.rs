//! The form of a roster: numbers 11 to 16 at their boundaries, their order and their place.

use crate::support::{
    delay, enter, leave, place, release, roster, set, verdict, RawStep, AGAIN, SUSPEND, WORK,
};
use second::roster::{base, ceiling, read, script, step, step_count};

/// The number and place of a refusal by form alone.
fn form(bytes: &[u8]) -> (u8, usize, usize) {
    place(read(bytes).map(|_| ()))
}

/// Two tasks with a step each and two objects: 8 + 12 + 4 + 8 bytes.
fn small() -> Vec<u8> {
    roster(&[(10, vec![WORK]), (20, vec![SUSPEND])], &[25, 30])
}

/// The verdict on the small roster with one byte changed.
fn changed(at: usize, value: u8) -> (u8, usize, usize) {
    let mut bytes = small();
    assert_ne!(bytes[at], value);
    bytes[at] = value;
    verdict(&bytes)
}

/// The verdict on one task with this script, beside a second task and two objects.
fn scripted(script: &[RawStep]) -> (u8, usize, usize) {
    verdict(&roster(
        &[(10, vec![WORK]), (10, script.to_vec())],
        &[25, 30],
    ))
}

#[test]
fn the_small_roster_passes() {
    assert_eq!(small().len(), 32);
    assert_eq!(verdict(&small()), (0, 0, 0));
}

#[test]
fn the_shortest_roster() {
    let shortest = roster(&[(15, vec![])], &[]);
    assert_eq!(shortest.len(), 14);
    assert_eq!(verdict(&shortest), (0, 0, 0));
    assert_eq!(verdict(&shortest[1..]), (11, 0, 0));
    assert_eq!(verdict(&[]), (11, 0, 0));
    assert_eq!(script(&shortest, 0), Ok(&[][..]));
}

#[test]
fn the_longest_roster() {
    let mut longest = roster(&[(15, vec![WORK; 14996])], &[15]);
    assert_eq!(longest.len(), 60000);
    assert_eq!(verdict(&longest), (0, 0, 0));
    assert_eq!(script(&longest, 0).map(<[u8]>::len), Ok(59984));
    longest.insert(0, 0);
    assert_eq!(longest.len(), 60001);
    assert_eq!(verdict(&longest), (11, 0, 0));
}

#[test]
fn a_wrong_mark_is_12() {
    assert_eq!(changed(24, 0x53), (12, 0, 0));
    assert_eq!(changed(25, 0x36), (12, 0, 0));
    assert_eq!(verdict(&[0; 14]), (12, 0, 0));
}

#[test]
fn counts_out_of_range_are_13() {
    assert_eq!(changed(26, 0), (13, 0, 0));
    assert_eq!(changed(26, 65), (13, 0, 0));
    assert_eq!(changed(26, 255), (13, 0, 0));
    assert_eq!(changed(27, 33), (13, 0, 0));
    assert_eq!(changed(27, 255), (13, 0, 0));
    let tasks = |n: usize| vec![(15, vec![WORK]); n];
    assert_eq!(verdict(&roster(&tasks(64), &[15; 32])), (0, 0, 0));
    assert_eq!(verdict(&roster(&tasks(65), &[])), (13, 0, 0));
    assert_eq!(verdict(&roster(&tasks(1), &[15; 33])), (13, 0, 0));
}

#[test]
fn starts_and_lengths_off_the_layout_are_14() {
    // The counts are in range and do not fit the bytes.
    assert_eq!(changed(26, 1), (14, 0, 0));
    assert_eq!(changed(26, 3), (14, 0, 0));
    assert_eq!(changed(26, 64), (14, 0, 0));
    assert_eq!(changed(27, 1), (14, 0, 0));
    assert_eq!(changed(27, 32), (14, 0, 0));
    // The starts of the object table and of the task table, low and high bytes.
    for (at, right) in [(28, 20), (30, 8)] {
        assert_eq!(changed(at, right - 1), (14, 0, 0));
        assert_eq!(changed(at, right + 1), (14, 0, 0));
        assert_eq!(changed(at + 1, 1), (14, 0, 0));
    }
    // Script start and length of each task.
    for at in [10, 11, 12, 13, 16, 17, 18, 19] {
        let was = small()[at];
        for value in (0..=255).filter(|&value| value != was) {
            assert_eq!(changed(at, value), (14, 0, 0), "byte {at} as {value}");
        }
    }
}

#[test]
fn scripts_must_leave_no_gap_and_hold_whole_steps() {
    // Lengths 2 and 6 add up to the task table's start and are no multiples of 4.
    let mut bytes = small();
    (bytes[12], bytes[16], bytes[18]) = (2, 2, 6);
    assert_eq!(verdict(&bytes), (14, 0, 0));
    // The scripts of both tasks swapped in their places.
    let mut bytes = small();
    (bytes[10], bytes[16]) = (4, 0);
    assert_eq!(verdict(&bytes), (14, 0, 0));
    // Both tasks share the first script, and the second is left over.
    let mut bytes = small();
    bytes[16] = 0;
    assert_eq!(verdict(&bytes), (14, 0, 0));
    // All steps belong to the first task; the empty script starts at the running sum.
    let mut bytes = small();
    (bytes[12], bytes[16], bytes[18]) = (8, 8, 0);
    assert_eq!(verdict(&bytes), (0, 0, 0));
    bytes[16] = 0;
    assert_eq!(verdict(&bytes), (14, 0, 0));
}

#[test]
fn wrong_bases_ceilings_and_zero_bytes_are_15() {
    for at in [8, 14, 20, 22] {
        assert_eq!(changed(at, 0), (15, 0, 0));
        assert_eq!(changed(at, 33), (15, 0, 0));
        assert_eq!(changed(at, 255), (15, 0, 0));
        assert_eq!(changed(at, 1), (0, 0, 0));
        assert_eq!(changed(at, 32), (0, 0, 0));
    }
    for at in [9, 15, 21, 23] {
        assert_eq!(changed(at, 1), (15, 0, 0));
        assert_eq!(changed(at, 128), (15, 0, 0));
    }
}

#[test]
fn the_lowest_of_11_to_16_wins() {
    let mut bytes = small();
    bytes[4] = 99;
    assert_eq!(verdict(&bytes), (16, 1, 0));
    bytes[8] = 0;
    assert_eq!(verdict(&bytes), (15, 0, 0));
    bytes[12] = 1;
    assert_eq!(verdict(&bytes), (14, 0, 0));
    bytes[26] = 0;
    assert_eq!(verdict(&bytes), (13, 0, 0));
    bytes[24] = 0;
    assert_eq!(verdict(&bytes), (12, 0, 0));
    bytes.truncate(13);
    assert_eq!(verdict(&bytes), (11, 0, 0));
}

#[test]
fn every_good_step_is_accepted() {
    let script = [
        enter(1),
        leave(1),
        delay(0),
        delay(65535),
        WORK,
        SUSPEND,
        release(0),
        release(1),
        set(1, 1),
        AGAIN,
    ];
    assert_eq!(scripted(&script), (0, 0, 0));
    assert_eq!(scripted(&[AGAIN]), (0, 0, 0));
    assert_eq!(form(&roster(&[(10, vec![set(0, 32)])], &[])), (0, 0, 0));
}

#[test]
fn unknown_codes_are_16() {
    for code in (0..=255).filter(|code| !(1..=8).contains(code)) {
        assert_eq!(scripted(&[WORK, [code, 0, 0, 0]]), (16, 1, 1));
    }
}

#[test]
fn unused_operands_that_are_not_0_are_16() {
    let bad: [RawStep; 16] = [
        [1, 0, 1, 0],
        [1, 0, 0, 1],
        [2, 0, 1, 0],
        [2, 0, 0, 1],
        [3, 1, 5, 0],
        [4, 1, 0, 0],
        [4, 0, 1, 0],
        [4, 0, 0, 1],
        [5, 1, 0, 0],
        [5, 0, 1, 0],
        [5, 0, 0, 1],
        [6, 0, 1, 0],
        [6, 0, 0, 1],
        [8, 1, 0, 0],
        [8, 0, 1, 0],
        [8, 0, 0, 1],
    ];
    for step in bad {
        assert_eq!(scripted(&[WORK, WORK, step]), (16, 1, 2), "{step:?}");
    }
}

#[test]
fn unlisted_objects_and_tasks_are_16() {
    for step in [
        enter(2),
        leave(2),
        enter(255),
        release(2),
        release(255),
        set(2, 10),
    ] {
        assert_eq!(scripted(&[step]), (16, 1, 0), "{step:?}");
    }
}

#[test]
fn a_script_that_sets_no_priority_is_16() {
    for p in [0, 33, 255, 256, 257, 65535] {
        assert_eq!(scripted(&[set(1, p)]), (16, 1, 0), "{p}");
    }
}

#[test]
fn again_before_the_last_step_is_16() {
    assert_eq!(scripted(&[WORK, AGAIN, WORK]), (16, 1, 1));
    assert_eq!(scripted(&[AGAIN, AGAIN]), (16, 1, 0));
}

#[test]
fn the_first_bad_step_in_task_and_step_order_is_named() {
    let bad: RawStep = [0, 0, 0, 0];
    let tasks = [
        (10, vec![WORK]),
        (10, vec![WORK, bad, bad]),
        (10, vec![bad]),
    ];
    assert_eq!(verdict(&roster(&tasks, &[])), (16, 1, 1));
}

#[test]
fn a_bad_step_in_a_later_task_comes_before_the_check() {
    let tasks = [(10, vec![leave(0)]), (10, vec![enter(1)])];
    assert_eq!(verdict(&roster(&tasks, &[20])), (16, 1, 0));
    assert_eq!(verdict(&roster(&tasks, &[20, 20])), (19, 0, 0));
}

#[test]
fn lookups_refuse_by_form_and_then_by_index() {
    let good = small();
    assert_eq!(
        (script(&good, 1), script(&good, 2)),
        (Ok(&good[4..8]), Err(1))
    );
    assert_eq!((base(&good, 1), base(&good, 2)), (Ok(20), Err(1)));
    assert_eq!((ceiling(&good, 1), ceiling(&good, 2)), (Ok(30), Err(2)));
    assert_eq!(
        (step_count(&good, 1), step_count(&good, 2)),
        (Ok(1), Err(1))
    );
    assert_eq!(
        (step(&good, 1, 0), step(&good, 2, 0)),
        (Ok([5, 0, 0, 0]), Err(1))
    );
    let faults: [(usize, u8, u8); 5] = [
        (24, 0, 12),
        (26, 0, 13),
        (28, 0, 14),
        (8, 0, 15),
        (0, 0, 16),
    ];
    for (at, value, number) in faults {
        let mut bytes = good.clone();
        bytes[at] = value;
        assert_eq!(script(&bytes, 9), Err(number));
        assert_eq!(base(&bytes, 9), Err(number));
        assert_eq!(ceiling(&bytes, 9), Err(number));
        assert_eq!(step_count(&bytes, 9), Err(number));
        assert_eq!(step(&bytes, 9, 9), Err(number));
    }
    assert_eq!(script(&good[..13], 0), Err(11));
}

#[test]
fn lookups_do_not_apply_the_check() {
    let unchecked = roster(&[(10, vec![leave(0)])], &[20]);
    assert_eq!(verdict(&unchecked), (19, 0, 0));
    assert_eq!(form(&unchecked), (0, 0, 0));
    assert_eq!(script(&unchecked, 0), Ok(&unchecked[..4]));
    assert_eq!(base(&unchecked, 0), Ok(10));
    assert_eq!(ceiling(&unchecked, 0), Ok(20));
}

#[test]
fn a_step_at_the_end_of_a_script_is_finish() {
    let bytes = roster(&[(10, vec![delay(515), WORK]), (20, vec![])], &[]);
    assert_eq!(step(&bytes, 0, 0), Ok([3, 0, 3, 2]));
    assert_eq!(step(&bytes, 0, 1), Ok([4, 0, 0, 0]));
    for index in [2, 3, 1 << 62, u64::MAX] {
        assert_eq!(step(&bytes, 0, index), Ok([0; 4]));
    }
    assert_eq!(
        (step_count(&bytes, 0), step_count(&bytes, 1)),
        (Ok(2), Ok(0))
    );
    assert_eq!(step(&bytes, 1, 0), Ok([0; 4]));
}
