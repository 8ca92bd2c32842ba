//! The check of a roster: numbers 17 to 20, the first fault in task and step order.

use crate::support::{
    delay, enter, leave, release, roster, set, verdict, RawStep, AGAIN, SUSPEND, WORK,
};

/// The verdict on task 1 of base 15 with this script, beside an idle task.
fn checked(script: &[RawStep], ceilings: &[u8]) -> (u8, usize, usize) {
    verdict(&roster(&[(15, vec![]), (15, script.to_vec())], ceilings))
}

#[test]
fn blocking_again_or_end_while_held_is_17() {
    assert_eq!(checked(&[enter(0), delay(5), leave(0)], &[20]), (17, 1, 1));
    assert_eq!(checked(&[enter(0), delay(0), leave(0)], &[20]), (17, 1, 1));
    assert_eq!(checked(&[enter(0), SUSPEND, leave(0)], &[20]), (17, 1, 1));
    assert_eq!(checked(&[enter(0), WORK, AGAIN], &[20]), (17, 1, 2));
    assert_eq!(checked(&[enter(0), WORK], &[20]), (17, 1, 2));
    assert_eq!(checked(&[enter(0)], &[20]), (17, 1, 1));
    assert_eq!(
        checked(&[enter(0), enter(1), leave(1)], &[20, 20]),
        (17, 1, 3)
    );
}

#[test]
fn what_is_allowed_while_held() {
    let script = [enter(0), WORK, release(0), set(1, 20), leave(0), AGAIN];
    assert_eq!(checked(&script, &[20]), (0, 0, 0));
    let again = [enter(0), leave(0), enter(0), leave(0), SUSPEND, delay(0)];
    assert_eq!(checked(&again, &[20]), (0, 0, 0));
}

#[test]
fn enter_of_a_held_object_is_17() {
    assert_eq!(checked(&[enter(0), enter(0)], &[20]), (17, 1, 1));
    let nested = [enter(0), enter(1), enter(0)];
    assert_eq!(checked(&nested, &[20, 20]), (17, 1, 2));
}

#[test]
fn enter_of_a_held_object_with_a_low_ceiling_is_17_and_not_18() {
    let nested = [enter(0), enter(1), enter(0)];
    assert_eq!(checked(&nested, &[20, 25]), (17, 1, 2));
}

#[test]
fn a_ceiling_below_the_base_is_18() {
    assert_eq!(checked(&[WORK, enter(0), leave(0)], &[14]), (18, 1, 1));
    assert_eq!(checked(&[WORK, enter(0), leave(0)], &[15]), (0, 0, 0));
}

#[test]
fn a_ceiling_below_an_own_set_is_18_wherever_the_set_is() {
    let before = [set(1, 20), enter(0), leave(0)];
    let after = [enter(0), leave(0), set(1, 20)];
    let inside = [enter(0), set(1, 20), leave(0)];
    let lowered = [set(1, 20), set(1, 1), enter(0), leave(0)];
    assert_eq!(checked(&before, &[19]), (18, 1, 1));
    assert_eq!(checked(&after, &[19]), (18, 1, 0));
    assert_eq!(checked(&inside, &[19]), (18, 1, 0));
    assert_eq!(checked(&lowered, &[19]), (18, 1, 2));
    for script in [&before[..], &after, &inside, &lowered] {
        assert_eq!(checked(script, &[20]), (0, 0, 0));
    }
}

#[test]
fn a_set_below_the_base_does_not_lower_the_bound() {
    assert_eq!(checked(&[set(1, 5), enter(0), leave(0)], &[14]), (18, 1, 1));
}

#[test]
fn a_set_of_another_task_does_not_count_for_18() {
    let script = [enter(0), leave(0), set(0, 32)];
    assert_eq!(checked(&script, &[20]), (20, 1, 2));
    let tasks = [(15, vec![enter(0), leave(0)]), (15, vec![set(0, 32)])];
    assert_eq!(verdict(&roster(&tasks, &[20])), (20, 1, 0));
}

#[test]
fn a_ceiling_below_a_held_one_is_18() {
    let nested = [enter(0), enter(1), leave(1), leave(0)];
    assert_eq!(checked(&nested, &[20, 19]), (18, 1, 1));
    assert_eq!(checked(&nested, &[20, 20]), (0, 0, 0));
    let deep = [enter(0), enter(1), enter(2)];
    assert_eq!(checked(&deep, &[20, 30, 25]), (18, 1, 2));
    let released = [enter(0), leave(0), enter(1), leave(1)];
    assert_eq!(checked(&released, &[20, 19]), (0, 0, 0));
}

#[test]
fn leave_not_innermost_is_19() {
    assert_eq!(checked(&[WORK, leave(0)], &[20]), (19, 1, 1));
    assert_eq!(checked(&[enter(0), leave(1)], &[20, 20]), (19, 1, 1));
    let crossed = [enter(0), enter(1), leave(0), leave(1)];
    assert_eq!(checked(&crossed, &[20, 20]), (19, 1, 2));
    assert_eq!(checked(&[enter(0), leave(0), leave(0)], &[20]), (19, 1, 2));
}

#[test]
fn set_of_another_task_is_20() {
    assert_eq!(checked(&[WORK, set(0, 10)], &[]), (20, 1, 1));
    assert_eq!(checked(&[WORK, set(1, 10)], &[]), (0, 0, 0));
    assert_eq!(checked(&[enter(0), set(0, 10)], &[20]), (20, 1, 1));
}

#[test]
fn the_first_fault_wins_over_lower_numbers_behind_it() {
    assert_eq!(checked(&[set(0, 10), enter(0)], &[20]), (20, 1, 0));
    let tasks = [(15, vec![WORK, set(1, 9)]), (15, vec![enter(0)])];
    assert_eq!(verdict(&roster(&tasks, &[20])), (20, 0, 1));
}

#[test]
fn all_thirty_two_objects_can_be_nested() {
    let down = (0..32).map(enter);
    let up = (0..32).rev().map(leave);
    let script: Vec<RawStep> = down.chain(up).collect();
    assert_eq!(checked(&script, &[15; 32]), (0, 0, 0));
    assert_eq!(checked(&script[..32], &[15; 32]), (17, 1, 32));
}
