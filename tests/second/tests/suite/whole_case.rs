//! The whole case of document 01: a roster of 46 bytes, eleven events, thirteen lines.

use crate::support::{clock_event, hex, place, verdict, Record, STEP};
use second::roster::{admit, base, ceiling, script, Step};
use second::run::{printed, run};

pub fn whole_roster() -> Vec<u8> {
    hex("01000000 04000000 02000000 03000500 01000000 02000000 \
         0A0000000C00 14000C000C00 1400 5235020124001800")
}

pub fn whole_events() -> Vec<u8> {
    let clock = clock_event;
    let events: [Record; 11] = [
        STEP,
        STEP,
        clock(5),
        STEP,
        STEP,
        STEP,
        clock(4),
        STEP,
        STEP,
        STEP,
        STEP,
    ];
    events.concat()
}

/// The third numbers, worked out from the rules: at the start 1 runs (base 20) and 0 is ready.
pub const WHOLE_LINES: &str = concat!(
    "passed\n",
    // 1 is delayed until 5, and 0 runs: the dispatch found nobody running.
    "0 0 2\n", // 0 enters, and its active priority is 20.
    "0 0 0\n", // 1 becomes ready at 20, no higher than 0.
    "0 0 0\n", // 0 works.
    "0 0 0\n",
    // 0 leaves and is at 10: the dispatch sends it to the head of queue 10, and 1 runs.
    "0 1 1\n", // 1 enters.
    "0 1 0\n", // Clock 4 is below now and refused; 1 still runs.
    "4 1 0\n", // 1 leaves, and 0 is lower.
    "0 1 0\n", // 1 ends, and 0 runs: the dispatch found nobody running.
    "0 0 2\n", // 0 ends, and nobody is ready.
    "0 - 2\n", // Nobody runs, so the step is refused.
    "5 - 0\n", "end\n",
);

/// The roster with ceiling 19 in place of 20.
pub fn low_roster() -> Vec<u8> {
    let mut roster = whole_roster();
    assert_eq!(roster[36], 0x14);
    roster[36] = 0x13;
    roster
}

#[test]
fn the_roster_reads_as_its_bytes_say() {
    let bytes = whole_roster();
    assert_eq!(bytes.len(), 46);
    let roster = admit(&bytes).expect("it passes");
    assert_eq!(roster.bases(), [10, 20]);
    assert_eq!(roster.ceilings, [20]);
    let first = [Step::Enter(0), Step::Work, Step::Leave(0)];
    let second = [Step::Delay(5), Step::Enter(0), Step::Leave(0)];
    assert_eq!(roster.tasks[0].script, first);
    assert_eq!(roster.tasks[1].script, second);
}

#[test]
fn lookups_hand_back_parts_of_the_roster() {
    let bytes = whole_roster();
    assert_eq!(script(&bytes, 0), Ok(&bytes[0..12]));
    let part = script(&bytes, 1).expect("a script");
    assert_eq!(part, &bytes[12..24]);
    assert_eq!(part.as_ptr(), bytes[12..].as_ptr());
    assert_eq!(script(&bytes, 2), Err(1));
    assert_eq!(
        (base(&bytes, 0), base(&bytes, 1), base(&bytes, 2)),
        (Ok(10), Ok(20), Err(1))
    );
    assert_eq!((ceiling(&bytes, 0), ceiling(&bytes, 1)), (Ok(20), Err(2)));
}

#[test]
fn the_lines_are_those_of_the_paper() {
    assert_eq!(printed(&whole_roster(), &whole_events()), WHOLE_LINES);
}

#[test]
fn the_replies_are_those_of_the_lines() {
    let mut buffer = [0xEE; 36];
    assert_eq!(run(&whole_roster(), &whole_events(), &mut buffer), Ok(()));
    let expected = hex("000002 000000 000000 000000 000101 000100 \
                        040100 000100 000002 00FF02 05FF00 EEEEEE");
    assert_eq!(buffer[..], expected);
}

#[test]
fn a_ceiling_of_19_is_refused_at_task_1_step_1() {
    assert_eq!(verdict(&low_roster()), (18, 1, 1));
    assert_eq!(printed(&low_roster(), &whole_events()), "refused 18 1 1\n");
    let mut buffer = [0xEE; 36];
    let refused = run(&low_roster(), &whole_events(), &mut buffer);
    assert_eq!(place(refused), (18, 1, 1));
    assert_eq!(buffer, [0xEE; 36]);
}
