//! A run: numbers 21 and 22, what is written, and how steps move.

use crate::support::{
    clock_event, delay, done, enter, leave, place, record, refused, release, release_event,
    replies, roster, set, set_event, Record, AGAIN, LARGEST, LONGEST, STEP, SUSPEND, WORK,
};
use second::machine::Event;
use second::roster::admit;
use second::run::{decode, printed, run, Command, Run, REPLY_SIZE};

/// The number of a refused run, having seen that it wrote nothing.
fn refusal(roster: &[u8], events: &[u8], room: usize) -> (u8, usize, usize) {
    let mut buffer = vec![0xEE; room];
    let result = run(roster, events, &mut buffer);
    assert!(result.is_ok() || buffer.iter().all(|&byte| byte == 0xEE));
    place(result)
}

fn worker() -> Vec<u8> {
    roster(&[(10, vec![WORK, AGAIN])], &[])
}

// Events and their refusals.

#[test]
fn records_decode_by_kind() {
    let events = [
        clock_event(LARGEST),
        release_event(255),
        STEP,
        set_event(7, 0x0102_0304_0506),
    ];
    let expected = [
        Command::Clock(LARGEST),
        Command::Release(255),
        Command::Step,
        Command::Set(7, 0x0102_0304_0506),
    ];
    assert_eq!(decode(&events.concat()), Ok(expected.to_vec()));
    assert_eq!(
        decode(&[1, 0, 1, 2, 3, 4, 5, 6]),
        Ok(vec![Command::Clock(0x0605_0403_0201)])
    );
    assert_eq!(decode(&[]), Ok(vec![]));
}

#[test]
fn a_length_that_is_no_multiple_of_8_is_21() {
    for length in [1, 7, 9, 15, 17] {
        let mut events = STEP.repeat(3);
        events.truncate(length);
        assert_eq!(refusal(&worker(), &events, 100), (21, 0, 0));
    }
}

#[test]
fn more_than_32768_bytes_of_events_are_21() {
    assert_eq!(refusal(&worker(), &STEP.repeat(4096), 12288), (0, 0, 0));
    assert_eq!(refusal(&worker(), &STEP.repeat(4097), 12291), (21, 0, 0));
}

#[test]
fn unknown_kinds_are_21() {
    for kind in (0..=255).filter(|kind| !(1..=4).contains(kind)) {
        assert_eq!(refusal(&worker(), &record(kind, 0, 0), 3), (21, 0, 0));
    }
}

#[test]
fn unused_fields_that_are_not_0_are_21() {
    let bad = [
        record(1, 1, 5),
        record(2, 0, 1),
        record(2, 0, 1 << 40),
        record(3, 1, 0),
        record(3, 0, 1),
        record(3, 0, 1 << 40),
    ];
    for event in bad {
        assert_eq!(refusal(&worker(), &event, 3), (21, 0, 0), "{event:?}");
    }
}

#[test]
fn one_bad_record_at_the_end_refuses_the_whole_run() {
    let events = [STEP, STEP, record(5, 0, 0)].concat();
    assert_eq!(refusal(&worker(), &events, 9), (21, 0, 0));
    assert_eq!(printed(&worker(), &events), "refused 21\n");
}

#[test]
fn a_buffer_shorter_than_three_bytes_per_event_is_22() {
    assert_eq!(REPLY_SIZE, 3);
    for count in [1, 2, 3, 100, 4096] {
        let events = STEP.repeat(count);
        // Room for two bytes per event is no longer enough.
        for room in [0, count, 2 * count, 3 * count - 2, 3 * count - 1] {
            assert_eq!(refusal(&worker(), &events, room), (22, 0, 0), "{room}");
        }
        for room in [3 * count, 3 * count + 1, 4 * count] {
            assert_eq!(refusal(&worker(), &events, room), (0, 0, 0), "{room}");
        }
    }
    assert_eq!(refusal(&worker(), &[], 0), (0, 0, 0));
}

#[test]
fn bytes_past_the_last_reply_stay() {
    // The end of the only task is a change, so that every byte of its reply is seen.
    let empty = roster(&[(10, vec![])], &[]);
    for past in 0..8 {
        let mut buffer = vec![0xEE; 6 + past];
        assert_eq!(run(&empty, &STEP.repeat(2), &mut buffer), Ok(()));
        assert_eq!(buffer[..6], [0, 255, 2, 5, 255, 0]);
        assert_eq!(buffer[6..], vec![0xEE; past]);
    }
    let mut buffer = [0xEE; 4];
    assert_eq!(run(&empty, &[], &mut buffer), Ok(()));
    assert_eq!(buffer, [0xEE; 4]);
}

#[test]
fn the_roster_comes_before_the_events_and_they_before_the_buffer() {
    let unchecked = roster(&[(10, vec![WORK, leave(0)])], &[20]);
    assert_eq!(refusal(&unchecked, &[9], 0), (19, 0, 1));
    assert_eq!(refusal(&[], &[9], 0), (11, 0, 0));
    assert_eq!(
        refusal(&worker(), &[STEP, record(9, 0, 0)].concat(), 0),
        (21, 0, 0)
    );
}

// Answers of events in a run.

#[test]
fn used_fields_out_of_range_are_answers() {
    let two = roster(&[(10, vec![]), (10, vec![])], &[]);
    let events = [
        release_event(1),
        release_event(2),
        release_event(255),
        set_event(2, 10),
        set_event(255, 0),
        set_event(1, 0),
        set_event(1, 33),
        set_event(1, 0x0001_0000_000A),
        set_event(1, 32),
        set_event(0, 1),
    ];
    let expected = [
        (0, 0, 0),
        (1, 0, 0),
        (1, 0, 0),
        (1, 0, 0),
        (1, 0, 0),
        (3, 0, 0),
        (3, 0, 0),
        (3, 0, 0),
        (0, 1, 1),
        (0, 1, 0),
    ];
    assert_eq!(replies(&two, &events), expected);
}

#[test]
fn the_clock_at_its_ends() {
    let events = [
        clock_event(0),
        clock_event(LARGEST),
        clock_event(LONGEST),
        clock_event(LONGEST - 1),
        clock_event(LONGEST),
    ];
    let expected = [(0, 0, 0), (4, 0, 0), (0, 0, 0), (4, 0, 0), (0, 0, 0)];
    assert_eq!(replies(&worker(), &events), expected);
}

#[test]
fn a_reading_is_judged_by_all_its_six_bytes() {
    // Without their fifth or sixth byte these would be taken.
    let high = [clock_event(5 + (1 << 32)), clock_event(5 + (1 << 40))];
    assert_eq!(replies(&worker(), &high), [(4, 0, 0), (4, 0, 0)]);
    assert_eq!(
        replies(&worker(), &[[1, 0, 255, 255, 255, 255, 255, 255]]),
        [(4, 0, 0)]
    );
    // The events of a run do not reach so far, so it starts there.
    let mut run = Run::start(admit(&worker()).expect("it passes"));
    run.state.now = LARGEST - 5;
    let events = [
        clock_event(LARGEST - 6),
        clock_event(LARGEST),
        clock_event(LARGEST - 1),
        clock_event(LARGEST),
    ];
    let commands = decode(&events.concat()).expect("good records");
    let answers: Vec<u8> = commands.into_iter().map(|c| run.take(c).answer).collect();
    assert_eq!((answers, run.state.now), (vec![4, 0, 4, 0], LARGEST));
}

#[test]
fn a_set_on_an_ended_task_is_6_and_a_step_with_nobody_5() {
    let empty = roster(&[(10, vec![])], &[]);
    let events = [
        STEP,
        set_event(0, 10),
        set_event(0, 33),
        STEP,
        release_event(0),
        STEP,
    ];
    let expected = [
        (0, 255, 2),
        (6, 255, 0),
        (3, 255, 0),
        (5, 255, 0),
        (0, 255, 0),
        (5, 255, 0),
    ];
    assert_eq!(replies(&empty, &events), expected);
}

// Steps.

#[test]
fn an_empty_script_finishes_at_its_first_step() {
    let bytes = roster(&[(10, vec![]), (5, vec![WORK])], &[]);
    assert_eq!(
        replies(&bytes, &[STEP; 4]),
        [(0, 1, 2), (0, 1, 0), (0, 255, 2), (5, 255, 0)]
    );
}

#[test]
fn again_is_a_step_of_its_own_and_goes_back() {
    let bytes = roster(&[(10, vec![WORK, AGAIN])], &[]);
    let mut run = Run::start(admit(&bytes).expect("it passes"));
    let fresh = run.state.clone();
    for place in [1, 0, 1, 0] {
        assert_eq!(run.take(Command::Step), done(0));
        assert_eq!(run.places, [place]);
        assert_eq!(run.state, fresh);
    }
}

#[test]
fn again_alone_loops() {
    let bytes = roster(&[(10, vec![AGAIN])], &[]);
    assert_eq!(replies(&bytes, &[STEP; 3]), [(0, 0, 0); 3]);
}

#[test]
fn finish_leaves_the_place_at_the_end() {
    let bytes = roster(&[(10, vec![WORK])], &[]);
    let mut run = Run::start(admit(&bytes).expect("it passes"));
    let outcomes = [(); 3].map(|_| run.take(Command::Step));
    assert_eq!(outcomes, [done(0), done(2), refused(5)]);
    assert_eq!(run.places, [1]);
}

#[test]
fn each_step_moves_the_place_of_the_task_that_took_it() {
    let bytes = roster(
        &[(10, vec![delay(0), WORK]), (10, vec![SUSPEND, WORK])],
        &[],
    );
    let mut run = Run::start(admit(&bytes).expect("it passes"));
    assert_eq!((run.take(Command::Step), run.running_byte()), (done(2), 1));
    assert_eq!(run.places, [1, 0]);
    assert_eq!((run.take(Command::Step), run.running_byte()), (done(2), 0));
    assert_eq!(run.places, [1, 1]);
}

#[test]
fn every_kind_of_step_is_its_event() {
    let script = vec![
        enter(0),
        leave(0),
        WORK,
        set(0, 12),
        release(0),
        SUSPEND,
        delay(3),
    ];
    let bytes = roster(&[(10, script)], &[20]);
    let mut run = Run::start(admit(&bytes).expect("it passes"));
    let events = [
        Event::Enter(0),
        Event::Leave(0),
        Event::Work,
        Event::Set(0, 12),
        Event::Release(0),
        Event::Suspend,
        Event::Delay(3),
    ];
    let mut state = run.state.clone();
    for (index, event) in events.into_iter().enumerate() {
        let (outcome, after) = second::machine::apply(state, event);
        assert_eq!((outcome.answer, run.take(Command::Step)), (0, outcome));
        assert_eq!((&run.state, run.places[0]), (&after, index + 1));
        state = after;
    }
    assert_eq!(run.take(Command::Clock(3)), done(2));
    let end = (run.take(Command::Step), run.running_byte());
    assert_eq!(end, (done(2), 255));
}

#[test]
fn a_refused_step_keeps_its_place_and_is_tried_again() {
    let bytes = roster(&[(10, vec![enter(0), leave(0)])], &[20]);
    let mut run = Run::start(admit(&bytes).expect("it passes"));
    assert_eq!(run.take(Command::Set(0, 21)), done(0));
    for _ in 0..2 {
        let before = run.clone();
        assert_eq!(run.take(Command::Step), refused(8));
        assert_eq!(run, before);
    }
    assert_eq!(run.take(Command::Set(0, 20)), done(0));
    assert_eq!((run.take(Command::Step), run.places[0]), (done(0), 1));
    assert_eq!(run.state.tasks[0].held, [0]);
}

#[test]
fn a_run_in_an_unsound_state_is_10_and_moves_nothing() {
    let bytes = roster(&[(10, vec![WORK, AGAIN])], &[]);
    let mut run = Run::start(admit(&bytes).expect("it passes"));
    run.state.running = None;
    let before = run.clone();
    let all = [
        Command::Clock(0),
        Command::Release(9),
        Command::Step,
        Command::Set(9, 0),
    ];
    for command in all {
        assert_eq!(run.take(command), refused(10));
        assert_eq!(run, before);
    }
}

#[test]
fn a_waiting_outside_set_takes_effect_at_the_leave_step() {
    let bytes = roster(&[(10, vec![enter(0), leave(0)]), (8, vec![WORK])], &[20]);
    let events: [Record; 4] = [STEP, set_event(0, 8), STEP, STEP];
    let expected = [(0, 0, 0), (0, 0, 0), (0, 1, 2), (0, 1, 0)];
    assert_eq!(replies(&bytes, &events), expected);
}

// Lines.

#[test]
fn no_events_print_passed_and_end() {
    assert_eq!(printed(&worker(), &[]), "passed\nend\n");
}

#[test]
fn refusals_print_one_line_with_a_place_from_16_to_20_alone() {
    let line = |script: &[[u8; 4]], ceilings: &[u8]| {
        printed(
            &roster(&[(15, vec![]), (15, script.to_vec())], ceilings),
            &[],
        )
    };
    let mut bytes = worker();
    assert_eq!(printed(&bytes[..13], &[]), "refused 11\n");
    let end = bytes.len();
    bytes[end - 8] = 0;
    assert_eq!(printed(&bytes, &[]), "refused 12\n");
    assert_eq!(line(&[], &[15; 33]), "refused 13\n");
    let longer = [&[0][..], &worker()].concat();
    assert_eq!(printed(&longer, &[]), "refused 14\n");
    assert_eq!(line(&[], &[33]), "refused 15\n");
    assert_eq!(line(&[WORK, enter(0)], &[]), "refused 16 1 1\n");
    assert_eq!(line(&[WORK, enter(0)], &[15]), "refused 17 1 2\n");
    assert_eq!(line(&[enter(0)], &[14]), "refused 18 1 0\n");
    assert_eq!(line(&[leave(0)], &[15]), "refused 19 1 0\n");
    assert_eq!(line(&[set(0, 9)], &[]), "refused 20 1 0\n");
    assert_eq!(printed(&worker(), &[0]), "refused 21\n");
    let zero = roster(&[(15, vec![set(0, 0)])], &[]);
    assert_eq!(printed(&zero, &[]), "refused 16 0 0\n");
}

#[test]
fn lines_give_answer_running_task_in_decimal_or_a_dash_and_report() {
    let mut tasks = vec![(10, vec![]); 64];
    tasks[63] = (20, vec![SUSPEND]);
    let events = [clock_event(0), STEP, release_event(63)];
    let text = printed(&roster(&tasks, &[]), &events.concat());
    assert_eq!(text, "passed\n0 63 0\n0 0 2\n0 63 1\nend\n");
    let alone = printed(&roster(&[(10, vec![])], &[]), &STEP.repeat(2));
    assert_eq!(alone, "passed\n0 - 2\n5 - 0\nend\n");
}
