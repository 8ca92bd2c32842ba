//! Request 2026-08: a reading more than the longest advance past now is refused with 4.

use crate::program::printed_for;
use crate::random::is_taken;
use crate::support::{
    answer, at, clock_event, delay, done, enter, fresh, hex, leave, place, play, queue, record,
    refused, release, release_event, replies, roster, Random, AGAIN, LARGEST, LONGEST, STEP,
    SUSPEND, WORK,
};
use second::machine::apply;
use second::machine::Event::{Clock, Delay, Enter, Finish, Leave, Release, Set, Suspend, Work};
use second::roster::admit;
use second::run::{decode, printed, run, Command, Run};
use second::sound::{broken, is_sound};
use second::state::{self, Place, State};

/// The only task runs, and nothing else is there.
fn alone() -> State {
    fresh(&[10], &[])
}

/// Every kind of place at now 7: 0 is delayed until 9, 1 suspended, 2 ended, 3 runs inside object
/// 0 with a waiting base, and 4 is ready with a permit.
fn mixed() -> State {
    let state = fresh(&[30, 29, 28, 10, 10], &[20]);
    let state = play(state, &[Delay(9), Suspend, Finish, Enter(0), Set(3, 5)]);
    play(state, &[Release(4), Clock(7)])
}

/// Nows all over the range from which the longest advance does not pass the largest reading.
fn nows() -> Vec<u64> {
    let (word, far) = (1 << 32, 1 << 40);
    let last = LARGEST - LONGEST;
    vec![
        0,
        1,
        2,
        100,
        65535,
        LONGEST - 1,
        LONGEST,
        LONGEST + 1,
        2 * LONGEST,
        word - LONGEST,
        word - 1,
        word,
        far - 1,
        far,
        last - LONGEST,
        last - 1,
        last,
    ]
}

// The longest advance.

#[test]
fn the_first_reading_is_measured_from_0() {
    let (refused, beside) = state::fresh(&[0], &[]);
    assert_eq!(refused, 15);
    let many = fresh(&[10; 64], &[20; 32]);
    for state in [alone(), many, beside] {
        assert_eq!(answer(&state, Clock(LONGEST - 1)), 0);
        assert_eq!(answer(&state, Clock(86_400_000)), 0);
        assert_eq!(answer(&state, Clock(86_400_001)), 4);
        assert_eq!(answer(&state, Clock(LARGEST)), 4);
        assert_eq!(answer(&state, Clock(LARGEST + 1)), 4);
        assert_eq!(answer(&state, Clock(u64::MAX)), 4);
        let after = play(state.clone(), &[Clock(LONGEST)]);
        assert_eq!(after, at(LONGEST, state));
    }
}

#[test]
fn later_readings_are_measured_from_now() {
    for now in nows() {
        let state = at(now, alone());
        assert_eq!(answer(&state, Clock(now)), 0, "now {now}");
        assert_eq!(answer(&state, Clock(now + 1)), 0, "now {now}");
        assert_eq!(answer(&state, Clock(now + LONGEST - 1)), 0, "now {now}");
        assert_eq!(answer(&state, Clock(now + LONGEST)), 0, "now {now}");
        assert_eq!(answer(&state, Clock(now + LONGEST + 1)), 4, "now {now}");
        assert_eq!(answer(&state, Clock(now + 2 * LONGEST)), 4, "now {now}");
        if now > 0 {
            assert_eq!(answer(&state, Clock(now - 1)), 4, "now {now}");
            assert_eq!(answer(&state, Clock(0)), 4, "now {now}");
        }
        let after = play(state, &[Clock(now + LONGEST)]);
        assert_eq!(after, at(now + LONGEST, alone()));
    }
}

#[test]
fn a_now_reached_by_readings_is_no_other() {
    let state = play(alone(), &[Clock(5), Clock(LONGEST + 5), Clock(LONGEST + 9)]);
    assert_eq!(state, at(LONGEST + 9, alone()));
    assert_eq!(answer(&state, Clock(2 * LONGEST + 9)), 0);
    assert_eq!(answer(&state, Clock(2 * LONGEST + 10)), 4);
}

#[test]
fn what_one_reading_may_not_two_may() {
    assert_eq!(answer(&alone(), Clock(LONGEST + 1)), 4);
    assert_eq!(
        play(alone(), &[Clock(1), Clock(LONGEST + 1)]).now,
        LONGEST + 1
    );
    assert_eq!(
        play(alone(), &[Clock(LONGEST), Clock(LONGEST + 1)]).now,
        LONGEST + 1
    );
}

#[test]
fn many_longest_advances_one_after_the_other() {
    let mut state = alone();
    for count in 1..=10_000 {
        let reading = count * LONGEST;
        assert_eq!(answer(&state, Clock(reading + 1)), 4, "reading {count}");
        state = play(state, &[Clock(reading)]);
    }
    assert_eq!(state, at(864_000_000_000, alone()));
}

#[test]
fn the_longest_advance_wakes_by_due_time_and_then_by_number() {
    let state = fresh(&[10, 10, 10, 5], &[]);
    let state = play(state, &[Delay(7), Delay(3), Delay(7), Clock(LONGEST)]);
    assert_eq!((state.running, state.now), (Some(1), LONGEST));
    assert_eq!((queue(&state, 10), queue(&state, 5)), (vec![0, 2], vec![3]));
}

#[test]
fn the_longest_advance_wakes_a_task_of_the_longest_delay() {
    for now in nows() {
        let state = play(at(now, alone()), &[Delay(65535)]);
        assert_eq!(answer(&state, Clock(now + LONGEST + 1)), 4, "now {now}");
        assert_eq!(state.running, None);
        let state = play(state, &[Clock(now + LONGEST)]);
        assert_eq!(state, at(now + LONGEST, alone()));
    }
}

#[test]
fn a_delay_after_the_longest_advance_is_due_from_the_new_now() {
    let state = play(alone(), &[Clock(LONGEST), Delay(65535)]);
    let due = LONGEST + 65535;
    assert_eq!(state.tasks[0].place, Place::Delayed { due });
    assert_eq!(play(state.clone(), &[Clock(due - 1)]).running, None);
    assert_eq!(play(state, &[Clock(due)]).running, Some(0));
}

// A refused leap.

#[test]
fn a_refused_leap_leaves_the_whole_state() {
    let state = mixed();
    assert!(is_sound(&state));
    let leaps = [7 + LONGEST + 1, 7 + 2 * LONGEST, LARGEST - 1, LARGEST];
    for reading in leaps.into_iter().chain([LARGEST + 1, u64::MAX]) {
        let (given, after) = apply(state.clone(), Clock(reading));
        assert_eq!((given, &after), (refused(4), &state), "reading {reading}");
    }
    let after = play(state, &[Clock(7 + LONGEST)]);
    assert_eq!((after.running, queue(&after, 20)), (Some(0), vec![3]));
    assert_eq!((after.now, queue(&after, 10)), (7 + LONGEST, vec![4]));
}

#[test]
fn a_refused_leap_wakes_nobody_though_a_task_is_due() {
    let state = play(fresh(&[10, 20], &[]), &[Delay(5)]);
    let (given, after) = apply(state.clone(), Clock(LONGEST + 1));
    assert_eq!((given, &after), (refused(4), &state));
    assert_eq!((after.running, after.now), (Some(0), 0));
    assert_eq!(after.tasks[1].place, Place::Delayed { due: 5 });
    let early = play(after, &[Clock(4)]);
    assert_eq!(early.running, Some(0));
    assert_eq!(play(early, &[Clock(5)]).running, Some(1));
}

#[test]
fn a_refused_leap_wakes_nobody_where_all_are_delayed() {
    let state = play(fresh(&[10, 20], &[]), &[Delay(5), Delay(65535)]);
    let (given, after) = apply(state.clone(), Clock(LONGEST + 1));
    assert_eq!((given, &after), (refused(4), &state));
    assert_eq!(after.running, None);
    let woken = play(after, &[Clock(LONGEST)]);
    assert_eq!((woken.running, queue(&woken, 10)), (Some(1), vec![0]));
}

#[test]
fn the_next_reading_is_judged_from_the_old_now() {
    let state = play(alone(), &[Clock(100)]);
    let (given, state) = apply(state, Clock(LONGEST + 101));
    assert_eq!((given, state.now), (refused(4), 100));
    assert_eq!(answer(&state, Clock(99)), 4);
    assert_eq!(answer(&state, Clock(100)), 0);
    assert_eq!(answer(&state, Clock(LONGEST + 100)), 0);
    assert_eq!(answer(&state, Clock(LONGEST + 101)), 4);
    assert_eq!(answer(&state, Clock(LONGEST + 102)), 4);
}

#[test]
fn refused_leaps_do_not_add_up() {
    let mut state = play(alone(), &[Clock(100)]);
    for past in (LONGEST + 1..).take(100) {
        let (given, after) = apply(state.clone(), Clock(100 + past));
        assert_eq!((given, &after), (refused(4), &state));
        state = after;
    }
    assert_eq!(play(state, &[Clock(100 + LONGEST)]).now, 100 + LONGEST);
}

#[test]
fn a_reading_below_now_does_not_move_the_measure() {
    let state = play(alone(), &[Clock(100)]);
    let (given, state) = apply(state, Clock(1));
    assert_eq!((given, state.now), (refused(4), 100));
    assert_eq!(answer(&state, Clock(LONGEST + 100)), 0);
    assert_eq!(answer(&state, Clock(LONGEST + 101)), 4);
}

#[test]
fn a_leap_is_4_where_nobody_runs_too() {
    for event in [Suspend, Finish, Delay(9)] {
        let state = play(alone(), &[event]);
        assert_eq!(answer(&state, Clock(LONGEST)), 0, "{event:?}");
        assert_eq!(answer(&state, Clock(LONGEST + 1)), 4, "{event:?}");
    }
}

#[test]
fn a_leap_is_4_inside_an_action_too() {
    let state = play(fresh(&[10], &[20]), &[Enter(0)]);
    assert_eq!(answer(&state, Clock(LONGEST + 1)), 4);
    let state = play(state, &[Clock(LONGEST), Leave(0)]);
    assert_eq!(state, at(LONGEST, fresh(&[10], &[20])));
}

#[test]
fn the_other_events_do_the_same_at_every_now() {
    for now in nows().into_iter().chain([LARGEST - 1, LARGEST]) {
        let events = [Work, Enter(0), Set(0, 9), Leave(0), Release(0), Suspend];
        let expected = play(fresh(&[10], &[20]), &events);
        let state = play(at(now, fresh(&[10], &[20])), &events);
        assert_eq!(state, at(now, expected));
    }
}

// Where the longest advance meets the largest reading.

/// The answers to the largest reading less one, to itself and to one more, from a now.
fn answers_at_the_end(now: u64) -> [u8; 3] {
    let state = at(now, alone());
    assert!(is_sound(&state));
    assert_eq!(answer(&state, Clock(u64::MAX)), 4);
    [LARGEST - 1, LARGEST, LARGEST + 1].map(|reading| answer(&state, Clock(reading)))
}

#[test]
fn the_largest_reading_is_a_leap_from_too_far_below_it() {
    assert_eq!(answers_at_the_end(LARGEST - LONGEST - 2), [4, 4, 4]);
    assert_eq!(answers_at_the_end(LARGEST - LONGEST - 1), [0, 4, 4]);
}

#[test]
fn the_largest_reading_is_taken_from_the_longest_advance_below_it() {
    assert_eq!(answers_at_the_end(LARGEST - LONGEST), [0, 0, 4]);
    let state = play(at(LARGEST - LONGEST, alone()), &[Clock(LARGEST)]);
    assert_eq!(state, at(LARGEST, alone()));
}

#[test]
fn above_the_largest_is_4_where_it_is_no_leap() {
    assert_eq!(answers_at_the_end(LARGEST - LONGEST + 1), [0, 0, 4]);
    assert_eq!(answers_at_the_end(LARGEST - LONGEST + 2), [0, 0, 4]);
    assert_eq!(answers_at_the_end(LARGEST - 2), [0, 0, 4]);
    assert_eq!(answers_at_the_end(LARGEST - 1), [0, 0, 4]);
    assert_eq!(answers_at_the_end(LARGEST), [4, 0, 4]);
    let state = at(LARGEST, alone());
    assert_eq!(answer(&state, Clock(LARGEST + LONGEST)), 4);
    assert_eq!(answer(&state, Clock(LARGEST + LONGEST + 1)), 4);
}

#[test]
fn a_task_due_at_the_largest_reading_wakes_and_one_due_past_it_never() {
    let early = at(LARGEST - 7, alone());
    let due_last = play(early.clone(), &[Delay(7)]);
    assert_eq!(play(due_last, &[Clock(LARGEST)]).running, Some(0));
    for past in [1, 2, 65528] {
        let due = LARGEST + past;
        let state = play(early.clone(), &[Delay(7 + past as u16)]);
        assert_eq!(state.tasks[0].place, Place::Delayed { due });
        assert_eq!(answer(&state, Clock(due)), 4);
        let state = play(state, &[Clock(LARGEST - 1), Clock(LARGEST), Clock(LARGEST)]);
        assert_eq!((state.running, broken(&state)), (None, vec![]));
        assert_eq!(answer(&state, Clock(due)), 4);
        assert_eq!(state.tasks[0].place, Place::Delayed { due });
    }
}

// Soundness knows no longest advance.

#[test]
fn a_sound_state_may_have_every_now_up_to_the_largest() {
    for now in nows().into_iter().chain([LARGEST - 1, LARGEST]) {
        assert_eq!(broken(&at(now, alone())), [""; 0], "now {now}");
        assert_eq!(answer(&at(now, alone()), Clock(now)), 0, "now {now}");
    }
    let past = at(LARGEST + 1, alone());
    assert_eq!(broken(&past), ["number_out_of_range"]);
}

#[test]
fn a_due_time_is_within_the_longest_delay_of_now_as_before() {
    let delayed = play(alone(), &[Delay(1)]);
    for now in nows().into_iter().chain([LARGEST - 1, LARGEST]) {
        let due = |due: u64| {
            let mut state = at(now, delayed.clone());
            state.tasks[0].place = Place::Delayed { due };
            broken(&state)
        };
        assert_eq!(due(now), ["due_not_after_now"]);
        assert_eq!(due(now + 1), [""; 0]);
        assert_eq!(due(now + 65535), [""; 0]);
        for past in [65536, LONGEST - 1, LONGEST, LONGEST + 1] {
            assert_eq!(due(now + past), ["due_too_far_ahead"], "{past} past {now}");
        }
    }
}

#[test]
fn a_leap_in_an_unsound_state_is_10() {
    let edge = u64::MAX - LONGEST;
    for now in [
        LARGEST + 1,
        edge - 1,
        edge,
        edge + 1,
        u64::MAX - 1,
        u64::MAX,
    ] {
        let state = at(now, alone());
        let ends = [0, LONGEST, LONGEST + 1, LARGEST, LARGEST + 1, u64::MAX];
        let nearby = [0, 1, LONGEST, LONGEST + 1].map(|past| now.wrapping_add(past));
        for reading in ends.into_iter().chain(nearby) {
            let (given, after) = apply(state.clone(), Clock(reading));
            assert_eq!(
                (given, &after),
                (refused(10), &state),
                "now {now}, {reading}"
            );
        }
    }
    let mut idle = fresh(&[10, 10], &[]);
    idle.running = None;
    let mut overdue = play(fresh(&[10, 20], &[]), &[Delay(5)]);
    overdue.now = 5;
    for state in [idle, overdue] {
        for past in [0, LONGEST, LONGEST + 1] {
            assert_eq!(answer(&state, Clock(state.now + past)), 10);
        }
    }
}

// In a run.

/// Task 1 is delayed for 5 by its first step, and then works; task 0 works all along.
fn two_tasks() -> Vec<u8> {
    let tasks = [(10, vec![WORK, AGAIN]), (20, vec![delay(5), WORK, AGAIN])];
    roster(&tasks, &[])
}

/// Steps, and readings at both sides of every limit that they meet, byte by byte.
fn events_with_leaps() -> Vec<u8> {
    hex("03 00 000000000000 \
         01 00 015C26050000 \
         01 00 FFFFFFFFFFFF \
         03 00 000000000000 \
         01 00 040000000000 \
         01 00 055C26050000 \
         01 00 045C26050000 \
         01 00 035C26050000 \
         03 00 000000000000 \
         01 00 04B84C0A0000 \
         01 00 0514730F0000 \
         01 00 0414730F0000")
}

/// Task 1 is delayed first, and its waking preempts task 0.
const LINES_WITH_LEAPS: &str = "passed\n\
    0 0 2\n4 0 0\n4 0 0\n0 0 0\n0 0 0\n4 0 0\n\
    0 1 1\n4 1 0\n0 1 0\n0 1 0\n4 1 0\n0 1 0\nend\n";

#[test]
fn the_bytes_are_the_readings_meant() {
    let expected = [
        Command::Step,
        Command::Clock(LONGEST + 1),
        Command::Clock(LARGEST),
        Command::Step,
        Command::Clock(4),
        Command::Clock(LONGEST + 5),
        Command::Clock(LONGEST + 4),
        Command::Clock(LONGEST + 3),
        Command::Step,
        Command::Clock(2 * LONGEST + 4),
        Command::Clock(3 * LONGEST + 5),
        Command::Clock(3 * LONGEST + 4),
    ];
    assert_eq!(decode(&events_with_leaps()), Ok(expected.to_vec()));
}

#[test]
fn a_run_with_leaps_writes_4_and_goes_on() {
    let mut buffer = [0xEE; 38];
    assert_eq!(run(&two_tasks(), &events_with_leaps(), &mut buffer), Ok(()));
    let expected = hex("000002 040000 040000 000000 000000 040000 \
                        000101 040100 000100 000100 040100 000100 EEEE");
    assert_eq!(buffer[..], expected);
}

#[test]
fn the_lines_of_a_run_with_leaps() {
    let lines = printed(&two_tasks(), &events_with_leaps());
    assert_eq!(lines, LINES_WITH_LEAPS);
    let by_command = printed_for("leaps", &two_tasks(), &events_with_leaps());
    assert_eq!(by_command, LINES_WITH_LEAPS);
}

#[test]
fn the_lines_of_leaps_where_nobody_runs() {
    let bytes = roster(&[(10, vec![SUSPEND])], &[]);
    let events = [
        STEP,
        clock_event(LONGEST + 1),
        clock_event(LARGEST),
        clock_event(LONGEST),
        clock_event(LARGEST),
        release_event(0),
    ];
    let lines = "passed\n0 - 2\n4 - 0\n4 - 0\n0 - 0\n4 - 0\n0 0 2\nend\n";
    assert_eq!(printed(&bytes, &events.concat()), lines);
    assert_eq!(printed_for("idle_leaps", &bytes, &events.concat()), lines);
}

#[test]
fn a_refused_leap_leaves_the_state_and_every_script_place() {
    let mut run = Run::start(admit(&two_tasks()).expect("it passes"));
    assert_eq!(run.take(Command::Step), done(2));
    assert_eq!(run.take(Command::Step), done(0));
    assert_eq!(run.places, [1, 1]);
    let before = run.clone();
    for reading in [LONGEST + 1, LONGEST + 2, LARGEST] {
        assert_eq!(run.take(Command::Clock(reading)), refused(4));
        assert_eq!((&run, run.running_byte()), (&before, 0));
    }
    assert_eq!(run.take(Command::Clock(LONGEST)), done(1));
    assert_eq!((&run.places, run.running_byte()), (&before.places, 1));
}

#[test]
fn a_leap_is_a_good_record() {
    for reading in [LONGEST + 1, 1 << 32, 1 << 40, LARGEST - 1, LARGEST] {
        let events = clock_event(reading);
        assert_eq!(decode(&events), Ok(vec![Command::Clock(reading)]));
        assert_eq!(replies(&two_tasks(), &[events]), [(4, 1, 0)]);
        assert_eq!(printed(&two_tasks(), &events), "passed\n4 1 0\nend\n");
    }
}

#[test]
fn a_leap_does_not_hide_a_bad_record_or_a_short_buffer() {
    let leap = clock_event(LARGEST);
    let refusal = |events: &[u8], room: usize| {
        let mut buffer = vec![0xEE; room];
        let result = run(&two_tasks(), events, &mut buffer);
        assert_eq!(buffer, vec![0xEE; room]);
        place(result)
    };
    assert_eq!(refusal(&record(1, 1, LARGEST), 3), (21, 0, 0));
    assert_eq!(refusal(&[leap, record(5, 0, 0)].concat(), 6), (21, 0, 0));
    assert_eq!(refusal(&leap[..7], 3), (21, 0, 0));
    assert_eq!(refusal(&[leap, leap].concat(), 5), (22, 0, 0));
}

#[test]
fn a_run_of_longest_advances_goes_as_far_as_its_events() {
    let mut events: Vec<_> = (1..=4096)
        .map(|count| clock_event(count * LONGEST))
        .collect();
    let bytes = roster(&[(10, vec![])], &[]);
    assert_eq!(replies(&bytes, &events), [(0, 0, 0); 4096]);
    // With one of them refused as a leap, every later one is a leap too.
    events[1000] = clock_event(1001 * LONGEST + 1);
    let given = replies(&bytes, &events);
    assert_eq!(given[..1000], [(0, 0, 0); 1000]);
    assert_eq!(given[1000..], [(4, 0, 0); 3096]);
}

#[test]
fn a_run_near_the_largest_reading_meets_both_limits() {
    // The events of a run do not reach so far, so it starts there.
    let answers = |now: u64, readings: &[u64]| -> Vec<u8> {
        let mut run = Run::start(admit(&two_tasks()).expect("it passes"));
        run.state.now = now;
        let events: Vec<_> = readings.iter().map(|&r| clock_event(r)).collect();
        let commands = decode(&events.concat()).expect("good records");
        commands.into_iter().map(|c| run.take(c).answer).collect()
    };
    let first = LARGEST - LONGEST - 1;
    assert_eq!(answers(first, &[LARGEST, LARGEST - 1, LARGEST]), [4, 0, 0]);
    assert_eq!(answers(first, &[first + 1, LARGEST, LARGEST]), [0, 0, 0]);
    assert_eq!(answers(first + 1, &[LARGEST, LARGEST - 1]), [0, 4]);
    assert_eq!(answers(LARGEST, &[0, LARGEST, LARGEST - 1]), [4, 0, 4]);
}

// A whole list of events.

/// Four tasks that are delayed, wait, enter the same object and release each other for ever.
pub fn busy() -> Vec<u8> {
    let tasks = [
        (10, vec![enter(0), WORK, leave(0), delay(3), AGAIN]),
        (10, vec![delay(0), release(2), delay(1), AGAIN]),
        (20, vec![SUSPEND, enter(0), leave(0), AGAIN]),
        (15, vec![delay(7), WORK, AGAIN]),
    ];
    roster(&tasks, &[20])
}

#[test]
fn a_list_without_its_refused_readings_does_the_same() {
    let (mut taken, mut not_taken) = (0, 0);
    for seed in 0..300 {
        let mut random = Random::new(seed);
        let start = Run::start(admit(&busy()).expect("it passes"));
        let (mut all, mut kept) = (start.clone(), start);
        let mut now = 0;
        for _ in 0..100 {
            let command = match random.below(6) {
                0 | 1 => Command::Clock(random.reading(now)),
                2 => Command::Release(random.index(4)),
                _ => Command::Step,
            };
            let given = all.take(command);
            match command {
                Command::Clock(reading) if !is_taken(now, reading) => {
                    assert_eq!(given, refused(4), "seed {seed}");
                    not_taken += 1;
                    continue;
                }
                Command::Clock(reading) => {
                    assert_eq!(given.answer, 0, "seed {seed}");
                    now = reading;
                    taken += 1;
                }
                _ => assert_ne!(given.answer, 4, "seed {seed}"),
            }
            assert_eq!((given, &all), (kept.take(command), &kept), "seed {seed}");
            assert_eq!(all.state.now, now);
        }
        assert_eq!(all, kept, "seed {seed}");
    }
    assert!(
        taken > 1000 && not_taken > 1000,
        "{taken} taken, {not_taken} refused"
    );
}
