//! Readings around the longest advance and around the largest reading: the library, the second program, and answer 4 written out.

use dispatch::raw;
use harness::calls::refusal;
use harness::compare::{compare_after, compare_event, compare_readers};
use harness::events::{record_of, records_of, reply_of, REPLY_SIZE};
use harness::layout::{bytes_of, state_of};
use harness::programs::{both_printed, lines_of};
use harness::random::Random;
use harness::report::{save, seen, Histogram};
use harness::rosters::{passing, step, Plan, DELAY};
use harness::sizes::MOST_EVENTS;
use harness::states::{at_now, dues, plant, sound_state};
use second::machine::Event;
use second::roster::read;
use second::run::{Command, Run};
use second::sound::is_sound;
use second::state::State;

const STATES: u64 = 8_000;
const RUNS: u64 = 3_000;
const PROGRAMS: u64 = 400;
const LEAST: usize = 200;

/// The request's number and the scope's, written out here.
const LONGEST: u64 = 86_400_000;
const LARGEST: u64 = 281_474_976_710_655;

/// Answer 4: "reading below now or above the largest", "more than 86,400,000 ticks past now".
fn wanted(now: u64, reading: u64) -> u8 {
    let taken = now <= reading && reading - now <= LONGEST && reading <= LARGEST;
    if taken {
        0
    } else {
        4
    }
}

/// How a reading lies to now, to both limits and to the due times; one reading may be several of these.
#[derive(Clone, Copy, Debug, PartialEq, Eq, PartialOrd, Ord)]
enum Sight {
    Backwards,
    LongestFromZero,
    OneMoreFromZero,
    Longest,
    OneMore,
    FartherLeap,
    /// taken, past the due time of a task
    LongestWakes,
    /// refused, past the due time of a task
    LeapOverDue,
    /// now is less than a longest advance below the largest reading
    LargestTaken,
    OneAboveLargest,
    /// now is just a longest advance below the largest reading
    BothLimitsTaken,
    BothLimitsRefused,
    /// now is one tick more below it
    LargestAsLeap,
    /// the largest reading is taken, and a task due above it stays delayed
    DueAboveLargest,
    /// the reading before was a refused leap; this one is taken, though below it
    BelowRefusedLeap,
    /// the reading before was a refused leap; this one is refused, though it is no leap from there
    NearRefusedLeap,
    LeapInUnsound,
    LargestInRun,
}

use Sight::*;

/// What a reading on a sound state is.
fn sights(state: &State, reading: u64) -> Vec<Sight> {
    let now = state.now;
    let farthest = now + LONGEST;
    let (exact, one_more) = (reading == farthest, reading == farthest + 1);
    let (largest, above) = (reading == LARGEST, reading == LARGEST + 1);
    let due = dues(state).iter().any(|due| *due <= reading);
    let late = dues(state).iter().any(|due| *due > LARGEST);
    seen([
        (Backwards, reading < now),
        (LongestFromZero, now == 0 && exact),
        (OneMoreFromZero, now == 0 && one_more),
        (Longest, now > 0 && exact && reading < LARGEST),
        (OneMore, now > 0 && one_more && reading < LARGEST),
        (FartherLeap, reading > farthest + 1),
        (LongestWakes, exact && reading <= LARGEST && due),
        (LeapOverDue, reading > farthest && due),
        (LargestTaken, largest && LARGEST < farthest),
        (OneAboveLargest, above && reading <= farthest),
        (BothLimitsTaken, exact && largest),
        (BothLimitsRefused, one_more && above),
        (LargestAsLeap, one_more && largest),
        (DueAboveLargest, largest && LARGEST <= farthest && late),
    ])
}

/// At 0, anywhere, or where the longest advance meets the largest reading.
fn now_of(random: &mut Random) -> u64 {
    let any = random.word() >> 16;
    let within = LARGEST - random.below(LONGEST as usize) as u64;
    let near = LARGEST - random.below(65_535) as u64;
    let meets = LARGEST - LONGEST;
    random.pick(&[
        0,
        0,
        1,
        any,
        meets - 1,
        meets,
        meets + 1,
        within,
        near,
        LARGEST,
    ])
}

/// Some ticks: few or many, up to 40 bits.
fn ticks(random: &mut Random) -> u64 {
    let bits = random.within(1, 40);
    random.word() >> (64 - bits)
}

fn readings_of(random: &mut Random, state: &State) -> Vec<u64> {
    let farthest = state.now + LONGEST;
    let leap = farthest + ticks(random);
    let mut readings = vec![farthest - 1, farthest, farthest + 1, leap, random.word()];
    readings.extend([LARGEST - 1, LARGEST, LARGEST + 1, u64::MAX]);
    readings.extend([state.now, state.now + 1]);
    readings.extend(state.now.checked_sub(1));
    readings.extend(dues(state));
    readings
}

/// One reading on the bytes of a sound state, held to the second program and to the rules written out; gives the bytes after it.
fn take(before: &[u8], reading: u64, input: &str) -> Vec<u8> {
    let state = state_of(before);
    let number = wanted(state.now, reading);
    let (outcome, after) = compare_after(before, Event::Clock(reading), input);
    let answer = outcome.answer;
    assert_eq!(answer, number, "{input}, Clock {reading}, {state:?}");
    if number == 4 {
        assert!(after == before, "{input}, Clock {reading}, {state:?}");
        return after;
    }
    let next = state_of(&after);
    let mut left = dues(&state);
    left.retain(|due| *due > reading);
    let found = (next.now, dues(&next));
    assert_eq!(
        found,
        (reading, left),
        "{input}, Clock {reading}, {state:?}"
    );
    after
}

#[test]
fn readings_on_states_agree_with_the_second_program_and_with_the_rule() {
    let mut counts = Histogram::new();
    for seed in 0..STATES {
        let mut random = Random::new(seed);
        let state = sound_state(&mut random);
        let state = at_now(&state, now_of(&mut random));
        let before = bytes_of(&state);
        let input = format!("seed {seed}");
        assert!(
            compare_readers(&before, &input),
            "sound, {input}, {state:?}"
        );
        for reading in readings_of(&mut random, &state) {
            let after = take(&before, reading, &input);
            sights(&state, reading)
                .into_iter()
                .for_each(|s| counts.count(s));
            if reading > state.now + LONGEST {
                after_leap(&after, state.now, reading, &input, &mut counts);
            }
        }
    }
    counts.print("readings on states");
    counts.require(&ON_STATES, LEAST);
}

const ON_STATES: [Sight; 16] = [
    Backwards,
    LongestFromZero,
    OneMoreFromZero,
    Longest,
    OneMore,
    FartherLeap,
    LongestWakes,
    LeapOverDue,
    LargestTaken,
    OneAboveLargest,
    BothLimitsTaken,
    BothLimitsRefused,
    LargestAsLeap,
    DueAboveLargest,
    BelowRefusedLeap,
    NearRefusedLeap,
];

/// What a refused leap has left: readings are measured from the old now, and not from the leap.
fn after_leap(left: &[u8], now: u64, leap: u64, input: &str, counts: &mut Histogram<Sight>) {
    let input = format!("{input}, after a leap to {leap}");
    for reading in [now, now + 1, now + LONGEST] {
        take(left, reading, &input);
        if reading <= LARGEST {
            counts.count(BelowRefusedLeap);
        }
    }
    for reading in [now + LONGEST + 1, leap, leap.saturating_add(1)] {
        take(left, reading, &input);
        if reading >= leap && reading <= LARGEST {
            counts.count(NearRefusedLeap);
        }
    }
}

/// In a state that is not sound a leap is 10, as any event is.
#[test]
fn readings_on_unsound_states_are_refused_with_10() {
    let mut counts = Histogram::new();
    for seed in 0..STATES {
        let mut random = Random::new(seed);
        let mut state = sound_state(&mut random);
        plant(&mut random, &mut state);
        if is_sound(&state) {
            continue;
        }
        let bytes = bytes_of(&state);
        let farthest = state.now.saturating_add(LONGEST);
        for reading in [farthest, farthest.saturating_add(1), LARGEST, LARGEST + 1] {
            let outcome = compare_event(&bytes, Event::Clock(reading), &format!("seed {seed}"));
            let input = || format!("seed {seed}, Clock {reading}, {state:?}");
            assert_eq!(outcome, refusal(10), "{}", input());
            if reading > farthest {
                counts.count(LeapInUnsound);
            }
        }
    }
    counts.print("readings on states that are not sound");
    counts.require(&[LeapInUnsound], LEAST);
}

/// A reading of a run: around the longest advance or a leap, as the first ones always are, a little after a refused leap, or on by
/// little.
fn reading_of(random: &mut Random, now: u64, leap: Option<u64>) -> u64 {
    let farthest = now + LONGEST;
    let ways = if now == 0 { 3 } else { 8 };
    match (random.below(ways), leap) {
        (0, _) => farthest,
        (1, _) => farthest + 1,
        (2, _) => farthest + ticks(random),
        (3, _) => LARGEST,
        (4, _) => now.saturating_sub(1),
        (5 | 6, Some(leap)) if leap < LARGEST => leap + 1,
        _ => now + random.below(12) as u64,
    }
}

/// A run as it was made: its bytes, what it has to write, and what its readings were.
struct Made {
    roster: Vec<u8>,
    events: Vec<u8>,
    replies: Vec<u8>,
    sights: Vec<Sight>,
}

/// A roster that passes, every third script of which begins with a Delay.
fn with_delays(random: &mut Random) -> Plan {
    let mut plan = passing(random);
    for script in plan.scripts.iter_mut().filter(|s| s.len() < 100) {
        if random.once_in(3) {
            script.insert(0, step(DELAY, 0, random.within(1, 65_535) as u16));
        }
    }
    plan
}

/// Events of which half are readings, taken by the second program; its answers to these are held to the rule.
fn made(seed: u64) -> Made {
    let mut random = Random::new(seed);
    let roster = with_delays(&mut random).bytes();
    let mut run = Run::start(read(&roster).expect("a roster that passes"));
    let (mut events, mut replies, mut found) = (Vec::new(), Vec::new(), Vec::new());
    // the reading before, where it was a refused leap
    let mut leap = None;
    for _ in 0..random.within(20, 100) {
        let now = run.state.now;
        let command = match random.below(8) {
            0..=3 => Command::Clock(reading_of(&mut random, now, leap)),
            4 => Command::Release(random.below(run.state.tasks.len() + 1)),
            _ => Command::Step,
        };
        if let Command::Clock(reading) = command {
            found.extend(sights(&run.state, reading));
            found.extend(sights_of_run(now, reading, leap));
            leap = Some(reading).filter(|r| *r > now + LONGEST);
        }
        let reply = reply_of(&mut run, command);
        if let Command::Clock(reading) = command {
            let input = format!("seed {seed}, from {now}, Clock {reading}");
            assert_eq!(reply[0], wanted(now, reading), "{input}");
        }
        events.extend(record_of(command));
        replies.extend(reply);
    }
    Made {
        roster,
        events,
        replies,
        sights: found,
    }
}

/// What only a run sees: the reading before, and the largest reading, which is always a leap there.
fn sights_of_run(now: u64, reading: u64, leap: Option<u64>) -> Vec<Sight> {
    let taken = wanted(now, reading) == 0;
    let below = leap.is_some_and(|leap| taken && reading < leap);
    let near = leap.is_some_and(|leap| !taken && (leap..=leap + LONGEST).contains(&reading));
    seen([
        (BelowRefusedLeap, below),
        (NearRefusedLeap, near),
        (LargestInRun, reading == LARGEST),
    ])
}

const IN_RUNS: [Sight; 11] = [
    Backwards,
    LongestFromZero,
    OneMoreFromZero,
    Longest,
    OneMore,
    FartherLeap,
    LongestWakes,
    LeapOverDue,
    BelowRefusedLeap,
    NearRefusedLeap,
    LargestInRun,
];

#[test]
fn runs_with_leaps_agree_with_the_second_program_and_with_the_rule() {
    let mut counts = Histogram::new();
    for seed in 0..RUNS {
        let made = made(seed);
        let mut buffer = vec![0xA5; made.replies.len()];
        let answer = raw::run(&made.roster, &made.events, &mut buffer);
        let input = || save("leaps", seed, &made.roster, &made.events);
        assert_eq!(answer, (0, 0, 0), "answer, seed {seed}, {}", input());
        assert!(buffer == made.replies, "buffer, seed {seed}, {}", input());
        made.sights.iter().for_each(|s| counts.count(*s));
    }
    counts.print("readings in runs");
    counts.require(&IN_RUNS, LEAST);
}

#[test]
fn programs_with_leaps_agree_with_the_second_programs_command() {
    let mut counts = Histogram::new();
    for seed in RUNS..RUNS + PROGRAMS {
        let made = made(seed);
        let name = format!("leaps-{seed}");
        let [proved, second] = both_printed(&name, &made.roster, &made.events);
        let wanted = (lines_of(&made.replies), true);
        let input = || save("leaps-program", seed, &made.roster, &made.events);
        assert!(proved == wanted, "seed {seed}, {}", input());
        assert!(second == wanted, "second, seed {seed}, {}", input());
        made.sights.iter().for_each(|s| counts.count(*s));
    }
    counts.print("readings in programs");
    counts.require(&IN_RUNS, LEAST);
}

/// As many longest advances as a run can have, one after the other; with one tick more at the first, none is taken.
#[test]
fn the_longest_advances_of_a_whole_run() {
    let plan = Plan {
        bases: vec![1],
        ceilings: Vec::new(),
        scripts: vec![Vec::new()],
    };
    let events = |more: u64| -> Vec<u8> {
        let readings = (1..=MOST_EVENTS as u64).map(|k| Command::Clock(k * LONGEST + more));
        records_of(&readings.collect::<Vec<_>>())
    };
    for (more, answer) in [(0, 0), (1, 4)] {
        let mut buffer = vec![0xA5; REPLY_SIZE * MOST_EVENTS];
        let done = raw::run(&plan.bytes(), &events(more), &mut buffer);
        let replies = [answer, 0, 0].repeat(MOST_EVENTS);
        assert_eq!((done, buffer), ((0, 0, 0), replies));
    }
}
