//! One comparison of the library with the second program for each of its calls: what both make of the same input.

use dispatch::raw;
use second::machine::{self, Event, Outcome};
use second::roster::{self, Refusal};
use second::sound::is_sound;
use second::{board, run, state};

use crate::calls::{self, refusal};
use crate::layout::{
    bytes_of, in_range, put_rows, rows_of, running_of, state_of, ROW_SIZE, STATE_SIZE,
};
use crate::report::{hex, save};
use crate::sizes::MOST_TASKS;

fn refused<T>(result: Result<T, Refusal>) -> (u8, usize, usize) {
    match result {
        Ok(_) => (0, 0, 0),
        Err(refusal) => (refusal.number, refusal.task, refusal.step),
    }
}

/// Longer rosters are read again by each lookup for too long.
const MANY_BYTES: usize = 1024;

/// Form and check of a roster, and the lookups of its parts unless it is long; gives the number of the check.
pub fn compare_roster(bytes: &[u8], input: &str) -> u8 {
    let input = || format!("{input}, roster {}", hex(bytes));
    let read = roster::read(bytes);
    let checked = read.clone().and_then(|r| second::check::check(&r));
    assert_eq!(
        raw::form(bytes),
        refused(read.as_ref().map_err(|e| *e)),
        "form, {}",
        input()
    );
    let found = raw::check(bytes);
    assert_eq!(found, refused(checked), "check, {}", input());
    if bytes.len() <= MANY_BYTES {
        let (tasks, objects) = read.map_or((2, 1), |r| (r.tasks.len(), r.ceilings.len()));
        let around = |n: usize| [n.saturating_sub(1) as u64, n as u64];
        compare_parts(bytes, &around(tasks), &around(objects), &input);
    }
    found.0
}

/// The lookups of a roster's parts for these tasks and objects.
pub fn compare_parts(bytes: &[u8], tasks: &[u64], objects: &[u64], input: &dyn Fn() -> String) {
    for &t in tasks {
        let at = |call: &str| format!("{call} of task {t}, {}", input());
        let found = calls::script(bytes, t);
        assert_eq!(found, roster::script(bytes, t as usize), "{}", at("script"));
        let found = calls::value(raw::base(bytes, t));
        assert_eq!(found, roster::base(bytes, t as usize), "{}", at("base"));
        compare_steps(bytes, t, &at);
    }
    for &o in objects {
        let found = calls::value(raw::ceiling(bytes, o));
        let wanted = roster::ceiling(bytes, o as usize);
        assert_eq!(found, wanted, "ceiling {o}, {}", input());
    }
}

/// How many steps a task's script has, and its steps around its ends.
fn compare_steps(bytes: &[u8], t: u64, at: &dyn Fn(&str) -> String) {
    let count = calls::value(raw::step_count(bytes, t));
    let wanted = roster::step_count(bytes, t as usize);
    assert_eq!(count, wanted, "{}", at("step count"));
    let end = count.unwrap_or(0);
    let far = [1 << 32, 1 << 62, u64::MAX];
    for step in [0, end.saturating_sub(1), end, end + 1]
        .into_iter()
        .chain(far)
    {
        let found = calls::value(raw::step(bytes, t, step));
        let wanted = roster::step(bytes, t as usize, step);
        let wanted = wanted.map(|raw| u32::from_le_bytes(raw) as u64);
        assert_eq!(found, wanted, "{}", at(&format!("step {step}")));
    }
}

/// A run into a buffer of this size; gives the number of its answer.
pub fn compare_run(roster: &[u8], events: &[u8], size: usize, input: &str) -> u8 {
    let mut found = vec![0xA5; size];
    let mut wanted = found.clone();
    let answer = raw::run(roster, events, &mut found);
    let expected = refused(run::run(roster, events, &mut wanted));
    let saved = || save("compared-run", size as u64, roster, events);
    let input = || format!("{input}, room {size}, {}", saved());
    assert_eq!(answer, expected, "answer, {}", input());
    assert!(found == wanted, "buffer, {}", input());
    answer.0
}

/// A fresh start; gives its answer.
pub fn compare_fresh(bases: &[u8], ceilings: &[u8], input: &str) -> u8 {
    let input = || format!("{input}, bases {bases:?}, ceilings {ceilings:?}");
    let wide = |bytes: &[u8]| bytes.iter().map(|b| *b as u64).collect::<Vec<u64>>();
    let (wanted, state) = state::fresh(&wide(bases), &wide(ceilings));
    let mut bytes = vec![0xA5; STATE_SIZE];
    let answer = raw::fresh(bases, ceilings, &mut bytes);
    assert_eq!(answer, wanted, "{}", input());
    assert_eq!(bytes, bytes_of(&state), "state, {}", input());
    answer
}

/// Bytes behind a state, which nobody may touch.
const GUARD: [u8; 5] = [0xA5; 5];

/// Soundness and the running task of a state's bytes; gives whether they are sound.
pub fn compare_readers(bytes: &[u8], input: &str) -> bool {
    let input = || format!("{input}, state {}", hex(bytes));
    let wanted = in_range(bytes) && is_sound(&state_of(bytes));
    let number = if wanted { 0 } else { 10 };
    assert_eq!(raw::sound(bytes), number, "sound, {}", input());
    assert_eq!(
        raw::running(bytes),
        running_of(bytes),
        "running, {}",
        input()
    );
    wanted
}

/// One event on a state's bytes; gives its answer and its report.
pub fn compare_event(before: &[u8], event: Event, input: &str) -> Outcome {
    compare_after(before, event, input).0
}

/// The same, and the bytes after the event.
pub fn compare_after(before: &[u8], event: Event, input: &str) -> (Outcome, Vec<u8>) {
    let input = || format!("{input}, {event:?}, state {}", hex(before));
    let (wanted, next) = match in_range(before) {
        true => machine::apply(state_of(before), event),
        false => (refusal(10), state_of(before)),
    };
    let mut after = [before, &GUARD].concat();
    let outcome = calls::event(&mut after, event);
    assert_eq!(outcome, wanted, "{}", input());
    let guard = after.split_off(STATE_SIZE);
    assert_eq!(guard, GUARD, "guard, {}", input());
    if outcome.answer == 0 {
        assert_eq!(after, bytes_of(&next), "state, {}", input());
    } else {
        assert_eq!(outcome, refusal(outcome.answer), "{}", input());
        assert_eq!(after, before, "state, {}", input());
    }
    (outcome, after)
}

/// A board filled from a state's bytes, and then asked; gives the answer of the filling.
pub fn compare_fill(bytes: &[u8], board: &[u8], input: &str) -> u8 {
    let input = || format!("{input}, board {}, state {}", hex(board), hex(bytes));
    let state = state_of(bytes);
    let mut filled = rows_of(board);
    let number = match in_range(bytes) {
        true => board::fill(&state, &mut filled),
        false => 10,
    };
    let mut wanted = board.to_vec();
    if number == 0 {
        put_rows(&mut wanted, &filled[..state.tasks.len()]);
    }
    let mut found = board.to_vec();
    let answer = raw::fill(bytes, &mut found);
    assert_eq!(answer, number, "fill, {}", input());
    assert_eq!(found, wanted, "board, {}", input());
    if answer == 0 {
        let asked = &found[..ROW_SIZE * state.tasks.len()];
        let next = board::next(&filled[..state.tasks.len()]);
        assert_eq!(calls::next(asked), next, "next, {}", input());
        let head = state
            .highest_ready()
            .and_then(|p| state.queue(p)?.front().copied());
        assert_eq!(next, Ok(head), "head, {}", input());
    }
    answer
}

/// All of these on one state's bytes; gives whether they are sound.
pub fn compare_state(bytes: &[u8], event: Event, input: &str) -> bool {
    let sound = compare_readers(bytes, input);
    let outcome = compare_event(bytes, event, input);
    let filled = compare_fill(bytes, &[0xA5; ROW_SIZE * MOST_TASKS + 1], input);
    assert_eq!(
        (outcome.answer == 10, filled == 10),
        (!sound, !sound),
        "{input}, {event:?}"
    );
    sound
}
