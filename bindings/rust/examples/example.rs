//! Every kind of call through the Rust crate: a state, its board, a roster and its run, and a roster written from its parts.

use dispatch::roster::{self, Parts, Refusal, Step};
use dispatch::{Answer, Object, Outcome, Priority, Row, State, Task, LONGEST_ADVANCE, REPLY_SIZE};

/// Two tasks and one protected object; README.md has what each byte says.
static ROSTER: [u8; 46] = [
    1, 0, 0, 0, 4, 0, 0, 0, 2, 0, 0, 0, // task 0: Enter 0, Work, Leave 0
    3, 0, 5, 0, 1, 0, 0, 0, 2, 0, 0, 0, // task 1: Delay 5, Enter 0, Leave 0
    10, 0, 0, 0, 12, 0, // base 10, script from byte 0, 12 bytes long
    20, 0, 12, 0, 12, 0, // base 20, script from byte 12, 12 bytes long
    20, 0, // ceiling 20
    0x52, 0x35, 2, 1, 36, 0, 24, 0, // mark, counts, starts of the tables
];

/// An event of a run: kind 1 is Clock with its reading, 3 is Step.
const fn event(kind: u8, value: u8) -> [u8; 8] {
    [kind, 0, value, 0, 0, 0, 0, 0]
}

const STEP: [u8; 8] = event(3, 0);
const EVENTS: [[u8; 8]; 11] = [
    STEP,
    STEP,
    event(1, 5),
    STEP,
    STEP,
    STEP,
    event(1, 4),
    STEP,
    STEP,
    STEP,
    STEP,
];

fn running(state: &State) -> String {
    match state.running() {
        None => String::from("nobody"),
        Some(Task(task)) => task.to_string(),
    }
}

fn show(event: &str, outcome: Outcome, state: &State) {
    let Outcome { answer, report } = outcome;
    let running = running(state);
    println!(
        "{event}: {answer}, running {running}, report {}",
        report.number()
    );
}

/// Marked cases A and B, a priority that is none, one that preempts, and readings that go backwards, too far and as far as may be.
fn events() -> State {
    let (answer, mut state) = State::fresh(&[10, 20, 10], &[]);
    println!("fresh 10 20 10: {answer}, running {}", running(&state));
    let outcome = state.set(Task(1), Priority(10));
    show("set 1 to 10", outcome, &state);
    let outcome = state.set(Task(1), Priority(257));
    show("set 1 to 257", outcome, &state);
    let outcome = state.set(Task(1), Priority(20));
    show("set 1 to 20", outcome, &state);
    let outcome = state.clock(5);
    show("clock 5", outcome, &state);
    let outcome = state.clock(4);
    show("clock 4", outcome, &state);
    let outcome = state.clock(5 + LONGEST_ADVANCE + 1);
    show("clock 86400006", outcome, &state);
    let outcome = state.clock(5 + LONGEST_ADVANCE);
    show("clock 86400005", outcome, &state);
    let outcome = state.finish();
    show("finish", outcome, &state);
    state
}

fn board(state: &State) {
    let mut rows = [Row::default(); 3];
    println!("fill: {}", state.fill(&mut rows).number());
    for (task, row) in rows.iter().enumerate() {
        println!(
            "row {task}: place {}, priority {}, position {}",
            row.kind, row.priority, row.position
        );
    }
    match dispatch::next(&rows) {
        Ok(Some(row)) => println!("next: 0, row {row}"),
        Ok(None) => println!("next: 0, nobody"),
        Err(refusal) => println!("next: {}", refusal.number()),
    }
}

fn verdict(call: &str, result: Result<(), Refusal>) {
    let (number, task, step) = match result {
        Ok(()) => (0, 0, 0),
        Err(refusal) => (refusal.answer.number(), refusal.task, refusal.step),
    };
    println!("{call}: {number}, task {task}, step {step}");
}

fn parts() -> Result<(), Answer> {
    let task = Task(1);
    let script = roster::script(&ROSTER, task)?;
    println!(
        "task 1: base {}, steps {}, script from {}, length {}",
        roster::base(&ROSTER, task)?.0,
        roster::step_count(&ROSTER, task)?,
        script.as_ptr() as usize - ROSTER.as_ptr() as usize,
        script.len()
    );
    let Priority(ceiling) = roster::ceiling(&ROSTER, Object(0))?;
    println!("object 0: ceiling {ceiling}");
    for step in [0, 3] {
        let (code, a, b) = match roster::step(&ROSTER, task, step)? {
            Step::Delay(ticks) => (3, 0, ticks),
            Step::Finish => (0, 0, 0),
            other => panic!("task 1 has no {other:?} there"),
        };
        println!("step {step} of task 1: code {code}, a {a}, b {b}");
    }
    if let Err(refusal) = roster::base(&ROSTER, Task(2)) {
        println!("base of task 2: {}", refusal.number());
    }
    Ok(())
}

fn run(lent: &[u8]) {
    let mut buffer = [0; REPLY_SIZE * EVENTS.len()];
    let result = roster::run(lent, EVENTS.as_flattened(), &mut buffer);
    verdict("run", result);
    let replies = buffer.chunks_exact(REPLY_SIZE);
    let replies: Vec<String> = replies
        .map(|r| format!("{} {} {}", r[0], r[1], r[2]))
        .collect();
    println!("replies: {}", replies.join(", "));
}

/// Writes a roster and says where it is refused; hands back what was written.
fn write<'a>(call: &str, parts: &Parts, buffer: &'a mut [u8]) -> &'a mut [u8] {
    let result = roster::write(parts, buffer);
    verdict(call, result.as_ref().map(|_| ()).map_err(|r| *r));
    result.unwrap_or(&mut [])
}

/// The roster from its parts, into more room than it takes; what was written is checked and run. Then three refusals.
fn written() {
    let enter = Step::Enter(Object(0));
    let leave = Step::Leave(Object(0));
    let steps = [enter, Step::Work, leave, Step::Delay(5), enter, leave].map(Step::bytes);
    let parts = Parts {
        bases: &[10, 20],
        ceilings: &[20],
        lengths: &[3, 3],
        steps: steps.as_flattened(),
    };
    let mut buffer = [0; 60];
    let file = write("write", &parts, &mut buffer);
    let same = match *file == ROSTER {
        true => "those of the roster",
        false => "others",
    };
    println!("written: {} bytes, {same}", file.len());
    verdict("check", roster::check(file));
    run(file);

    let mut short = parts;
    short.lengths = &[3, 2];
    write("write with lengths 3 and 2", &short, &mut buffer);
    let mut wrong = steps;
    wrong[4] = Step::Enter(Object(1)).bytes();
    let unlisted = Parts {
        steps: wrong.as_flattened(),
        ..parts
    };
    write("write with an Enter of object 1", &unlisted, &mut buffer);
    verdict("write into 45 bytes", roster::write_answer(&parts, 45));
}

fn main() -> Result<(), Answer> {
    let state = events();
    board(&state);
    verdict("check", roster::check(&ROSTER));
    let mut low = ROSTER;
    low[36] = 19;
    verdict("check with ceiling 19", roster::check(&low));
    parts()?;
    run(&ROSTER);
    written();
    Ok(())
}
