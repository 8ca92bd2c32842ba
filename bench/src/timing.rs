//! Times of the proved code and its plain opponents, in one process and turn by turn: the least of several batches each.

use std::hint::black_box;
use std::time::Instant;

use harness::events::REPLY_SIZE;

use crate::cases::{case_of, REALISTIC, STEP_HEAVY};
use crate::jobs::{Call, Job};
use crate::limits::{Size, FULL, HALF, MOST_EVENTS};
use crate::table::{line, medians, title, Figures};

const FEW: usize = 64;
/// Fewer events on bytes fill a batch, since each tests the whole state.
const ON_BYTES: usize = 256;
const SEEDS: u64 = 8;
/// Many short batches: the least of them is more likely free of what else the machine does.
const BATCHES: usize = 45;
const BATCH_NS: u128 = 1_000_000;

fn batch(call: Call, job: &Job, room: &mut [u8], times: usize) -> u128 {
    let start = Instant::now();
    for _ in 0..times {
        job.renew(room);
        black_box(call(black_box(job), black_box(room)));
    }
    start.elapsed().as_nanos()
}

/// ns per event, or per roster, of each code.
fn times_of(job: &Job) -> Figures {
    let mut room = job.room();
    let calls = job.codes();
    let mut least = vec![f64::MAX; calls.len()];
    let once = batch(calls[0], job, &mut room, 8) / 8;
    let times = (BATCH_NS / once.max(1)).max(1) as usize;
    for _ in 0..BATCHES {
        for (call, best) in calls.iter().zip(&mut least) {
            let took = batch(*call, job, &mut room, times) as f64 / times as f64;
            *best = best.min(took / job.size() as f64);
        }
    }
    Figures::of(&least)
}

/// How often each answer came, in percent.
fn answers(replies: &[u8]) -> String {
    let mut counts = [0usize; 256];
    let each = replies.chunks_exact(REPLY_SIZE);
    let total = each.len();
    each.for_each(|reply| counts[reply[0] as usize] += 1);
    let told = (0..256).filter(|a| counts[*a] > 0);
    told.map(|a| format!("{a}: {}%", 100 * counts[a] / total))
        .collect::<Vec<_>>()
        .join(", ")
}

/// One line for each seed, then the medians.
fn seeds(label: &str, job_of: impl Fn(u64) -> Job) {
    let mut all = Vec::new();
    for seed in 0..SEEDS {
        let job = job_of(seed);
        let room = job.same(&format!("{label}, seed {seed}"));
        let told = match job {
            Job::Run(_) => format!(" ({})", answers(&room)),
            _ => String::new(),
        };
        let times = times_of(&job);
        line(&format!("{label}, seed {seed}{told}"), &times);
        all.push(times);
    }
    medians(label, &all);
}

fn print_runs(size: Size) {
    title(&format!("a run, ns per event, {size}"), true);
    for (mix, count) in [
        (REALISTIC, FEW),
        (REALISTIC, MOST_EVENTS),
        (STEP_HEAVY, FEW),
        (STEP_HEAVY, MOST_EVENTS),
    ] {
        seeds(&format!("{}, {count} events", mix.name), |seed| {
            Job::Run(case_of(seed, mix, size, count))
        });
    }
}

fn print_check(size: Size) {
    title(&format!("the check, ns per roster, {size}"), true);
    seeds("check", |seed| {
        Job::Check(case_of(seed, REALISTIC, size, 0).roster)
    });
}

fn print_on_bytes(size: Size) {
    let what = format!("events on bytes, ns per event, {size}");
    title(&what, false);
    for mix in [REALISTIC, STEP_HEAVY] {
        seeds(&format!("{}, on bytes", mix.name), |seed| {
            Job::history(&case_of(seed, mix, size, ON_BYTES))
        });
    }
}

/// One line of one seed, where it is the growth that counts.
fn one(label: &str, seed: u64, size: Size, count: usize) {
    let job = Job::Run(case_of(seed, REALISTIC, size, count));
    job.same(&format!("seed {seed}"));
    line(label, &times_of(&job));
}

/// Only the tasks differ: there are as many objects with each number of them.
fn print_by_tasks() {
    let objects = HALF.objects;
    let what = format!("a run, ns per event, by tasks, {objects} objects");
    title(&what, true);
    for tasks in [1, 2, 4, 8, 16, HALF.tasks, FULL.tasks] {
        let label = format!("realistic, {tasks} tasks, {MOST_EVENTS} events");
        one(&label, 100, Size { tasks, objects }, MOST_EVENTS);
    }
}

fn print_by_events(size: Size) {
    title(&format!("a run, ns per event, by events, {size}"), true);
    for count in [FEW, 256, 1024, MOST_EVENTS] {
        one(&format!("realistic, {count} events"), 200, size, count);
    }
}

pub fn print() {
    println!(
        "each time is the least of {BATCHES} batches, the proved and the plain codes turn by turn"
    );
    print_by_tasks();
    for size in [FULL, HALF] {
        print_runs(size);
        print_by_events(size);
        print_check(size);
        print_on_bytes(size);
    }
}
