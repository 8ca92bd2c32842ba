//! Instructions by callgrind: the bench runs itself under valgrind, and each count is of one call, without what is around it.
//!
//! callgrind sets its counts to 0 at each call of `bench_counted` and writes them to a file of its own at each return. The counts of
//! an empty call are deducted from all others.

use std::fs;
use std::hint::black_box;
use std::path::Path;
use std::process::{Command, Stdio};

use crate::cases::{case_of, REALISTIC, STEP_HEAVY};
use crate::jobs::Job;
use crate::limits::{FULL, HALF, MOST_EVENTS, SMALL};
use crate::table::{self, Figures};

const SEEDS: u64 = 8;
const ON_BYTES: usize = 256;

/// The argument that asks for the counted calls alone.
pub const COUNTED: &str = "--counted";

/// Instructions by each of a job's codes, in their order.
pub type Counts = Vec<u64>;

/// A call that callgrind knows by its name.
#[no_mangle]
#[inline(never)]
pub fn bench_counted(call: &mut dyn FnMut()) {
    call();
}

/// Calls each job twice by each code, once to have all in place and once counted; the parent reads the counts in this order.
pub fn call_all(jobs: &[Job]) {
    bench_counted(&mut || {});
    for job in jobs {
        let mut room = job.room();
        for call in job.codes() {
            job.renew(&mut room);
            call(job, &mut room);
            job.renew(&mut room);
            bench_counted(&mut || {
                black_box(call(job, black_box(&mut room)));
            });
        }
    }
}

/// The instructions that a file of callgrind's names.
fn total_in(file: &Path) -> Option<u64> {
    let text = fs::read_to_string(file).ok()?;
    let line = text.lines().find_map(|line| line.strip_prefix("totals: "));
    line?.trim().parse().ok()
}

/// The counts of all jobs, or why there are none.
pub fn counts_of(jobs: &[Job], argument: &str) -> Result<Vec<Counts>, String> {
    let folder = std::env::temp_dir().join(format!("bench-counts-{}", std::process::id()));
    fs::create_dir_all(&folder).map_err(|error| error.to_string())?;
    let counted = call_counted(&folder, argument).and_then(|()| read_counts(&folder, jobs));
    fs::remove_dir_all(&folder).map_err(|error| error.to_string())?;
    counted
}

/// Callgrind counts a string instruction once for every byte that it writes or copies: the C library shall use none for long fills and
/// copies, but vectors as for short ones.
const NO_STRING_INSTRUCTIONS: &str = "glibc.cpu.x86_rep_stosb_threshold=1000000000:\
    glibc.cpu.x86_rep_movsb_threshold=1000000000";

fn call_counted(folder: &Path, argument: &str) -> Result<(), String> {
    let own = std::env::current_exe().map_err(|error| error.to_string())?;
    let out = folder.join("out");
    let status = Command::new("valgrind")
        .env("GLIBC_TUNABLES", NO_STRING_INSTRUCTIONS)
        .args(["--tool=callgrind", "--quiet"])
        .args(["--zero-before=bench_counted", "--dump-after=bench_counted"])
        .arg(format!("--callgrind-out-file={}", out.display()))
        .arg(own)
        .args([COUNTED, argument])
        .stderr(Stdio::null())
        .status()
        .map_err(|error| format!("valgrind is not installed or does not start: {error}"))?;
    if !status.success() {
        return Err(format!("valgrind ended with {status}"));
    }
    Ok(())
}

/// Callgrind's files are numbered in the order of the calls, the empty one first.
fn read_counts(folder: &Path, jobs: &[Job]) -> Result<Vec<Counts>, String> {
    let mut next = 0;
    let mut total = || {
        next += 1;
        let file = folder.join(format!("out.{next}"));
        total_in(&file).ok_or(format!("no counts in {}", file.display()))
    };
    let empty = total()?;
    let mut counts_of = |job: &Job| {
        let calls = job.codes().iter();
        calls.map(|_| Ok(total()? - empty)).collect()
    };
    jobs.iter().map(&mut counts_of).collect()
}

/// Jobs whose counts are added up.
struct Group {
    label: String,
    jobs: Vec<Job>,
}

fn group(label: String, job_of: impl Fn(u64) -> Job) -> Group {
    let jobs = (0..SEEDS).map(job_of).collect();
    Group { label, jobs }
}

fn groups() -> Vec<Group> {
    let mut all = Vec::new();
    for size in [FULL, HALF, SMALL] {
        for mix in [REALISTIC, STEP_HEAVY] {
            let label = format!("a run, {}, {size}, per event", mix.name);
            all.push(group(label, |seed| {
                Job::Run(case_of(seed, mix, size, MOST_EVENTS))
            }));
        }
    }
    for size in [FULL, HALF, SMALL] {
        all.push(group(format!("the check, {size}, per roster"), |seed| {
            Job::Check(case_of(seed, REALISTIC, size, 0).roster)
        }));
    }
    for size in [FULL, HALF, SMALL] {
        for mix in [REALISTIC, STEP_HEAVY] {
            let label = format!("on bytes, {}, {size}, per event", mix.name);
            all.push(group(label, |seed| {
                Job::history(&case_of(seed, mix, size, ON_BYTES))
            }));
        }
    }
    all
}

/// The jobs to be counted, in their order.
pub fn jobs() -> Vec<Job> {
    groups().into_iter().flat_map(|group| group.jobs).collect()
}

pub fn print() {
    let groups = groups();
    for group in &groups {
        for (seed, job) in group.jobs.iter().enumerate() {
            job.same(&format!("{}, seed {seed}", group.label));
        }
    }
    table::title(&format!("instructions, the mean of {SEEDS} seeds"), true);
    let counts = match counts_of(&jobs(), "counts") {
        Ok(counts) => counts,
        Err(why) => return println!("not counted: {why}"),
    };
    for (group, counts) in groups.iter().zip(counts.chunks(SEEDS as usize)) {
        let size: usize = group.jobs.iter().map(Job::size).sum();
        let mean = |code| counts.iter().map(|c| c[code]).sum::<u64>() as f64 / size as f64;
        let each: Vec<f64> = (0..counts[0].len()).map(mean).collect();
        table::line(&group.label, &Figures::of(&each));
    }
}
