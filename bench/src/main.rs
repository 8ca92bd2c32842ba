//! The proved code beside tuned plain Rust of the same job: times, instructions, and the dearest single events.
//!
//! A check and a run have two opponents: `plain` keeps the whole state after every event, `lean` only what the replies need.
//! `bench` prints all of it; `bench times`, `bench counts` and `bench worst` print one part. The parts with instructions need valgrind.

mod cases;
mod counting;
mod jobs;
mod lean;
mod limits;
mod plain;
mod plain_state;
mod queues;
mod same;
mod scenarios;
mod shape;
mod table;
mod timing;
mod worst;

fn counted(what: &str) {
    match what {
        "worst" => counting::call_all(&worst::jobs()),
        _ => counting::call_all(&counting::jobs()),
    }
}

fn main() {
    let arguments: Vec<String> = std::env::args().skip(1).collect();
    let words: Vec<&str> = arguments.iter().map(String::as_str).collect();
    match words[..] {
        [counting::COUNTED, what] => return counted(what),
        [] | ["times" | "counts" | "worst"] => {}
        _ => {
            eprintln!("usage: bench [times | counts | worst]");
            std::process::exit(2);
        }
    }
    let wanted = |part: &str| words.is_empty() || words == [part];
    same::assert_all();
    if wanted("times") {
        timing::print();
    }
    if wanted("counts") {
        counting::print();
    }
    if wanted("worst") {
        worst::print();
    }
}
