//! Every recorded run of the Ada run-time writes the recorded answers and running tasks. The
//! recordings have no reports, but they show where the running task stays.

use crate::support::hex;
use second::run::run;

/// Runs that hold with either rule for a Set to the same base.
const BASE: &str = include_str!("../vectors/ada-base.txt");

/// Runs that hold from request 2026-04 on: each shows a Set to the same base.
const SET: &str = include_str!("../vectors/ada-set.txt");

/// Plays the run of each line, compares all that was recorded, and counts the lines.
fn repeat(recorded: &str) -> usize {
    let mut count = 0;
    for line in recorded.lines() {
        let fields: Vec<&str> = line.split(' ').collect();
        let [name, roster, events, expected] = fields[..] else {
            panic!("a line of four fields: {line}");
        };
        let (roster, events, expected) = (hex(roster), hex(events), hex(expected));
        let mut buffer = vec![0xEE; events.len() / 8 * 3];
        assert_eq!(run(&roster, &events, &mut buffer), Ok(()), "{name}");
        let replies = buffer.chunks_exact(3);
        let written: Vec<u8> = replies.flat_map(|reply| [reply[0], reply[1]]).collect();
        assert_eq!(written, expected, "{name}");
        zero_where_the_running_task_stays(name, &buffer);
        count += 1;
    }
    count
}

/// The running tasks being those recorded, the report is 0 exactly where one is that of the event
/// before; who runs before the first event was not recorded.
fn zero_where_the_running_task_stays(name: &str, buffer: &[u8]) {
    let replies: Vec<&[u8]> = buffer.chunks_exact(3).collect();
    for (index, both) in replies.windows(2).enumerate() {
        let stays = both[0][1] == both[1][1];
        assert_eq!(both[1][2] == 0, stays, "{name}, event {}", index + 1);
    }
}

#[test]
fn every_recorded_run_of_the_base_is_repeated() {
    assert_eq!(repeat(BASE), 182);
}

#[test]
fn every_recorded_set_to_the_same_base_is_repeated() {
    assert_eq!(repeat(SET), 15);
}
