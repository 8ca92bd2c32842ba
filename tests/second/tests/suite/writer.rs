//! Request 2026-03: the answers of the writer at their boundaries and in their order, what it
//! writes and what it leaves alone, and what reads back.

use crate::support::{
    delay, enter, hex, leave, place, release, roster, set, verdict, RawStep, AGAIN, SUSPEND, WORK,
};
use crate::whole_case::{low_roster, whole_roster};
use second::roster::{self, Refusal};
use second::writer::{answer, file, length, read, write, Parts};

/// An answer as number, task and step.
pub type Given = (u8, usize, usize);

/// A task to be written: its base and its script.
type RawTask = (u8, Vec<RawStep>);

pub const DONE: Given = (0, 0, 0);

pub fn given(refusal: Refusal) -> Given {
    (refusal.number, refusal.task, refusal.step)
}

/// The answer where the buffer is never too short.
pub fn judged(parts: &Parts) -> Given {
    given(answer(parts, usize::MAX))
}

/// The number and place of a file's refusal by form alone.
pub fn form(bytes: &[u8]) -> Given {
    place(roster::read(bytes).map(|_| ()))
}

pub fn parts(tasks: &[RawTask], ceilings: &[u8]) -> Parts {
    let script = |(_, script): &RawTask| script.concat();
    Parts {
        bases: tasks.iter().map(|&(base, _)| base).collect(),
        ceilings: ceilings.to_vec(),
        lengths: tasks.iter().map(|(_, steps)| steps.len() as u16).collect(),
        steps: tasks.iter().flat_map(script).collect(),
    }
}

/// The parts of tasks that have one script all, beside objects of ceiling 20.
fn equal(tasks: usize, script: &[RawStep], objects: usize) -> Parts {
    parts(&vec![(15, script.to_vec()); tasks], &vec![20; objects])
}

/// One task without steps and no object: the shortest roster.
fn without_steps() -> Parts {
    equal(1, &[], 0)
}

/// Two tasks of two steps and one, and two objects: 12 + 12 + 4 + 8 bytes.
fn small() -> Parts {
    parts(
        &[(10, vec![WORK, SUSPEND]), (20, vec![delay(515)])],
        &[25, 30],
    )
}

/// The small parts with a change.
fn changed(change: impl Fn(&mut Parts)) -> Parts {
    let mut parts = small();
    change(&mut parts);
    parts
}

/// 64 tasks and 32 objects in 60,000 bytes: 63 scripts of 232 steps and one of 270.
fn full() -> Parts {
    let task = |t: u16| {
        let steps = if t == 63 { 270 } else { 232 };
        (1 + t as u8 % 32, vec![delay(t); steps])
    };
    let tasks: Vec<RawTask> = (0..64).map(task).collect();
    let ceilings: Vec<u8> = (1..=32).collect();
    parts(&tasks, &ceilings)
}

/// The answer and the file that writing into this much room gives, having seen that the answer is
/// the one given without writing, that a refusal writes nothing, and that all bytes past the file
/// stay.
pub fn written(parts: &Parts, room: usize) -> (Given, Vec<u8>) {
    let mut buffer = vec![0xEE; room];
    let (refusal, length) = write(parts, &mut buffer);
    assert_eq!(refusal, answer(parts, room));
    assert!(refusal.number == 0 || length == 0, "{refusal:?}, {length}");
    let past = buffer.split_off(length);
    assert_eq!(past, vec![0xEE; room - length]);
    (given(refusal), buffer)
}

/// What a refused writing gives.
fn nothing(number: u8) -> (Given, Vec<u8>) {
    ((number, 0, 0), vec![])
}

// The answers once more, from the words of the papers.

/// How many bytes the file has: trailer, object rows, task rows and steps.
pub fn size(parts: &Parts) -> usize {
    8 + 2 * parts.ceilings.len() + 6 * parts.bases.len() + parts.steps.len()
}

/// The answer with its place.
pub fn reckoned(parts: &Parts, room: usize) -> Given {
    let (tasks, objects) = (parts.bases.len(), parts.ceilings.len());
    if tasks == 0 || tasks > 64 || objects > 32 {
        return (13, 0, 0);
    }
    let sum: u64 = parts.lengths.iter().map(|&length| u64::from(length)).sum();
    if parts.lengths.len() != tasks || parts.steps.len() as u64 != 4 * sum {
        return (14, 0, 0);
    }
    let values = [&parts.bases[..], &parts.ceilings].concat();
    if values.iter().any(|&value| value == 0 || value > 32) {
        return (15, 0, 0);
    }
    match (first_bad(parts), size(parts)) {
        (Some((task, step)), _) => (16, task, step),
        (None, size) if size > 60000 => (11, 0, 0),
        (None, size) if size > room => (22, 0, 0),
        (None, _) => DONE,
    }
}

/// The place of the first bad step, counted along a walk over all of them.
fn first_bad(parts: &Parts) -> Option<(usize, usize)> {
    let (tasks, objects) = (parts.bases.len(), parts.ceilings.len());
    let mut raw = parts.steps.chunks_exact(4);
    for (task, &length) in parts.lengths.iter().enumerate() {
        for step in 1..=length {
            if !is_good(raw.next()?, tasks, objects, step == length) {
                return Some((task, usize::from(step) - 1));
            }
        }
    }
    None
}

/// Whether a step fits the lines of document 01 in a roster of that many tasks and objects.
fn is_good(raw: &[u8], tasks: usize, objects: usize, last: bool) -> bool {
    let (code, a) = (raw[0], usize::from(raw[1]));
    let b = usize::from(raw[2]) + 256 * usize::from(raw[3]);
    let a_fits = match code {
        1 | 2 => a < objects,
        6 | 7 => a < tasks,
        _ => a == 0,
    };
    let b_fits = match code {
        3 => true,
        7 => (1..=32).contains(&b),
        _ => b == 0,
    };
    (1..=8).contains(&code) && a_fits && b_fits && (code != 8 || last)
}

/// The file as the helper of the other tests lays it out.
pub fn laid_out(parts: &Parts) -> Vec<u8> {
    let mut raw = parts.steps.chunks_exact(4);
    let mut cut = |length: u16| -> Vec<RawStep> {
        let script = raw.by_ref().take(usize::from(length));
        script.map(|s| [s[0], s[1], s[2], s[3]]).collect()
    };
    let tasks = parts.bases.iter().zip(&parts.lengths);
    let tasks: Vec<RawTask> = tasks.map(|(&base, &l)| (base, cut(l))).collect();
    roster(&tasks, &parts.ceilings)
}

// Files.

#[test]
fn the_whole_case_is_written_from_its_parts() {
    let whole = Parts {
        bases: vec![10, 20],
        ceilings: vec![20],
        lengths: vec![3, 3],
        steps: hex("01000000 04000000 02000000 03000500 01000000 02000000"),
    };
    assert_eq!(file(&whole), whole_roster());
    assert_eq!(length(&whole), 46);
    assert_eq!(written(&whole, 46), (DONE, whole_roster()));
    assert_eq!(written(&whole, 1000), (DONE, whole_roster()));
    assert_eq!(written(&whole, 45), nothing(22));
    assert_eq!(read(&whole_roster()), Ok(whole));
}

#[test]
fn small_parts_are_laid_out_as_worked_out_by_hand() {
    let rows = "0A0000000800 140008000400 1900 1E00";
    let bytes = ["04000000 05000000 03000302", rows, "5235020218000C00"].concat();
    assert_eq!((file(&small()), length(&small())), (hex(&bytes), 36));
    // All steps belong to the second task; the empty script starts at 0 and the other too.
    let parts = changed(|parts| parts.lengths = vec![0, 3]);
    assert_eq!(file(&parts)[12..24], hex("0A0000000000 140000000C00"));
    let shortest = without_steps();
    assert_eq!(file(&shortest), hex("0F0000000000 5235010006000000"));
    assert_eq!(written(&shortest, 14), (DONE, file(&shortest)));
    assert_eq!(written(&shortest, 13), nothing(22));
}

#[test]
fn files_of_every_count_are_laid_out() {
    for tasks in 1..=64 {
        for objects in 0..=32 {
            let mut parts = equal(tasks, &[WORK, AGAIN], objects);
            parts.bases[tasks - 1] = 32;
            let bytes = laid_out(&parts);
            assert_eq!(written(&parts, bytes.len()), (DONE, bytes));
        }
    }
}

#[test]
fn starts_and_lengths_past_32768_are_written_whole() {
    for steps in [63, 64, 8191, 8192, 8193, 14988] {
        let tasks = [
            (10, vec![WORK; steps]),
            (20, vec![delay(9), SUSPEND]),
            (1, vec![]),
        ];
        let parts = parts(&tasks, &[20, 32]);
        let bytes = roster(&tasks, &[20, 32]);
        assert_eq!(written(&parts, 60000), (DONE, bytes), "{steps} steps");
    }
}

// 13.

#[test]
fn counts_out_of_range_are_13() {
    for script in [&[][..], &[WORK], &[WORK, AGAIN]] {
        for objects in [0, 1, 31, 32] {
            assert_eq!(judged(&equal(0, script, objects)), (13, 0, 0));
            for tasks in [1, 2, 32, 33, 63, 64] {
                assert_eq!(judged(&equal(tasks, script, objects)), DONE);
            }
            for tasks in [65, 66, 255, 256, 257, 320, 65537] {
                assert_eq!(judged(&equal(tasks, script, objects)), (13, 0, 0));
            }
        }
        for objects in [33, 34, 64, 255, 256, 257, 288, 65536] {
            for tasks in [0, 1, 64, 65] {
                assert_eq!(judged(&equal(tasks, script, objects)), (13, 0, 0));
            }
        }
    }
}

// 14.

#[test]
fn lengths_that_are_not_one_per_base_are_14() {
    let with = |lengths: &[u16]| judged(&changed(|parts| parts.lengths = lengths.to_vec()));
    // The small parts have three steps, and most of these add up to them.
    let wrong: [&[u16]; 10] = [
        &[],
        &[3],
        &[2],
        &[0],
        &[2, 1, 0],
        &[0, 2, 1],
        &[2, 0, 1],
        &[1, 1, 1],
        &[2, 1, 1],
        &[0; 65],
    ];
    for lengths in wrong {
        assert_eq!(with(lengths), (14, 0, 0), "{lengths:?}");
    }
    for lengths in [[0, 3], [1, 2], [2, 1], [3, 0]] {
        assert_eq!(with(&lengths), DONE, "{lengths:?}");
    }
    // 64 tasks with one length too few and one too many.
    let mut parts = equal(64, &[], 0);
    parts.lengths.pop();
    assert_eq!(judged(&parts), (14, 0, 0));
    parts.lengths.extend([0, 0]);
    assert_eq!(judged(&parts), (14, 0, 0));
}

#[test]
fn lengths_that_do_not_add_up_to_the_lent_steps_are_14() {
    for first in 0..6 {
        for second in 0..6 {
            let parts = changed(|parts| parts.lengths = vec![first, second]);
            let number = if first + second == 3 { 0 } else { 14 };
            assert_eq!(judged(&parts), (number, 0, 0), "{first}, {second}");
        }
    }
    // The lengths are 2 and 1: any other number of bytes, whole steps or not.
    for bytes in 0..40 {
        let mut parts = small();
        parts.steps = WORK.repeat(10);
        parts.steps.truncate(bytes);
        let expected = if bytes == 12 { DONE } else { (14, 0, 0) };
        assert_eq!(judged(&parts), expected, "{bytes} bytes");
    }
    let empty = without_steps();
    for bytes in 1..9 {
        let parts = Parts {
            steps: vec![0; bytes],
            ..empty.clone()
        };
        assert_eq!(judged(&parts), (14, 0, 0), "{bytes} bytes");
    }
}

#[test]
fn lengths_are_added_up_whole() {
    // Steps whose sum has the lower 16 bits of 3, and bytes whose sum has those of 12.
    for lengths in [
        [65535, 4],
        [32768, 32771],
        [16387, 0],
        [3, 16384],
        [16384, 32771],
        [49152, 3],
    ] {
        let parts = changed(|parts| parts.lengths = lengths.to_vec());
        assert_eq!(judged(&parts), (14, 0, 0), "{lengths:?}");
    }
}

// 15.

#[test]
fn bases_and_ceilings_outside_1_to_32_are_15() {
    let good = equal(64, &[WORK], 32);
    for value in 0..=255 {
        let expected = match value {
            1..=32 => DONE,
            _ => (15, 0, 0),
        };
        for t in 0..64 {
            let mut parts = good.clone();
            parts.bases[t] = value;
            assert_eq!(judged(&parts), expected, "base {value} of {t}");
        }
        for o in 0..32 {
            let mut parts = good.clone();
            parts.ceilings[o] = value;
            assert_eq!(judged(&parts), expected, "ceiling {value} of {o}");
        }
    }
}

// 16.

/// Gives this script to each of three tasks in turn, beside two objects, and sees where its bad
/// step is named.
fn script_is(script: &[RawStep], bad: Option<usize>) {
    for t in 0..3 {
        let mut tasks = [(1, vec![WORK, AGAIN]), (32, vec![]), (15, vec![AGAIN])];
        tasks[t].1 = script.to_vec();
        let parts = parts(&tasks, &[1, 32]);
        let expected = bad.map_or(DONE, |step| (16, t, step));
        assert_eq!(judged(&parts), expected, "{script:?} as task {t}");
    }
}

#[test]
fn every_good_step_is_taken() {
    for step in [
        enter(0),
        enter(1),
        leave(0),
        leave(1),
        delay(0),
        delay(1),
        delay(255),
        delay(256),
        delay(65535),
        WORK,
        SUSPEND,
        release(0),
        release(2),
        set(0, 1),
        set(2, 32),
    ] {
        script_is(&[step], None);
        script_is(&[step, step, AGAIN], None);
    }
    script_is(&[], None);
    script_is(&[AGAIN], None);
}

#[test]
fn unknown_codes_are_16() {
    for code in (0..=255).filter(|code| !(1..=8).contains(code)) {
        script_is(&[[code, 0, 0, 0]], Some(0));
        script_is(&[WORK, [code, 0, 0, 0]], Some(1));
    }
}

#[test]
fn unused_operands_that_are_not_0_are_16() {
    for value in [1, 2, 128, 255] {
        for code in [1, 2, 4, 5, 6, 8] {
            script_is(&[WORK, WORK, [code, 0, value, 0]], Some(2));
            script_is(&[WORK, WORK, [code, 0, 0, value]], Some(2));
        }
        for code in [3, 4, 5, 8] {
            script_is(&[WORK, WORK, [code, value, 0, 0]], Some(2));
        }
    }
}

#[test]
fn unlisted_objects_and_tasks_are_16() {
    for o in [2, 3, 32, 255] {
        script_is(&[enter(0), leave(0), enter(o)], Some(2));
        script_is(&[enter(1), leave(o), leave(1)], Some(1));
    }
    for t in [3, 4, 64, 255] {
        script_is(&[release(t), AGAIN], Some(0));
        script_is(&[WORK, set(t, 15)], Some(1));
    }
    // More objects than tasks, and none.
    let judged = |script: &[RawStep], objects| judged(&equal(2, script, objects));
    assert_eq!(judged(&[enter(2), leave(2)], 3), DONE);
    assert_eq!(judged(&[WORK, release(2)], 3), (16, 0, 1));
    assert_eq!(judged(&[WORK, set(2, 15)], 3), (16, 0, 1));
    assert_eq!(judged(&[release(1), enter(0)], 0), (16, 0, 1));
    let last = equal(64, &[release(63), set(63, 1), enter(31), leave(31)], 32);
    assert_eq!(given(answer(&last, 60000)), DONE);
}

#[test]
fn a_set_to_no_priority_is_16() {
    for p in [0, 33, 64, 255, 256, 257, 288, 65535] {
        script_is(&[WORK, set(0, p)], Some(1));
        script_is(&[set(2, p), AGAIN], Some(0));
    }
}

#[test]
fn again_before_a_script_s_last_step_is_16() {
    script_is(&[AGAIN, WORK], Some(0));
    script_is(&[WORK, AGAIN, WORK], Some(1));
    script_is(&[AGAIN, AGAIN], Some(0));
    script_is(&[WORK, AGAIN, AGAIN], Some(1));
    // The lengths alone say whose last step it is.
    let mut parts = equal(2, &[WORK, AGAIN], 0);
    for (lengths, expected) in [
        ([2, 2], DONE),
        ([4, 0], (16, 0, 1)),
        ([0, 4], (16, 1, 1)),
        ([3, 1], (16, 0, 1)),
        ([1, 3], (16, 1, 0)),
    ] {
        parts.lengths = lengths.to_vec();
        assert_eq!(judged(&parts), expected, "{lengths:?}");
    }
}

#[test]
fn the_first_bad_step_in_task_and_step_order_is_named() {
    let bad: RawStep = [0, 0, 0, 0];
    let tasks = [
        (10, vec![WORK, WORK, WORK]),
        (10, vec![]),
        (10, vec![WORK, enter(9), bad]),
        (10, vec![bad]),
    ];
    assert_eq!(judged(&parts(&tasks, &[])), (16, 2, 1));
    assert_eq!(judged(&parts(&tasks[1..], &[])), (16, 1, 1));
    assert_eq!(judged(&parts(&tasks[3..], &[])), (16, 0, 0));
    // Far behind.
    let mut far = equal(1, &[WORK; 14996], 1);
    for step in [14995, 8192, 8191, 256, 255, 0] {
        far.steps[4 * step] = 9;
        assert_eq!(judged(&far), (16, 0, step));
    }
    let mut far = full();
    for (byte, task, step) in [(59540, 63, 269), (928 * 36, 36, 0), (924, 0, 231)] {
        far.steps[byte] = 9;
        assert_eq!(judged(&far), (16, task, step), "byte {byte}");
    }
}

#[test]
fn every_step_is_judged_by_its_code_and_operands() {
    let b = [0, 1, 2, 31, 32, 33, 255, 256, 257, 8192, 65535u16].map(u16::to_le_bytes);
    for code in (0..=12).chain([128, 255]) {
        for a in [0, 1, 2, 3, 31, 32, 33, 63, 64, 65, 255] {
            for [low, high] in b {
                let step = [code, a, low, high];
                for (tasks, objects) in [(1, 0), (2, 3), (3, 2), (64, 32)] {
                    let mut parts = equal(tasks, &[step], objects);
                    assert_eq!(judged(&parts), reckoned(&parts, 60000), "{step:?}");
                    parts = equal(tasks, &[WORK, step, WORK], objects);
                    assert_eq!(judged(&parts), reckoned(&parts, 60000), "{step:?}");
                }
            }
        }
    }
}

// 11 and 22.

#[test]
fn files_of_exactly_60000_bytes_are_written() {
    for parts in [equal(1, &[WORK; 14996], 1), full()] {
        let bytes = laid_out(&parts);
        assert_eq!((bytes.len(), length(&parts)), (60000, 60000));
        assert_eq!(written(&parts, 60000), (DONE, bytes.clone()));
        assert_eq!(written(&parts, 60001), (DONE, bytes.clone()));
        assert_eq!(written(&parts, 70000), (DONE, bytes.clone()));
        assert_eq!(written(&parts, 59999), nothing(22));
        assert_eq!(written(&parts, 0), nothing(22));
        assert_eq!(read(&bytes), Ok(parts));
    }
}

#[test]
fn files_past_60000_bytes_are_11_whatever_the_room() {
    let mut longer = vec![
        equal(1, &[WORK; 14997], 1),
        equal(1, &[WORK; 14996], 2),
        equal(1, &[WORK; 16384], 0),
        equal(1, &[WORK; 16400], 0),
        equal(1, &[WORK; 65535], 0),
        equal(4, &[WORK; 65535], 32),
    ];
    // The full parts with a step more in the first script and in the last.
    for t in [0, 63] {
        let mut parts = full();
        parts.lengths[t] += 1;
        parts.steps.extend(WORK);
        longer.push(parts);
    }
    // A task more, without steps.
    let mut parts = equal(1, &[WORK; 14996], 1);
    (parts.bases, parts.lengths) = (vec![1, 1], vec![14996, 0]);
    longer.push(parts);
    for parts in longer {
        let length = size(&parts);
        assert!(length > 60000);
        for room in [0, 1, 59999, 60000, 60001, length - 1, length, length + 1] {
            assert_eq!(written(&parts, room), nothing(11), "{length}, {room}");
        }
    }
}

#[test]
fn files_just_below_the_limit_are_written() {
    for (steps, objects, length) in [(14996, 0, 59998), (14995, 1, 59996), (14981, 31, 60000)] {
        let parts = equal(1, &vec![WORK; steps], objects);
        assert_eq!(size(&parts), length);
        assert_eq!(written(&parts, length), (DONE, laid_out(&parts)));
        assert_eq!(written(&parts, length - 1), nothing(22));
    }
}

#[test]
fn a_buffer_shorter_than_the_file_is_22() {
    for parts in [small(), without_steps(), equal(64, &[WORK], 32)] {
        let length = size(&parts);
        for room in 0..length {
            assert_eq!(written(&parts, room), nothing(22), "{room} of {length}");
        }
        for room in length..length + 20 {
            assert_eq!(written(&parts, room), (DONE, laid_out(&parts)));
        }
    }
}

// The order of the answers.

/// A way in which parts earn a number.
type Fault = fn(&mut Parts);

/// The ways for every number but 22. The bad step is always the first of task 1; the faults of a
/// later line leave those of the lines before it standing.
fn faults() -> Vec<(u8, Vec<Fault>)> {
    let more_tasks: Fault = |parts| {
        parts.bases.resize(65, 15);
        parts.lengths.resize(65, 0);
    };
    let more_steps: Fault = |parts| {
        parts.lengths[1] += 14992;
        parts.steps.extend(WORK.repeat(14992));
    };
    let no_task: Fault = |parts| {
        parts.bases.clear();
        parts.lengths.clear();
        parts.steps.clear();
    };
    vec![
        (16, vec![|p| p.steps[8] = 0, |p| p.steps[9] = 200]),
        (15, vec![|p| p.bases[0] = 0, |p| p.ceilings[1] = 33]),
        (11, vec![more_steps]),
        (13, vec![more_tasks, |p| p.ceilings.resize(33, 15), no_task]),
        (
            14,
            vec![
                |p| p.lengths.push(0),
                |p| p.lengths.truncate(1),
                |p| p.steps.push(0),
                |p| p.steps.extend(WORK),
            ],
        ),
    ]
}

/// The small parts with every choice of faults, at most one for each number, beside the numbers.
fn faulty() -> Vec<(Vec<u8>, Parts)> {
    let mut all = vec![(vec![], small())];
    for (number, ways) in faults() {
        for (numbers, parts) in all.clone() {
            for way in &ways {
                let mut parts = parts.clone();
                way(&mut parts);
                all.push(([&numbers[..], &[number]].concat(), parts));
            }
        }
    }
    all
}

#[test]
fn of_all_answers_that_apply_the_first_in_their_order_is_given() {
    let order = [13, 14, 15, 16, 11];
    for (numbers, parts) in faulty() {
        let first = order.into_iter().find(|number| numbers.contains(number));
        let expected = match first {
            Some(16) => (16, 1, 0),
            Some(number) => (number, 0, 0),
            None => DONE,
        };
        assert_eq!(judged(&parts), expected, "{numbers:?}");
        // With too little room as well.
        let short = first.map_or((22, 0, 0), |_| expected);
        for room in [0, size(&parts) - 1] {
            assert_eq!(written(&parts, room), (short, vec![]), "{numbers:?}");
        }
    }
}

#[test]
fn a_refused_write_leaves_the_buffer_alone_however_long_it_is() {
    let mut met = [0; 17];
    for (numbers, parts) in faulty() {
        // The helper sees that the buffer stays as it was.
        let (given, bytes) = written(&parts, 61000);
        assert_eq!(bytes.is_empty(), !numbers.is_empty(), "{numbers:?}");
        met[usize::from(given.0)] += 1;
    }
    let met = [0, 11, 13, 14, 15, 16].map(|number| met[number]);
    assert!(met.iter().all(|&count| count > 0), "{met:?}");
}

// The reader on the same parts.

#[test]
fn the_form_agrees_for_every_choice_of_faults_and_every_step() {
    for (numbers, parts) in faulty() {
        if !numbers.iter().any(|number| [11, 13, 14].contains(number)) {
            assert_eq!(form(&file(&parts)), judged(&parts), "{numbers:?}");
        }
    }
    for code in 0..=10 {
        for a in [0, 1, 2, 3, 255] {
            for b in [0, 1, 32, 33, 256u16] {
                let [low, high] = b.to_le_bytes();
                let step = [code, a, low, high];
                for script in [&[step][..], &[WORK, step, AGAIN]] {
                    let tasks = [(15, vec![AGAIN]), (15, script.to_vec()), (15, vec![WORK])];
                    let parts = parts(&tasks, &[15, 15]);
                    assert_eq!(form(&file(&parts)), judged(&parts), "{script:?}");
                }
            }
        }
    }
}

// The check.

#[test]
fn the_check_is_not_applied() {
    let mut whole = read(&whole_roster()).expect("its parts");
    whole.ceilings[0] = 19;
    assert_eq!(written(&whole, 46), (DONE, low_roster()));
    assert_eq!(verdict(&file(&whole)), (18, 1, 1));
    for (script, refused) in [
        (vec![enter(0), delay(0), leave(0)], (17, 1, 1)),
        (vec![enter(0), SUSPEND, leave(0)], (17, 1, 1)),
        (vec![enter(0), AGAIN], (17, 1, 1)),
        (vec![enter(0)], (17, 1, 1)),
        (vec![enter(0), enter(0)], (17, 1, 1)),
        (vec![set(1, 32), enter(0), leave(0)], (18, 1, 1)),
        (vec![enter(1), enter(0)], (18, 1, 1)),
        (vec![leave(0)], (19, 1, 0)),
        (vec![WORK, set(0, 1)], (20, 1, 1)),
    ] {
        let parts = parts(&[(10, vec![]), (20, script)], &[20, 30]);
        let (given, bytes) = written(&parts, 100);
        assert_eq!((given, verdict(&bytes)), (DONE, refused), "{parts:?}");
        assert_eq!(read(&bytes), Ok(parts));
    }
}

// Reading back.

#[test]
fn what_is_written_reads_back() {
    for parts in [
        small(),
        full(),
        without_steps(),
        equal(64, &[], 32),
        equal(64, &[WORK, AGAIN], 0),
        equal(1, &[WORK; 14996], 1),
    ] {
        let (given, bytes) = written(&parts, 60000);
        assert_eq!(given, DONE);
        assert_eq!(read(&bytes), Ok(parts.clone()));
        let read = roster::read(&bytes).expect("a roster");
        let bases: Vec<u64> = parts.bases.iter().map(|&base| base.into()).collect();
        let ceilings: Vec<u64> = parts.ceilings.iter().map(|&c| c.into()).collect();
        assert_eq!((read.bases(), &read.ceilings), (bases, &ceilings));
        let mut steps: Vec<u8> = Vec::new();
        for (t, &length) in parts.lengths.iter().enumerate() {
            let script = roster::script(&bytes, t).expect("a script");
            assert_eq!(script.len(), 4 * usize::from(length));
            steps.extend(script);
        }
        assert_eq!(steps, parts.steps);
    }
}

#[test]
fn rosters_refused_by_form_have_no_parts() {
    let good = file(&small());
    for (at, value, number) in [
        (28, 0, 12),
        (30, 0, 13),
        (32, 0, 14),
        (12, 0, 15),
        (13, 1, 15),
        (27, 1, 15),
    ] {
        let mut bytes = good.clone();
        bytes[at] = value;
        assert_eq!(read(&bytes), Err(Refusal::plain(number)));
    }
    let mut bytes = good.clone();
    bytes[8] = 0;
    let refused = read(&bytes).map_err(given);
    assert_eq!(refused, Err((16, 1, 0)));
    assert_eq!(read(&good[23..]), Err(Refusal::plain(11)));
    assert_eq!(read(&[]), Err(Refusal::plain(11)));
    assert_eq!(read(&[0; 60001]), Err(Refusal::plain(11)));
}

/// Parts near the small ones, all good and all different.
fn neighbours() -> Vec<Parts> {
    let mut all = vec![small()];
    for lengths in [[0, 3], [1, 2], [3, 0]] {
        all.push(changed(|parts| parts.lengths = lengths.to_vec()));
    }
    for at in 0..2 {
        all.push(changed(|parts| parts.bases[at] += 1));
        all.push(changed(|parts| parts.ceilings[at] += 1));
    }
    all.push(changed(|parts| parts.bases.swap(0, 1)));
    all.push(changed(|parts| parts.ceilings.swap(0, 1)));
    all.push(changed(|parts| parts.ceilings.push(30)));
    all.push(changed(|parts| parts.ceilings.truncate(1)));
    all.push(changed(|parts| {
        parts.bases.push(20);
        parts.lengths.push(0);
    }));
    all.push(changed(|parts| parts.steps[0] = 5));
    all.push(changed(|parts| parts.steps[10] ^= 1));
    all.push(changed(|parts| parts.steps[11] ^= 1));
    all.push(changed(|parts| {
        parts.lengths[1] += 1;
        parts.steps.extend(WORK);
    }));
    all
}

#[test]
fn different_parts_have_different_bytes_and_the_same_parts_the_same() {
    let all = neighbours();
    for (index, one) in all.iter().enumerate() {
        assert_eq!(judged(one), DONE, "{one:?}");
        for (other_index, other) in all.iter().enumerate() {
            let same = file(one) == file(other);
            assert_eq!(same, index == other_index, "{one:?} and {other:?}");
        }
    }
}
