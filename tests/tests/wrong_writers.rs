//! Writers that are wrong in one way each: the comparison of the writer with the second program finds every one of them.

use harness::parts::lent;
use harness::rosters::{OBJECT_ROW, STEP_SIZE, TASK_ROW, TRAILER};
use harness::sizes::LARGEST_ROSTER;
use harness::writers::{compare_write, given, Given, Writer};
use second::roster::admit;
use second::writer::{self, length, Parts};

const CASES: u64 = 4_000;

/// The answer by the parts and the room.
type Judge = fn(&Parts, usize) -> Given;
type Layout = fn(&Parts) -> Vec<u8>;
/// What is done to the buffer besides, by the number of the answer.
type Spill = fn(u8, &Parts, &mut [u8]);
/// How long the part is that is handed back, by the length of the file, which is 0 for none, and the room.
type Part = fn(usize, usize) -> usize;

/// A writer that is right but for one of these; `alone` is the answer that is asked for without a buffer.
#[derive(Clone, Copy)]
struct Made {
    judge: Judge,
    alone: Judge,
    file: Layout,
    spill: Spill,
    part: Part,
}

fn right(parts: &Parts, room: usize) -> Given {
    given(writer::answer(parts, room))
}

const RIGHT: Made = Made {
    judge: right,
    alone: right,
    file: writer::file,
    spill: |_, _, _| (),
    part: |length, _| length,
};

impl Writer for Made {
    fn write(&self, parts: &Parts, buffer: &mut [u8]) -> Given {
        let answer = (self.judge)(parts, buffer.len());
        if answer.0 == 0 {
            let file = (self.file)(parts);
            let there = file.len().min(buffer.len());
            buffer[..there].copy_from_slice(&file[..there]);
        }
        (self.spill)(answer.0, parts, buffer);
        answer
    }

    fn answer(&self, parts: &Parts, room: u64) -> Given {
        (self.alone)(parts, room as usize)
    }

    fn written(&self, parts: &Parts, buffer: &mut [u8]) -> u64 {
        let length = match self.write(parts, buffer).0 {
            0 => length(parts),
            _ => 0,
        };
        (self.part)(length, buffer.len()) as u64
    }
}

/// What is left to be tried after the form of the parts: 11, then 22.
fn sizes(parts: &Parts, room: usize) -> Given {
    match length(parts) {
        size if size > LARGEST_ROSTER => (11, 0, 0),
        size if size > room => (22, 0, 0),
        _ => (0, 0, 0),
    }
}

/// The same parts with other lengths.
fn with_lengths(parts: &Parts, lengths: Vec<u16>) -> Parts {
    Parts {
        lengths,
        ..parts.clone()
    }
}

/// Answers that are tried in another order, or left out.
fn wrong_orders() -> Vec<(&'static str, Judge)> {
    vec![
        ("22 before 11", |p, room| match right(p, room) {
            (11, ..) if length(p) > room => (22, 0, 0),
            answer => answer,
        }),
        ("11 before 16", |p, room| match right(p, room) {
            (16, ..) if length(p) > LARGEST_ROSTER => (11, 0, 0),
            answer => answer,
        }),
        ("15 before 14", |p, room| {
            let mut values = p.bases.iter().chain(&p.ceilings);
            match right(p, room) {
                (14, ..) if values.any(|v| !(1..=32).contains(v)) => (15, 0, 0),
                answer => answer,
            }
        }),
        ("16 not applied", |p, room| match right(p, room) {
            (16, ..) => sizes(p, room),
            answer => answer,
        }),
        ("17 to 20 applied", |p, room| match right(p, room) {
            (0, ..) => admit(&writer::file(p)).map_or_else(given, |_| (0, 0, 0)),
            answer => answer,
        }),
    ]
}

/// Places, lengths and limits that are taken otherwise.
fn wrong_answers() -> Vec<(&'static str, Judge)> {
    vec![
        ("no place", |p, room| (right(p, room).0, 0, 0)),
        ("place over all scripts", |p, room| match right(p, room) {
            (16, task, step) => {
                let before = p.lengths[..task].iter().map(|n| usize::from(*n));
                (16, task, step + before.sum::<usize>())
            }
            answer => answer,
        }),
        ("lengths in bytes", |p, room| {
            let steps = p.lengths.iter().map(|n| n / STEP_SIZE as u16);
            right(&with_lengths(p, steps.collect()), room)
        }),
        ("lengths past the last base not looked at", |p, room| {
            let first = p.lengths.iter().take(p.bases.len());
            right(&with_lengths(p, first.copied().collect()), room)
        }),
        ("part of a step not looked at", |p, room| {
            let mut whole = p.clone();
            whole.steps.truncate(p.steps.len() / STEP_SIZE * STEP_SIZE);
            right(&whole, room)
        }),
        ("a step past the limit", |p, room| match right(p, room) {
            (11, ..) if length(p) <= LARGEST_ROSTER + STEP_SIZE => (0, 0, 0),
            answer => answer,
        }),
        ("room for one byte less", |p, room| right(p, room + 1)),
        ("room for one byte more", |p, room| {
            right(p, room.saturating_sub(1))
        }),
    ]
}

/// Where the task table starts, and the object table, and the trailer.
fn starts(p: &Parts) -> [usize; 3] {
    let objects = p.steps.len() + TASK_ROW * p.bases.len();
    [
        p.steps.len(),
        objects,
        objects + OBJECT_ROW * p.ceilings.len(),
    ]
}

/// The second program's file with a change.
fn changed(parts: &Parts, change: impl Fn(&mut [u8], [usize; 3])) -> Vec<u8> {
    let mut file = writer::file(parts);
    change(&mut file, starts(parts));
    file
}

/// Tables and trailers that are laid out otherwise.
fn wrong_tables() -> Vec<(&'static str, Layout)> {
    vec![
        ("tables swapped", |p| {
            changed(p, |file, [tasks, objects, trailer]| {
                file[tasks..trailer].rotate_left(objects - tasks);
                let start = (tasks + trailer - objects) as u16;
                file[trailer + 4..trailer + 6].copy_from_slice(&(tasks as u16).to_le_bytes());
                file[trailer + 6..].copy_from_slice(&start.to_le_bytes());
            })
        }),
        ("starts in the trailer swapped", |p| {
            changed(p, |file, [.., trailer]| file[trailer + 4..].rotate_left(2))
        }),
        ("counts swapped", |p| {
            changed(p, |file, [.., trailer]| file.swap(trailer + 2, trailer + 3))
        }),
        ("ceilings from the last", |p| {
            changed(p, |file, [_, objects, trailer]| {
                let rows = file[objects..trailer].chunks_exact_mut(OBJECT_ROW);
                for (row, ceiling) in rows.zip(p.ceilings.iter().rev()) {
                    row[0] = *ceiling;
                }
            })
        }),
    ]
}

/// The second program's file with every task row changed.
fn with_rows(parts: &Parts, change: fn(&mut [u8], u16)) -> Vec<u8> {
    changed(parts, |file, [tasks, objects, _]| {
        let rows = file[tasks..objects].chunks_exact_mut(TASK_ROW);
        for (row, length) in rows.zip(&parts.lengths) {
            change(row, *length);
        }
    })
}

fn wrong_rows() -> Vec<(&'static str, Layout)> {
    vec![
        ("start and length of a row swapped", |p| {
            with_rows(p, |row, _| row[2..].rotate_left(2))
        }),
        ("length of a row in steps", |p| {
            with_rows(p, |row, length| {
                row[4..].copy_from_slice(&length.to_le_bytes())
            })
        }),
        ("high bytes of starts lost", |p| {
            with_rows(p, |row, _| row[3] = 0)
        }),
        ("high byte first", |p| with_rows(p, |row, _| row.swap(4, 5))),
    ]
}

/// What is written besides.
fn wrong_spills() -> Vec<(&'static str, Spill)> {
    vec![
        ("a byte past the file", |number, p, buffer| {
            if let (0, Some(past)) = (number, buffer.get_mut(length(p))) {
                *past = 0;
            }
        }),
        ("what fits into a short buffer", |number, p, buffer| {
            if number == 22 {
                buffer.copy_from_slice(&writer::file(p)[..buffer.len()]);
            }
        }),
        ("a mark before a bad step is met", |number, p, buffer| {
            if number == 16 && length(p) <= buffer.len() {
                buffer[length(p) - TRAILER] = 0x52;
            }
        }),
    ]
}

/// What is handed back instead of the file, or of nothing.
fn wrong_parts() -> Vec<(&'static str, Part)> {
    vec![
        ("the whole buffer handed back", |length, room| {
            if length == 0 {
                0
            } else {
                room
            }
        }),
        ("the whole buffer on a refusal", |length, room| {
            if length == 0 {
                room
            } else {
                length
            }
        }),
        ("the part without its trailer", |length, _| {
            length.saturating_sub(TRAILER)
        }),
    ]
}

/// All of them, by name.
fn wrong_writers() -> Vec<(&'static str, Made)> {
    let orders = wrong_orders().into_iter().chain(wrong_answers());
    let judged = orders.map(|(name, judge)| {
        let alone = judge;
        let writer = Made {
            judge,
            alone,
            ..RIGHT
        };
        (name, writer)
    });
    let files = wrong_tables().into_iter().chain(wrong_rows());
    let filed = files.map(|(name, file)| (name, Made { file, ..RIGHT }));
    let spills = wrong_spills().into_iter();
    let spilled = spills.map(|(name, spill)| (name, Made { spill, ..RIGHT }));
    let parts = wrong_parts().into_iter();
    let handed = parts.map(|(name, part)| (name, Made { part, ..RIGHT }));
    let blind = Made {
        alone: |p, _| right(p, usize::MAX),
        ..RIGHT
    };
    let mut all: Vec<(&str, Made)> = judged.chain(filed).chain(spilled).chain(handed).collect();
    all.push(("no look at the room in the answer alone", blind));
    all
}

/// The first of the made parts that shows a writer to be wrong, and what is wrong.
fn found(writer: &dyn Writer) -> Option<(u64, String)> {
    (0..CASES).find_map(|seed| {
        let (parts, room) = lent(seed);
        let wrong = compare_write(writer, &parts, room).err()?;
        Some((seed, wrong))
    })
}

#[test]
fn every_wrong_writer_is_found() {
    assert_eq!(found(&RIGHT), None);
    let all = wrong_writers();
    for (name, writer) in &all {
        let (seed, wrong) = found(writer).unwrap_or_else(|| panic!("{name}: not found"));
        println!("{name}: seed {seed}, {wrong}");
    }
    assert_eq!(all.len(), 28);
}
