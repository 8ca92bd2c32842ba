//! The writer's three calls, the library's or a wrong writer's, and one comparison of them with the second program.

use std::fmt::Debug;

use dispatch::raw;
use second::roster::Refusal;
use second::writer::{self, Parts};

use crate::rosters::STEP_SIZE;

/// Number, task and step of an answer.
pub type Given = (u8, usize, usize);

pub trait Writer {
    fn write(&self, parts: &Parts, buffer: &mut [u8]) -> Given;
    fn answer(&self, parts: &Parts, room: u64) -> Given;
    fn written(&self, parts: &Parts, buffer: &mut [u8]) -> u64;
}

/// The library's.
pub struct Library;

impl Writer for Library {
    fn write(&self, parts: &Parts, buffer: &mut [u8]) -> Given {
        let (lengths, steps) = (&parts.lengths, &parts.steps);
        raw::write(&parts.bases, &parts.ceilings, lengths, steps, buffer)
    }

    fn answer(&self, parts: &Parts, room: u64) -> Given {
        let (lengths, steps) = (&parts.lengths, &parts.steps);
        raw::write_answer(&parts.bases, &parts.ceilings, lengths, steps, room)
    }

    fn written(&self, parts: &Parts, buffer: &mut [u8]) -> u64 {
        let (lengths, steps) = (&parts.lengths, &parts.steps);
        raw::written(&parts.bases, &parts.ceilings, lengths, steps, buffer)
    }
}

/// The second program's answer.
pub fn given(refusal: Refusal) -> Given {
    (refusal.number, refusal.task, refusal.step)
}

/// A buffer between bytes that nobody may touch, all of one value.
struct Lent {
    memory: Vec<u8>,
    paint: u8,
}

/// Odd, so that the buffer has no even address.
const GUARD: usize = 17;

impl Lent {
    fn new(room: usize, paint: u8) -> Lent {
        let memory = vec![paint; GUARD + room + GUARD];
        Lent { memory, paint }
    }

    fn buffer(&mut self) -> &mut [u8] {
        let end = self.memory.len() - GUARD;
        &mut self.memory[GUARD..end]
    }

    /// That this stands at the buffer's front, and every other byte is as it was.
    fn holds(&self, call: &str, file: &[u8]) -> Result<(), String> {
        let mut wanted = vec![self.paint; self.memory.len()];
        wanted[GUARD..GUARD + file.len()].copy_from_slice(file);
        let mut both = self.memory.iter().zip(&wanted);
        match both.position(|(found, wanted)| found != wanted) {
            None => Ok(()),
            Some(at) => Err(format!(
                "byte {} after {call}: {:#04X}, not {:#04X}",
                at as isize - GUARD as isize,
                self.memory[at],
                wanted[at]
            )),
        }
    }
}

fn same<T: PartialEq + Debug>(what: &str, found: T, wanted: T) -> Result<(), String> {
    match found == wanted {
        true => Ok(()),
        false => Err(format!("{what}: {found:?}, not {wanted:?}")),
    }
}

/// The three calls on these parts, with buffers of so many bytes: the number of the answer, or what the second program has otherwise.
pub fn compare_write(writer: &dyn Writer, parts: &Parts, room: usize) -> Result<u8, String> {
    let wanted = given(writer::answer(parts, room));
    let file = match wanted.0 {
        0 => writer::file(parts),
        _ => Vec::new(),
    };
    let answer = writer.answer(parts, room as u64);
    same("answer alone", answer, wanted)?;
    let mut lent = Lent::new(room, 0xA5);
    let answer = writer.write(parts, lent.buffer());
    same("answer", answer, wanted)?;
    lent.holds("write", &file)?;
    // other bytes lie there, so that none that was written is taken for one that stayed
    let mut lent = Lent::new(room, 0x5A);
    let length = writer.written(parts, lent.buffer());
    same("length", length, file.len() as u64)?;
    lent.holds("written", &file)?;
    Ok(wanted.0)
}

/// The library's file of these parts, into just enough room, or its refusal.
pub fn file_of(parts: &Parts) -> Result<Vec<u8>, Given> {
    let mut buffer = vec![0xA5; writer::length(parts)];
    match Library.write(parts, &mut buffer) {
        (0, 0, 0) => Ok(buffer),
        refusal => Err(refusal),
    }
}

/// What the library's readers say of a roster whose form is right: its bases, ceilings and scripts, step by step where there are few.
pub fn read_by_library(roster: &[u8]) -> Parts {
    assert_eq!(raw::form(roster).0, 0, "a roster of right form");
    let all = |value: &dyn Fn(u64) -> (u8, u64), end: u8| -> Vec<u8> {
        let found = (0..).map(value).take_while(|(number, _)| *number != end);
        found.map(|(_, value)| value as u8).collect()
    };
    let bases = all(&|t| raw::base(roster, t), 1);
    let ceilings = all(&|o| raw::ceiling(roster, o), 2);
    let tasks = 0..bases.len() as u64;
    let lengths: Vec<u64> = tasks.map(|t| raw::step_count(roster, t).1).collect();
    let steps = if roster.len() < MANY_BYTES {
        each_step(roster, &lengths)
    } else {
        whole_scripts(roster, &lengths)
    };
    Parts {
        bases,
        ceilings,
        lengths: lengths.iter().map(|n| *n as u16).collect(),
        steps,
    }
}

/// Each reader reads all of the roster, so that longer ones are not asked for every step.
const MANY_BYTES: usize = 512;

fn each_step(roster: &[u8], lengths: &[u64]) -> Vec<u8> {
    let mut steps = Vec::new();
    for (t, count) in lengths.iter().enumerate() {
        for k in 0..*count {
            let (_, packed) = raw::step(roster, t as u64, k);
            steps.extend((packed as u32).to_le_bytes());
        }
    }
    steps
}

fn whole_scripts(roster: &[u8], lengths: &[u64]) -> Vec<u8> {
    let mut steps = Vec::new();
    for (t, count) in lengths.iter().enumerate() {
        let start = raw::script_start(roster, t as u64) as usize;
        steps.extend(&roster[start..][..STEP_SIZE * *count as usize]);
    }
    steps
}
