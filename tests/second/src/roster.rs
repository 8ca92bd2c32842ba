//! Reads a roster from its bytes: form (11 to 16), lookups by index, and form with check.

use crate::answer;
use crate::check;
use crate::limits::{MAX_OBJECTS, PRIORITIES, ROSTER_BYTES, TASKS};

pub(crate) const MARK: [u8; 2] = [0x52, 0x35];
pub(crate) const TRAILER: usize = 8;
pub(crate) const TASK_ROW: usize = 6;
pub(crate) const OBJECT_ROW: usize = 2;
pub(crate) const STEP: usize = 4;

/// Why a roster, a run or a writing is refused, and where; the place is 0, 0 unless the number is
/// 16 to 20.
#[derive(Clone, Copy, Debug, PartialEq, Eq)]
pub struct Refusal {
    pub number: u8,
    pub task: usize,
    pub step: usize,
}

impl Refusal {
    /// A refusal that names no place.
    pub fn plain(number: u8) -> Refusal {
        Refusal {
            number,
            task: 0,
            step: 0,
        }
    }

    /// A refusal with 16 at this step.
    pub(crate) fn bad_step(task: usize, step: usize) -> Refusal {
        let number = answer::BAD_STEP;
        Refusal { number, task, step }
    }
}

/// One step of a script.
#[derive(Clone, Copy, Debug, PartialEq, Eq)]
pub enum Step {
    Enter(usize),
    Leave(usize),
    Delay(u16),
    Work,
    Suspend,
    Release(usize),
    Set(usize, u64),
    Again,
}

/// A task as its roster gives it.
#[derive(Clone, Debug, PartialEq, Eq)]
pub struct TaskEntry {
    pub base: u64,
    pub script: Vec<Step>,
}

/// A roster whose form is right.
#[derive(Clone, Debug, PartialEq, Eq)]
pub struct Roster {
    pub tasks: Vec<TaskEntry>,
    pub ceilings: Vec<u64>,
}

impl Roster {
    /// The bases of all tasks, in task order.
    pub fn bases(&self) -> Vec<u64> {
        self.tasks.iter().map(|entry| entry.base).collect()
    }
}

/// Form and check together: 11 to 16, then 17 to 20.
pub fn admit(bytes: &[u8]) -> Result<Roster, Refusal> {
    let roster = read(bytes)?;
    check::check(&roster)?;
    Ok(roster)
}

/// Form alone: 11 to 16.
pub fn read(bytes: &[u8]) -> Result<Roster, Refusal> {
    let parts = split(bytes).map_err(Refusal::plain)?;
    if !parts.values_are_good() {
        return Err(Refusal::plain(answer::BAD_VALUE));
    }
    let mut tasks = Vec::new();
    for (task, row) in parts.rows.iter().enumerate() {
        let script = parts.steps(row);
        let script = script.map_err(|step| Refusal::bad_step(task, step))?;
        tasks.push(TaskEntry {
            base: row.base,
            script,
        });
    }
    Ok(Roster {
        tasks,
        ceilings: parts.objects.iter().map(|&(ceiling, _)| ceiling).collect(),
    })
}

/// The script of task `t` as a part of the lent bytes; refused with 11 to 16, then 1.
pub fn script(bytes: &[u8], t: usize) -> Result<&[u8], u8> {
    read(bytes).map_err(|refusal| refusal.number)?;
    let parts = split(bytes)?;
    let row = parts.rows.get(t).ok_or(answer::NO_SUCH_TASK)?;
    Ok(parts.script(row))
}

/// The base of task `t`; refused with 11 to 16, then 1.
pub fn base(bytes: &[u8], t: usize) -> Result<u64, u8> {
    let roster = read(bytes).map_err(|refusal| refusal.number)?;
    let entry = roster.tasks.get(t).ok_or(answer::NO_SUCH_TASK)?;
    Ok(entry.base)
}

/// The ceiling of object `o`; refused with 11 to 16, then 2.
pub fn ceiling(bytes: &[u8], o: usize) -> Result<u64, u8> {
    let roster = read(bytes).map_err(|refusal| refusal.number)?;
    let ceiling = roster.ceilings.get(o).ok_or(answer::NO_SUCH_OBJECT)?;
    Ok(*ceiling)
}

/// How many steps the script of task `t` has; refused with 11 to 16, then 1.
pub fn step_count(bytes: &[u8], t: usize) -> Result<u64, u8> {
    let script = script(bytes, t)?;
    Ok((script.len() / STEP) as u64)
}

/// The four bytes of a step of task `t`; at the script's end and behind it Finish, which is four
/// zeros. Refused with 11 to 16, then 1.
pub fn step(bytes: &[u8], t: usize, step: u64) -> Result<[u8; STEP], u8> {
    let mut steps = script(bytes, t)?.chunks_exact(STEP);
    // A script of so few bytes has no step whose number is too large for this machine.
    let found = usize::try_from(step).ok().and_then(|step| steps.nth(step));
    Ok(found.map_or([0; STEP], |raw| [raw[0], raw[1], raw[2], raw[3]]))
}

/// One row of the task table as it stands in the bytes.
struct TaskRow {
    base: u64,
    zero: u8,
    start: usize,
    length: usize,
}

/// The three parts of a roster before its trailer; an object is its ceiling and its zero byte.
struct Parts<'a> {
    scripts: &'a [u8],
    rows: Vec<TaskRow>,
    objects: Vec<(u64, u8)>,
}

impl<'a> Parts<'a> {
    /// Scripts lie in task order from byte 0, whole steps each, with no gap up to the task table.
    fn scripts_are_laid_out(&self) -> bool {
        let mut end = 0;
        for row in &self.rows {
            if row.start != end || row.length % STEP != 0 {
                return false;
            }
            end += row.length;
        }
        end == self.scripts.len()
    }

    /// Every base and ceiling is a priority, and every byte that must be 0 is.
    fn values_are_good(&self) -> bool {
        let task = |row: &TaskRow| PRIORITIES.contains(&row.base) && row.zero == 0;
        let object = |&(ceiling, zero): &(u64, u8)| PRIORITIES.contains(&ceiling) && zero == 0;
        self.rows.iter().all(task) && self.objects.iter().all(object)
    }

    /// The bytes of the script that a row names; empty where the row is off the layout.
    fn script(&self, row: &TaskRow) -> &'a [u8] {
        self.scripts
            .get(row.start..row.start + row.length)
            .unwrap_or(&[])
    }

    /// The steps of the script that a row names, or the index of its first bad step.
    fn steps(&self, row: &TaskRow) -> Result<Vec<Step>, usize> {
        decode_script(self.script(row), self.rows.len(), self.objects.len())
    }
}

/// The steps of one script in a roster of that many tasks and objects, or the index of its first
/// bad step.
pub(crate) fn decode_script(
    script: &[u8],
    tasks: usize,
    objects: usize,
) -> Result<Vec<Step>, usize> {
    let chunks = script.chunks_exact(STEP);
    let last = chunks.len().saturating_sub(1);
    let decode = |(index, raw)| decode_step(raw, tasks, objects, index == last).ok_or(index);
    chunks.enumerate().map(decode).collect()
}

/// One step, if its code is known, its operands fit and an Again is the script's last.
fn decode_step(raw: &[u8], tasks: usize, objects: usize, last: bool) -> Option<Step> {
    let &[code, a, low, high] = raw else {
        return None;
    };
    let a = usize::from(a);
    let b = u16::from_le_bytes([low, high]);
    let object = a < objects;
    let task = a < tasks;
    match code {
        1 if object && b == 0 => Some(Step::Enter(a)),
        2 if object && b == 0 => Some(Step::Leave(a)),
        3 if a == 0 => Some(Step::Delay(b)),
        4 if a == 0 && b == 0 => Some(Step::Work),
        5 if a == 0 && b == 0 => Some(Step::Suspend),
        6 if task && b == 0 => Some(Step::Release(a)),
        7 if task && PRIORITIES.contains(&u64::from(b)) => Some(Step::Set(a, u64::from(b))),
        8 if a == 0 && b == 0 && last => Some(Step::Again),
        _ => None,
    }
}

/// Cuts a roster into its parts: 11 to 14, the lowest that applies.
fn split(bytes: &[u8]) -> Result<Parts<'_>, u8> {
    if !ROSTER_BYTES.contains(&bytes.len()) {
        return Err(answer::ROSTER_LENGTH);
    }
    let (body, trailer) = bytes.split_at(bytes.len() - TRAILER);
    if trailer[..2] != MARK {
        return Err(answer::ROSTER_MARK);
    }
    let (tasks, objects) = (usize::from(trailer[2]), usize::from(trailer[3]));
    if !TASKS.contains(&tasks) || objects > MAX_OBJECTS {
        return Err(answer::COUNTS);
    }
    // The tables end at the trailer, so their counts alone say where they must start.
    let tables = tasks * TASK_ROW + objects * OBJECT_ROW;
    let task_table = body.len().checked_sub(tables).ok_or(answer::LAYOUT)?;
    let object_table = task_table + tasks * TASK_ROW;
    let parts = Parts {
        scripts: &body[..task_table],
        rows: task_rows(&body[task_table..object_table]),
        objects: object_rows(&body[object_table..]),
    };
    let starts = (two_bytes(trailer, 4), two_bytes(trailer, 6));
    if starts != (object_table, task_table) || !parts.scripts_are_laid_out() {
        return Err(answer::LAYOUT);
    }
    Ok(parts)
}

fn task_rows(table: &[u8]) -> Vec<TaskRow> {
    let row = |raw: &[u8]| TaskRow {
        base: u64::from(raw[0]),
        zero: raw[1],
        start: two_bytes(raw, 2),
        length: two_bytes(raw, 4),
    };
    table.chunks_exact(TASK_ROW).map(row).collect()
}

fn object_rows(table: &[u8]) -> Vec<(u64, u8)> {
    let row = |raw: &[u8]| (u64::from(raw[0]), raw[1]);
    table.chunks_exact(OBJECT_ROW).map(row).collect()
}

/// A number of two bytes, little-endian, at `at`.
fn two_bytes(raw: &[u8], at: usize) -> usize {
    usize::from(u16::from_le_bytes([raw[at], raw[at + 1]]))
}
