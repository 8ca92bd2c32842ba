//! The check of a roster whose form is right: numbers 17 to 20, at the first fault.

use crate::answer;
use crate::roster::{Refusal, Roster, Step};

/// Follows each script once, in task order, and names the first fault with its place.
pub fn check(roster: &Roster) -> Result<(), Refusal> {
    for task in 0..roster.tasks.len() {
        check_script(roster, task)?;
    }
    Ok(())
}

fn check_script(roster: &Roster, task: usize) -> Result<(), Refusal> {
    let script = &roster.tasks[task].script;
    let refuse = |number, step| Err(Refusal { number, task, step });
    let floor = highest_base(roster, task);
    let mut held: Vec<usize> = Vec::new();
    for (index, &step) in script.iter().enumerate() {
        if let Some(number) = fault(roster, task, floor, &held, step) {
            return refuse(number, index);
        }
        match step {
            Step::Enter(o) => held.push(o),
            Step::Leave(_) => {
                held.pop();
            }
            _ => {}
        }
    }
    if !held.is_empty() {
        return refuse(answer::HELD_IN_CHECK, script.len());
    }
    Ok(())
}

/// The highest base that the task can have by its own doing, wherever in its script the Set is:
/// an Again brings every Set before every Enter.
fn highest_base(roster: &Roster, task: usize) -> u64 {
    let entry = &roster.tasks[task];
    let own_sets = entry.script.iter().filter_map(|step| match *step {
        Step::Set(t, p) if t == task => Some(p),
        _ => None,
    });
    own_sets.fold(entry.base, u64::max)
}

/// The lowest number that the step earns, given what the task holds before it.
fn fault(roster: &Roster, task: usize, floor: u64, held: &[usize], step: Step) -> Option<u8> {
    match step {
        Step::Delay(_) | Step::Suspend | Step::Again if !held.is_empty() => {
            Some(answer::HELD_IN_CHECK)
        }
        Step::Enter(o) if held.contains(&o) => Some(answer::HELD_IN_CHECK),
        Step::Enter(o) if ceiling_too_low(roster, floor, held, o) => Some(answer::CEILING_IN_CHECK),
        Step::Leave(o) if held.last() != Some(&o) => Some(answer::LEAVE_IN_CHECK),
        Step::Set(t, _) if t != task => Some(answer::OTHER_TASK_IN_CHECK),
        _ => None,
    }
}

fn ceiling_too_low(roster: &Roster, floor: u64, held: &[usize], o: usize) -> bool {
    // An object that the roster does not list has no ceiling at all.
    let ceiling = |o: usize| roster.ceilings.get(o).copied().unwrap_or(0);
    ceiling(o) < floor || held.iter().any(|&h| ceiling(o) < ceiling(h))
}
