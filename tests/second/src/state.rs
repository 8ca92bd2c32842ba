//! The state of tasks and protected objects, active priorities, and the fresh start.

use std::collections::VecDeque;

use crate::answer;
use crate::limits::{MAX_OBJECTS, PRIORITIES, QUEUES, TASKS};

/// Where a task is; a delayed task carries its due time.
#[derive(Clone, Copy, Debug, PartialEq, Eq)]
pub enum Place {
    Running,
    Ready,
    Delayed { due: u64 },
    Suspended,
    Ended,
}

/// A task: `held` lists its objects from the outermost to the innermost, `waiting` is a base
/// that was set inside a protected action.
#[derive(Clone, Debug, PartialEq, Eq)]
pub struct Task {
    pub base: u64,
    pub place: Place,
    pub permit: bool,
    pub held: Vec<usize>,
    pub waiting: Option<u64>,
}

/// The whole state. Fields are open and wide, so that unsound states can be written down too.
/// `queues[p - 1]` is the ready queue for priority `p`, its head first. Bit `p - 1` of `marks` is
/// the mark of that queue, on exactly when it is not empty (request 2026-02).
#[derive(Clone, Debug, PartialEq, Eq)]
pub struct State {
    pub now: u64,
    pub tasks: Vec<Task>,
    pub ceilings: Vec<u64>,
    pub queues: [VecDeque<usize>; QUEUES],
    pub marks: u32,
    pub running: Option<usize>,
}

impl Task {
    /// The highest of the base and the ceilings of the objects held; unknown objects count for
    /// nothing, so that this is defined in an unsound state too.
    pub fn active(&self, ceilings: &[u64]) -> u64 {
        let known = self.held.iter().filter_map(|&o| ceilings.get(o).copied());
        known.fold(self.base, u64::max)
    }
}

impl State {
    /// The active priority of task `t`, if there is such a task.
    pub fn active(&self, t: usize) -> Option<u64> {
        self.tasks.get(t).map(|task| task.active(&self.ceilings))
    }

    /// The record of the running task, if one runs.
    pub fn running_task(&self) -> Option<&Task> {
        self.tasks.get(self.running?)
    }

    /// The priority of the highest ready queue that is not empty.
    pub fn highest_ready(&self) -> Option<u64> {
        // Not read off the marks, so that a pick by counting zeros can be compared with it.
        let top = self.queues.iter().rposition(|queue| !queue.is_empty())?;
        Some(top as u64 + 1)
    }

    /// The ready queue for priority `p`; none for a number that is no priority.
    pub fn queue(&self, p: u64) -> Option<&VecDeque<usize>> {
        self.queues.get(queue_index(p)?)
    }

    /// Lets a task become ready at the tail of the queue for its active priority.
    pub(crate) fn join_tail(&mut self, t: usize) {
        self.join(t, VecDeque::push_back);
    }

    /// Puts a preempted task at the head of the queue for its active priority.
    pub(crate) fn join_head(&mut self, t: usize) {
        self.join(t, VecDeque::push_front);
    }

    fn join(&mut self, t: usize, push: fn(&mut VecDeque<usize>, usize)) {
        let priority = self.active(t).unwrap_or(0);
        if let Some(index) = queue_index(priority) {
            push(&mut self.queues[index], t);
            self.marks = marks_of(&self.queues);
            self.tasks[t].place = Place::Ready;
        }
    }

    /// Takes a ready task out of the ready queues.
    pub(crate) fn take_out(&mut self, t: usize) {
        for queue in &mut self.queues {
            queue.retain(|&other| other != t);
        }
        self.marks = marks_of(&self.queues);
    }

    /// One dispatch: a running task below a ready queue is preempted, and where nobody runs the
    /// head of the highest queue does. Says whether it sent the running task to the head of its
    /// queue: afterwards a queue of one does not tell its head from its tail.
    pub(crate) fn dispatch(&mut self) -> bool {
        let Some(top) = self.highest_ready() else {
            return false;
        };
        let old = self.running;
        if let Some(t) = old {
            if self.active(t) >= Some(top) {
                return false;
            }
            self.join_head(t);
        }
        self.running = queue_index(top).and_then(|index| self.queues[index].pop_front());
        self.marks = marks_of(&self.queues);
        if let Some(t) = self.running {
            self.tasks[t].place = Place::Running;
        }
        old.is_some()
    }
}

/// The word of marks that these queues call for, reckoned from them alone so that no older word
/// can leave a mark behind.
pub fn marks_of(queues: &[VecDeque<usize>; QUEUES]) -> u32 {
    let mut marks = 0;
    for (index, queue) in queues.iter().enumerate() {
        if !queue.is_empty() {
            marks |= 1 << index;
        }
    }
    marks
}

/// Where the queue for priority `p` stands among the queues.
fn queue_index(p: u64) -> Option<usize> {
    PRIORITIES.contains(&p).then(|| (p - 1) as usize)
}

/// The fresh state of these bases and ceilings with 0, or a refusal (13, then 15) beside the
/// fresh state of a single task of base 1 without objects.
pub fn fresh(bases: &[u64], ceilings: &[u64]) -> (u8, State) {
    let number = fresh_refusal(bases, ceilings);
    if number == answer::DONE {
        (number, start(bases, ceilings))
    } else {
        (number, start(&[1], &[]))
    }
}

fn fresh_refusal(bases: &[u64], ceilings: &[u64]) -> u8 {
    let mut values = bases.iter().chain(ceilings);
    if !TASKS.contains(&bases.len()) || ceilings.len() > MAX_OBJECTS {
        answer::COUNTS
    } else if values.any(|value| !PRIORITIES.contains(value)) {
        answer::BAD_VALUE
    } else {
        answer::DONE
    }
}

fn start(bases: &[u64], ceilings: &[u64]) -> State {
    let task = |&base: &u64| Task {
        base,
        place: Place::Ready,
        permit: false,
        held: Vec::new(),
        waiting: None,
    };
    let mut state = State {
        now: 0,
        tasks: bases.iter().map(task).collect(),
        ceilings: ceilings.to_vec(),
        queues: Default::default(),
        marks: 0,
        running: None,
    };
    for t in 0..bases.len() {
        state.join_tail(t);
    }
    // It preempts nobody, and a fresh start reports nothing.
    state.dispatch();
    state
}
