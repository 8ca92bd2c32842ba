//! Holds the stack of every exported call to the figure that docs/INTEGRATION.md states for it: each call is made on a painted
//! stack, and the deepest byte that it has touched is looked for. The program is held to its figure by a limit of its stack.

use std::arch::asm;
use std::collections::BTreeMap;
use std::fs;
use std::path::Path;

use harness::events::{record_of, room_for, REPLY_SIZE};
use harness::layout::{ROW_SIZE, RUNNING, STATE_SIZE, TASKS};
use harness::parts::{fill_up, made, nothing, parts_of};
use harness::programs::{folder_for, printed, printed_within, proved, second};
use harness::report::bytes_of;
use harness::rosters::{busiest, most_rows, rising, WHOLE_CASE};
use harness::sizes::{
    EVENT_SIZE, LARGEST_ROSTER, LAST_OBJECT, LAST_TASK, MOST_EVENTS, MOST_OBJECTS, MOST_ROWS,
    MOST_TASKS,
};
use second::run::Command;
use second::writer::{length, Parts};

macro_rules! functions {
    ($($name:ident),* $(,)?) => {
        // Called by their addresses alone, with arguments in registers and on the stack.
        extern "C" { $(fn $name();)* }
        const FUNCTIONS: &[(&str, unsafe extern "C" fn())] = &[$((stringify!($name), $name)),*];
    };
}

functions!(
    dispatch_form,
    dispatch_check,
    dispatch_script_number,
    dispatch_script_start,
    dispatch_script_length,
    dispatch_base,
    dispatch_ceiling,
    dispatch_step_count,
    dispatch_step,
    dispatch_run,
    dispatch_write,
    dispatch_write_answer,
    dispatch_written,
    dispatch_fresh,
    dispatch_enter,
    dispatch_leave,
    dispatch_delay,
    dispatch_suspend,
    dispatch_release,
    dispatch_clock,
    dispatch_set,
    dispatch_work,
    dispatch_finish,
    dispatch_sound,
    dispatch_running,
    dispatch_fill,
    dispatch_next,
);

const STACK_SIZE: usize = 1 << 18;
/// How many arguments are in registers, and how many more on the stack above the caller's stack pointer, which stays a multiple of 16.
const IN_REGISTERS: usize = 6;
const ON_STACK: usize = 4;
const PASSED_SIZE: usize = 8 * ON_STACK;
const PAINTS: [u8; 2] = [0xA5, 0x5A];

/// A stack of its own, and the deepest use of it by each function, in bytes below the caller's stack pointer.
struct Stack {
    memory: Vec<u128>,
    deepest: BTreeMap<&'static str, usize>,
}

impl Stack {
    fn new() -> Stack {
        Stack {
            memory: vec![0; STACK_SIZE / 16],
            deepest: BTreeMap::new(),
        }
    }

    fn bytes(&mut self) -> &mut [u8] {
        // SAFETY: the same memory as bytes.
        unsafe { std::slice::from_raw_parts_mut(self.memory.as_mut_ptr().cast(), STACK_SIZE) }
    }

    /// Calls a function by its name on the stack, painted anew, and notes how deep it went.
    fn call(&mut self, name: &str, arguments: &[u64], paint: u8) -> u64 {
        let (name, function) = *FUNCTIONS
            .iter()
            .find(|f| f.0 == name)
            .expect("a function of the list");
        let mut all = [0; IN_REGISTERS + ON_STACK];
        all[..arguments.len()].copy_from_slice(arguments);
        let (registers, passed) = all.split_at(IN_REGISTERS);
        let registers = registers.try_into().expect("as many as there are");
        self.bytes().fill(paint);
        let (below, above) = self.bytes().split_at_mut(STACK_SIZE - PASSED_SIZE);
        for (bytes, argument) in above.chunks_exact_mut(8).zip(passed) {
            bytes.copy_from_slice(&argument.to_le_bytes());
        }
        let top = below.as_mut_ptr_range().end;
        // SAFETY: the arguments are those of the function, every slice among them is alive, and the stack is large enough, which
        // is asserted below.
        let answer = unsafe { called(top, function, registers) };
        let untouched = self.bytes().iter().take_while(|b| **b == paint).count();
        assert!(
            untouched > STACK_SIZE / 2,
            "{name} has used most of the stack"
        );
        let depth = self.deepest.entry(name).or_insert(0);
        *depth = (*depth).max(STACK_SIZE - PASSED_SIZE - untouched);
        answer
    }
}

/// Calls a function with these arguments in registers, and those that stand at `top`, while the stack pointer is there.
unsafe fn called(
    top: *mut u8,
    function: unsafe extern "C" fn(),
    arguments: [u64; IN_REGISTERS],
) -> u64 {
    let answer;
    asm!(
        "mov r12, rsp",
        "mov rsp, {top}",
        "call {function}",
        "mov rsp, r12",
        top = in(reg) top,
        function = in(reg) function,
        inout("rdi") arguments[0] => _,
        inout("rsi") arguments[1] => _,
        inout("rdx") arguments[2] => _,
        inout("rcx") arguments[3] => _,
        inout("r8") arguments[4] => _,
        inout("r9") arguments[5] => _,
        out("rax") answer,
        out("r12") _,
        clobber_abi("C"),
    );
    answer
}

fn lent(slice: &[u8]) -> [u64; 2] {
    [slice.as_ptr() as u64, slice.len() as u64]
}

fn lent_mut(slice: &mut [u8]) -> [u64; 2] {
    [slice.as_mut_ptr() as u64, slice.len() as u64]
}

/// Every event with its number of arguments besides the state and the room for its report.
const EVENTS: &[(&str, usize)] = &[
    ("dispatch_enter", 1),
    ("dispatch_leave", 1),
    ("dispatch_delay", 1),
    ("dispatch_suspend", 0),
    ("dispatch_release", 1),
    ("dispatch_clock", 1),
    ("dispatch_set", 2),
    ("dispatch_work", 0),
    ("dispatch_finish", 0),
];

impl Stack {
    fn fresh(&mut self, bases: &[u8], ceilings: &[u8], state: &mut [u8]) -> u8 {
        let mut answer = 0;
        for paint in PAINTS {
            let arguments = [lent(bases), lent(ceilings), lent_mut(state)].concat();
            answer = self.call("dispatch_fresh", &arguments, paint) as u8;
        }
        answer
    }

    /// One event; gives its answer. Its report is written each time, 0 beside a refusal, and nothing around it.
    fn event(&mut self, state: &mut [u8], event: &str, arguments: &[u64], paint: u8) -> u8 {
        let mut room = [0xA5u8; 3];
        let report = room.as_mut_ptr().wrapping_add(1) as u64;
        let all = [&lent_mut(state)[..], arguments, &[report]].concat();
        let answer = self.call(event, &all, paint) as u8;
        let reports = if answer == 0 { 0..=2 } else { 0..=0 };
        assert!(reports.contains(&room[1]), "{event} reports {}", room[1]);
        assert_eq!([room[0], room[2]], [0xA5; 2], "{event}");
        answer
    }

    /// One event, which has to be accepted.
    fn done(&mut self, state: &mut [u8], event: &str, arguments: &[u64]) {
        let answer = self.event(state, event, arguments, PAINTS[0]);
        assert_eq!(answer, 0, "{event} {arguments:?}");
    }

    /// Every event on copies of a state, and what only reads it.
    fn all_on(&mut self, state: &[u8]) {
        for (event, operands) in EVENTS {
            let last = [LAST_OBJECT as u64, LAST_TASK as u64];
            for first in [0, 1, 7, 300, u64::MAX].into_iter().chain(last) {
                for second in [1, 10, 32, u64::MAX] {
                    for paint in PAINTS {
                        let mut copy = state.to_vec();
                        self.event(&mut copy, event, &[first, second][..*operands], paint);
                    }
                }
            }
        }
        for paint in PAINTS {
            self.call("dispatch_sound", &lent(state), paint);
            self.call("dispatch_running", &lent(state), paint);
            for rows in [0, 1, MOST_ROWS, MOST_ROWS + 1] {
                let mut board = vec![0; ROW_SIZE * rows];
                let all = [lent(state), lent_mut(&mut board)].concat();
                self.call("dispatch_fill", &all, paint);
                self.call("dispatch_next", &lent(&board), paint);
            }
        }
    }

    /// Every reader of a roster, and a run of it under some events.
    fn all_of(&mut self, roster: &[u8], events: &[u8]) {
        for paint in PAINTS {
            self.call("dispatch_form", &lent(roster), paint);
            self.call("dispatch_check", &lent(roster), paint);
            for number in [0, 1, LAST_OBJECT as u64, LAST_TASK as u64, u64::MAX] {
                let all = [&lent(roster)[..], &[number, number]].concat();
                for reader in [
                    "script_number",
                    "script_start",
                    "script_length",
                    "base",
                    "ceiling",
                    "step_count",
                    "step",
                ] {
                    self.call(&format!("dispatch_{reader}"), &all, paint);
                }
            }
            for size in [0, room_for(events), REPLY_SIZE * MOST_EVENTS] {
                let mut buffer = vec![0; size];
                let all = [lent(roster), lent(events), lent_mut(&mut buffer)].concat();
                self.call("dispatch_run", &all, paint);
            }
        }
    }

    /// Every call of the writer on some parts, into no room, just enough, and more.
    fn all_with(&mut self, parts: &Parts) {
        let lengths = [parts.lengths.as_ptr() as u64, parts.lengths.len() as u64];
        let lists = [lent(&parts.bases), lent(&parts.ceilings), lengths];
        let lists = [&lists.concat()[..], &lent(&parts.steps)].concat();
        for paint in PAINTS {
            for size in [0, length(parts) - 1, length(parts), length(parts) + 9] {
                let mut buffer = vec![0; size];
                let all = [&lists[..], &lent_mut(&mut buffer)].concat();
                let answer = self.call("dispatch_write", &all, paint);
                let written = self.call("dispatch_written", &all, paint);
                let alone = [&lists[..], &[size as u64]].concat();
                let asked = self.call("dispatch_write_answer", &alone, paint);
                assert_eq!(asked, answer, "{} bytes", size);
                assert_eq!(answer == 0, written == length(parts) as u64);
            }
        }
    }
}

/// A state of all tasks and objects, all of one base and one ceiling.
fn crowd(stack: &mut Stack) -> Vec<u8> {
    let mut state = vec![0; STATE_SIZE];
    let answer = stack.fresh(&[10; MOST_TASKS], &[20; MOST_OBJECTS], &mut state);
    assert_eq!(answer, 0);
    state
}

/// A state of all tasks over all priorities, with rising ceilings.
fn spread(stack: &mut Stack) -> Vec<u8> {
    let mut state = vec![0; STATE_SIZE];
    let answer = stack.fresh(&rising(MOST_TASKS), &rising(MOST_OBJECTS), &mut state);
    assert_eq!(answer, 0);
    state
}

/// The first task inside all objects, of equal ceilings and of rising ones, with a base that waits.
fn holders(stack: &mut Stack) -> Vec<Vec<u8>> {
    let mut equal = crowd(stack);
    let mut by_ceilings = vec![0; STATE_SIZE];
    let ceilings = rising(MOST_OBJECTS);
    assert_eq!(
        stack.fresh(&[1; MOST_TASKS], &ceilings, &mut by_ceilings),
        0
    );
    for state in [&mut equal, &mut by_ceilings] {
        for o in 0..MOST_OBJECTS as u64 {
            stack.done(state, "dispatch_enter", &[o]);
        }
        stack.done(state, "dispatch_set", &[0, 1]);
    }
    // with all others above it, which it holds off until it leaves
    for t in 1..MOST_TASKS as u64 {
        stack.done(&mut by_ceilings, "dispatch_set", &[t, 32]);
    }
    vec![equal, by_ceilings]
}

/// States that are far from fresh: many to wake, everything held, everybody suspended, nobody left; and bytes that are no state.
fn states(stack: &mut Stack) -> Vec<Vec<u8>> {
    let mut sleepers = crowd(stack);
    let mut suspended = crowd(stack);
    let mut ended = crowd(stack);
    for t in 0..LAST_TASK as u64 {
        stack.done(&mut sleepers, "dispatch_delay", &[300 - t]);
        stack.done(&mut suspended, "dispatch_suspend", &[]);
        stack.done(&mut ended, "dispatch_finish", &[]);
    }
    let mut all_asleep = sleepers.clone();
    stack.done(&mut all_asleep, "dispatch_delay", &[1]);
    // The last Leave, at which the base that waits takes effect, goes by the object 0.
    let mut leaving = crowd(stack);
    stack.done(&mut leaving, "dispatch_enter", &[0]);
    stack.done(&mut leaving, "dispatch_set", &[0, 1]);
    let mut nobody = ended.clone();
    stack.done(&mut nobody, "dispatch_finish", &[]);
    let mut damaged = spread(stack);
    damaged[RUNNING] = 3;
    // The mark of the highest priority, whose queue has the other task of that base.
    let mut marked = spread(stack);
    marked[TASKS - 1] ^= 0x80;
    let wrong = [
        vec![0; STATE_SIZE],
        vec![0xFF; STATE_SIZE],
        vec![0; STATE_SIZE - 1],
        vec![],
    ];
    let mut all = vec![crowd(stack), sleepers, all_asleep, suspended, ended];
    all.extend([leaving, nobody, spread(stack), damaged, marked]);
    all.extend(holders(stack));
    all.extend(wrong);
    all
}

/// As many events as a run takes: steps, and between them readings, releases and sets.
fn many_events() -> Vec<u8> {
    let mut events = Vec::new();
    for i in 0..MOST_EVENTS {
        let task = i % (MOST_TASKS + 1);
        events.extend(record_of(match i % 16 {
            3 => Command::Clock(2 * i as u64),
            7 => Command::Release(task),
            11 => Command::Set(task, i as u64 % 35),
            _ => Command::Step,
        }));
    }
    events
}

/// The table of stacks: the names that stand in backquotes at the head of each row, and the row's figure.
fn stated(page: &str) -> BTreeMap<String, usize> {
    let mut all = BTreeMap::new();
    let from_table = page
        .lines()
        .skip_while(|l| *l != "| Function | Stack, bytes |");
    for line in from_table.skip(2).take_while(|l| l.starts_with('|')) {
        let cells: Vec<&str> = line.split('|').collect();
        let figure = cells[2].trim().replace(',', "").parse();
        for name in cells[1].split('`').filter(|n| n.starts_with("dispatch_")) {
            let before = all.insert(name.to_string(), figure.clone().expect("a number of bytes"));
            assert!(before.is_none(), "two rows for {name}");
        }
    }
    all
}

/// The functions that the header declares.
fn declared(header: &str) -> Vec<String> {
    let lines = header
        .lines()
        .filter(|l| l.starts_with("uint8_t dispatch_") || l.starts_with("uint64_t dispatch_"));
    lines
        .map(|l| l[l.find(' ').unwrap() + 1..l.find('(').unwrap()].to_string())
        .collect()
}

fn read(path: &str) -> String {
    let path = format!("{}/../{path}", env!("CARGO_MANIFEST_DIR"));
    fs::read_to_string(&path).unwrap_or_else(|e| panic!("{path}: {e}"))
}

/// Fresh starts that are refused, also into too few bytes, and boards at their limits.
fn refused_starts_and_boards(stack: &mut Stack) {
    let mut state = vec![0; STATE_SIZE];
    for (bases, ceilings) in [
        (&[40; MOST_TASKS][..], &[0; MOST_OBJECTS][..]),
        (&[], &[]),
        (&[1; MOST_TASKS + 1], &[1; MOST_OBJECTS + 1]),
    ] {
        stack.fresh(bases, ceilings, &mut state);
        stack.fresh(bases, ceilings, &mut state[..5]);
    }
    for rows in [
        vec![],
        [1, 10, 0].repeat(MOST_ROWS),
        [1, 99, 0].repeat(MOST_ROWS),
        vec![0; ROW_SIZE * (MOST_ROWS + 8) + 1],
    ] {
        for paint in PAINTS {
            stack.call("dispatch_next", &lent(&rows), paint);
        }
    }
}

/// The busiest roster under the most events, a small one with every byte changed, and what is too long or nothing.
fn rosters(stack: &mut Stack) {
    let events = many_events();
    let large = busiest().bytes();
    let answer = stack.call("dispatch_check", &lent(&large), PAINTS[0]);
    assert_eq!((large.len(), answer), (LARGEST_ROSTER, 0));
    stack.all_of(&large, &events);
    let small = bytes_of(WHOLE_CASE);
    let few = &events[..11 * EVENT_SIZE];
    stack.all_of(&small, few);
    for i in 0..small.len() {
        for value in [0, 1, 7, 255] {
            let mut wrong = small.clone();
            wrong[i] = value;
            stack.all_of(&wrong, few);
        }
    }
    stack.all_of(&[], &[]);
    let too_long = [0; LARGEST_ROSTER + 1];
    stack.all_of(&too_long, &too_long);
}

/// Writings of the smallest and the largest rosters, and with every fault.
fn writings(stack: &mut Stack) {
    let largest = parts_of(&busiest());
    assert_eq!(length(&largest), LARGEST_ROSTER);
    stack.all_with(&largest);
    let mut longer = largest;
    fill_up(&mut longer, LAST_TASK, 1);
    stack.all_with(&longer);
    stack.all_with(&nothing());
    stack.all_with(&parts_of(&most_rows()));
    for seed in 0..600 {
        stack.all_with(&made(seed));
    }
}

#[test]
fn no_call_goes_deeper_than_stated() {
    let mut stack = Stack::new();
    for state in states(&mut stack) {
        stack.all_on(&state);
    }
    refused_starts_and_boards(&mut stack);
    rosters(&mut stack);
    writings(&mut stack);
    let stated = stated(&read("docs/INTEGRATION.md"));
    let declared = declared(&read("include/dispatch.h"));
    let measured = stack.deepest.len();
    assert_eq!(declared.len(), measured, "every function of the header");
    assert_eq!(declared.len(), stated.len(), "a row for every function");
    let mut deeper = Vec::new();
    for name in &declared {
        let depth = stack.deepest[name.as_str()];
        let figure = stated.get(name).copied().unwrap_or(0);
        println!("{name}: {depth} bytes of stack, stated {figure}");
        if depth > figure {
            deeper.push(name);
        }
    }
    assert!(
        deeper.is_empty(),
        "deeper than docs/INTEGRATION.md says: {deeper:?}"
    );
}

/// The figure of the program: the number before "bytes of stack" in the sentence about it.
fn stated_of_program(page: &str) -> usize {
    let from = page.split_once("The program itself takes at most ");
    let figure = from.and_then(|(_, rest)| rest.split_once(" bytes of stack"));
    let (figure, _) = figure.expect("docs/INTEGRATION.md states the program's stack");
    figure.replace(',', "").parse().expect("a number of bytes")
}

/// The least stack with which the program prints this in a folder, in whole KB.
fn least_stack(folder: &Path, wanted: &(String, bool)) -> usize {
    let (mut short, mut enough) = (0, 1 << 20);
    while enough - short > 1 << 10 {
        let middle = (short + enough) / 2;
        match printed_within(&proved(), folder, middle) == *wanted {
            true => enough = middle,
            false => short = middle,
        }
    }
    enough
}

/// The program with just the stated stack: on the largest roster and the most events, and on more events than it takes in at once, the
/// rest of which it reads too. With half of it the program fails, so that the limit is one.
#[test]
fn the_program_takes_no_more_stack_than_stated() {
    let figure = stated_of_program(&read("docs/INTEGRATION.md"));
    let folder = folder_for("stack");
    fs::write(folder.join("roster.bin"), busiest().bytes()).unwrap();
    for (name, events) in [("most", many_events()), ("more", vec![0; 3 << 16])] {
        fs::write(folder.join("events.bin"), &events).unwrap();
        let wanted = printed(&second(), &folder);
        let least = least_stack(&folder, &wanted);
        println!("the program, {name} events: {least} bytes of stack, stated {figure}");
        // where a stack begins varies by some 8 KB from run to run
        for _ in 0..30 {
            let found = printed_within(&proved(), &folder, figure);
            assert!(
                found == wanted,
                "{name} events with {figure} bytes of stack"
            );
        }
        assert!(
            least > figure / 2,
            "{least} bytes of stack, {figure} stated"
        );
    }
    fs::remove_dir_all(&folder).unwrap();
}
