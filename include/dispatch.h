/* The dispatcher's functions for C99, C11 and C++, from libexports.a (rt lib in crates/exports).
 *
 * Every function answers for any bytes of any length, and touches nothing but what is said here. A slice is passed as its
 * address and its length; an address may be anything that is not null where the length is 0. Slices that are lent for
 * writing overlap no other slice of the same call. No address has to be aligned but that of the lengths of scripts, as a uint16_t
 * is. docs/INTEGRATION.md has the stack that each call takes, docs/FORMAT.md the bytes of rosters and events, docs/LAYOUT.md those
 * of states and boards. */
#ifndef DISPATCH_H
#define DISPATCH_H

#include <stddef.h>
#include <stdint.h>

#if !defined(__x86_64__) || defined(_WIN32)
#error "libexports.a is built for x86-64 Linux only"
#endif

/* The answers, as README.md's table has them. A function that answers with a number alone gives one of these in a uint8_t. */
enum dispatch_answer {
    DISPATCH_DONE = 0,
    DISPATCH_NO_SUCH_TASK = 1,
    DISPATCH_NO_SUCH_OBJECT = 2,
    DISPATCH_BAD_PRIORITY = 3,
    DISPATCH_BAD_READING = 4,
    DISPATCH_NOBODY_RUNS = 5,
    DISPATCH_ENDED_TASK = 6,
    DISPATCH_INSIDE_ACTION = 7,
    DISPATCH_ABOVE_CEILING = 8,
    DISPATCH_NOT_INNERMOST = 9,
    DISPATCH_UNSOUND = 10,
    DISPATCH_BAD_LENGTH = 11,
    DISPATCH_BAD_MARK = 12,
    DISPATCH_BAD_COUNTS = 13,
    DISPATCH_BAD_LAYOUT = 14,
    DISPATCH_BAD_VALUES = 15,
    DISPATCH_BAD_STEP = 16,
    DISPATCH_WHILE_HELD = 17,
    DISPATCH_LOW_CEILING = 18,
    DISPATCH_SCRIPT_NOT_INNERMOST = 19,
    DISPATCH_OTHER_TASK = 20,
    DISPATCH_BAD_EVENTS = 21,
    DISPATCH_SHORT_BUFFER = 22
};

/* Why the processor changed hands at an event: it did not; another task runs and the dispatch sent the old one to the head of its
 * queue; any other change, from or to nobody too. */
enum dispatch_report {
    DISPATCH_UNCHANGED = 0,
    DISPATCH_PREEMPTED = 1,
    DISPATCH_CHANGED = 2
};

/* Limits: the most tasks, which are the most rows of a board too, the most objects, and the bytes of a roster. Every size below is
 * reckoned from them. Priorities 1 to 30 are Ada's Priority, 31 and 32 its Interrupt_Priority. */
#define DISPATCH_TASK_LIMIT 64
#define DISPATCH_OBJECT_LIMIT 32
#define DISPATCH_ROSTER_SMALLEST 14
#define DISPATCH_ROSTER_LARGEST 60000
#define DISPATCH_FIRST_PRIORITY 1
#define DISPATCH_LAST_PRIORITY 32
#define DISPATCH_DEFAULT_PRIORITY 15
#define DISPATCH_LAST_READING UINT64_C(281474976710655)
#define DISPATCH_LONGEST_ADVANCE UINT64_C(86400000)
#define DISPATCH_LAST_TICKS 65535

/* The running task where nobody runs, and the row where nobody is next. */
#define DISPATCH_NOBODY 255

/* A state as bytes. Any bytes are a state, though few are sound.
 * The size of a task's row, of a held list and of a ready queue; the latter two begin with their length. Priority p is queue p - 1. */
#define DISPATCH_TASK_SIZE 16
#define DISPATCH_HELD_SIZE (1 + DISPATCH_OBJECT_LIMIT)
#define DISPATCH_READY_SIZE (1 + DISPATCH_TASK_LIMIT)
/* Where its parts begin: now has 8 bytes, the runner and the two counts one each, the marks 4, a ceiling one. The marks are one
 * number with a bit for each ready queue that is not empty, bit p - 1 for priority p; a state with any other number is not sound. */
#define DISPATCH_AT_NOW 0
#define DISPATCH_AT_RUNNING 8
#define DISPATCH_AT_TASK_COUNT 9
#define DISPATCH_AT_OBJECT_COUNT 10
#define DISPATCH_AT_MARKS 12
#define DISPATCH_AT_TASKS (DISPATCH_AT_MARKS + DISPATCH_LAST_PRIORITY / 8)
#define DISPATCH_AT_CEILINGS (DISPATCH_AT_TASKS + DISPATCH_TASK_LIMIT * DISPATCH_TASK_SIZE)
#define DISPATCH_AT_HELD (DISPATCH_AT_CEILINGS + DISPATCH_OBJECT_LIMIT)
#define DISPATCH_AT_READY (DISPATCH_AT_HELD + DISPATCH_TASK_LIMIT * DISPATCH_HELD_SIZE)
#define DISPATCH_STATE_SIZE (DISPATCH_AT_READY + DISPATCH_LAST_PRIORITY * DISPATCH_READY_SIZE)
/* In a task's row: the due time (8 bytes), the place, the base, whether a base waits, that base, and the permit. */
#define DISPATCH_TASK_DUE 0
#define DISPATCH_TASK_PLACE 8
#define DISPATCH_TASK_BASE 9
#define DISPATCH_TASK_WAITS 10
#define DISPATCH_TASK_WAITING_BASE 11
#define DISPATCH_TASK_PERMIT 12

/* Places, in a task's row and in a row of a board. */
enum dispatch_place {
    DISPATCH_RUNNING = 0,
    DISPATCH_READY = 1,
    DISPATCH_DELAYED = 2,
    DISPATCH_SUSPENDED = 3,
    DISPATCH_ENDED = 4
};

/* A row of a board, and where it has its place, active priority and position. */
#define DISPATCH_ROW_SIZE 3
#define DISPATCH_ROW_PLACE 0
#define DISPATCH_ROW_PRIORITY 1
#define DISPATCH_ROW_POSITION 2

/* A roster: scripts, task table, object table and trailer. */
#define DISPATCH_ROSTER_FIRST_MARK 0x52
#define DISPATCH_ROSTER_SECOND_MARK 0x35
#define DISPATCH_ROSTER_TRAILER_SIZE 8
#define DISPATCH_ROSTER_TASK_SIZE 6
#define DISPATCH_ROSTER_OBJECT_SIZE 2
#define DISPATCH_ROSTER_STEP_SIZE 4

/* The codes of steps. No step of a script has the code 0; dispatch_step says it of the script's end. */
enum dispatch_step_code {
    DISPATCH_STEP_FINISH = 0,
    DISPATCH_STEP_ENTER = 1,
    DISPATCH_STEP_LEAVE = 2,
    DISPATCH_STEP_DELAY = 3,
    DISPATCH_STEP_WORK = 4,
    DISPATCH_STEP_SUSPEND = 5,
    DISPATCH_STEP_RELEASE = 6,
    DISPATCH_STEP_SET = 7,
    DISPATCH_STEP_AGAIN = 8
};

/* The events of a run, and its reply to each: where that has the answer, the running task and the report. */
#define DISPATCH_EVENT_SIZE 8
#define DISPATCH_EVENTS_LARGEST 32768
#define DISPATCH_REPLY_SIZE 3
#define DISPATCH_REPLY_ANSWER 0
#define DISPATCH_REPLY_RUNNING 1
#define DISPATCH_REPLY_REPORT 2
enum dispatch_event_kind {
    DISPATCH_EVENT_CLOCK = 1,
    DISPATCH_EVENT_RELEASE = 2,
    DISPATCH_EVENT_STEP = 3,
    DISPATCH_EVENT_SET = 4
};

/* Refused by the compiler where a size is not what the library was built with. */
typedef char dispatch_size_t_has_64_bits[sizeof(size_t) == 8 && sizeof(void *) == 8 ? 1 : -1];
typedef char dispatch_state_has_5264_bytes[DISPATCH_STATE_SIZE == 5264 ? 1 : -1];

/* The parts of a uint64_t that a function answers. The number is always the lowest byte. Then: the task and step of a roster's
 * fault, 0 and 0 unless the number is 16 to 20; or one value; or the four bytes of a step. */
#define DISPATCH_NUMBER(answer) ((uint8_t)((answer) & 0xFF))
#define DISPATCH_FAULT_TASK(answer) ((uint8_t)((answer) >> 8 & 0xFF))
#define DISPATCH_FAULT_STEP(answer) ((uint64_t)((answer) >> 16))
#define DISPATCH_VALUE(answer) ((uint64_t)((answer) >> 8))
#define DISPATCH_CODE(answer) ((uint8_t)((answer) >> 8 & 0xFF))
#define DISPATCH_A(answer) ((uint8_t)((answer) >> 16 & 0xFF))
#define DISPATCH_B(answer) ((uint16_t)((answer) >> 24 & 0xFFFF))

/* A constant number of ticks. A Delay has 16 bits, and a larger number has no answer of its own: C would cut it to its lowest
 * 16 bits. So a constant outside 0 to 65535 in this macro is refused by the compiler, as is what is no constant. */
#ifdef __cplusplus
extern "C++" {
template <bool fits> struct dispatch_ticks_fit_16_bits;
template <> struct dispatch_ticks_fit_16_bits<true> {
    enum { more = 0 };
};
}
#define DISPATCH_TICKS(n) ((uint16_t)((n) + dispatch_ticks_fit_16_bits<((uint64_t)(n) <= DISPATCH_LAST_TICKS)>::more))
#else
#define DISPATCH_TICKS(n) \
    ((uint16_t)((n) + 0 * sizeof(struct { int ticks_fit_16_bits : (uint64_t)(n) <= DISPATCH_LAST_TICKS ? 1 : -1; })))
#endif

#ifdef __cplusplus
extern "C" {
#endif

/* Rosters. The form answers 0 or 11 to 16, the check 0 or 11 to 20: number, fault task and fault step. */
uint64_t dispatch_form(const uint8_t *roster, size_t length);
uint64_t dispatch_check(const uint8_t *roster, size_t length);

/* A task's script is a part of the roster, in bytes; on a refusal (11 to 16, then 1) it starts at 0 and is empty. */
uint8_t dispatch_script_number(const uint8_t *roster, size_t length, uint64_t task);
uint64_t dispatch_script_start(const uint8_t *roster, size_t length, uint64_t task);
uint64_t dispatch_script_length(const uint8_t *roster, size_t length, uint64_t task);

/* What a roster says: number and value. A refusal is 11 to 16, then 1 for no such task or 2 for no such object, with value 0. */
uint64_t dispatch_base(const uint8_t *roster, size_t length, uint64_t task);
uint64_t dispatch_ceiling(const uint8_t *roster, size_t length, uint64_t object);
uint64_t dispatch_step_count(const uint8_t *roster, size_t length, uint64_t task);
/* A step: number, code, a and b. At and past the script's end it is Finish: code 0, a 0, b 0. */
uint64_t dispatch_step(const uint8_t *roster, size_t length, uint64_t task, uint64_t step);

/* A run: three bytes per event, answer, running task or 255, and report. A refused run (11 to 22) writes nothing; bytes past the
 * last reply stay. Number, fault task and fault step. */
uint64_t dispatch_run(const uint8_t *roster, size_t length, const uint8_t *events, size_t events_length, uint8_t *buffer,
                      size_t buffer_length);

/* Writes a roster from its parts at the front of the buffer: a base for each task, a ceiling for each object, how many steps each
 * script has, and the steps, 4 bytes each, all scripts one after the other in task order. Bytes past the file stay. Refused with 13;
 * 14 for lengths that are not one per base or do not add up to the steps; 15; 16; then 11 for a file over DISPATCH_ROSTER_LARGEST;
 * then 22 for a buffer that is shorter than the file: nothing is written then. 17 to 20 are left to dispatch_check. Number, fault
 * task and fault step. */
uint64_t dispatch_write(const uint8_t *bases, size_t tasks, const uint8_t *ceilings, size_t objects, const uint16_t *lengths,
                        size_t lengths_count, const uint8_t *steps, size_t steps_length, uint8_t *buffer, size_t buffer_length);
/* What dispatch_write answers with a buffer of so many bytes. */
uint64_t dispatch_write_answer(const uint8_t *bases, size_t tasks, const uint8_t *ceilings, size_t objects, const uint16_t *lengths,
                               size_t lengths_count, const uint8_t *steps, size_t steps_length, uint64_t room);
/* Writes as dispatch_write does, and gives how many bytes the file at the front of the buffer has; 0 on a refusal, whose number
 * dispatch_write_answer tells. */
uint64_t dispatch_written(const uint8_t *bases, size_t tasks, const uint8_t *ceilings, size_t objects, const uint16_t *lengths,
                          size_t lengths_count, const uint8_t *steps, size_t steps_length, uint8_t *buffer, size_t buffer_length);

/* The fresh start: 0, 13 or 15, and the state beside it; 10 for a state of fewer bytes, of which none is then written. */
uint8_t dispatch_fresh(const uint8_t *bases, size_t tasks, const uint8_t *ceilings, size_t objects, uint8_t *state,
                       size_t length);

/* The events. With 0 the state's bytes are those after the event; with any other answer none has changed. *report is written each
 * time, one of enum dispatch_report, and with any answer but 0 it is DISPATCH_UNCHANGED; report must not be null, nor point into the
 * state. Tasks, objects, readings and priorities are any numbers of 64 bits: one out of range is answered 1, 2, 4 or 3, by the table
 * of answers. */
uint8_t dispatch_enter(uint8_t *state, size_t length, uint64_t object, uint8_t *report);
uint8_t dispatch_leave(uint8_t *state, size_t length, uint64_t object, uint8_t *report);
/* Ticks have 16 bits, and no answer says that there were more: write a constant as DISPATCH_TICKS(n). Without it gcc warns of a
 * constant (-Woverflow, which is on), and of a variable with -Wconversion. */
uint8_t dispatch_delay(uint8_t *state, size_t length, uint16_t ticks, uint8_t *report);
uint8_t dispatch_suspend(uint8_t *state, size_t length, uint8_t *report);
uint8_t dispatch_release(uint8_t *state, size_t length, uint64_t task, uint8_t *report);
/* 4 is a reading below now, more than DISPATCH_LONGEST_ADVANCE past it, or above DISPATCH_LAST_READING. A fresh start's now is 0. */
uint8_t dispatch_clock(uint8_t *state, size_t length, uint64_t reading, uint8_t *report);
/* A ready or running task goes to the tail of its queue whatever the value; inside an action the base waits. */
uint8_t dispatch_set(uint8_t *state, size_t length, uint64_t task, uint64_t priority, uint8_t *report);
uint8_t dispatch_work(uint8_t *state, size_t length, uint8_t *report);
uint8_t dispatch_finish(uint8_t *state, size_t length, uint8_t *report);

/* 0, or 10 for a state that is not sound. */
uint8_t dispatch_sound(const uint8_t *state, size_t length);
/* The running task, or 255 for nobody, for too few bytes or a number out of range in them, and where they name no task of theirs. */
uint8_t dispatch_running(const uint8_t *state, size_t length);

/* Fills the first rows, one per task, and no others: 0; or 10, then 13 for too few rows, and nothing is written. */
uint8_t dispatch_fill(const uint8_t *state, size_t length, uint8_t *board, size_t board_length);
/* The next row of a board: number and row, the row being 255 for nobody and beside 13, for more than DISPATCH_TASK_LIMIT rows, and 3. */
uint64_t dispatch_next(const uint8_t *board, size_t board_length);

#ifdef __cplusplus
}
#endif

#endif
