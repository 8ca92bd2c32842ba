/* A caller of every kind of function through the C header: a state and its events, a board, a roster's check and readers, a run,
 * and a roster written from its parts. */
#include <inttypes.h>
#include <stdio.h>
#include <string.h>

#include "dispatch.h"

/* The roster and the events of docs/FORMAT.md: two tasks, one protected object, eleven events. */
static const uint8_t roster[] = {
    DISPATCH_STEP_ENTER, 0, 0, 0, DISPATCH_STEP_WORK, 0, 0, 0, DISPATCH_STEP_LEAVE, 0, 0, 0,
    DISPATCH_STEP_DELAY, 0, 5, 0, DISPATCH_STEP_ENTER, 0, 0, 0, DISPATCH_STEP_LEAVE, 0, 0, 0,
    10, 0, 0, 0, 12, 0,
    20, 0, 12, 0, 12, 0,
    20, 0,
    DISPATCH_ROSTER_FIRST_MARK, DISPATCH_ROSTER_SECOND_MARK, 2, 1, 36, 0, 24, 0
};
static const uint8_t events[][DISPATCH_EVENT_SIZE] = {
    {DISPATCH_EVENT_STEP}, {DISPATCH_EVENT_STEP}, {DISPATCH_EVENT_CLOCK, 0, 5}, {DISPATCH_EVENT_STEP},
    {DISPATCH_EVENT_STEP}, {DISPATCH_EVENT_STEP}, {DISPATCH_EVENT_CLOCK, 0, 4}, {DISPATCH_EVENT_STEP},
    {DISPATCH_EVENT_STEP}, {DISPATCH_EVENT_STEP}, {DISPATCH_EVENT_STEP}
};
enum { EVENTS = sizeof events / DISPATCH_EVENT_SIZE };

/* What the roster is written from: a base and a number of steps for each task, a ceiling, and the steps of both tasks. */
static const uint8_t roster_bases[] = {10, 20}, roster_ceilings[] = {20};
static const uint16_t roster_lengths[] = {3, 3};
static const uint8_t roster_steps[][DISPATCH_ROSTER_STEP_SIZE] = {
    {DISPATCH_STEP_ENTER}, {DISPATCH_STEP_WORK}, {DISPATCH_STEP_LEAVE},
    {DISPATCH_STEP_DELAY, 0, 5}, {DISPATCH_STEP_ENTER}, {DISPATCH_STEP_LEAVE}
};

static void show(const char *event, uint8_t answer, const uint8_t *state)
{
    uint8_t running = dispatch_running(state, DISPATCH_STATE_SIZE);
    if (running == DISPATCH_NOBODY)
        printf("%s: %u, running nobody", event, answer);
    else
        printf("%s: %u, running %u", event, answer, running);
}

static void show_event(const char *event, uint8_t answer, const uint8_t *state, uint8_t report)
{
    show(event, answer, state);
    printf(", report %u\n", report);
}

static void show_fault(const char *call, uint64_t answer)
{
    printf("%s: %u, task %u, step %" PRIu64 "\n", call, DISPATCH_NUMBER(answer), DISPATCH_FAULT_TASK(answer),
           DISPATCH_FAULT_STEP(answer));
}

static void show_step(uint64_t step)
{
    uint64_t answer = dispatch_step(roster, sizeof roster, 1, step);
    printf("step %" PRIu64 " of task 1: code %u, a %u, b %u\n", step, DISPATCH_CODE(answer), DISPATCH_A(answer), DISPATCH_B(answer));
}

/* The marked cases A and B, a base that is none, one that preempts, and readings that go backwards, too far and as far as may be. */
static void state_and_board(void)
{
    static uint8_t state[DISPATCH_STATE_SIZE];
    static const uint8_t bases[] = {10, 20, 10}, none[] = {0};
    uint8_t answer = dispatch_fresh(bases, sizeof bases, none, 0, state, sizeof state);
    show("fresh 10 20 10", answer, state);
    printf("\n");
    uint8_t report;
    answer = dispatch_set(state, sizeof state, 1, 10, &report);
    show_event("set 1 to 10", answer, state, report);
    answer = dispatch_set(state, sizeof state, 1, 257, &report);
    show_event("set 1 to 257", answer, state, report);
    answer = dispatch_set(state, sizeof state, 1, 20, &report);
    show_event("set 1 to 20", answer, state, report);
    answer = dispatch_clock(state, sizeof state, 5, &report);
    show_event("clock 5", answer, state, report);
    answer = dispatch_clock(state, sizeof state, 4, &report);
    show_event("clock 4", answer, state, report);
    answer = dispatch_clock(state, sizeof state, 5 + DISPATCH_LONGEST_ADVANCE + 1, &report);
    show_event("clock 86400006", answer, state, report);
    answer = dispatch_clock(state, sizeof state, 5 + DISPATCH_LONGEST_ADVANCE, &report);
    show_event("clock 86400005", answer, state, report);
    answer = dispatch_finish(state, sizeof state, &report);
    show_event("finish", answer, state, report);

    uint8_t board[3][DISPATCH_ROW_SIZE];
    printf("fill: %u\n", dispatch_fill(state, sizeof state, board[0], sizeof board));
    for (int row = 0; row < 3; row++)
        printf("row %d: place %u, priority %u, position %u\n", row, board[row][DISPATCH_ROW_PLACE],
               board[row][DISPATCH_ROW_PRIORITY], board[row][DISPATCH_ROW_POSITION]);
    uint64_t next = dispatch_next(board[0], sizeof board);
    printf("next: %u, row %" PRIu64 "\n", DISPATCH_NUMBER(next), DISPATCH_VALUE(next));
}

static void show_run(const uint8_t *lent, size_t length)
{
    uint8_t replies[EVENTS][DISPATCH_REPLY_SIZE];
    show_fault("run", dispatch_run(lent, length, events[0], sizeof events, replies[0], sizeof replies));
    for (int i = 0; i < EVENTS; i++)
        printf("%s%u %u %u", i == 0 ? "replies: " : ", ", replies[i][DISPATCH_REPLY_ANSWER], replies[i][DISPATCH_REPLY_RUNNING],
               replies[i][DISPATCH_REPLY_REPORT]);
    printf("\n");
}

static void roster_and_run(void)
{
    uint8_t low[sizeof roster];
    memcpy(low, roster, sizeof low);
    low[36] = 19;
    show_fault("check", dispatch_check(roster, sizeof roster));
    show_fault("check with ceiling 19", dispatch_check(low, sizeof low));
    printf("task 1: base %" PRIu64 ", steps %" PRIu64 ", script from %" PRIu64 ", length %" PRIu64 "\n",
           DISPATCH_VALUE(dispatch_base(roster, sizeof roster, 1)), DISPATCH_VALUE(dispatch_step_count(roster, sizeof roster, 1)),
           dispatch_script_start(roster, sizeof roster, 1), dispatch_script_length(roster, sizeof roster, 1));
    printf("object 0: ceiling %" PRIu64 "\n", DISPATCH_VALUE(dispatch_ceiling(roster, sizeof roster, 0)));
    show_step(0);
    show_step(3);
    printf("base of task 2: %u\n", DISPATCH_NUMBER(dispatch_base(roster, sizeof roster, 2)));
    show_run(roster, sizeof roster);
}

/* Writes the roster with these lengths and steps, and says where it is refused. */
static void show_write(const char *call, const uint16_t *lengths, const uint8_t *steps, uint8_t *buffer, size_t room)
{
    show_fault(call, dispatch_write(roster_bases, sizeof roster_bases, roster_ceilings, sizeof roster_ceilings, lengths, 2, steps,
                                    sizeof roster_steps, buffer, room));
}

/* The roster from its parts, into more room than it takes; what was written is checked and run. Then three refusals. */
static void written_and_run(void)
{
    uint8_t buffer[60] = {0};
    show_write("write", roster_lengths, roster_steps[0], buffer, sizeof buffer);
    size_t length = dispatch_written(roster_bases, sizeof roster_bases, roster_ceilings, sizeof roster_ceilings, roster_lengths, 2,
                                     roster_steps[0], sizeof roster_steps, buffer, sizeof buffer);
    int same = length == sizeof roster && memcmp(buffer, roster, length) == 0;
    printf("written: %u bytes, %s\n", (unsigned)length, same ? "those of the roster" : "others");
    show_fault("check", dispatch_check(buffer, length));
    show_run(buffer, length);

    static const uint16_t short_lengths[] = {3, 2};
    uint8_t wrong[6][DISPATCH_ROSTER_STEP_SIZE];
    memcpy(wrong, roster_steps, sizeof wrong);
    wrong[4][1] = 1;
    show_write("write with lengths 3 and 2", short_lengths, roster_steps[0], buffer, sizeof buffer);
    show_write("write with an Enter of object 1", roster_lengths, wrong[0], buffer, sizeof buffer);
    show_fault("write into 45 bytes",
               dispatch_write_answer(roster_bases, sizeof roster_bases, roster_ceilings, sizeof roster_ceilings, roster_lengths, 2,
                                     roster_steps[0], sizeof roster_steps, 45));
}

int main(void)
{
    state_and_board();
    roster_and_run();
    written_and_run();
    return 0;
}
