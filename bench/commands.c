/*
 * Times the controller's calls of bellrafter.h against a plain C controller, in one process: the same loop around both
 * (loops.h), over the same memory, in alternating runs that all begin with a fresh controller. No call is inlined.
 * Before a row is timed its batches are made on both sides: answers, memory and the queues' places must be equal, and
 * each call accepted, or refused in a row of refused ones. The same is asked of what the timed runs answer, but for the
 * answer records of a replay.
 *
 * The loop by itself is taken off both sides, unless a row says otherwise.
 */
#include <stdio.h>
#include <stdlib.h>
#include <string.h>

#include "bellrafter.h"
#include "controller.h"
#include "timing.h"
#include "workload.h"

#define COUNT_OF(array) (sizeof(array) / sizeof(array)[0])

/* A row of a table; `with_loop` is the name of a second row with the loop left in, or NULL. */
struct row {
    const char *what;
    const char *with_loop;
    struct plan plan;
};

uint8_t memory[MEMORY], trace[TRACE], answers[TRACE];

static const struct row controller_rows[] = {
    {"doorbell write (tail)", "doorbell write (tail), with the loop around it", {TAILS, 0, 16, 0}},
    {"doorbell write (head)", "doorbell write (head), with the loop around it", {HEADS, 0, 16, 0}},
    {"doorbell write (head held: refused)", "doorbell write (head held: refused), with the loop around it",
     {HELD, 0, 16, 0}},
    {"start and finish, mechanism 0, 1 busy queue of 16", NULL, {COMMANDS, 0, 1, 0}},
    {"start and finish, mechanism 0, 16 busy queues", NULL, {COMMANDS, 0, 16, 0}},
    {"start and finish, mechanism 0, fused pairs (a start and two finishes)", NULL, {PAIRS, 0, 1, 0}},
    {"start and finish, mechanism 0, 63 outstanding commands", NULL, {COMMANDS, 0, 1, 63}},
    {"start and finish, mechanism 1, 1 busy queue of 16", NULL, {COMMANDS, 1, 1, 0}},
    {"start and finish, mechanism 1, 16 busy queues", NULL, {COMMANDS, 1, 16, 0}},
    {"start and finish, mechanism 1, fused pairs (a start and two finishes)", NULL, {PAIRS, 1, 1, 0}},
    {"start and finish, mechanism 1, 63 outstanding commands", NULL, {COMMANDS, 1, 1, 63}},
    {"replay, for each record, mechanism 0, 1 busy queue of 16", NULL, {REPLAYS, 0, 1, 0}},
    {"replay, for each record, mechanism 0, 16 busy queues", NULL, {REPLAYS, 0, 16, 0}},
    {"delete and create an SQ and a CQ (four calls), 32 queues", NULL, {DELETES, 0, 16, 0}},
};

static const struct row growth_rows[] = {
    {"0 outstanding commands", NULL, {COMMANDS, 0, 1, 0}},   {"15 outstanding commands", NULL, {COMMANDS, 0, 1, 15}},
    {"31 outstanding commands", NULL, {COMMANDS, 0, 1, 31}}, {"47 outstanding commands", NULL, {COMMANDS, 0, 1, 47}},
    {"63 outstanding commands", NULL, {COMMANDS, 0, 1, 63}},
};

/* How many batches are compared before a row is timed; after 64 all rings stand with the same phase tags again. */
static const uint64_t compared[] = {0, 1, 2, 3, 70};

/* What a side leaves. */
static struct left {
    struct heard heard;
    struct seen seen;
    uint8_t memory[MEMORY], answers[TRACE];
} left[2];

static void failed(const struct row *row, const char *why, uint64_t batches)
{
    printf("FAILED %s: %s (batches: %u)\n", row->what, why, (unsigned)batches);
    exit(1);
}

/* The calls that a batch is counted as. */
static double calls_of(const struct plan *plan)
{
    switch (plan->kind) {
    case TAILS:
    case HEADS:
    case HELD:
        return QUEUES * (LONG - 1);
    case PAIRS:
        return SUBMITTED / 2 * (double)plan->busy;
    case REPLAYS:
        return TRACE / RECORD;
    case DELETES:
        return QUEUES - 1;
    default:
        return SUBMITTED * (double)plan->busy;
    }
}

/* The entry in each slot: a read, or in turn the two halves of a pair. Its CID is its slot. */
static void fill(const struct plan *plan)
{
    uint64_t size = ring_size(plan);
    uint8_t pairs = plan->kind == PAIRS;

    memset(memory, 0, sizeof memory);
    for (uint64_t id = 0; id < QUEUES; id++) {
        for (uint64_t slot = 0; slot < size; slot++) {
            uint8_t *e = memory + sq_base(size, id) + 64 * slot;
            e[0] = pairs ? (slot % 2 ? 0x01 : 0x05) : 0x02;
            e[1] = pairs ? (uint8_t)(1 + slot % 2) : 0;
            e[2] = (uint8_t)slot;
            e[3] = (uint8_t)(slot >> 8);
            e[4] = 1;
            e[25] = 16;
            e[40] = (uint8_t)(slot / 2);
            e[48] = 7;
        }
    }
}

/* Each round submits the next slot of a queue and releases what is posted for it; tag 0 is free again each time. */
static void fill_trace(const struct plan *plan)
{
    memset(trace, 0, sizeof trace);
    memset(answers, 0xFF, sizeof answers);
    for (uint64_t round = 0; round < TRACE / ROUND; round++) {
        uint8_t *r = trace + ROUND * round;
        uint8_t id = (uint8_t)((plan->busy == 1) + round % plan->busy);
        uint8_t next = (uint8_t)((round / plan->busy + 1) % SHORT);
        memcpy(r, (uint8_t[]){BELLRAFTER_CALL_TAIL_WRITE, id, next}, 3);
        r[RECORD] = BELLRAFTER_CALL_START;
        r[2 * RECORD] = BELLRAFTER_CALL_FINISH;
        memcpy(r + 3 * RECORD, (uint8_t[]){BELLRAFTER_CALL_HEAD_WRITE, id, next}, 3);
    }
}

/* Whether an answer record has a refusal; those that no replay wrote do. */
static bool record_refused(const uint8_t *records)
{
    for (size_t at = 0; at < TRACE; at += RECORD) {
        if (records[at + 1] != 0)
            return true;
    }
    return false;
}

static struct heard prepare(const struct row *row, const struct side *side)
{
    fill(&row->plan);
    fill_trace(&row->plan);
    return side->prepare(&row->plan);
}

/* Makes the batches on both sides; ends the program if they differ, or if a call is not answered as wanted. */
static void compare(const struct row *row)
{
    const struct side *sides[2] = {&side_ours, &side_plain};

    if (ring_size(&row->plan) == LONG) {
        for (int k = 0; k < 2; k++) {
            prepare(row, sides[k]);
            left[k].heard = sides[k]->watch(&row->plan);
        }
        if (left[0].heard.digest != left[1].heard.digest)
            failed(row, "a write leads to different places", 1);
    }
    for (size_t i = 0; i < COUNT_OF(compared); i++) {
        for (int k = 0; k < 2; k++) {
            left[k].heard = prepare(row, sides[k]);
            if (compared[i] > 0)
                left[k].heard = sides[k]->run(&row->plan, compared[i]);
            sides[k]->look(&left[k].seen);
            memcpy(left[k].memory, memory, sizeof memory);
            memcpy(left[k].answers, answers, sizeof answers);
        }
        if (left[0].heard.unwanted != 0 || left[1].heard.unwanted != 0)
            failed(row, "a call has another refusal number", compared[i]);
        if (left[0].heard.digest != left[1].heard.digest)
            failed(row, "the answers differ", compared[i]);
        if (memcmp(left[0].answers, left[1].answers, sizeof answers) != 0)
            failed(row, "the answer records differ", compared[i]);
        if (row->plan.kind == REPLAYS && compared[i] > 0 && record_refused(answers))
            failed(row, "a record is refused", compared[i]);
        if (memcmp(left[0].memory, left[1].memory, sizeof memory) != 0)
            failed(row, "the memory differs", compared[i]);
        if (memcmp(&left[0].seen, &left[1].seen, sizeof left[0].seen) != 0)
            failed(row, "the queues stand at different places", compared[i]);
    }
}

/* One run, after preparations that are not timed. What a side answers is noted. */
static struct heard answered[2];

static double run_ns(const void *of_row, const void *of_side, uint64_t batches)
{
    const struct row *row = of_row;
    const struct side *side = of_side;
    struct heard heard;
    double from, to;

    prepare(row, side);
    from = spent_ns();
    heard = side->run(&row->plan, batches);
    to = spent_ns();
    if (side == &side_none)
        return to - from;
    if (heard.unwanted != 0)
        failed(row, "a call has another refusal number", batches);
    answered[side == &side_plain] = heard;
    return to - from;
}

static void measure(const struct row *row)
{
    struct times times;
    double calls = calls_of(&row->plan), loop;

    time_both(&times, run_ns, row, &side_ours, &side_plain);
    if (answered[0].digest != answered[1].digest)
        failed(row, "the answers differ", times.count);
    loop = median_of_runs(run_ns, row, &side_none, times.count) / ((double)times.count * calls);
    print_row(row->what, &times, calls, loop);
    if (row->with_loop)
        print_row(row->with_loop, &times, calls, 0);
}

static void print_table(const char *what, const struct row *rows, size_t count, const char *text)
{
    print_heading(what);
    for (size_t i = 0; i < count; i++) {
        if (text && strstr(rows[i].what, text) == NULL)
            continue;
        compare(&rows[i]);
        measure(&rows[i]);
    }
    printf("\n");
}

/* commands [TEXT]: the rows whose name contains TEXT. */
int main(int argc, char **argv)
{
    const char *text = argc > 1 ? argv[1] : NULL;

    print_table("controller", controller_rows, COUNT_OF(controller_rows), text);
    print_table("start and finish with more commands outstanding", growth_rows, COUNT_OF(growth_rows), text);
    printf("bytes of a controller (sizeof)\n");
    printf("  ours, uint64_t[BELLRAFTER_STATE_WORDS]  %zu\n", sizeof(uint64_t[BELLRAFTER_STATE_WORDS]));
    printf("  C, struct controller                    %zu\n", sizeof(struct controller));
    return 0;
}
