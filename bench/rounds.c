/*
 * The loop of crates/rounds over the plain controller: the plan from standard input, the digest of all answers to
 * standard output.
 */
#include "controller.h"

#include <inttypes.h>
#include <stdio.h>
#include <string.h>

enum { QUEUES = 16, SIZE = 64, SUBMITTED = 62, WORD = 0x07030102 };

enum kind { IDLE, TAILS, COMMANDS, PAIRS, HELD };

struct plan {
    uint64_t kind;
    uint64_t mechanism;
    uint64_t busy;
    uint64_t outstanding;
    uint64_t batches;
};

struct run {
    struct controller controller;
    uint64_t digest;
    uint64_t tail;
    uint64_t posted;
    uint64_t tag;
};

static uint8_t memory[131072];

static uint64_t mixed(uint64_t digest, uint64_t x)
{
    return (digest * 31 + x) % 4294967296u;
}

static void mix(struct run *run, uint64_t x)
{
    run->digest = mixed(run->digest, x);
}

/* The entry in a slot: a read, or in turn the two halves of a pair. */
static void fill(uint64_t id, bool pairs)
{
    for (unsigned slot = 0; slot < SIZE; slot++) {
        uint8_t *e = memory + 4096 * id + 64 * slot;
        memset(e, 0, 64);
        e[0] = pairs ? (slot % 2 ? 0x01 : 0x05) : 0x02;
        e[1] = pairs ? 1 + slot % 2 : 0;
        e[2] = slot;
        e[4] = 1;
        e[25] = 16;
        e[40] = slot / 2;
        e[48] = 7;
    }
}

static void create_queues(struct run *run, uint64_t mechanism, bool pairs)
{
    controller_init(&run->controller, mechanism, WORD);
    for (uint64_t id = 0; id < QUEUES; id++) {
        fill(id, pairs);
        create_cq(&run->controller, sizeof memory, id, SIZE, 4096 * (QUEUES + id));
        create_sq(&run->controller, sizeof memory, id, SIZE, 4096 * id, id, id % 4);
    }
}

/*
 * Tail writes on a copy of a controller whose queues are new: each moves its tail on by one, and is accepted. Before them
 * goes a 1 into the digest, which then tells how many answers of 0 came.
 */
static void tails(struct run *run, uint64_t n)
{
    struct controller copy = run->controller;
    uint64_t digest = mixed(run->digest, 1);
    for (uint64_t i = 0; i < n; i++)
        digest = mixed(digest, tail_write(&copy, i % QUEUES, i / QUEUES + 1));
    run->digest = digest;
}

/* Head writes of the value that each new queue holds: each is refused. The digest as in tails. */
static void held(struct run *run, uint64_t n)
{
    uint64_t digest = mixed(run->digest, 1);
    for (uint64_t i = 0; i < n; i++)
        digest = mixed(digest, head_write(&run->controller, i % QUEUES, 0));
    run->digest = digest;
}

static void submit(struct run *run, uint64_t busy, uint64_t n)
{
    run->tail = (run->tail + n) % SIZE;
    for (uint64_t i = 0; i < busy; i++)
        mix(run, tail_write(&run->controller, (busy == 1) + i, run->tail));
}

static void release(struct run *run, uint64_t busy, uint64_t n)
{
    run->posted = (run->posted + n) % SIZE;
    for (uint64_t i = 0; i < busy; i++)
        mix(run, head_write(&run->controller, (busy == 1) + i, run->posted));
}

static void mix_started(struct run *run, unsigned refusal, const struct started *s)
{
    mix(run, refusal ? refusal : 65536u * s->verdict + 1024u * s->slot + 16u * s->first + s->second + s->sq);
}

static void start_and_finish(struct run *run, uint64_t n, uint64_t finishes, uint64_t last_tag)
{
    for (uint64_t i = 0; i < n; i++) {
        struct started s = {0};
        unsigned refusal = start(&run->controller, memory, sizeof memory, &s);
        mix_started(run, refusal, &s);
        for (uint64_t k = 0; k < finishes; k++) {
            struct finished f = {0};
            refusal = finish(&run->controller, memory, sizeof memory, run->tag, 0, i, &f);
            mix(run, refusal ? refusal : f.slot);
            run->tag = last_tag <= run->tag ? 0 : run->tag + 1;
        }
    }
}

static void idle(struct run *run, uint64_t n)
{
    for (uint64_t i = 0; i < n; i++) {
        mix(run, i);
        mix(run, i);
    }
}

static void batch(struct run *run, const struct plan *p)
{
    uint64_t n = SUBMITTED * p->busy;
    if (p->kind == IDLE) {
        idle(run, n);
        return;
    }
    if (p->kind == TAILS) {
        tails(run, n);
        return;
    }
    if (p->kind == HELD) {
        held(run, n);
        return;
    }
    submit(run, p->busy, SUBMITTED);
    if (p->kind == PAIRS)
        start_and_finish(run, n / 2, 2, p->outstanding + 1);
    else
        start_and_finish(run, n, 1, p->outstanding);
    release(run, p->busy, SUBMITTED);
}

int main(void)
{
    struct plan p;
    struct run run = {0};
    if (scanf("%" SCNu64 "%" SCNu64 "%" SCNu64 "%" SCNu64 "%" SCNu64, &p.kind, &p.mechanism, &p.busy, &p.outstanding,
              &p.batches) != 5)
        return 1;
    create_queues(&run, p.mechanism, p.kind == PAIRS);
    if (p.outstanding > 0) {
        submit(&run, 1, p.outstanding);
        start_and_finish(&run, p.outstanding, 0, 0);
    }
    for (uint64_t i = 0; i < p.batches; i++)
        batch(&run, &p);
    printf("%" PRIu64, run.digest);
    return 0;
}
