/* What the sides of the controller's benchmark share: what is timed, and the memory that the rings lie in. */
#ifndef BENCH_WORKLOAD_H
#define BENCH_WORKLOAD_H

#include <stdint.h>

/*
 * SHORT and LONG: entries of a ring, where commands and where doorbell writes are timed. SUBMITTED: the commands that a
 * batch submits to each busy queue. STAGGER: how far a queue stands behind the next one before doorbells are written.
 * WORD: a burst of 4, and the weights 2, 4 and 8. MEMORY: room for 16 long rings of either kind. TRACE: the bytes of a
 * trace; a round of its records is a tail write, a start, a finish and a head write.
 */
enum {
    QUEUES = 16,
    SHORT = 64,
    LONG = 1024,
    SUBMITTED = 62,
    STAGGER = 64,
    WORD = 0x07030102,
    MEMORY = QUEUES * LONG * (64 + 16),
    RECORD = 16,
    ROUND = 4 * RECORD,
    TRACE = 1024 * ROUND
};

enum kind { TAILS, HEADS, HELD, COMMANDS, PAIRS, REPLAYS, DELETES };

/*
 * What is timed. TAILS and HEADS: a batch moves the tail of each queue, or the head of each completion queue, on by one
 * until it can go no further, all queues in turn; then the controller is put back to where it was. Each write is
 * accepted. HELD: as many writes of the head that each completion queue holds. Each is refused and changes nothing; a
 * tail that is held would mark its queue. COMMANDS and PAIRS: a batch submits to the busy queues, starts and finishes
 * all of it and releases the completions, while `outstanding` other commands stay outstanding: each finish takes the
 * oldest one. REPLAYS: a batch is one replay of a trace whose rounds go over the busy queues in turn, so often that
 * each queue ends at the slot where it began. DELETES: a batch deletes each submission queue but 0 and then its
 * completion queue, and creates both again as they were, before it goes on to the next.
 */
struct plan {
    enum kind kind;
    uint64_t mechanism;
    uint64_t busy;
    uint64_t outstanding;
};

/* What the calls have answered: a digest, and by "or" in which bits refusals and verdicts differ from the wanted ones:
   from BELLRAFTER_DOORBELL for the writes of HELD, from 0 else. */
struct heard {
    uint64_t digest;
    uint64_t unwanted;
};

/* Where the two queues of an id stand. */
struct place {
    uint64_t sq_head, sq_tail, cq_head, cq_tail, phase;
};

struct seen {
    struct place queues[QUEUES];
};

/* One side. It holds one controller. */
struct side {
    /* Makes the controller and its queues, over a memory that holds the entries, and leads them to where a batch can
       begin. */
    struct heard (*prepare)(const struct plan *plan);
    struct heard (*run)(const struct plan *plan, uint64_t batches);
    /* Makes a batch of TAILS, HEADS or HELD; the digest has also where each write led its queue. */
    struct heard (*watch)(const struct plan *plan);
    void (*look)(struct seen *seen);
};

/* The exports, plain C, and the loop that calls nothing. */
extern const struct side side_ours, side_plain, side_none;

extern uint8_t memory[MEMORY], trace[TRACE], answers[TRACE];

static inline uint64_t ring_size(const struct plan *plan)
{
    return plan->kind == TAILS || plan->kind == HEADS || plan->kind == HELD ? LONG : SHORT;
}

static inline uint64_t sq_base(uint64_t size, uint64_t id)
{
    return 64 * size * id;
}

static inline uint64_t cq_base(uint64_t size, uint64_t id)
{
    return 64 * size * QUEUES + (16 * size < 4096 ? 4096 : 16 * size) * id;
}

#endif
