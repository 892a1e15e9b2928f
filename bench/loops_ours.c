/* The loops over the exports of bellrafter.h. */
#include "bellrafter.h"
#include "workload.h"

#include <string.h>

static uint64_t state[BELLRAFTER_STATE_WORDS];
static uint64_t saved[BELLRAFTER_STATE_WORDS];

static inline uint64_t call_new(uint64_t mechanism, uint32_t word)
{
    return bellrafter_controller_new(state, mechanism, word);
}

static inline uint64_t call_create_cq(uint64_t id, uint64_t size, uint64_t base)
{
    return bellrafter_create_cq(state, memory, sizeof memory, id, size, base);
}

static inline uint64_t call_create_sq(uint64_t id, uint64_t size, uint64_t base, uint64_t cq, uint64_t class)
{
    return bellrafter_create_sq(state, memory, sizeof memory, id, size, base, cq, class);
}

static inline uint64_t call_delete_sq(uint64_t id)
{
    return bellrafter_delete_sq(state, id);
}

static inline uint64_t call_delete_cq(uint64_t id)
{
    return bellrafter_delete_cq(state, id);
}

static inline uint64_t call_tail(uint64_t id, uint64_t value)
{
    return bellrafter_tail_write(state, id, value);
}

static inline uint64_t call_head(uint64_t id, uint64_t value)
{
    return bellrafter_head_write(state, id, value);
}

static inline struct bellrafter_start call_start(void)
{
    return bellrafter_start(state, memory, sizeof memory);
}

static inline struct bellrafter_finish call_finish(uint64_t tag, uint64_t status, uint32_t result)
{
    return bellrafter_finish(state, memory, sizeof memory, tag, status, result);
}

static inline struct bellrafter_replay call_replay(void)
{
    return bellrafter_replay(state, memory, sizeof memory, trace, sizeof trace, answers, sizeof answers);
}

static inline void call_look(uint64_t id, struct place *place)
{
    struct bellrafter_sq sq = bellrafter_look_sq(state, id);
    struct bellrafter_cq cq = bellrafter_look_cq(state, id);

    place->sq_head = sq.head;
    place->sq_tail = sq.tail;
    place->cq_head = cq.head;
    place->cq_tail = cq.tail;
    place->phase = cq.phase;
}

static inline void call_save(void)
{
    memcpy(saved, state, sizeof saved);
}

static inline void call_restore(void)
{
    memcpy(state, saved, sizeof state);
}

#include "loops.h"

const struct side side_ours = {prepare, run, watch, look};
