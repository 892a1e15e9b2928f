/* The loops around no call at all: what they take by themselves. */
#include "bellrafter.h"
#include "workload.h"

/* 0, of which the compiler does not know that it is 0 or that it does not depend on the arguments. */
static inline uint64_t nothing(uint64_t a, uint64_t b)
{
    uint64_t answer = 0;

    __asm__ volatile("" : "+r"(answer) : "r"(a), "r"(b));
    return answer;
}

static inline uint64_t call_new(uint64_t mechanism, uint32_t word)
{
    return nothing(mechanism, word);
}

static inline uint64_t call_create_cq(uint64_t id, uint64_t size, uint64_t base)
{
    return nothing(id, size + base);
}

static inline uint64_t call_create_sq(uint64_t id, uint64_t size, uint64_t base, uint64_t cq, uint64_t class)
{
    return nothing(id, size + base + cq + class);
}

static inline uint64_t call_delete_sq(uint64_t id)
{
    return nothing(id, 0);
}

static inline uint64_t call_delete_cq(uint64_t id)
{
    return nothing(id, 0);
}

static inline uint64_t call_tail(uint64_t id, uint64_t value)
{
    return nothing(id, value);
}

static inline uint64_t call_head(uint64_t id, uint64_t value)
{
    return nothing(id, value);
}

static inline struct bellrafter_start call_start(void)
{
    return (struct bellrafter_start){nothing(0, 0), nothing(0, 0), nothing(0, 0), nothing(0, 0),
                                     nothing(0, 0), nothing(0, 0), nothing(0, 0), nothing(0, 0)};
}

static inline struct bellrafter_finish call_finish(uint64_t tag, uint64_t status, uint32_t result)
{
    return (struct bellrafter_finish){nothing(tag, status), nothing(result, 0), nothing(0, 0)};
}

static inline struct bellrafter_replay call_replay(void)
{
    return (struct bellrafter_replay){nothing(0, 0), nothing(0, 0)};
}

static inline void call_look(uint64_t id, struct place *place)
{
    *place = (struct place){nothing(id, 0), 0, 0, 0, 0};
}

static inline void call_save(void)
{
}

static inline void call_restore(void)
{
}

#include "loops.h"

const struct side side_none = {prepare, run, watch, look};
