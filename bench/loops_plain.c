/* The loops over the plain controller. Its answers are put into the structs of bellrafter.h, which are never stored. */
#include "bellrafter.h"
#include "controller.h"
#include "workload.h"

static struct controller controller;
static struct controller saved;

static inline uint64_t call_new(uint64_t mechanism, uint32_t word)
{
    return controller_init(&controller, mechanism, word);
}

static inline uint64_t call_create_cq(uint64_t id, uint64_t size, uint64_t base)
{
    return create_cq(&controller, sizeof memory, id, size, base);
}

static inline uint64_t call_create_sq(uint64_t id, uint64_t size, uint64_t base, uint64_t cq, uint64_t class)
{
    return create_sq(&controller, sizeof memory, id, size, base, cq, class);
}

static inline uint64_t call_delete_sq(uint64_t id)
{
    return delete_sq(&controller, id);
}

static inline uint64_t call_delete_cq(uint64_t id)
{
    return delete_cq(&controller, id);
}

static inline uint64_t call_tail(uint64_t id, uint64_t value)
{
    return tail_write(&controller, id, value);
}

static inline uint64_t call_head(uint64_t id, uint64_t value)
{
    return head_write(&controller, id, value);
}

static inline struct bellrafter_start call_start(void)
{
    struct started s = {0};
    unsigned refusal = start(&controller, memory, sizeof memory, &s);

    return (struct bellrafter_start){refusal, s.sq, s.count, s.first, s.second, s.slot, s.verdict, s.number};
}

static inline struct bellrafter_finish call_finish(uint64_t tag, uint64_t status, uint32_t result)
{
    struct finished f = {0};
    unsigned refusal = finish(&controller, memory, sizeof memory, tag, status, result, &f);

    return (struct bellrafter_finish){refusal, f.slot, f.number};
}

static inline struct bellrafter_replay call_replay(void)
{
    size_t records = 0;
    unsigned refusal =
        replay(&controller, memory, sizeof memory, trace, sizeof trace, answers, sizeof answers, &records);

    return (struct bellrafter_replay){refusal, records};
}

static inline void call_look(uint64_t id, struct place *place)
{
    place->sq_head = controller.sqs[id].ring.head;
    place->sq_tail = controller.sqs[id].ring.tail;
    place->cq_head = controller.cqs[id].ring.head;
    place->cq_tail = controller.cqs[id].ring.tail;
    place->phase = controller.cqs[id].phase;
}

static inline void call_save(void)
{
    saved = controller;
}

static inline void call_restore(void)
{
    controller = saved;
}

#include "loops.h"

const struct side side_plain = {prepare, run, watch, look};
