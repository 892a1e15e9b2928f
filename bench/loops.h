/*
 * The loops that are timed, over the calls of one side. It is no header: each side includes it once, in a translation
 * unit of its own, so that both have the same loop around calls that are not inlined. Before, the side has defined its
 * calls as static functions, which add as little as they can:
 *
 *     call_new, call_create_cq, call_create_sq, call_delete_sq, call_delete_cq
 *     call_tail, call_head, call_start, call_finish, call_replay, call_look
 *     call_save, call_restore      the controller's state is kept, and put back
 */

/* What was heard; the tail of each busy queue, the tail of its completion queue, and the tag to finish next. */
static struct progress {
    uint64_t digest, unwanted, tail, posted, tag;
} at;

static inline uint64_t mixed(uint64_t digest, uint64_t x)
{
    return digest * 31 + x;
}

static inline void hear(uint64_t refusal)
{
    at.digest = mixed(at.digest, refusal);
    at.unwanted |= refusal;
}

/* An answer but for its start number, as one number. */
static inline uint64_t number_of_start(struct bellrafter_start s)
{
    return s.verdict << 48 | s.slot << 32 | s.second << 24 | s.first << 16 | s.count << 12 | s.sq << 8 | s.refusal;
}

static inline uint64_t number_of_finish(struct bellrafter_finish f)
{
    return f.slot << 8 | f.refusal;
}

/* Starts n times; after each start come so many finishes, of the tags up to the last one in turn. */
static void start_and_finish(uint64_t n, uint64_t finishes, uint64_t last_tag)
{
    uint64_t digest = at.digest, unwanted = at.unwanted, tag = at.tag;

    for (uint64_t i = 0; i < n; i++) {
        struct bellrafter_start s = call_start();
        digest = mixed(mixed(digest, number_of_start(s)), s.number);
        unwanted |= s.refusal | s.verdict;
        for (uint64_t k = 0; k < finishes; k++) {
            struct bellrafter_finish f = call_finish(tag, 0, (uint32_t)i);
            digest = mixed(mixed(digest, number_of_finish(f)), f.number);
            unwanted |= f.refusal;
            tag = last_tag <= tag ? 0 : tag + 1;
        }
    }
    at.digest = digest;
    at.unwanted = unwanted;
    at.tag = tag;
}

/* A single busy queue is queue 1, which is not Admin. */
static void submit(uint64_t busy, uint64_t n)
{
    at.tail = (at.tail + n) % SHORT;
    for (uint64_t i = 0; i < busy; i++)
        hear(call_tail((busy == 1) + i, at.tail));
}

static void release(uint64_t busy, uint64_t n)
{
    at.posted = (at.posted + n) % SHORT;
    for (uint64_t i = 0; i < busy; i++)
        hear(call_head((busy == 1) + i, at.posted));
}

/* Where a completion queue's head stands before doorbells are written: each queue at another place. */
static inline uint64_t first_head(uint64_t id)
{
    return STAGGER * id;
}

/* Where a submission queue's head and tail and a completion queue's tail stand then. */
static inline uint64_t first_tail(uint64_t id)
{
    return (STAGGER * id + LONG - 1) % LONG;
}

static inline uint64_t write_tail(uint64_t id, uint64_t step)
{
    return call_tail(id, (first_tail(id) + step) % LONG);
}

static inline uint64_t write_head(uint64_t id, uint64_t step)
{
    return call_head(id, (first_head(id) + step) % LONG);
}

static inline uint64_t write_held(uint64_t id, uint64_t step)
{
    (void)step;
    return call_head(id, first_head(id));
}

typedef uint64_t doorbell_write(uint64_t id, uint64_t step);

static doorbell_write *write_of(enum kind kind)
{
    return kind == TAILS ? write_tail : kind == HEADS ? write_head : write_held;
}

/* Leads each queue to its place, its submission ring empty and its completion ring full. */
static void stagger(void)
{
    for (uint64_t id = 1; id < QUEUES; id++)
        hear(call_tail(id, first_head(id)));
    start_and_finish(STAGGER * QUEUES * (QUEUES - 1) / 2, 1, 0);
    for (uint64_t id = 1; id < QUEUES; id++)
        hear(call_head(id, first_head(id)));
    for (uint64_t id = 0; id < QUEUES; id++)
        hear(call_tail(id, first_tail(id)));
    start_and_finish(QUEUES * (LONG - 1), 1, 0);
}

static struct heard heard(void)
{
    return (struct heard){at.digest, at.unwanted};
}

static void create(uint64_t id, uint64_t size)
{
    hear(call_create_cq(id, size, cq_base(size, id)));
    hear(call_create_sq(id, size, sq_base(size, id), id, id % 4));
}

static struct heard prepare(const struct plan *plan)
{
    uint64_t size = ring_size(plan);

    at = (struct progress){.digest = 1};
    hear(call_new(plan->mechanism, WORD));
    for (uint64_t id = 0; id < QUEUES; id++)
        create(id, size);
    if (size == LONG) {
        stagger();
    } else if (plan->outstanding > 0) {
        submit(1, plan->outstanding);
        start_and_finish(plan->outstanding, 0, 0);
    }
    call_save();
    return heard();
}

/* Makes the writes of a batch, each to answer `wanted`. Inlined, so that each kind has a loop of its own. */
static inline __attribute__((always_inline)) void writes(doorbell_write *write, uint64_t wanted)
{
    uint64_t digest = at.digest, unwanted = at.unwanted;

    call_restore();
    for (uint64_t step = 1; step < LONG; step++) {
        for (uint64_t id = 0; id < QUEUES; id++) {
            uint64_t refusal = write(id, step);
            digest = mixed(digest, refusal);
            unwanted |= refusal ^ wanted;
        }
    }
    at.digest = digest;
    at.unwanted = unwanted;
}

static void commands(const struct plan *plan)
{
    submit(plan->busy, SUBMITTED);
    if (plan->kind == PAIRS)
        start_and_finish(SUBMITTED * plan->busy / 2, 2, plan->outstanding + 1);
    else
        start_and_finish(SUBMITTED * plan->busy, 1, plan->outstanding);
    release(plan->busy, SUBMITTED);
}

static void replayed(void)
{
    struct bellrafter_replay r = call_replay();

    hear(r.refusal);
    at.digest = mixed(at.digest, r.records);
}

/* Queue 0 is never deleted. */
static void created_again(void)
{
    for (uint64_t id = 1; id < QUEUES; id++) {
        hear(call_delete_sq(id));
        hear(call_delete_cq(id));
        create(id, SHORT);
    }
}

static struct heard run(const struct plan *plan, uint64_t batches)
{
    for (uint64_t i = 0; i < batches; i++) {
        if (plan->kind == TAILS)
            writes(write_tail, BELLRAFTER_DONE);
        else if (plan->kind == HEADS)
            writes(write_head, BELLRAFTER_DONE);
        else if (plan->kind == HELD)
            writes(write_held, BELLRAFTER_DOORBELL);
        else if (plan->kind == REPLAYS)
            replayed();
        else if (plan->kind == DELETES)
            created_again();
        else
            commands(plan);
    }
    return heard();
}

static void look(struct seen *seen)
{
    for (uint64_t id = 0; id < QUEUES; id++)
        call_look(id, &seen->queues[id]);
}

static struct heard watch(const struct plan *plan)
{
    struct place place;

    call_restore();
    for (uint64_t step = 1; step < LONG; step++) {
        for (uint64_t id = 0; id < QUEUES; id++) {
            hear(write_of(plan->kind)(id, step));
            call_look(id, &place);
            at.digest = mixed(mixed(at.digest, place.sq_head), place.sq_tail);
            at.digest = mixed(mixed(mixed(at.digest, place.cq_head), place.cq_tail), place.phase);
        }
    }
    return heard();
}
