#include "controller.h"

#include <string.h>

#include "reference.h"

/* Creating. */

/* "bits 15:8, 23:16 and 31:24 are low, medium and high weights less one" */
static uint64_t weight(uint32_t word, int level)
{
    return (word >> (level == LOW ? 8 : level == MEDIUM ? 16 : 24) & 0xFF) + 1;
}

/* Credits are set to the weights: at first, and at a refill. */
static void refill(struct ref_controller *c)
{
    for (int level = HIGH; level <= LOW; level++)
        c->groups[level].credit = weight(c->word, level);
}

uint64_t ref_controller_new(struct ref_controller *c, uint64_t mechanism, uint32_t word)
{
    bool refused = mechanism > 1;

    memset(c, 0, sizeof *c);
    c->mechanism = refused ? 0 : mechanism;
    c->word = refused ? 0 : word;
    for (int i = 0; i < GROUPS; i++)
        c->groups[i].holder = 15;
    refill(c);
    return refused ? BELLRAFTER_MECHANISM : BELLRAFTER_DONE;
}

/* Whether `bytes` bytes at `base` do not lie wholly in the memory given. */
static bool outside(uint64_t base, uint64_t bytes, size_t memory_bytes)
{
    return bytes > memory_bytes || base > memory_bytes - bytes;
}

/* Whether two stretches share a byte. Rings lie in some memory, so that their ends are no sums that wrap. */
static bool share(uint64_t base, uint64_t bytes, uint64_t other_base, uint64_t other_bytes)
{
    return base < other_base + other_bytes && other_base < base + bytes;
}

static bool shared(const struct ref_controller *c, uint64_t base, uint64_t bytes)
{
    for (int i = 0; i < 16; i++) {
        if (c->sqs[i].exists && share(base, bytes, c->sqs[i].base, 64 * c->sqs[i].size))
            return true;
        if (c->cqs[i].exists && share(base, bytes, c->cqs[i].base, 16 * c->cqs[i].size))
            return true;
    }
    return false;
}

/* The refusals 3, 4, 5 and 6 of a new ring. */
static uint64_t ring_refusal(const struct ref_controller *c, size_t memory_bytes, uint64_t entry_bytes, uint64_t size,
                             uint64_t base)
{
    if (size < 2 || size > 1024)
        return BELLRAFTER_RING_SIZE;
    if (base % 4096 != 0)
        return BELLRAFTER_RING_BASE;
    if (outside(base, entry_bytes * size, memory_bytes))
        return BELLRAFTER_RING_MEMORY;
    if (shared(c, base, entry_bytes * size))
        return BELLRAFTER_RING_SHARED;
    return BELLRAFTER_DONE;
}

uint64_t ref_create_cq(struct ref_controller *c, size_t memory_bytes, uint64_t id, uint64_t size, uint64_t base)
{
    if (id > 15)
        return BELLRAFTER_QUEUE_ID;
    if (c->cqs[id].exists)
        return BELLRAFTER_QUEUE_EXISTS;
    uint64_t refusal = ring_refusal(c, memory_bytes, 16, size, base);
    if (refusal == BELLRAFTER_DONE)
        c->cqs[id] = (struct ref_cq){.exists = true, .base = base, .size = size, .phase = 1};
    return refusal;
}

/* "the SQ names a CQ that does not exist; or SQ 0 a CQ other than 0; or another SQ the CQ 0" */
static bool wrong_cq(const struct ref_controller *c, uint64_t id, uint64_t cq)
{
    return cq > 15 || !c->cqs[cq].exists || (id == 0) != (cq == 0);
}

uint64_t ref_create_sq(struct ref_controller *c, size_t memory_bytes, uint64_t id, uint64_t size, uint64_t base,
                       uint64_t cq, uint64_t priority_class)
{
    if (id > 15)
        return BELLRAFTER_QUEUE_ID;
    if (c->sqs[id].exists)
        return BELLRAFTER_QUEUE_EXISTS;
    if (priority_class > 3)
        return BELLRAFTER_CLASS;
    if (wrong_cq(c, id, cq))
        return BELLRAFTER_WRONG_CQ;
    uint64_t refusal = ring_refusal(c, memory_bytes, 64, size, base);
    if (refusal == BELLRAFTER_DONE)
        c->sqs[id] = (struct ref_sq){
            .exists = true, .base = base, .size = size, .cq = cq, .priority_class = priority_class};
    return refusal;
}

/*
 * Deleting. "Order: 1, 35, 9, 33 or 34." A queue goes with its entries and its mark, and stands as one that never was;
 * "Turn holders and remainders stay as numbers", and so does all else.
 */

static bool has_outstanding(const struct ref_controller *c, uint64_t id)
{
    for (int tag = 0; tag < 64; tag++) {
        if (c->commands[tag].outstanding && c->commands[tag].sq == id)
            return true;
    }
    return false;
}

uint64_t ref_delete_sq(struct ref_controller *c, uint64_t id)
{
    if (id > 15)
        return BELLRAFTER_QUEUE_ID;
    if (id == 0)
        return BELLRAFTER_ADMIN;
    if (!c->sqs[id].exists)
        return BELLRAFTER_NO_QUEUE;
    if (has_outstanding(c, id))
        return BELLRAFTER_SQ_BUSY;
    c->sqs[id] = (struct ref_sq){.exists = false};
    return BELLRAFTER_DONE;
}

static bool named(const struct ref_controller *c, uint64_t cq)
{
    for (int i = 0; i < 16; i++) {
        if (c->sqs[i].exists && c->sqs[i].cq == cq)
            return true;
    }
    return false;
}

uint64_t ref_delete_cq(struct ref_controller *c, uint64_t id)
{
    if (id > 15)
        return BELLRAFTER_QUEUE_ID;
    if (id == 0)
        return BELLRAFTER_ADMIN;
    if (!c->cqs[id].exists)
        return BELLRAFTER_NO_QUEUE;
    if (named(c, id))
        return BELLRAFTER_CQ_NAMED;
    c->cqs[id] = (struct ref_cq){.exists = false};
    return BELLRAFTER_DONE;
}

/* Doorbells. The plain checks of reference.c say which values are valid; here the size is always a good one. */

uint64_t ref_tail_write(struct ref_controller *c, uint64_t id, uint64_t value)
{
    if (id > 15)
        return BELLRAFTER_QUEUE_ID;
    struct ref_sq *sq = &c->sqs[id];
    if (!sq->exists)
        return BELLRAFTER_NO_QUEUE;
    if (sq->marked)
        return BELLRAFTER_MARKED;
    uint64_t refusal = ref_tail_check(sq->size, sq->head, sq->tail, value);
    if (refusal == BELLRAFTER_DONE)
        sq->tail = value;
    else
        sq->marked = true;
    return refusal;
}

uint64_t ref_head_write(struct ref_controller *c, uint64_t id, uint64_t value)
{
    if (id > 15)
        return BELLRAFTER_QUEUE_ID;
    struct ref_cq *cq = &c->cqs[id];
    if (!cq->exists)
        return BELLRAFTER_NO_QUEUE;
    uint64_t refusal = ref_head_check(cq->size, cq->head, cq->tail, value);
    if (refusal == BELLRAFTER_DONE)
        cq->head = value;
    return refusal;
}

/* Whether the ring of any queue that exists does not lie wholly in the memory given. */
static bool some_ring_outside(const struct ref_controller *c, size_t memory_bytes)
{
    for (int i = 0; i < 16; i++) {
        if (c->sqs[i].exists && outside(c->sqs[i].base, 64 * c->sqs[i].size, memory_bytes))
            return true;
        if (c->cqs[i].exists && outside(c->cqs[i].base, 16 * c->cqs[i].size, memory_bytes))
            return true;
    }
    return false;
}

/* Turns. A set of candidates is an array of 16. */

struct candidates {
    bool is[16];
};

static bool candidate(const struct ref_sq *sq)
{
    return sq->exists && !sq->marked && sq->head != sq->tail;
}

/* "all SQs form one group"; or the urgent group, or a level: those of a class, without SQ 0. */
static struct candidates candidates_of(const struct ref_controller *c, int group)
{
    struct candidates found = {{false}};

    for (int i = 0; i < 16; i++) {
        bool member = c->mechanism == 0 || (i != 0 && c->sqs[i].priority_class == (uint64_t)group);
        found.is[i] = member && candidate(&c->sqs[i]);
    }
    return found;
}

static bool some(struct candidates candidates)
{
    for (int i = 0; i < 16; i++) {
        if (candidates.is[i])
            return true;
    }
    return false;
}

static uint64_t burst(uint32_t word)
{
    return word % 8 == 7 ? BELLRAFTER_NO_LIMIT : (uint64_t)1 << word % 8;
}

/* Serves the group, one of whose queues is a candidate; answers the queue. */
static uint64_t serve(struct ref_group *group, struct candidates candidates, uint64_t full)
{
    if (!candidates.is[group->holder] || group->remainder == 0) {
        do
            group->holder = (group->holder + 1) % 16;
        while (!candidates.is[group->holder]);
        group->remainder = full;
    }
    if (group->remainder != BELLRAFTER_NO_LIMIT)
        group->remainder--;
    return group->holder;
}

/* The first level in the order high, medium, low with a candidate and credit, or GROUPS. */
static int level_with_credit(const struct ref_controller *c)
{
    int level = HIGH;

    while (level < GROUPS && !(some(candidates_of(c, level)) && c->groups[level].credit > 0))
        level++;
    return level;
}

/* A level is served, where one of them has a candidate. */
static uint64_t serve_level(struct ref_controller *c)
{
    if (level_with_credit(c) == GROUPS)
        refill(c);
    int level = level_with_credit(c);
    struct ref_group *group = &c->groups[level];
    uint64_t full = burst(c->word) < group->credit ? burst(c->word) : group->credit;
    uint64_t id = serve(group, candidates_of(c, level), full);
    group->credit--;
    return id;
}

/* The queue that is served, with its turn taken; 16 where no queue is a candidate. */
static uint64_t choose(struct ref_controller *c)
{
    bool none = true;

    for (int i = 0; i < 16; i++)
        none = none && !candidate(&c->sqs[i]);
    if (none)
        return 16;
    if (c->mechanism == 1 && candidate(&c->sqs[0]))
        return 0;
    if (some(candidates_of(c, GROUP)))
        return serve(&c->groups[GROUP], candidates_of(c, GROUP), burst(c->word));
    return serve_level(c);
}

/* Starting. */

static struct bellrafter_submission entry_at(const struct ref_sq *sq, uint64_t slot, const uint8_t *memory)
{
    return ref_submission_read(memory + sq->base + 64 * slot, 64);
}

/* Whether what stands at the head of the queue is a pair: two submitted entries, FUSE 1 and 2, not on SQ 0. */
static bool pair_at_head(const struct ref_sq *sq, uint64_t id, const uint8_t *memory)
{
    uint64_t next = (sq->head + 1) % sq->size;

    return id != 0 && entry_at(sq, sq->head, memory).fuse == 1 && next != sq->tail &&
           entry_at(sq, next, memory).fuse == 2;
}

static bool cid_in_use(const struct ref_controller *c, uint64_t id, uint64_t cid)
{
    for (int tag = 0; tag < 64; tag++) {
        const struct ref_command *command = &c->commands[tag];
        if (command->outstanding && command->sq == id && command->cid == cid)
            return true;
    }
    return false;
}

/* The verdict on a command that is taken alone, so that any FUSE other than 0 is wrong. */
static uint64_t single_verdict(const struct ref_controller *c, uint64_t id, struct bellrafter_submission s)
{
    if (id == 0 && s.fuse != 0)
        return BELLRAFTER_STATUS_INVALID_FIELD;
    if (s.fuse == 3)
        return BELLRAFTER_STATUS_INVALID_FIELD;
    if (s.fuse == 2)
        return BELLRAFTER_STATUS_MISSING_FUSED;
    if (s.fuse == 1)
        return BELLRAFTER_STATUS_MISSING_FUSED;
    if (s.psdt != 0)
        return BELLRAFTER_STATUS_INVALID_FIELD;
    if (cid_in_use(c, id, s.cid))
        return BELLRAFTER_STATUS_ID_CONFLICT;
    return BELLRAFTER_STATUS_SUCCESS;
}

static uint64_t pair_verdict(const struct ref_controller *c, uint64_t id, struct bellrafter_submission first,
                             struct bellrafter_submission second)
{
    if (first.opc != 0x05 || second.opc != 0x01)
        return BELLRAFTER_STATUS_INVALID_FIELD;
    if (first.nsid != second.nsid || first.slba != second.slba || first.nlb != second.nlb)
        return BELLRAFTER_STATUS_INVALID_FIELD;
    if (first.psdt != 0 || second.psdt != 0)
        return BELLRAFTER_STATUS_INVALID_FIELD;
    if (cid_in_use(c, id, first.cid) || cid_in_use(c, id, second.cid) || first.cid == second.cid)
        return BELLRAFTER_STATUS_ID_CONFLICT;
    return BELLRAFTER_STATUS_SUCCESS;
}

static uint64_t free_tags(const struct ref_controller *c)
{
    uint64_t count = 0;

    for (int tag = 0; tag < 64; tag++)
        count += !c->commands[tag].outstanding;
    return count;
}

/*
 * "A start that would need a number above 18,446,744,073,709,551,614 is refused with 32": of the `count` numbers from
 * the next one on the last would be above it. The next one itself may be one above, so nothing is added to it.
 */
static bool needs_number_above(const struct ref_controller *c, uint64_t count)
{
    return c->next > UINT64_C(18446744073709551614) - (count - 1);
}

/* A command takes the lowest free tag, and the next start number: "one more for each further command". */
static uint64_t take_tag(struct ref_controller *c, uint64_t id, uint64_t cid, uint64_t verdict)
{
    uint64_t tag = 0;

    while (c->commands[tag].outstanding)
        tag++;
    c->commands[tag] = (struct ref_command){
        .outstanding = true, .sq = id, .cid = cid, .verdict = verdict, .number = c->next};
    c->next++;
    return tag;
}

struct bellrafter_start ref_start(struct ref_controller *c, const uint8_t *memory, size_t memory_bytes)
{
    struct ref_controller before = *c;

    if (some_ring_outside(c, memory_bytes))
        return (struct bellrafter_start){.refusal = BELLRAFTER_RING_MEMORY};
    uint64_t id = choose(c);
    if (id == 16)
        return (struct bellrafter_start){.refusal = BELLRAFTER_NO_CANDIDATE};

    struct ref_sq *sq = &c->sqs[id];
    uint64_t count = pair_at_head(sq, id, memory) ? 2 : 1;
    if (free_tags(c) < count) {
        *c = before; /* the turn was not taken */
        return (struct bellrafter_start){.refusal = BELLRAFTER_NO_TAG};
    }
    if (needs_number_above(c, count)) {
        *c = before;
        return (struct bellrafter_start){.refusal = BELLRAFTER_NO_NUMBER};
    }

    struct bellrafter_start taken = {.sq = id, .count = count, .slot = sq->head, .number = c->next};
    struct bellrafter_submission first = entry_at(sq, sq->head, memory);
    if (count == 1) {
        taken.verdict = single_verdict(c, id, first);
        taken.first = take_tag(c, id, first.cid, taken.verdict);
    } else {
        struct bellrafter_submission second = entry_at(sq, (sq->head + 1) % sq->size, memory);
        taken.verdict = pair_verdict(c, id, first, second);
        taken.first = take_tag(c, id, first.cid, taken.verdict);
        taken.second = take_tag(c, id, second.cid, taken.verdict);
        c->commands[taken.second].second_half = true;
        c->commands[taken.second].first_number = c->commands[taken.first].number;
    }
    sq->head = (sq->head + count) % sq->size;
    return taken;
}

/* Finishing. */

/* Whether the command is a second half and its first half, whatever tag that has, is outstanding. */
static bool first_half_outstanding(const struct ref_controller *c, const struct ref_command *command)
{
    for (int tag = 0; tag < 64; tag++) {
        const struct ref_command *other = &c->commands[tag];
        if (other->outstanding && command->second_half && other->number == command->first_number)
            return true;
    }
    return false;
}

/* The second half of a pair whose first half posted a status other than 0: its verdict 0 becomes 09h. */
static void tell_second_half(struct ref_controller *c, const struct ref_command *first)
{
    for (int tag = 0; tag < 64; tag++) {
        struct ref_command *other = &c->commands[tag];
        if (other->outstanding && other->second_half && other->first_number == first->number && other->verdict == 0)
            other->verdict = BELLRAFTER_STATUS_FAILED_FUSED;
    }
}

struct bellrafter_finish ref_finish(struct ref_controller *c, uint8_t *memory, size_t memory_bytes, uint64_t tag,
                                    uint64_t status, uint32_t result)
{
    if (some_ring_outside(c, memory_bytes))
        return (struct bellrafter_finish){.refusal = BELLRAFTER_RING_MEMORY};
    if (tag > 63 || !c->commands[tag].outstanding)
        return (struct bellrafter_finish){.refusal = BELLRAFTER_NO_COMMAND};
    if (status > 32767)
        return (struct bellrafter_finish){.refusal = BELLRAFTER_STATUS};
    struct ref_command *command = &c->commands[tag];
    if (first_half_outstanding(c, command))
        return (struct bellrafter_finish){.refusal = BELLRAFTER_FIRST_HALF};
    const struct ref_sq *sq = &c->sqs[command->sq];
    struct ref_cq *cq = &c->cqs[sq->cq];
    if ((cq->tail + 1) % cq->size == cq->head)
        return (struct bellrafter_finish){.refusal = BELLRAFTER_CQ_FULL};

    uint64_t posted = command->verdict != 0 ? command->verdict : status;
    uint64_t slot = cq->tail;
    ref_completion_write(memory + cq->base + 16 * slot, 16, result, (uint16_t)sq->head, (uint16_t)command->sq,
                         (uint16_t)command->cid, posted, cq->phase);
    cq->tail = (slot + 1) % cq->size;
    if (cq->tail == 0)
        cq->phase = 1 - cq->phase;
    command->outstanding = false;
    if (posted != 0)
        tell_second_half(c, command);
    return (struct bellrafter_finish){BELLRAFTER_DONE, slot, command->number};
}

/* Replaying. */

/* "Numbers 30 for an unknown call or a nonzero spare byte, and 31, before 30, for a last short record" */
uint64_t ref_record_refusal(const uint8_t *record, size_t bytes)
{
    if (bytes < 16)
        return BELLRAFTER_RECORD_SHORT;
    if (record[0] < 1 || record[0] > 4)
        return BELLRAFTER_RECORD;
    int first_spare = record[0] == BELLRAFTER_CALL_START ? 1 : 4;
    for (int i = first_spare; i < 16; i++) {
        if (record[i] != 0)
            return BELLRAFTER_RECORD;
    }
    return BELLRAFTER_DONE;
}

uint64_t ref_record_value(const uint8_t *record)
{
    return record[2] + 256 * (uint64_t)record[3];
}

/*
 * "byte 0 as sent, refusal number, two result bytes (value written, first tag, or slot posted; 0 if refused), twelve
 * zeros"
 */
void ref_answer_record(uint8_t *answer, uint8_t call, uint64_t refusal, uint64_t result)
{
    uint64_t shown = refusal == BELLRAFTER_DONE ? result : 0;

    memset(answer, 0, 16);
    answer[0] = call;
    answer[1] = (uint8_t)refusal;
    answer[2] = (uint8_t)(shown % 256);
    answer[3] = (uint8_t)(shown / 256);
}

/* The call that a good record names: its refusal number, and its result where it was done. */
static uint64_t call_of_record(struct ref_controller *c, uint8_t *memory, size_t memory_bytes, const uint8_t *record,
                               uint64_t *result)
{
    uint64_t value = ref_record_value(record);

    if (record[0] == BELLRAFTER_CALL_TAIL_WRITE) {
        *result = value;
        return ref_tail_write(c, record[1], value);
    }
    if (record[0] == BELLRAFTER_CALL_HEAD_WRITE) {
        *result = value;
        return ref_head_write(c, record[1], value);
    }
    if (record[0] == BELLRAFTER_CALL_START) {
        struct bellrafter_start taken = ref_start(c, memory, memory_bytes);
        *result = taken.first;
        return taken.refusal;
    }
    struct bellrafter_finish posted = ref_finish(c, memory, memory_bytes, record[1], value, 0);
    *result = posted.slot;
    return posted.refusal;
}

/* "The answer room is tested first (21), one record for each begun record; bytes past them stay." */
struct bellrafter_replay ref_replay(struct ref_controller *c, uint8_t *memory, size_t memory_bytes,
                                    const uint8_t *trace, size_t trace_bytes, uint8_t *answers, size_t answers_bytes)
{
    size_t begun = trace_bytes / 16 + (trace_bytes % 16 > 0);

    if (answers_bytes / 16 < begun)
        return (struct bellrafter_replay){BELLRAFTER_BUFFER, 0};
    for (size_t i = 0; i < begun; i++) {
        const uint8_t *record = trace + 16 * i;
        uint64_t result = 0, refusal = ref_record_refusal(record, trace_bytes - 16 * i);
        if (refusal == BELLRAFTER_DONE)
            refusal = call_of_record(c, memory, memory_bytes, record, &result);
        ref_answer_record(answers + 16 * i, record[0], refusal, result);
    }
    return (struct bellrafter_replay){BELLRAFTER_DONE, begun};
}

/* Looking. */

struct bellrafter_sq ref_look_sq(const struct ref_controller *c, uint64_t id)
{
    if (id > 15)
        return (struct bellrafter_sq){.refusal = BELLRAFTER_QUEUE_ID};
    const struct ref_sq *sq = &c->sqs[id];
    if (!sq->exists)
        return (struct bellrafter_sq){.refusal = BELLRAFTER_NO_QUEUE};
    return (struct bellrafter_sq){
        BELLRAFTER_DONE, sq->base, sq->size, sq->head, sq->tail, sq->marked, sq->cq, sq->priority_class};
}

struct bellrafter_cq ref_look_cq(const struct ref_controller *c, uint64_t id)
{
    if (id > 15)
        return (struct bellrafter_cq){.refusal = BELLRAFTER_QUEUE_ID};
    const struct ref_cq *cq = &c->cqs[id];
    if (!cq->exists)
        return (struct bellrafter_cq){.refusal = BELLRAFTER_NO_QUEUE};
    return (struct bellrafter_cq){BELLRAFTER_DONE, cq->base, cq->size, cq->head, cq->tail, cq->phase};
}

struct bellrafter_command ref_look_command(const struct ref_controller *c, uint64_t tag)
{
    if (tag > 63 || !c->commands[tag].outstanding)
        return (struct bellrafter_command){.refusal = BELLRAFTER_NO_COMMAND};
    const struct ref_command *command = &c->commands[tag];
    return (struct bellrafter_command){BELLRAFTER_DONE, command->sq, command->cid, command->verdict, command->number};
}

struct bellrafter_arbiter ref_look_arbiter(const struct ref_controller *c)
{
    const struct ref_group *g = c->groups;

    return (struct bellrafter_arbiter){
        c->mechanism,          c->word,
        g[GROUP].holder,       g[GROUP].remainder,
        g[HIGH].holder,        g[HIGH].remainder,   g[HIGH].credit,
        g[MEDIUM].holder,      g[MEDIUM].remainder, g[MEDIUM].credit,
        g[LOW].holder,         g[LOW].remainder,    g[LOW].credit,
    };
}
