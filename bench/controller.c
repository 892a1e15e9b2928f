#include "controller.h"

#include <string.h>

enum {
    INVALID_FIELD = 0x02,
    COMMAND_ID_CONFLICT = 0x03,
    FAILED_FUSED = 0x09,
    MISSING_FUSED = 0x0a,
    COMPARE = 0x05,
    WRITE = 0x01,
};

/* A record of a trace, and the calls that it may name. */
enum {
    RECORD = 16,
    TAIL_WRITE = 1,
    HEAD_WRITE = 2,
    START = 3,
    FINISH = 4,
};

static uint16_t load16(const uint8_t *p)
{
    uint16_t x;
    memcpy(&x, p, sizeof x);
    return x;
}

static uint32_t load32(const uint8_t *p)
{
    uint32_t x;
    memcpy(&x, p, sizeof x);
    return x;
}

static uint64_t load64(const uint8_t *p)
{
    uint64_t x;
    memcpy(&x, p, sizeof x);
    return x;
}

static uint32_t weight(uint32_t word, unsigned at)
{
    return (word >> at & 0xff) + 1;
}

static void refill(struct controller *c)
{
    c->levels[0].credit = weight(c->word, 24);
    c->levels[1].credit = weight(c->word, 16);
    c->levels[2].credit = weight(c->word, 8);
}

unsigned controller_init(struct controller *c, uint64_t mechanism, uint32_t word)
{
    unsigned refusal = mechanism > 1 ? 23 : 0;
    memset(c, 0, sizeof *c);
    c->free = UINT64_MAX;
    c->weighted = mechanism == 1;
    c->word = refusal ? 0 : word;
    c->group.holder = 15;
    for (int i = 0; i < 3; i++)
        c->levels[i].group.holder = 15;
    refill(c);
    return refusal;
}

static bool ends_past(size_t memory, uint64_t base, uint64_t bytes)
{
    return memory < bytes || memory - bytes < base;
}

static bool share_byte(uint64_t a, uint64_t k, uint64_t b, uint64_t l)
{
    return a <= b ? b - a < k : a - b < l;
}

static bool shares(const struct controller *c, uint64_t base, uint64_t bytes)
{
    for (int i = 0; i < 16; i++) {
        const struct ring *s = &c->sqs[i].ring;
        const struct ring *q = &c->cqs[i].ring;
        if (s->exists && share_byte(base, bytes, s->base, 64 * s->size))
            return true;
        if (q->exists && share_byte(base, bytes, q->base, 16 * q->size))
            return true;
    }
    return false;
}

static unsigned ring_refusal(const struct controller *c, size_t memory, uint64_t entry, uint64_t size, uint64_t base)
{
    if (size < 2 || size > 1024)
        return 3;
    if (base % 4096 != 0)
        return 4;
    if (ends_past(memory, base, entry * size))
        return 5;
    return shares(c, base, entry * size) ? 6 : 0;
}

unsigned create_cq(struct controller *c, size_t memory, uint64_t id, uint64_t size, uint64_t base)
{
    if (id > 15)
        return 1;
    if (c->cqs[id].ring.exists)
        return 2;
    unsigned refusal = ring_refusal(c, memory, 16, size, base);
    if (refusal)
        return refusal;
    c->cqs[id] = (struct completion_queue){.ring = {.exists = true, .base = base, .size = size}, .phase = 1};
    return 0;
}

unsigned create_sq(struct controller *c, size_t memory, uint64_t id, uint64_t size, uint64_t base, uint64_t cq, uint64_t class)
{
    if (id > 15)
        return 1;
    if (c->sqs[id].ring.exists)
        return 2;
    if (class > 3)
        return 8;
    if (cq > 15 || !c->cqs[cq].ring.exists || (id == 0) != (cq == 0))
        return 7;
    unsigned refusal = ring_refusal(c, memory, 64, size, base);
    if (refusal)
        return refusal;
    c->sqs[id] = (struct submission_queue){.ring = {.exists = true, .base = base, .size = size}, .cq = cq, .class = class};
    return 0;
}

static bool has_outstanding(const struct controller *c, uint8_t sq)
{
    for (uint64_t left = ~c->free; left; left &= left - 1) {
        if (c->commands[__builtin_ctzll(left)].sq == sq)
            return true;
    }
    return false;
}

unsigned delete_sq(struct controller *c, uint64_t id)
{
    if (id > 15)
        return 1;
    if (id == 0)
        return 35;
    if (!c->sqs[id].ring.exists)
        return 9;
    if (has_outstanding(c, id))
        return 33;
    c->sqs[id].ring.exists = false;
    return 0;
}

static bool named(const struct controller *c, uint8_t cq)
{
    for (int i = 0; i < 16; i++) {
        if (c->sqs[i].ring.exists && c->sqs[i].cq == cq)
            return true;
    }
    return false;
}

unsigned delete_cq(struct controller *c, uint64_t id)
{
    if (id > 15)
        return 1;
    if (id == 0)
        return 35;
    if (!c->cqs[id].ring.exists)
        return 9;
    if (named(c, id))
        return 34;
    c->cqs[id].ring.exists = false;
    return 0;
}

static uint64_t distance(const struct ring *r, uint64_t from, uint64_t to)
{
    return from <= to ? to - from : to + r->size - from;
}

unsigned tail_write(struct controller *c, uint64_t id, uint64_t value)
{
    if (id > 15)
        return 1;
    struct submission_queue *q = &c->sqs[id];
    struct ring *r = &q->ring;
    if (!r->exists)
        return 9;
    if (q->marked)
        return 11;
    if (value >= r->size || distance(r, r->head, value) <= distance(r, r->head, r->tail)) {
        q->marked = true;
        return 10;
    }
    r->tail = value;
    return 0;
}

unsigned head_write(struct controller *c, uint64_t id, uint64_t value)
{
    if (id > 15)
        return 1;
    struct ring *r = &c->cqs[id].ring;
    if (!r->exists)
        return 9;
    if (value >= r->size || value == r->head || distance(r, r->head, value) > distance(r, r->head, r->tail))
        return 10;
    r->head = value;
    return 0;
}

static bool outside(const struct controller *c, size_t memory)
{
    for (int i = 0; i < 16; i++) {
        const struct ring *s = &c->sqs[i].ring;
        const struct ring *q = &c->cqs[i].ring;
        if (s->exists && ends_past(memory, s->base, 64 * s->size))
            return true;
        if (q->exists && ends_past(memory, q->base, 16 * q->size))
            return true;
    }
    return false;
}

/* Candidates: bit i of all for queue i, and of the mask of its class. */
struct candidates {
    uint16_t all;
    uint16_t of_class[4];
};

static struct candidates survey(const struct controller *c)
{
    struct candidates found = {0};
    for (int i = 0; i < 16; i++) {
        const struct submission_queue *q = &c->sqs[i];
        if (q->ring.exists && !q->marked && q->ring.head != q->ring.tail) {
            found.all |= 1u << i;
            found.of_class[q->class] |= 1u << i;
        }
    }
    return found;
}

static uint32_t burst(uint32_t word)
{
    return (word & 7) == 7 ? NO_LIMIT : 1u << (word & 7);
}

/* The next candidate after the holder, wrapping, the holder last. */
static uint32_t next_after(uint16_t mask, uint32_t holder)
{
    uint32_t above = mask & ~((2u << holder) - 1);
    return __builtin_ctz(above ? above : mask);
}

/* Serves a candidate of a mask that is not empty. */
static uint32_t turn(struct group *g, uint32_t full, uint16_t mask)
{
    if (!(mask >> g->holder & 1) || g->remainder == 0) {
        g->holder = next_after(mask, g->holder);
        g->remainder = full;
    }
    if (g->remainder != NO_LIMIT)
        g->remainder--;
    return g->holder;
}

static bool ready(const struct controller *c, const struct candidates *found, int i)
{
    return found->of_class[i + 1] && c->levels[i].credit;
}

static uint32_t choose_level(struct controller *c, const struct candidates *found)
{
    if (!ready(c, found, 0) && !ready(c, found, 1) && !ready(c, found, 2))
        refill(c);
    int i = ready(c, found, 0) ? 0 : ready(c, found, 1) ? 1 : 2;
    struct level *l = &c->levels[i];
    uint32_t full = burst(c->word);
    uint32_t id = turn(&l->group, full < l->credit ? full : l->credit, found->of_class[i + 1]);
    l->credit--;
    return id;
}

/* The queue to serve; some queue is a candidate. */
static uint32_t choose(struct controller *c, const struct candidates *found)
{
    if (!c->weighted)
        return turn(&c->group, burst(c->word), found->all);
    if (found->all & 1)
        return 0;
    if (found->of_class[0])
        return turn(&c->group, burst(c->word), found->of_class[0]);
    return choose_level(c, found);
}

static bool in_use(const struct controller *c, uint8_t sq, uint16_t a, uint16_t b)
{
    for (uint64_t left = ~c->free; left; left &= left - 1) {
        const struct command *k = &c->commands[__builtin_ctzll(left)];
        if (k->sq == sq && (k->cid == a || k->cid == b))
            return true;
    }
    return false;
}

static uint16_t verdict_one(const struct controller *c, uint8_t sq, const uint8_t *e)
{
    unsigned fuse = e[1] & 3;
    if (sq == 0 && fuse != 0)
        return INVALID_FIELD;
    if (fuse == 3)
        return INVALID_FIELD;
    if (fuse != 0)
        return MISSING_FUSED;
    if (e[1] >> 6 != 0)
        return INVALID_FIELD;
    uint16_t cid = load16(e + 2);
    return in_use(c, sq, cid, cid) ? COMMAND_ID_CONFLICT : 0;
}

static uint16_t verdict_pair(const struct controller *c, uint8_t sq, const uint8_t *e, const uint8_t *f)
{
    if (e[0] != COMPARE || f[0] != WRITE)
        return INVALID_FIELD;
    if (load32(e + 4) != load32(f + 4) || load64(e + 40) != load64(f + 40) || load16(e + 48) != load16(f + 48))
        return INVALID_FIELD;
    if (e[1] >> 6 != 0 || f[1] >> 6 != 0)
        return INVALID_FIELD;
    uint16_t a = load16(e + 2), b = load16(f + 2);
    return a == b || in_use(c, sq, a, b) ? COMMAND_ID_CONFLICT : 0;
}

static uint8_t take_tag(struct controller *c)
{
    uint8_t tag = __builtin_ctzll(c->free);
    c->free &= c->free - 1;
    return tag;
}

static unsigned take(struct controller *c, const uint8_t *memory, uint8_t id, struct started *out)
{
    struct ring *r = &c->sqs[id].ring;
    uint64_t head = r->head;
    uint64_t next = head + 1 == r->size ? 0 : head + 1;
    const uint8_t *e = memory + r->base + 64 * head;
    const uint8_t *f = memory + r->base + 64 * next;
    bool pair = id != 0 && (e[1] & 3) == 1 && next != r->tail && (f[1] & 3) == 2;
    if (__builtin_popcountll(c->free) < 1 + pair)
        return 13;
    uint64_t number = c->next;
    if (number > NUMBER_MOST - pair)
        return 32;
    uint16_t verdict = pair ? verdict_pair(c, id, e, f) : verdict_one(c, id, e);
    uint8_t first = take_tag(c);
    uint8_t second = pair ? take_tag(c) : 0;
    c->commands[first] = (struct command){.sq = id, .cid = load16(e + 2), .verdict = verdict, .second = pair ? second + 1 : 0};
    c->numbers[first] = number;
    if (pair) {
        c->commands[second] = (struct command){.sq = id, .cid = load16(f + 2), .verdict = verdict, .first = first + 1};
        c->numbers[second] = number + 1;
    }
    c->next = number + 1 + pair;
    r->head = pair ? (next + 1 == r->size ? 0 : next + 1) : next;
    *out = (struct started){.sq = id,
                            .count = 1 + pair,
                            .first = first,
                            .second = second,
                            .slot = head,
                            .verdict = verdict,
                            .number = number};
    return 0;
}

unsigned start(struct controller *c, const uint8_t *memory, size_t length, struct started *out)
{
    if (outside(c, length))
        return 5;
    struct candidates found = survey(c);
    if (!found.all)
        return 12;
    struct group group = c->group;
    struct level levels[3];
    memcpy(levels, c->levels, sizeof levels);
    uint32_t id = choose(c, &found);
    unsigned refusal = take(c, memory, id, out);
    if (refusal) {
        c->group = group;
        memcpy(c->levels, levels, sizeof levels);
    }
    return refusal;
}

static void store_completion(uint8_t *p, uint32_t result, uint16_t sqhd, uint16_t sqid, uint16_t cid, uint16_t last)
{
    uint32_t zero = 0;
    memcpy(p, &result, 4);
    memcpy(p + 4, &zero, 4);
    memcpy(p + 8, &sqhd, 2);
    memcpy(p + 10, &sqid, 2);
    memcpy(p + 12, &cid, 2);
    memcpy(p + 14, &last, 2);
}

unsigned finish(struct controller *c, uint8_t *memory, size_t length, uint64_t tag, uint64_t status, uint32_t result,
                struct finished *out)
{
    if (outside(c, length))
        return 5;
    if (tag > 63 || (c->free >> tag & 1))
        return 14;
    if (status > 32767)
        return 15;
    struct command *k = &c->commands[tag];
    if (k->first != 0)
        return 16;
    struct submission_queue *s = &c->sqs[k->sq];
    struct completion_queue *q = &c->cqs[s->cq];
    struct ring *r = &q->ring;
    uint16_t next = r->tail + 1 == r->size ? 0 : r->tail + 1;
    if (next == r->head)
        return 17;
    uint16_t posted = k->verdict ? k->verdict : status;
    store_completion(memory + r->base + 16 * (uint64_t)r->tail, result, s->ring.head, k->sq, k->cid, 2 * posted + q->phase);
    if (k->second) {
        struct command *half = &c->commands[k->second - 1];
        half->first = 0;
        if (posted && !half->verdict)
            half->verdict = FAILED_FUSED;
    }
    *out = (struct finished){.slot = r->tail, .number = c->numbers[tag]};
    r->tail = next;
    if (next == 0)
        q->phase ^= 1;
    c->free |= 1ull << tag;
    return 0;
}

/* The call of a record, by its first eight bytes. */
static unsigned call_record(struct controller *c, uint8_t *memory, size_t length, uint64_t record, uint16_t *result)
{
    uint8_t id = record >> 8;
    uint16_t value = record >> 16;
    struct started s = {0};
    struct finished f = {0};
    unsigned refusal;
    switch (record & 0xff) {
    case TAIL_WRITE:
        *result = value;
        return tail_write(c, id, value);
    case HEAD_WRITE:
        *result = value;
        return head_write(c, id, value);
    case START:
        if (record != START)
            return 30;
        refusal = start(c, memory, length, &s);
        *result = s.first;
        return refusal;
    case FINISH:
        refusal = finish(c, memory, length, id, value, 0, &f);
        *result = f.slot;
        return refusal;
    default:
        return 30;
    }
}

static void store_answer(uint8_t *p, uint8_t call, unsigned refusal, uint16_t result)
{
    uint64_t words[2] = {call | (uint64_t)refusal << 8 | (refusal ? 0 : (uint64_t)result << 16), 0};
    memcpy(p, words, sizeof words);
}

unsigned replay(struct controller *c, uint8_t *memory, size_t length, const uint8_t *trace, size_t trace_bytes, uint8_t *answers,
                size_t room, size_t *records)
{
    size_t whole = trace_bytes / RECORD;
    size_t begun = whole + (trace_bytes % RECORD != 0);
    if (room / RECORD < begun)
        return 21;
    for (size_t i = 0; i < whole; i++) {
        uint64_t first = load64(trace + RECORD * i), spare = load64(trace + RECORD * i + 8);
        uint16_t result = 0;
        unsigned refusal = spare || first >> 32 ? 30 : call_record(c, memory, length, first, &result);
        store_answer(answers + RECORD * i, first, refusal, result);
    }
    if (begun > whole)
        store_answer(answers + RECORD * whole, trace[RECORD * whole], 31, 0);
    *records = begun;
    return 0;
}
