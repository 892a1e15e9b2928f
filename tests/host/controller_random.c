/*
 * Random calls of controllers, sound and damaged, each made on the library and on the plain controller (twin.h). Rings
 * are short, so that they wrap; calls are drawn by what the plain controller holds, so that they lead somewhere.
 */
#include "draw.h"

/* What must have happened at least once, and how often it did. */
#define THINGS(X) \
    X(NEW_0, "mechanism 0") \
    X(NEW_1, "mechanism 1") \
    X(NEW_REFUSED, "mechanism refused") \
    X(BURST_NO_LIMIT, "burst without limit") \
    X(SHARED_CQ, "SQs that share a CQ") \
    X(ONE, "one started") \
    X(ONE_ADMIN_FUSED, "one on SQ 0, FUSE not 0") \
    X(ONE_02, "one, verdict 02h") \
    X(ONE_03, "one, verdict 03h") \
    X(ONE_0A, "one, verdict 0Ah") \
    X(PAIR, "pair started") \
    X(PAIR_02, "pair, verdict 02h") \
    X(PAIR_03, "pair, verdict 03h") \
    X(PAIR_WRAPS, "pair over the wrap") \
    X(HEAD_WRAPS, "SQ head wraps") \
    X(ADMIN_FIRST, "mechanism 1, SQ 0 first") \
    X(URGENT, "mechanism 1, urgent") \
    X(HIGH_LEVEL, "mechanism 1, high") \
    X(MEDIUM_LEVEL, "mechanism 1, medium") \
    X(LOW_LEVEL, "mechanism 1, low") \
    X(REFILL, "credits refilled") \
    X(TURN_KEPT, "turn kept by a remainder") \
    X(TAGS_GONE, "13, no tag is free") \
    X(TAG_FOR_PAIR, "13, one tag for a pair") \
    X(POSTED_0, "posted with phase tag 0") \
    X(POSTED_1, "posted with phase tag 1") \
    X(CQ_WRAPS, "CQ tail wraps") \
    X(POSTED_GIVEN, "posted the status given") \
    X(POSTED_VERDICT, "posted a verdict") \
    X(POSTED_09, "posted 09h") \
    X(TAG_REUSED, "first half's tag in use again") \
    X(OUT_OF_ORDER, "finished before an older one") \
    X(NUMBER_ABOVE_TAGS, "start number above all tags") \
    X(SQHD_MOVED, "SQ head moved since start") \
    X(MARKED_FINISHES, "command of a marked SQ") \
    X(TAIL_HELD, "10, the tail held") \
    X(TAIL_HELD_MARKED, "11, the tail held") \
    X(HEAD_HELD, "10, the head held") \
    X(SHORT_DONE, "done in a part of memory") \
    X(DELETED_UNSTARTED, "SQ deleted, some not started") \
    X(DELETED_MARKED, "SQ deleted, marked") \
    X(DELETED_BESIDE, "SQ deleted, others outstanding") \
    X(DELETED_HOLDER, "SQ deleted, its turn left") \
    X(DELETED_UNREAD, "CQ deleted, some unread") \
    X(DELETED_PHASE_0, "CQ deleted in an even pass") \
    X(SQ_AGAIN, "SQ created again") \
    X(HOLDER_AGAIN, "SQ created again keeps turn") \
    X(CQ_AGAIN, "CQ created again") \
    X(SQ_ON_SQ, "SQ where an SQ was") \
    X(SQ_ON_CQ, "SQ where a CQ was") \
    X(CQ_ON_SQ, "CQ where an SQ was") \
    X(CQ_ON_CQ, "CQ where a CQ was") \
    X(BACK, "saved states gone back to")

enum thing {
#define NAME(name, text) name,
    THINGS(NAME)
#undef NAME
    THING_COUNT
};

static const char *const thing_texts[] = {
#define TEXT(name, text) text,
    THINGS(TEXT)
#undef TEXT
};

static uint64_t happened[THING_COUNT];

static void happens(enum thing thing, bool yes)
{
    happened[thing] += yes;
}

/*
 * The calls with the refusal numbers that each can give, and how often it gave them. 32 is not among them: no run is so
 * long that a start gives it.
 */
enum { NEW, CREATE_CQ, CREATE_SQ, DELETE_SQ, DELETE_CQ, TAIL, HEAD, START, FINISH, CALLS };

static const struct refusals refusals_of[CALLS] = {
    {"controller_new", 2, {0, 23}},
    {"create_cq", 7, {0, 1, 2, 3, 4, 5, 6}},
    {"create_sq", 9, {0, 1, 2, 8, 7, 3, 4, 5, 6}},
    {"delete_sq", 5, {0, 1, 35, 9, 33}},
    {"delete_cq", 5, {0, 1, 35, 9, 34}},
    {"tail_write", 5, {0, 1, 9, 11, 10}},
    {"head_write", 4, {0, 1, 9, 10}},
    {"start", 4, {0, 5, 12, 13}},
    {"finish", 6, {0, 5, 14, 15, 16, 17}},
};

static uint64_t answered[CALLS][REFUSALS];
static uint64_t answered_calls;

static void answers(int call, uint64_t refusal)
{
    answered[call][refusal % REFUSALS]++;
    answered_calls++;
}

static void report(void)
{
    char what[80];

    for (int call = 0; call < CALLS; call++)
        report_refusals(&refusals_of[call], answered[call]);
    for (int thing = 0; thing < THING_COUNT; thing++) {
        printf("  %-30s %" PRIu64 "\n", thing_texts[thing], happened[thing]);
        snprintf(what, sizeof what, "never happened: %s", thing_texts[thing]);
        require(happened[thing] > 0, what);
    }
}

/* The start of so many pages that no ring lies in, the first ones from page `from` on. */
static uint64_t draw_base(uint64_t from, uint64_t pages)
{
    bool used[MEMORY_PAGES] = {false};

    for (int i = 0; i < 16; i++) {
        uint64_t sq_end = plain.sqs[i].base + 64 * plain.sqs[i].size;
        uint64_t cq_end = plain.cqs[i].base + 16 * plain.cqs[i].size;
        for (uint64_t at = plain.sqs[i].base; at < sq_end; at += 4096)
            used[at / 4096] = true;
        for (uint64_t at = plain.cqs[i].base; at < cq_end; at += 4096)
            used[at / 4096] = true;
    }
    for (uint64_t i = 0; i < MEMORY_PAGES; i++) {
        uint64_t page = (from + i) % MEMORY_PAGES, free = 0;
        while (free < pages && page + free < MEMORY_PAGES && !used[page + free])
            free++;
        if (free == pages)
            return 4096 * page;
    }
    return 0;
}

static uint64_t draw_size(void)
{
    return once_in(64) ? 1024 : once_in(32) ? 2 + below(1023) : 2 + below(7);
}

/* The calls. `damage`: one in so many arguments is a wrong one. `from`: the page from which a new ring is placed. */

static uint32_t draw_word(void)
{
    uint32_t word = (uint32_t)any_number();

    if (once_in(2)) /* small weights, so that credit runs out */
        word &= 0x03030307;
    return once_in(4) ? word & 0xFFFFFFF8 : once_in(8) ? word | 7 : word;
}

static void make_new(bool sound)
{
    uint32_t word = draw_word();
    uint64_t mechanism = sound ? below(2) : beyond(2);

    answers(NEW, twin_new(mechanism, word));
    happens(NEW_0, mechanism == 0);
    happens(NEW_1, mechanism == 1);
    happens(NEW_REFUSED, mechanism > 1);
    happens(BURST_NO_LIMIT, word % 8 == 7);
}

static uint64_t unused_cq(void)
{
    for (uint64_t i = 0, from = below(16); i < 16; i++) {
        if (!plain.cqs[(from + i) % 16].exists)
            return (from + i) % 16;
    }
    return 16;
}

static uint64_t unused_sq(void)
{
    for (uint64_t i = 0, from = below(16); i < 16; i++) {
        if (!plain.sqs[(from + i) % 16].exists)
            return (from + i) % 16;
    }
    return 16;
}

static uint64_t damaged_size(void)
{
    return once_in(2) ? below(2) : beyond(1025);
}

static uint64_t damaged_base(void)
{
    uint64_t any_page = any_number() / 4096 * 4096;
    uint64_t bases[] = {any_number(), below(MEMORY), any_page, UINT64_MAX - 4095, 4096 * below(MEMORY_PAGES), MEMORY};

    return bases[below(COUNT_OF(bases))];
}

static uint64_t any_page(void)
{
    return below(MEMORY_PAGES);
}

static void create_cq(uint64_t id, uint64_t from, uint64_t damage)
{
    uint64_t size = once_in(damage) ? damaged_size() : draw_size();
    uint64_t base = once_in(damage) ? damaged_base() : draw_base(from, (16 * (size % 1025) + 4095) / 4096);
    size_t lent = once_in(damage) ? draw_lent() : MEMORY;

    if (once_in(damage))
        id = once_in(2) ? beyond(16) : draw_cq(0);
    uint64_t refusal = twin_create_cq(lent, id, size, base);
    answers(CREATE_CQ, refusal);
    happens(SHORT_DONE, refusal == 0 && lent < MEMORY);
}

static void create_sq(uint64_t id, uint64_t from, uint64_t damage)
{
    uint64_t size = once_in(damage) ? damaged_size() : draw_size();
    uint64_t base = once_in(damage) ? damaged_base() : draw_base(from, (64 * (size % 1025) + 4095) / 4096);
    size_t lent = once_in(damage) ? draw_lent() : MEMORY;
    uint64_t cq = id == 0 ? 0 : draw_cq(1);
    uint64_t priority_class = once_in(damage) ? beyond(4) : below(4);

    if (once_in(damage))
        id = once_in(2) ? beyond(16) : draw_sq(0);
    if (cq == 0 && id != 0 && !once_in(damage))
        cq = draw_cq(1);
    if (once_in(damage))
        cq = once_in(2) ? beyond(16) : below(16);
    answers(CREATE_SQ, twin_create_sq(lent, id, size, base, cq, priority_class));
}

static void tail(uint64_t id, uint64_t value)
{
    bool held = id < 16 && value == plain.sqs[id].tail;
    uint64_t refusal = twin_tail(id, value);

    answers(TAIL, refusal);
    happens(TAIL_HELD, held && refusal == BELLRAFTER_DOORBELL);
    happens(TAIL_HELD_MARKED, held && refusal == BELLRAFTER_MARKED);
}

static void head(uint64_t id, uint64_t value)
{
    bool held = id < 16 && value == plain.cqs[id].head;
    uint64_t refusal = twin_head(id, value);

    answers(HEAD, refusal);
    happens(HEAD_HELD, held && refusal == BELLRAFTER_DOORBELL);
}

/* The host writes entries and moves the tail past them, or past some of them; past none, it rarely writes the tail. */
static void submit_to(uint64_t id)
{
    const struct ref_sq *sq = &plain.sqs[id];
    uint64_t room = room_in(sq);
    uint64_t count = below((room < 5 ? room : 5) + 1), moved = once_in(8) ? below(count + 1) : count;

    draw_entries(id, count);
    if (moved > 0 || once_in(512))
        tail(id, (sq->tail + moved) % sq->size);
}

static void submit(void)
{
    uint64_t id = draw_sq(16);

    if (id < 16 && !plain.sqs[id].marked)
        submit_to(id);
}

/* A tail write that may be wrong. */
static void write_tail(void)
{
    uint64_t id = once_in(4) ? (once_in(2) ? beyond(16) : below(16)) : draw_sq(0);
    uint64_t value = id < 16 && plain.sqs[id].exists ? below(plain.sqs[id].size + 1) : below(4);

    tail(id, once_in(8) ? any_number() : value);
}

/* The host releases some of what waits; none of it, it rarely writes the head. */
static void release(void)
{
    uint64_t id = draw_cq(0);
    const struct ref_cq *cq = &plain.cqs[id];

    if (!cq->exists)
        return;
    uint64_t waiting = waiting_in(cq->size, cq->head, cq->tail), released = once_in(2) ? waiting : below(waiting + 1);
    if (released > 0 || once_in(16))
        head(id, (cq->head + released) % cq->size);
}

static void write_head(void)
{
    uint64_t id = once_in(4) ? (once_in(2) ? beyond(16) : below(16)) : draw_cq(0);
    uint64_t value = id < 16 && plain.cqs[id].exists ? below(plain.cqs[id].size + 1) : below(4);

    head(id, once_in(8) ? any_number() : value);
}

static uint64_t free_tags(void)
{
    uint64_t count = 0;

    for (int tag = 0; tag < 64; tag++)
        count += !plain.commands[tag].outstanding;
    return count;
}

/* What was so at a command's start, by its start number: the SQ's head behind it; of a second half, the first's tag. */
static struct {
    uint64_t head, first_tag;
} at_start[8192];

static void note_taken(struct bellrafter_start s, const struct ref_controller *was)
{
    const struct ref_sq *sq = &plain.sqs[s.sq];
    bool one = s.count == 1, weighted = plain.mechanism == 1 && s.sq != 0;
    uint64_t others = 0;
    uint8_t fuse = plain_memory[sq->base + 64 * s.slot + 1] % 4;
    uint64_t number = plain.commands[s.first].number;

    at_start[number % COUNT_OF(at_start)].head = sq->head;
    if (!one) {
        at_start[(number + 1) % COUNT_OF(at_start)].head = sq->head;
        at_start[(number + 1) % COUNT_OF(at_start)].first_tag = s.first;
    }
    for (int i = 1; i < 16; i++)
        others += was->sqs[i].exists && !was->sqs[i].marked && was->sqs[i].head != was->sqs[i].tail;
    happens(ONE, one);
    happens(ONE_ADMIN_FUSED, one && s.sq == 0 && fuse != 0);
    happens(ONE_02, one && s.verdict == BELLRAFTER_STATUS_INVALID_FIELD);
    happens(ONE_03, one && s.verdict == BELLRAFTER_STATUS_ID_CONFLICT);
    happens(ONE_0A, one && s.verdict == BELLRAFTER_STATUS_MISSING_FUSED);
    happens(PAIR, !one && s.verdict == 0);
    happens(PAIR_02, !one && s.verdict == BELLRAFTER_STATUS_INVALID_FIELD);
    happens(PAIR_03, !one && s.verdict == BELLRAFTER_STATUS_ID_CONFLICT);
    happens(PAIR_WRAPS, !one && s.slot == sq->size - 1);
    happens(HEAD_WRAPS, sq->head < s.slot);
    happens(ADMIN_FIRST, plain.mechanism == 1 && s.sq == 0 && others > 0);
    happens(URGENT, weighted && sq->priority_class == 0);
    happens(HIGH_LEVEL, weighted && sq->priority_class == 1);
    happens(MEDIUM_LEVEL, weighted && sq->priority_class == 2);
    happens(LOW_LEVEL, weighted && sq->priority_class == 3);
    happens(REFILL, weighted && plain.groups[sq->priority_class].credit > was->groups[sq->priority_class].credit);
    happens(TURN_KEPT, plain.mechanism == 0 && was->groups[GROUP].remainder > 0 && was->groups[GROUP].holder == s.sq);
}

static void start(uint64_t damage)
{
    static struct ref_controller was;
    size_t lent = once_in(damage) ? draw_lent() : MEMORY;

    was = plain;
    struct bellrafter_start s = twin_start(lent);
    answers(START, s.refusal);
    happens(TAGS_GONE, s.refusal == BELLRAFTER_NO_TAG && free_tags() == 0);
    happens(TAG_FOR_PAIR, s.refusal == BELLRAFTER_NO_TAG && free_tags() == 1);
    happens(SHORT_DONE, s.refusal == 0 && lent < MEMORY);
    if (s.refusal == 0 && s.sq < 16 && s.first < 64) /* also where the library answers nonsense */
        note_taken(s, &was);
}

/* Whether a command of a lower start number is outstanding. */
static bool older_outstanding(uint64_t number)
{
    for (int tag = 0; tag < 64; tag++) {
        if (plain.commands[tag].outstanding && plain.commands[tag].number < number)
            return true;
    }
    return false;
}

static void note_posted(const struct ref_command *command, const struct ref_cq *was, uint64_t status)
{
    const struct ref_sq *sq = &plain.sqs[command->sq];
    uint64_t first_tag = at_start[command->number % COUNT_OF(at_start)].first_tag;

    happens(POSTED_0, was->phase == 0);
    happens(POSTED_1, was->phase == 1);
    happens(CQ_WRAPS, was->tail == was->size - 1);
    happens(POSTED_GIVEN, command->verdict == 0 && status != 0);
    happens(POSTED_VERDICT, command->verdict != 0 && command->verdict != BELLRAFTER_STATUS_FAILED_FUSED);
    happens(POSTED_09, command->verdict == BELLRAFTER_STATUS_FAILED_FUSED);
    happens(TAG_REUSED, command->second_half && plain.commands[first_tag].outstanding);
    happens(OUT_OF_ORDER, older_outstanding(command->number));
    happens(NUMBER_ABOVE_TAGS, command->number > 63);
    happens(SQHD_MOVED, sq->head != at_start[command->number % COUNT_OF(at_start)].head);
    happens(MARKED_FINISHES, sq->marked);
}

static void finish(uint64_t damage)
{
    uint64_t tag = once_in(damage) ? (once_in(2) ? beyond(64) : below(64)) : draw_tag(below(64));
    uint64_t status = once_in(damage) ? beyond(32768) : once_in(3) ? below(32768) : 0;
    size_t lent = once_in(damage) ? draw_lent() : MEMORY;
    struct ref_command command = plain.commands[tag % 64];
    struct ref_cq cq = plain.cqs[plain.sqs[command.sq].cq];
    struct bellrafter_finish f = twin_finish(lent, tag, status, (uint32_t)any_number());

    answers(FINISH, f.refusal);
    happens(SHORT_DONE, f.refusal == 0 && lent < MEMORY);
    if (f.refusal == 0)
        note_posted(&command, &cq, status);
}

/* Deletions. Each of the two answers whether it was done. */

/* Whether the SQ holds the turn of its group, and some of it is left. */
static bool holds_turn(uint64_t id)
{
    const struct ref_group *group = &plain.groups[plain.mechanism == 0 ? GROUP : plain.sqs[id].priority_class];

    return plain.sqs[id].exists && group->holder == id && group->remainder > 0;
}

static bool delete_sq(uint64_t id)
{
    struct ref_sq was = plain.sqs[id % 16];
    bool holder = holds_turn(id % 16);
    uint64_t refusal = twin_delete_sq(id);

    answers(DELETE_SQ, refusal);
    happens(DELETED_UNSTARTED, refusal == 0 && was.head != was.tail);
    happens(DELETED_MARKED, refusal == 0 && was.marked);
    happens(DELETED_BESIDE, refusal == 0 && free_tags() < 64);
    happens(DELETED_HOLDER, refusal == 0 && holder);
    return refusal == 0;
}

static bool delete_cq(uint64_t id)
{
    struct ref_cq was = plain.cqs[id % 16];
    uint64_t refusal = twin_delete_cq(id);

    answers(DELETE_CQ, refusal);
    happens(DELETED_UNREAD, refusal == 0 && was.head != was.tail);
    happens(DELETED_PHASE_0, refusal == 0 && was.phase == 0);
    return refusal == 0;
}

/* An SQ other than 0 of which no command is outstanding, if there is one; often it holds a turn. */
static uint64_t idle_sq(void)
{
    bool busy[16] = {true};
    uint64_t from = once_in(2) ? plain.groups[below(GROUPS)].holder : below(16);

    for (int tag = 0; tag < 64; tag++)
        busy[plain.commands[tag].sq] |= plain.commands[tag].outstanding;
    for (uint64_t i = 0; i < 16; i++) {
        uint64_t id = (from + i) % 16;
        if (plain.sqs[id].exists && !busy[id])
            return id;
    }
    return draw_sq(0);
}

/* A deleted SQ is created again, and used at once: it may hold the turn still. */
static void create_sq_again(uint64_t id, uint64_t from, uint64_t damage)
{
    create_sq(id, from, damage);
    if (!plain.sqs[id].exists)
        return;
    bool holder = holds_turn(id);
    submit_to(id);
    start(damage);
    happens(SQ_AGAIN, true);
    happens(HOLDER_AGAIN, holder && plain.sqs[id].head != 0);
}

static void renew_sq(uint64_t id, uint64_t damage)
{
    uint64_t base = plain.sqs[id].base;

    if (!delete_sq(id) || once_in(4))
        return;
    create_sq_again(id, once_in(2) ? base / 4096 : any_page(), damage);
    happens(SQ_ON_SQ, plain.sqs[id].exists && plain.sqs[id].base == base);
}

/*
 * A cleaning shift: the SQs that name a CQ are deleted, and then the CQ. As a rule all of them are created again, also
 * where another of them was.
 */
static void clean(uint64_t cq, uint64_t damage)
{
    uint64_t base = plain.cqs[cq].base, sq_base = base;
    bool gone[16] = {false};

    for (uint64_t id = 1; id < 16; id++) {
        uint64_t at = plain.sqs[id].base;
        gone[id] = plain.sqs[id].exists && plain.sqs[id].cq == cq && delete_sq(id);
        sq_base = gone[id] ? at : sq_base;
    }
    if (delete_cq(cq) && !once_in(4)) {
        create_cq(cq, (once_in(2) ? sq_base : base) / 4096, damage);
        happens(CQ_AGAIN, plain.cqs[cq].exists);
        happens(CQ_ON_SQ, plain.cqs[cq].exists && plain.cqs[cq].base == sq_base && sq_base != base);
        happens(CQ_ON_CQ, plain.cqs[cq].exists && plain.cqs[cq].base == base);
    }
    for (uint64_t id = 1; id < 16; id++) {
        if (!gone[id] || once_in(4))
            continue;
        create_sq_again(id, (once_in(2) ? sq_base : base) / 4096, damage);
        happens(SQ_ON_CQ, plain.sqs[id].exists && plain.sqs[id].base == base);
    }
}

/* A deletion, whatever the id, or one that is likely to be done. */
static void delete_some(uint64_t damage)
{
    uint64_t any = once_in(2) ? beyond(16) : below(16);

    if (once_in(6))
        delete_sq(any);
    else if (once_in(6))
        delete_cq(any);
    else if (once_in(2))
        clean(once_in(2) ? draw_cq(0) : plain.sqs[idle_sq()].cq, damage);
    else
        renew_sq(once_in(4) ? draw_sq(0) : idle_sq(), damage);
}

/* One step of a mood: how often, out of 64, entries are submitted, commands started, finished, completions released. */
struct mood {
    uint64_t submits, starts, finishes, releases, damage;
};

static const struct mood moods[] = {
    {16, 18, 14, 13, 48}, /* balanced */
    {24, 28, 5, 5, 64},   /* hoarding tags */
    {6, 8, 26, 22, 64},   /* draining */
    {16, 18, 20, 7, 64},  /* a slow host: CQs run full */
    {12, 14, 14, 14, 5},  /* wrong arguments */
};

static void step(const struct mood *mood)
{
    uint64_t drawn = below(64);

    if (drawn < mood->submits)
        submit();
    else if ((drawn -= mood->submits) < mood->starts)
        start(mood->damage);
    else if ((drawn -= mood->starts) < mood->finishes)
        finish(mood->damage);
    else if ((drawn -= mood->finishes) < mood->releases)
        release();
    else if (once_in(3))
        write_head();
    else if (once_in(8))
        write_tail();
    else if (once_in(3))
        delete_some(mood->damage);
    else if (once_in(2))
        create_cq(unused_cq(), any_page(), 6);
    else
        create_sq(unused_sq(), any_page(), 6);
}

static void steps(uint64_t count)
{
    const struct mood *mood = &moods[below(COUNT_OF(moods))];

    for (uint64_t i = 0; i < count; i++) {
        step(mood);
        if (once_in(64))
            mood = &moods[below(COUNT_OF(moods))];
    }
}

/* Some CQs, and SQs that share them; the others are left for later. */
static void set_up(void)
{
    uint64_t cqs = 1 + below(3), sqs = 1 + below(12), sharing = 0;

    make_new(!once_in(32));
    if (!once_in(4))
        create_cq(0, any_page(), 64);
    for (uint64_t i = 0; i < cqs; i++)
        create_cq(1 + below(15), any_page(), 64);
    if (!once_in(3))
        create_sq(0, any_page(), 64);
    for (uint64_t i = 0; i < sqs; i++)
        create_sq(1 + below(15), any_page(), 64);
    for (int i = 1; i < 16; i++) {
        for (int j = 1; j < i; j++)
            sharing += plain.sqs[i].exists && plain.sqs[j].exists && plain.sqs[i].cq == plain.sqs[j].cq;
    }
    happens(SHARED_CQ, sharing > 0);
}

void draw_controller(uint64_t calls)
{
    twin_fill();
    set_up();
    steps(calls);
}

/* From a saved state the same calls give the same answers and leave the same state and memory; then others are made. */
static void episode(void)
{
    static struct saved before, after;

    draw_controller(200 + below(400));
    look_at_all();
    save_twin(&before);

    uint64_t place = random_place();
    answers_digest = 0;
    steps(150);
    look_at_all();
    uint64_t digest = answers_digest;
    compare_memories();
    save_twin(&after);

    go_back(&before);
    seed_random(place);
    answers_digest = 0;
    steps(150);
    look_at_all();
    require(digest == answers_digest, "the same calls from a saved state have other answers");
    compare_saved(&after);
    happens(BACK, true);
    steps(100);
    compare_memories();

    go_back(&before);
    steps(200);
    look_at_all();
    compare_memories();
    if (once_in(8))
        make_new(once_in(2));
}

void random_controllers(uint64_t calls)
{
    uint64_t first = calls_made, controllers = 0;

    while (answered_calls < calls) {
        guard_reads(controllers % 64 == 0);
        episode();
        controllers++;
    }
    guard_reads(false);
    printf("%" PRIu64 " controllers, %" PRIu64 " calls, and %" PRIu64 " looks and entries written\n", controllers,
           answered_calls, calls_made - first - answered_calls);
    report();
}
