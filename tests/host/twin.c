#include "twin.h"

#include "reference.h"

struct ref_controller plain;
uint8_t plain_memory[MEMORY];
uint64_t calls_made;
uint64_t answers_digest;
const uint8_t *answer_room;

enum {
    STATE_BYTES = 8 * BELLRAFTER_STATE_WORDS,
    /* Rings are short as a rule, so all that they hold lies in the first bytes of each page. */
    LOOKED_AT = 576,
    /* Memory is compared whole after so many calls. */
    WHOLE_EVERY = 64,
    UNTOUCHED = 0xA5
};

static struct guarded state_area, memory_area, short_area, trace_area, answer_area;
static uint64_t *state;
static uint64_t before[BELLRAFTER_STATE_WORDS];
static bool guarding;

/* Puts the state right before the guard page, or so many words before it. */
static void place_state(size_t words)
{
    memset(state_area.bytes, UNTOUCHED, state_area.room);
    state = (uint64_t *)(void *)last_bytes(state_area, STATE_BYTES + 8 * words);
}

void open_twin(void)
{
    state_area = guarded_bytes(STATE_BYTES + 64);
    memory_area = guarded_bytes(MEMORY);
    short_area = guarded_bytes(MEMORY);
    trace_area = guarded_bytes(ROOM);
    answer_area = guarded_bytes(GUARD + ROOM);
    place_state(0);
}

void guard_reads(bool yes)
{
    guarding = yes;
}

/* The memory that the library is lent: all of it, or a copy of its first bytes. */
static uint8_t *lend(size_t bytes)
{
    if (bytes == MEMORY)
        return memory_area.bytes;
    memcpy(last_bytes(short_area, bytes), memory_area.bytes, bytes);
    return bytes > 0 ? last_bytes(short_area, bytes) : NULL;
}

static void take_back(size_t bytes)
{
    if (bytes != MEMORY)
        memcpy(memory_area.bytes, last_bytes(short_area, bytes), bytes);
}

static void protect(bool yes, bool state_too)
{
    if (!guarding)
        return;
    read_only(memory_area, yes);
    read_only(short_area, yes);
    if (state_too)
        read_only(state_area, yes);
}

static bool all_untouched(const uint8_t *from, const uint8_t *to)
{
    while (from < to && *from == UNTOUCHED)
        from++;
    return from == to;
}

/* The bytes before and behind the state: the nearest, or all. */
static bool around_untouched(bool all)
{
    const uint8_t *first = (const uint8_t *)state, *end = first + STATE_BYTES;

    return all_untouched(all ? state_area.bytes : first - 64, first) &&
           all_untouched(end, state_area.bytes + state_area.room);
}

static bool memories_equal(bool all)
{
    if (all)
        return memcmp(memory_area.bytes, plain_memory, MEMORY) == 0;
    for (size_t at = 0; at < MEMORY; at += 4096) {
        if (memcmp(memory_area.bytes + at, plain_memory + at, LOOKED_AT) != 0)
            return false;
    }
    return true;
}

/* A call as it is shown where it went wrong. */
struct call {
    const char *name;
    size_t count;
    uint64_t number[6];
};

static void show(const struct call *call, const char *what, struct answer wanted, struct answer actual)
{
    char text[240];
    int at = snprintf(text, sizeof text, "call %" PRIu64 ", %s", calls_made, call->name);

    for (size_t i = 0; i < call->count; i++)
        at += snprintf(text + at, sizeof text - (size_t)at, " %" PRIu64, call->number[i]);
    snprintf(text + at, sizeof text - (size_t)at, ": %s", what);
    if (memcmp(wanted.number, actual.number, sizeof wanted.number) != 0)
        expect(text, wanted, actual);
    else
        require(false, text);
}

/* One expectation. `may_change`: whether the call may change the state, by what it answered. */
static void settle(const struct call *call, struct answer wanted, struct answer actual, bool may_change)
{
    bool all = ++calls_made % WHOLE_EVERY == 0;

    for (size_t i = 0; i < actual.count; i++)
        answers_digest = (answers_digest ^ actual.number[i]) * UINT64_C(0x100000001B3);
    if (memcmp(wanted.number, actual.number, sizeof wanted.number) != 0)
        show(call, "answer", wanted, actual);
    else if (!may_change && memcmp(before, state, STATE_BYTES) != 0)
        show(call, "a word of the state has changed", wanted, actual);
    else if (!around_untouched(all))
        show(call, "bytes beside the state have changed", wanted, actual);
    else if (!memories_equal(all))
        show(call, "the memories differ", wanted, actual);
    else
        passed++;
}

static void remember(void)
{
    memcpy(before, state, STATE_BYTES);
}

/* Looks: the state may not change. */

static struct bellrafter_sq look_sq(uint64_t id)
{
    protect(true, true);
    struct bellrafter_sq actual = bellrafter_look_sq(state, id);
    protect(false, true);
    settle(&(struct call){"look_sq", 1, {id}}, of_sq(ref_look_sq(&plain, id)), of_sq(actual), false);
    return actual;
}

static struct bellrafter_cq look_cq(uint64_t id)
{
    protect(true, true);
    struct bellrafter_cq actual = bellrafter_look_cq(state, id);
    protect(false, true);
    settle(&(struct call){"look_cq", 1, {id}}, of_cq(ref_look_cq(&plain, id)), of_cq(actual), false);
    return actual;
}

static struct bellrafter_command look_command(uint64_t tag)
{
    protect(true, true);
    struct bellrafter_command actual = bellrafter_look_command(state, tag);
    protect(false, true);
    settle(&(struct call){"look_command", 1, {tag}}, of_command(ref_look_command(&plain, tag)), of_command(actual),
           false);
    return actual;
}

static struct bellrafter_arbiter look_arbiter(void)
{
    protect(true, true);
    struct bellrafter_arbiter actual = bellrafter_look_arbiter(state);
    protect(false, true);
    settle(&(struct call){"look_arbiter", 0, {0}}, of_arbiter(ref_look_arbiter(&plain)), of_arbiter(actual), false);
    return actual;
}

void look_at_all(void)
{
    static const uint64_t tops[] = {255, 256, 65536, (uint64_t)1 << 32, UINT64_MAX};

    remember();
    for (uint64_t id = 0; id <= 16; id++) {
        look_sq(id);
        look_cq(id);
    }
    for (uint64_t tag = 0; tag <= 64; tag++)
        look_command(tag);
    for (size_t i = 0; i < COUNT_OF(tops); i++) {
        look_sq(tops[i]);
        look_cq(tops[i]);
        look_command(tops[i]);
    }
    look_arbiter();
}

struct bellrafter_sq twin_look_sq(uint64_t id)
{
    remember();
    return look_sq(id);
}

struct bellrafter_cq twin_look_cq(uint64_t id)
{
    remember();
    return look_cq(id);
}

struct bellrafter_command twin_look_command(uint64_t tag)
{
    remember();
    return look_command(tag);
}

struct bellrafter_arbiter twin_look_arbiter(void)
{
    remember();
    return look_arbiter();
}

/* The calls. Each is followed by looks at what it may have changed. */

/* Every word is written: over whatever there was before, the state becomes the same. */
uint64_t twin_new(uint64_t mechanism, uint32_t word)
{
    struct call call = {"controller_new", 2, {mechanism, word}};

    memset(before, (int)(calls_made % 256), STATE_BYTES);
    bellrafter_controller_new(before, mechanism, word);
    uint64_t actual = bellrafter_controller_new(state, mechanism, word);
    settle(&call, of_number(ref_controller_new(&plain, mechanism, word)), of_number(actual), false);
    look_arbiter();
    return actual;
}

uint64_t twin_create_cq(size_t lent, uint64_t id, uint64_t size, uint64_t base)
{
    struct call call = {"create_cq", 4, {lent, id, size, base}};
    const uint8_t *memory = lend(lent);

    remember();
    protect(true, false);
    uint64_t actual = bellrafter_create_cq(state, memory, lent, id, size, base);
    protect(false, false);
    take_back(lent);
    settle(&call, of_number(ref_create_cq(&plain, lent, id, size, base)), of_number(actual), actual == 0);
    remember();
    look_cq(id);
    return actual;
}

uint64_t twin_create_sq(size_t lent, uint64_t id, uint64_t size, uint64_t base, uint64_t cq, uint64_t priority_class)
{
    struct call call = {"create_sq", 6, {lent, id, size, base, cq, priority_class}};
    const uint8_t *memory = lend(lent);

    remember();
    protect(true, false);
    uint64_t actual = bellrafter_create_sq(state, memory, lent, id, size, base, cq, priority_class);
    protect(false, false);
    take_back(lent);
    settle(&call, of_number(ref_create_sq(&plain, lent, id, size, base, cq, priority_class)), of_number(actual),
           actual == 0);
    remember();
    look_sq(id);
    return actual;
}

uint64_t twin_delete_sq(uint64_t id)
{
    struct call call = {"delete_sq", 1, {id}};

    remember();
    uint64_t actual = bellrafter_delete_sq(state, id);
    settle(&call, of_number(ref_delete_sq(&plain, id)), of_number(actual), actual == 0);
    remember();
    look_sq(id);
    look_arbiter();
    return actual;
}

uint64_t twin_delete_cq(uint64_t id)
{
    struct call call = {"delete_cq", 1, {id}};

    remember();
    uint64_t actual = bellrafter_delete_cq(state, id);
    settle(&call, of_number(ref_delete_cq(&plain, id)), of_number(actual), actual == 0);
    remember();
    look_cq(id);
    return actual;
}

uint64_t twin_tail(uint64_t id, uint64_t value)
{
    struct call call = {"tail_write", 2, {id, value}};

    remember();
    uint64_t actual = bellrafter_tail_write(state, id, value);
    settle(&call, of_number(ref_tail_write(&plain, id, value)), of_number(actual),
           actual == 0 || actual == BELLRAFTER_DOORBELL);
    remember();
    look_sq(id);
    return actual;
}

uint64_t twin_head(uint64_t id, uint64_t value)
{
    struct call call = {"head_write", 2, {id, value}};

    remember();
    uint64_t actual = bellrafter_head_write(state, id, value);
    settle(&call, of_number(ref_head_write(&plain, id, value)), of_number(actual), actual == 0);
    remember();
    look_cq(id);
    return actual;
}

struct bellrafter_start twin_start(size_t lent)
{
    struct call call = {"start", 1, {lent}};
    const uint8_t *memory = lend(lent);

    remember();
    protect(true, false);
    struct bellrafter_start actual = bellrafter_start(state, memory, lent);
    protect(false, false);
    take_back(lent);
    settle(&call, of_start(ref_start(&plain, plain_memory, lent)), of_start(actual), actual.refusal == 0);
    remember();
    if (actual.refusal == 0) {
        look_sq(actual.sq);
        look_command(actual.first);
        look_command(actual.second);
        look_arbiter();
    }
    return actual;
}

struct bellrafter_finish twin_finish(size_t lent, uint64_t tag, uint64_t status, uint32_t result)
{
    struct call call = {"finish", 4, {lent, tag, status, result}};
    struct bellrafter_command command = ref_look_command(&plain, tag);
    uint8_t *memory = lend(lent);

    remember();
    struct bellrafter_finish actual = bellrafter_finish(state, memory, lent, tag, status, result);
    take_back(lent);
    settle(&call, of_finish(ref_finish(&plain, plain_memory, lent, tag, status, result)), of_finish(actual),
           actual.refusal == 0);
    remember();
    look_command(tag);
    if (actual.refusal == 0)
        look_cq(plain.sqs[command.sq % 16].cq);
    return actual;
}

struct bellrafter_replay twin_replay(const char *what, size_t lent, const uint8_t *trace, size_t trace_bytes,
                                     size_t room)
{
    static uint8_t plain_answers[GUARD + ROOM];
    struct call call = {"replay", 3, {lent, trace_bytes, room}};
    uint8_t *memory = lend(lent), *sent = last_bytes(trace_area, trace_bytes), *answers = last_bytes(answer_area, room);
    struct view view = {"answers", plain_answers, answers - GUARD, GUARD + room};

    memcpy(sent, trace, trace_bytes);
    memset(answers - GUARD, FRESH_ROOM, GUARD + room);
    memset(plain_answers, FRESH_ROOM, sizeof plain_answers);
    remember();
    if (guarding)
        read_only(trace_area, true);
    struct bellrafter_replay actual = bellrafter_replay(state, memory, lent, trace_bytes > 0 ? sent : NULL, trace_bytes,
                                                      room > 0 ? answers : NULL, room);
    if (guarding)
        read_only(trace_area, false);
    take_back(lent);
    struct bellrafter_replay wanted =
        ref_replay(&plain, plain_memory, lent, trace, trace_bytes, plain_answers + GUARD, room);
    settle(&call, of_replay(wanted), of_replay(actual), actual.refusal == 0);
    compare(what, of_replay(wanted), of_replay(actual), &view, 1);
    require(memcmp(sent, trace, trace_bytes) == 0, "the trace has changed");
    compare_memories();
    look_at_all();
    answer_room = answers;
    return actual;
}

/* Memory. */

void twin_submit(uint64_t at, struct submitted s)
{
    uint64_t o = s.others;

    remember();
    uint64_t actual = bellrafter_submission_write(
        memory_area.bytes + at, 64, (uint8_t)s.opc, s.fuse, s.psdt, (uint16_t)s.cid, (uint32_t)s.nsid, o, ~o, o << 8,
        s.slba, (uint16_t)s.nlb, (uint16_t)(o >> 16), (uint32_t)(o >> 8), (uint32_t)o, (uint32_t)(o >> 32));
    uint64_t wanted = ref_submission_write(
        plain_memory + at, 64, (uint8_t)s.opc, s.fuse, s.psdt, (uint16_t)s.cid, (uint32_t)s.nsid, o, ~o, o << 8,
        s.slba, (uint16_t)s.nlb, (uint16_t)(o >> 16), (uint32_t)(o >> 8), (uint32_t)o, (uint32_t)(o >> 32));
    settle(&(struct call){"submission_write", 1, {at}}, of_number(wanted), of_number(actual), false);
}

void twin_poke(uint64_t at, const uint8_t *bytes, size_t count)
{
    memcpy(memory_area.bytes + at, bytes, count);
    memcpy(plain_memory + at, bytes, count);
}

void twin_clear(void)
{
    memset(plain_memory, 0, MEMORY);
    memset(memory_area.bytes, 0, MEMORY);
}

void twin_fill(void)
{
    fill_random(plain_memory, MEMORY);
    memcpy(memory_area.bytes, plain_memory, MEMORY);
}

void compare_memories(void)
{
    require(memories_equal(true), "the memories differ somewhere");
}

/* Saved states. */

void save_twin(struct saved *saved)
{
    memcpy(saved->state, state, STATE_BYTES);
    memcpy(saved->memory, memory_area.bytes, MEMORY);
    memcpy(saved->plain_memory, plain_memory, MEMORY);
    saved->plain = plain;
}

void go_back(const struct saved *saved)
{
    place_state(last_bytes(state_area, STATE_BYTES) == (uint8_t *)state ? 1 : 0);
    memcpy(state, saved->state, STATE_BYTES);
    memcpy(memory_area.bytes, saved->memory, MEMORY);
    memcpy(plain_memory, saved->plain_memory, MEMORY);
    plain = saved->plain;
}

void compare_saved(const struct saved *saved)
{
    require(memcmp(state, saved->state, STATE_BYTES) == 0, "the state is not the saved one");
    require(memcmp(memory_area.bytes, saved->memory, MEMORY) == 0, "the memory is not the saved one");
}
