/*
 * Random replays, of traces that are sound and damaged, each made on the library and on the plain controller (twin.h).
 * A trace is drawn record by record from what the plain controller holds then, so that its calls lead somewhere. From
 * the same state one replay, the same calls one by one, and the trace cut into two replays give the same answer records
 * and leave the same state and memory.
 */
#include "draw.h"

enum { RECORD = BELLRAFTER_RECORD_BYTES, CALLS = 5 };

/* The calls that byte 0 of a record names, 0 standing for all that it does not know, and what each was answered. */
static const struct refusals refusals_of[CALLS] = {
    {"replayed unknown call", 2, {30, 31}},
    {"replayed tail_write", 7, {0, 1, 9, 11, 10, 30, 31}},
    {"replayed head_write", 6, {0, 1, 9, 10, 30, 31}},
    {"replayed start", 6, {0, 5, 12, 13, 30, 31}},
    {"replayed finish", 8, {0, 5, 14, 15, 16, 17, 30, 31}},
};

static const struct refusals refusals_of_replay = {"replay", 2, {0, 21}};

static uint64_t replied[CALLS][REFUSALS];
static uint64_t replay_refusals[REFUSALS];
static uint64_t record_count;

/* The trace, and the answer records of its replay. */
static uint8_t trace[ROOM], answers[ROOM];

/* One step of a mood: how often, out of 64, a record is a tail write, a head write, a start, or else a finish. */
struct mood {
    uint64_t tails, heads, starts, damage;
};

static const struct mood moods[] = {
    {20, 20, 12, 96}, /* balanced */
    {28, 8, 24, 128}, /* hoarding tags */
    {8, 28, 6, 128},  /* draining */
    {22, 8, 16, 128}, /* a slow host: CQs run full */
    {20, 20, 12, 5},  /* wrong records */
};

/* Drawing. `damage`: one in so many numbers is a wrong one, and one in so many records. */

static void draw_tail(uint8_t *record, uint64_t damage)
{
    uint64_t id = draw_sq(below(16));
    const struct ref_sq *sq = &plain.sqs[id];
    uint64_t value = sq->exists ? (sq->tail + below(room_in(sq) + 1)) % sq->size : below(4);

    if (once_in(damage))
        value = sq->exists && once_in(2) ? below(sq->size + 1) : any_number();
    record[0] = BELLRAFTER_CALL_TAIL_WRITE;
    record[1] = (uint8_t)(once_in(damage) ? below(once_in(2) ? 256 : 16) : id);
    put(record + 2, 2, value);
}

static void draw_head(uint8_t *record, uint64_t damage)
{
    uint64_t id = draw_cq(below(16));
    const struct ref_cq *cq = &plain.cqs[id];
    uint64_t waiting = cq->exists ? waiting_in(cq->size, cq->head, cq->tail) : 0;
    uint64_t value = cq->exists ? (cq->head + (once_in(2) ? waiting : below(waiting + 1))) % cq->size : 0;

    if (once_in(damage))
        value = cq->exists && once_in(2) ? below(cq->size + 1) : any_number();
    record[0] = BELLRAFTER_CALL_HEAD_WRITE;
    record[1] = (uint8_t)(once_in(damage) ? below(once_in(2) ? 256 : 16) : id);
    put(record + 2, 2, value);
}

static void draw_finish(uint8_t *record, uint64_t damage)
{
    uint64_t status = once_in(damage) ? beyond(32768) : once_in(3) ? below(32768) : 0;

    record[0] = BELLRAFTER_CALL_FINISH;
    record[1] = (uint8_t)(once_in(damage) ? below(once_in(2) ? 256 : 64) : draw_tag(below(64)));
    put(record + 2, 2, status);
}

static void damage_record(uint8_t *record)
{
    if (once_in(3))
        record[0] = (uint8_t)below(once_in(2) ? 8 : 256);
    else if (once_in(8))
        fill_random(record, RECORD);
    else
        record[1 + below(RECORD - 1)] |= (uint8_t)(1 + below(255));
}

static void draw_call(uint8_t *record, const struct mood *mood)
{
    uint64_t drawn = below(64);

    memset(record, 0, RECORD);
    if (drawn < mood->tails)
        draw_tail(record, mood->damage);
    else if ((drawn -= mood->tails) < mood->heads)
        draw_head(record, mood->damage);
    else if ((drawn -= mood->heads) < mood->starts)
        record[0] = BELLRAFTER_CALL_START;
    else
        draw_finish(record, mood->damage);
}

/* Whether a record writes the tail, or the head, that its queue holds. */
static bool writes_tail_held(const uint8_t *record)
{
    const struct ref_sq *sq = &plain.sqs[record[1] % 16];

    return record[0] == BELLRAFTER_CALL_TAIL_WRITE && record[1] < 16 && sq->exists &&
           ref_record_value(record) == sq->tail;
}

static bool writes_head_held(const uint8_t *record)
{
    const struct ref_cq *cq = &plain.cqs[record[1] % 16];

    return record[0] == BELLRAFTER_CALL_HEAD_WRITE && record[1] < 16 && cq->exists &&
           ref_record_value(record) == cq->head;
}

/* Few of the records that would write the value held are left: they mark the SQ, or move no head. */
static void draw_record(uint8_t *record, const struct mood *mood)
{
    do
        draw_call(record, mood);
    while ((writes_tail_held(record) && !once_in(64)) || (writes_head_held(record) && !once_in(16)));
    if (once_in(mood->damage))
        damage_record(record);
}

/* Entries behind the tails: nobody writes any during the replay. A tail that moves past them meets older ones. */
static void lay_out(void)
{
    for (uint64_t id = 0; id < 16; id++) {
        const struct ref_sq *sq = &plain.sqs[id];
        if (sq->exists && !once_in(4)) {
            uint64_t room = room_in(sq);
            draw_entries(id, room < 8 ? room : 8);
        }
    }
}

/* Draws a trace, moving the plain controller and its memory on by each record; answers its bytes. */
static size_t draw_trace(size_t lent)
{
    const struct mood *mood = &moods[below(COUNT_OF(moods))];
    size_t records = once_in(16) ? 0 : once_in(16) ? 64 + below(192) : 1 + below(40);
    uint8_t answer[RECORD];

    for (size_t i = 0; i < records; i++) {
        draw_record(trace + RECORD * i, mood);
        ref_replay(&plain, plain_memory, lent, trace + RECORD * i, RECORD, answer, RECORD);
        if (once_in(64))
            mood = &moods[below(COUNT_OF(moods))];
    }
    if (!once_in(4))
        return RECORD * records;
    draw_record(trace + RECORD * records, mood);
    if (once_in(3))
        damage_record(trace + RECORD * records);
    return RECORD * records + 1 + below(RECORD - 1);
}

/* Counting. */

static void note_records(size_t lent, size_t bytes)
{
    bool seen_10 = false, seen_30 = false, seen_5 = false;

    for (size_t at = 0; at < bytes; at += RECORD) {
        const uint8_t *record = trace + at, *answer = answers + at;
        uint8_t call = record[0], refusal = answer[1];
        replied[call >= 1 && call <= 4 ? call : 0][refusal % REFUSALS]++;
        note("30, call 0", refusal == 30 && call == 0);
        note("30, call above 4", refusal == 30 && call > 4);
        note("30, byte 1 to 3 of a start", refusal == 30 && call == 3 && (record[1] | record[2] | record[3]) != 0);
        note("30, byte 4 to 15",
             refusal == 30 && call >= 1 && call <= 4 && memcmp(record + 4, (const uint8_t[12]){0}, 12) != 0);
        note("done after 30", seen_30 && refusal == 0);
        note("11 after 10 in one replay", seen_10 && refusal == 11 && call == 1);
        note("doorbell done after 5", seen_5 && refusal == 0 && call <= 2);
        note("31 after whole records", refusal == 31 && at > 0);
        note("31 alone", refusal == 31 && at == 0);
        note("first tag above 31", refusal == 0 && call == 3 && answer[2] > 31);
        note("result above 255", refusal == 0 && answer[3] > 0);
        seen_10 = seen_10 || (refusal == 10 && call == 1);
        seen_30 = seen_30 || refusal == 30;
        seen_5 = seen_5 || refusal == 5;
        record_count++;
    }
    note("no record", bytes == 0);
    note("64 records and more", bytes >= 64 * RECORD);
    note("no memory", lent == 0 && bytes > 0);
    note("a part of memory", lent > 0 && lent < MEMORY && bytes > 0);
}

/* Replaying. */

static size_t room_for(size_t bytes)
{
    return (bytes + RECORD - 1) / RECORD * RECORD;
}

/* Too little room: 21, and nothing changes. */
static void refused(size_t lent, size_t bytes, const struct saved *before)
{
    size_t need = room_for(bytes), room = once_in(3) ? 0 : need - (once_in(2) ? 1 : 1 + below(need));

    replay_refusals[twin_replay("random replay, short room", lent, trace, bytes, room).refusal % REFUSALS]++;
    compare_saved(before);
    note("one byte short", room + 1 == need);
    note("no room", room == 0);
}

static void whole(size_t lent, size_t bytes)
{
    size_t more = once_in(4) ? 1 + below(3 * RECORD) : 0;

    replay_refusals[twin_replay("random replay", lent, trace, bytes, room_for(bytes) + more).refusal % REFUSALS]++;
    memcpy(answers, answer_room, room_for(bytes));
    note_records(lent, bytes);
    note("more room", more > 0);
}

/* The call of a good record by its own export. */
static uint64_t call_of_record(size_t lent, const uint8_t *record, uint64_t *result)
{
    uint64_t value = ref_record_value(record);

    if (record[0] == BELLRAFTER_CALL_START) {
        struct bellrafter_start s = twin_start(lent);
        *result = s.first;
        return s.refusal;
    }
    if (record[0] == BELLRAFTER_CALL_FINISH) {
        struct bellrafter_finish f = twin_finish(lent, record[1], value, 0);
        *result = f.slot;
        return f.refusal;
    }
    *result = value;
    return record[0] == BELLRAFTER_CALL_TAIL_WRITE ? twin_tail(record[1], value) : twin_head(record[1], value);
}

static void one_by_one(size_t lent, size_t bytes)
{
    for (size_t at = 0; at < bytes; at += RECORD) {
        uint8_t answer[RECORD];
        uint64_t result = 0, refusal = ref_record_refusal(trace + at, bytes - at);
        note("10, the tail held", refusal == 0 && writes_tail_held(trace + at) && answers[at + 1] == 10);
        note("10, the head held", refusal == 0 && writes_head_held(trace + at) && answers[at + 1] == 10);
        if (refusal == 0)
            refusal = call_of_record(lent, trace + at, &result);
        ref_answer_record(answer, trace[at], refusal, result);
        require(memcmp(answers + at, answer, RECORD) == 0, "a record is answered otherwise than its call");
    }
}

/* The trace in two parts, the first of so many bytes. */
static void in_two(size_t lent, size_t bytes, size_t first)
{
    twin_replay("random replay, first part", lent, trace, first, first);
    require(memcmp(answers, answer_room, first) == 0, "the first part is answered otherwise than the whole");
    twin_replay("random replay, second part", lent, trace + first, bytes - first, room_for(bytes - first));
    require(memcmp(answers + first, answer_room, room_for(bytes - first)) == 0,
            "the second part is answered otherwise than the whole");
    note("two parts of a trace", first > 0 && first < bytes);
}

static void replay(void)
{
    static struct saved before, after;
    size_t lent = once_in(6) ? draw_lent() : MEMORY;

    lay_out();
    save_twin(&before);
    size_t bytes = draw_trace(lent);

    go_back(&before);
    if (bytes > 0 && once_in(4))
        refused(lent, bytes, &before);
    whole(lent, bytes);
    save_twin(&after);

    go_back(&before);
    one_by_one(lent, bytes);
    look_at_all();
    compare_saved(&after);

    go_back(&before);
    in_two(lent, bytes, RECORD * below(bytes / RECORD + 1));
    compare_saved(&after);
}

void random_replays(uint64_t replays)
{
    for (uint64_t i = 0; i < replays; i++) {
        if (i % 8 == 0) {
            guard_reads(i % 256 == 0);
            draw_controller(100 + below(300));
        }
        replay();
    }
    guard_reads(false);
    printf("%" PRIu64 " replays, %" PRIu64 " records\n", replays, record_count);
    report_refusals(&refusals_of_replay, replay_refusals);
    for (int call = 0; call < CALLS; call++)
        report_refusals(&refusals_of[call], replied[call]);
    report_notes("replays");
}
