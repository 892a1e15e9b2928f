/*
 * Fixed cases of the replay: the paper's whole case, every refusal that an answer record can have but 32, spare bytes,
 * short records, room for answers, start numbers. Each is made on the library and on the plain controller (twin.h), and
 * the answer records are also held to those that are written here.
 */
#include "twin.h"

enum { M = MEMORY, SQ_BASE = 0, CQ_BASE = 0x10000, RECORD = BELLRAFTER_RECORD_BYTES };

static struct saved here;
static uint8_t trace[ROOM], wanted[GUARD + ROOM];

static void set_up(uint64_t refusal)
{
    expect("setting up", of_number(0), of_number(refusal));
}

/* A fresh controller with SQ 1 and CQ 1, over a memory of zeros. */
static void fresh(uint64_t sq_size, uint64_t cq_size)
{
    twin_clear();
    set_up(twin_new(0, 0));
    set_up(twin_create_cq(M, 1, cq_size, CQ_BASE));
    set_up(twin_create_sq(M, 1, sq_size, SQ_BASE, 1, 0));
}

/* Ordinary commands in the slots of SQ 1 from one on; each has its slot as CID. */
static void commands(uint64_t slot, uint64_t count)
{
    for (uint64_t i = slot; i < slot + count; i++)
        twin_submit(SQ_BASE + 64 * i, (struct submitted){.opc = 2, .cid = i});
}

static void pair(uint64_t slot)
{
    twin_submit(SQ_BASE + 64 * slot, (struct submitted){.opc = 5, .fuse = 1, .cid = slot});
    twin_submit(SQ_BASE + 64 * (slot + 1), (struct submitted){.opc = 1, .fuse = 2, .cid = slot + 1});
}

/* One record, or one answer record: four bytes, and twelve zeros behind them. */
static uint8_t *put_record(uint8_t *at, const uint8_t *first_four)
{
    memset(at, 0, RECORD);
    memcpy(at, first_four, 4);
    return at + RECORD;
}

/* Records given by their first four bytes, as eight hexadecimal digits each, a space between; answers their bytes. */
static size_t put_records(uint8_t *at, const char *text)
{
    const uint8_t *from = at;

    for (; *text != '\0'; text += text[8] == ' ' ? 9 : 8) {
        unsigned byte[4];
        if (sscanf(text, "%2x%2x%2x%2x", &byte[0], &byte[1], &byte[2], &byte[3]) != 4)
            break;
        at = put_record(at, (const uint8_t[]){(uint8_t)byte[0], (uint8_t)byte[1], (uint8_t)byte[2], (uint8_t)byte[3]});
    }
    require(*text == '\0', "records as text");
    return (size_t)(at - from);
}

/* Replays the first bytes of `trace`. Where it is done, `wanted` has the answer records from GUARD on. */
static void replay(const char *what, size_t lent, size_t trace_bytes, size_t room, uint64_t refusal)
{
    uint64_t records = refusal == 0 ? (trace_bytes + RECORD - 1) / RECORD : 0;
    struct bellrafter_replay actual = twin_replay(what, lent, trace, trace_bytes, room);
    struct view view = {"answers", wanted, answer_room - GUARD, GUARD + room};

    memset(wanted, FRESH_ROOM, GUARD);
    memset(wanted + GUARD + RECORD * records, FRESH_ROOM, room - RECORD * records);
    compare(what, of_replay((struct bellrafter_replay){refusal, records}), of_replay(actual), &view, 1);
}

/* A replay of whole records that is done, with room for its answer records and no more. */
static void replayed(const char *what, size_t lent, const char *records, const char *answers)
{
    size_t bytes = put_records(trace, records);

    require(put_records(wanted + GUARD, answers) == bytes, "an answer record for each record");
    replay(what, lent, bytes, bytes, 0);
}

/* The paper's case, and what each call answers. */

static void whole_case(void)
{
    fresh(4, 4);
    commands(0, 1);
    replayed("whole case", M, "01010100 03000000 03000000", "01000100 03000000 030C0000");
}

/* A finish posts the value as status, and 0 as result. */
static void posted(uint64_t slot, uint16_t sqhd, uint16_t cid, uint16_t status)
{
    expect("posted by a replay", of_completion((struct bellrafter_completion){0, 0, sqhd, 1, cid, status, 1}),
           of_completion(bellrafter_completion_read(plain_memory + CQ_BASE + 16 * slot, 16)));
}

/* Tails, heads and slots above 255: a start and a finish, so many times, the first posting to `slot`. */
static void rounds(uint64_t count, uint64_t tag, uint64_t slot)
{
    uint8_t *record = trace, *answer = wanted + GUARD;

    for (uint64_t i = slot; i < slot + count; i++) {
        record = put_record(record, (const uint8_t[]){3, 0, 0, 0});
        answer = put_record(answer, (const uint8_t[]){3, 0, (uint8_t)tag, 0});
        record = put_record(record, (const uint8_t[]){4, (uint8_t)tag, 0, 0});
        answer = put_record(answer, (const uint8_t[]){4, 0, (uint8_t)i, (uint8_t)(i >> 8)});
    }
    replay("rounds", M, 2 * RECORD * count, 2 * RECORD * count, 0);
}

static void result_cases(void)
{
    fresh(1024, 1024);
    commands(0, 1023);
    pair(3);
    replayed("tail above 255", M, "01010302", "01000302");
    replayed("first tags", M, "03000000 03000000 03000000", "03000000 03000100 03000200");
    replayed("slots posted", M, "0402FF7F 04000501", "04000000 04000100");
    posted(0, 3, 2, 0x7FFF);
    posted(1, 3, 0, 0x0105);
    replayed("a pair's first tag", M, "03000000 03000000", "03000000 03000300");
    replayed("head", M, "02010100 02010200 02010200", "02000100 02000200 020A0000");
    replayed("a pair", M, "04023412 04000700 04020000", "04100000 04000200 04000300");
    posted(2, 6, 3, 7);
    posted(3, 6, 4, BELLRAFTER_STATUS_FAILED_FUSED);
    rounds(400, 0, 4);
    replayed("head above 255", M, "02010101 02010101 02019401 02019501 02019401",
             "02000101 020A0000 02009401 020A0000 020A0000");
    replayed("tail above 255, the value held", M, "01010302 01010402", "010A0000 010B0000");
}

/* "CQ size 2: one posting, then 17; head write 1; slot 1 with tag 1; head write 0; slot 0 with tag 0." */
static void small_cq(void)
{
    fresh(8, 2);
    commands(0, 4);
    replayed("CQ size 2", M,
             "01010400 03000000 03000000 03000000 04000000 04010000 02010100 04010000 02010000 04020000",
             "01000400 03000000 03000100 03000200 04000000 04110000 02000100 04000100 02000000 04000000");
    posted(1, 3, 1, 0);
    require(plain_memory[CQ_BASE + 14] == 0, "phase tag 0 in the second pass");
}

/* Refusals of the calls, in answer records. */

static void doorbell_cases(void)
{
    fresh(4, 4);
    commands(0, 3);
    save_twin(&here);
    replayed("tail, 1", M, "01100000 01FF0000 0110FFFF", "01010000 01010000 01010000");
    replayed("tail, 9", M, "01000000 01020100 010FFFFF", "01090000 01090000 01090000");
    replayed("head, 1", M, "02100000 02FF0100 0210FFFF", "02010000 02010000 02010000");
    replayed("head, 9", M, "02000000 02020000 020FFFFF", "02090000 02090000 02090000");
    replayed("head, 10", M, "02010000 02010100 02010400 0201FFFF", "020A0000 020A0000 020A0000 020A0000");
    replayed("start, 12", M, "03000000 03000000", "030C0000 030C0000");
    compare_saved(&here);
    replayed("a bad head does not count", M, "01010100 03000000 04000000 02010200 02010000 02010100 02010100",
             "01000100 03000000 04000000 020A0000 020A0000 02000100 020A0000");
    go_back(&here);
    replayed("tail, 10, which marks", M, "01010200 01010400 01010200 01010300 0101FFFF 03000000",
             "01000200 010A0000 010B0000 010B0000 010B0000 030C0000");
    go_back(&here);
    replayed("tail, 10, highest byte", M, "01010001 01010100", "010A0000 010B0000");
    go_back(&here);
    replayed("tail, 10, behind", M, "01010200 01010100 01010200", "01000200 010A0000 010B0000");
    go_back(&here);
    replayed("tail, 10, the value held", M, "01010200 01010200 01010200 01010300 03000000",
             "01000200 010A0000 010B0000 010B0000 030C0000");
    go_back(&here);
    replayed("tail, 10, 0 in a new SQ", M, "01010000 01010000 01010100 03000000",
             "010A0000 010B0000 010B0000 030C0000");
    go_back(&here);
    replayed("a marked SQ's command", M, "01010200 03000000 01010100 04000000 03000000",
             "01000200 03000000 010A0000 04000000 030C0000");
}

static void finish_cases(void)
{
    fresh(8, 2);
    pair(0);
    commands(2, 3);
    replayed("start a pair and two", M, "01010400 03000000 03000000 03000000", "01000400 03000000 03000200 03000300");
    save_twin(&here);
    replayed("finish, 14", M, "04040000 043F0000 04400000 04FF0000", "040E0000 040E0000 040E0000 040E0000");
    replayed("finish, 15", M, "04020080 0402FFFF", "040F0000 040F0000");
    replayed("finish, 16", M, "04010000", "04100000");
    replayed("finish, 14 before 15, 15 before 16", M, "0440FFFF 04010080", "040E0000 040F0000");
    compare_saved(&here);
    replayed("finish, 17", M, "0402FF7F 04030000 04000000", "04000000 04110000 04110000");
    posted(0, 4, 2, 0x7FFF);
    replayed("finish, 15 and 16 before 17", M, "0403FFFF 04010000", "040F0000 04100000");
}

/* All tags taken, then one free and a pair; 13 changes no turn. */
static void tag_cases(void)
{
    uint8_t *record = trace, *answer = wanted + GUARD;

    fresh(128, 128);
    commands(0, 63);
    pair(63);
    commands(65, 1);
    set_up(twin_tail(1, 66));
    for (uint8_t tag = 0; tag < 63; tag++) {
        record = put_record(record, (const uint8_t[]){3, 0, 0, 0});
        answer = put_record(answer, (const uint8_t[]){3, 0, tag, 0});
    }
    replay("start 63", M, 63 * RECORD, 63 * RECORD, 0);
    replayed("start, 13", M, "03000000 03000000 04110000 03000000 03000000 04050000 03000000",
             "030D0000 030D0000 04000000 03001100 030D0000 04000100 03000500");
}

/* SQ 1 in the first 256 bytes, CQ 1 in 64 behind a gap: a start and a finish want them all. */
static void memory_cases(void)
{
    static const size_t short_by[] = {1, 64, CQ_BASE, CQ_BASE + 63, CQ_BASE + 64};

    fresh(4, 4);
    commands(0, 3);
    replayed("two started", M, "01010200 03000000 03000000", "01000200 03000000 03000100");
    replayed("one posted", CQ_BASE + 64, "04000000", "04000000");
    save_twin(&here);
    for (size_t i = 0; i < COUNT_OF(short_by); i++) {
        size_t lent = CQ_BASE + 64 - short_by[i];
        replayed("5 in a short memory, before 12, 14, 15", lent, "03000000 04010000 04400000 0401FFFF",
                 "03050000 04050000 04050000 04050000");
        compare_saved(&here);
        replayed("doorbells in a short memory", lent, "01010300 03000000 02010100 04010000",
                 "01000300 03050000 02000100 04050000");
        go_back(&here);
    }
    replayed("memory to the last ring's end", CQ_BASE + 64, "01010300 03000000 04010000 02010200",
             "01000300 03000000 04000100 02000200");
}

/* A replay's starts get start numbers as all others do; its answer records do not tell them. */

static void number(const char *what, uint64_t tag, uint64_t wanted_number)
{
    expect(what, of_number(wanted_number), of_number(twin_look_command(tag).number));
}

static void number_cases(void)
{
    fresh(8, 8);
    commands(0, 7);
    pair(1);
    replayed("numbers 0 to 3", M, "01010700 03000000 03010000 03000000 03000000",
             "01000700 03000000 031E0000 03000100 03000300");
    number("one replayed", 0, 0);
    number("first half replayed", 1, 1);
    number("second half replayed", 2, 2);
    number("one replayed behind a pair", 3, 3);
    expect("a start after a replay", of_start((struct bellrafter_start){0, 1, 1, 4, 0, 4, 0, 4}),
           of_start(twin_start(M)));
    replayed("number 5 with tag 0", M, "04000000 03000000", "04000000 03000000");
    replayed("number 6 with tag 3", M, "04030000 03000000 03000000", "04000100 03000300 030C0000");
    replayed("5 uses no number", 0, "03000000", "03050000");
    number("a tag used again in a replay", 0, 5);
    number("another one, behind a finish", 3, 6);
    expect("a finish after a replay", of_finish((struct bellrafter_finish){0, 2, 6}),
           of_finish(twin_finish(M, 3, 0, 0)));
    twin_submit(SQ_BASE + 64 * 7, (struct submitted){.opc = 2, .cid = 7});
    set_up(twin_tail(1, 0));
    expect("7 after refused starts of replays", of_start((struct bellrafter_start){0, 1, 1, 3, 0, 7, 0, 7}),
           of_start(twin_start(M)));
}

/* Records that are refused by themselves. The controller stands so that each of these is done, one for each call. */

static const char *const good_records[] = {"01010400", "02010100", "03000000", "04000500"};
static const char *const good_answers[] = {"01000400", "02000100", "03000100", "04000100"};

static void two_started_one_posted(void)
{
    fresh(8, 4);
    commands(0, 4);
    replayed("one posted", M, "01010100 03000000 04000000", "01000100 03000000 04000000");
    replayed("one outstanding", M, "01010200 03000000 01010300", "01000200 03000000 01000300");
    save_twin(&here);
}

/* The record in `trace` is answered with 30 and changes nothing; the good one behind it is done. */
static void refused_alone(const char *what, size_t good)
{
    put_record(wanted + GUARD, (const uint8_t[]){trace[0], BELLRAFTER_RECORD, 0, 0});
    replay(what, M, RECORD, RECORD, 0);
    compare_saved(&here);
    put_records(trace + RECORD, good_records[good]);
    put_record(wanted + GUARD, (const uint8_t[]){trace[0], BELLRAFTER_RECORD, 0, 0});
    put_records(wanted + GUARD + RECORD, good_answers[good]);
    replay("30 goes on", M, 2 * RECORD, 2 * RECORD, 0);
    go_back(&here);
}

static void call_numbers(void)
{
    for (unsigned call = 0; call < 256; call++) {
        if (call >= 1 && call <= 4)
            continue;
        put_record(trace, (const uint8_t[]){(uint8_t)call, call % 2, 2 * (call % 2), 0}); /* with numbers or without */
        refused_alone("unknown call", 2);
    }
}

static void spare_bytes(void)
{
    static const uint8_t values[] = {0x01, 0x80, 0xFF};

    for (size_t call = 1; call <= 4; call++) {
        for (size_t at = call == 3 ? 1 : 4; at < RECORD; at++) {
            for (size_t i = 0; i < COUNT_OF(values); i++) {
                put_records(trace, good_records[call - 1]);
                trace[at] = values[i];
                refused_alone("spare byte", call - 1);
            }
        }
    }
    put_records(trace, "01010800"); /* a bad tail value */
    trace[15] = 1;
    refused_alone("30 before 10, which would mark", 0);
    put_records(trace, "01100000");
    trace[4] = 1;
    refused_alone("30 before 1", 0);
}

/* A last short record of each length, after a good one: its first byte may be anything, its others too. */
static void short_records(void)
{
    for (size_t call = 1; call <= 4; call++) {
        for (size_t bytes = 1; bytes < RECORD; bytes++) {
            put_records(trace, good_records[call - 1]);
            put_record(wanted + GUARD, (const uint8_t[]){trace[0], BELLRAFTER_RECORD_SHORT, 0, 0});
            replay("short record alone", M, bytes, RECORD, 0);
            compare_saved(&here);

            put_records(trace, good_records[call - 1]);
            memset(trace + RECORD, 0xFF, RECORD);
            trace[RECORD] = (uint8_t)(63 * call + bytes); /* a call or not */
            put_records(wanted + GUARD, good_answers[call - 1]);
            put_record(wanted + GUARD + RECORD, (const uint8_t[]){trace[RECORD], BELLRAFTER_RECORD_SHORT, 0, 0});
            replay("31 before 30", M, RECORD + bytes, 2 * RECORD, 0);
            go_back(&here);
        }
    }
    put_records(trace, "00000000 03000000");
    put_record(wanted + GUARD, (const uint8_t[]){0, BELLRAFTER_RECORD, 0, 0});
    put_record(wanted + GUARD + RECORD, (const uint8_t[]){3, BELLRAFTER_RECORD_SHORT, 0, 0});
    replay("30, then 31", M, 2 * RECORD - 1, 2 * RECORD, 0);
    compare_saved(&here);
}

/* Room: too little by one byte, by a record, none at all; exact; more. */

static void one_room(size_t trace_bytes, size_t room, bool enough)
{
    put_records(trace, "04000500 02010200 03000000 01010800");
    put_records(wanted + GUARD, "04000100 02000200 03000000 010A0000");
    if (trace_bytes % RECORD > 0) {
        size_t last = trace_bytes / RECORD * RECORD;
        put_record(wanted + GUARD + last, (const uint8_t[]){trace[last], BELLRAFTER_RECORD_SHORT, 0, 0});
    }
    replay("room", M, trace_bytes, room, enough ? 0 : BELLRAFTER_BUFFER);
    if (!enough)
        compare_saved(&here);
    go_back(&here);
}

static void room_cases(void)
{
    for (size_t trace_bytes = 0; trace_bytes <= 4 * RECORD; trace_bytes++) {
        size_t need = (trace_bytes + RECORD - 1) / RECORD * RECORD;
        if (need > 0) {
            one_room(trace_bytes, need - 1, false);
            one_room(trace_bytes, need - RECORD, false);
            one_room(trace_bytes, 0, false);
        }
        one_room(trace_bytes, need, true);
        one_room(trace_bytes, need + 1, true);
        one_room(trace_bytes, need + RECORD, true);
    }
}

void replay_cases(void)
{
    for (int round = 0; round < 2; round++) { /* the second time with what is const read-only */
        guard_reads(round == 1);
        whole_case();
        result_cases();
        small_cq();
        doorbell_cases();
        finish_cases();
        tag_cases();
        number_cases();
        memory_cases();
        two_started_one_posted();
        call_numbers();
        spare_bytes();
        short_records();
        room_cases();
    }
    guard_reads(false);
}
