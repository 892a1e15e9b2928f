/*
 * Fixed cases of the deletions: every refusal, refusals that apply together, what is dropped, what may be used again,
 * what stays. Each call is made on the library and on the plain controller (twin.h), and the answer is also held to the
 * one that is written here.
 */
#include "wanted.h"

typedef uint64_t deletion(uint64_t id);

static struct saved here;

static void want_delete_sq(const char *what, uint64_t id, uint64_t refusal)
{
    want(what, refusal, twin_delete_sq(id));
}

static void want_delete_cq(const char *what, uint64_t id, uint64_t refusal)
{
    want(what, refusal, twin_delete_cq(id));
}

/* The memory is what was saved. */
static void same_memory(void)
{
    compare_memories();
    require(memcmp(plain_memory, here.plain_memory, M) == 0, "a deletion has changed the memory");
}

/* Starts and finishes commands with tag 0, one of each SQ named; the first one has start number `number`. */
static void serve(const char *what, const uint64_t *ids, size_t count, uint64_t number)
{
    for (size_t i = 0; i < count; i++, number++) {
        const struct ref_sq *sq = &plain.sqs[ids[i]];
        want_start(what, (struct bellrafter_start){0, ids[i], 1, 0, 0, sq->head, 0, number}, M);
        want_finish(what, M, 0, 0, plain.cqs[sq->cq].tail, number);
    }
}

/*
 * Refusals. SQ 0 names CQ 0, SQs 1 to 4 name CQ 1, SQ 15 names CQ 15, and none names CQ 2 or 14. A command of SQ 0 and
 * one of SQ 1 are outstanding, and one of SQ 2 waits in CQ 1; SQ 3 is new, two entries of SQ 4 are not started, and
 * SQ 15 is marked.
 */
static void exist(void)
{
    fresh(0, 0, 8);
    make_cq(2, 8);
    make_cq(14, 8);
    make_cq(15, 8);
    for (uint64_t id = 0; id <= 4; id++)
        make_sq(id, 4, 0);
    want("setting up", 0, twin_create_sq(M, 15, 4, sq_base(15), 15, 0));
    for (uint64_t id = 0; id <= 2; id++) {
        submit_plain(id, 7);
        want_start("setting up", (struct bellrafter_start){0, id, 1, id, 0, 0, 0, id}, M);
    }
    want_finish("setting up", M, 2, 0, 0, 2);
    submit_plain(4, 8);
    submit_plain(4, 9);
    want("marking", BELLRAFTER_DOORBELL, twin_tail(15, 4));
    save_twin(&here);
}

static const struct {
    const char *what;
    deletion *call;
    uint64_t id, refusal;
} refusal_cases[] = {
    {"delete SQ 3, new", twin_delete_sq, 3, 0},
    {"delete SQ 2, its completion waits", twin_delete_sq, 2, 0},
    {"delete SQ 4, two entries not started", twin_delete_sq, 4, 0},
    {"delete SQ 15, marked", twin_delete_sq, 15, 0},
    {"delete SQ 0, 35 before 33", twin_delete_sq, 0, BELLRAFTER_ADMIN},
    {"delete SQ 5, which never was", twin_delete_sq, 5, BELLRAFTER_NO_QUEUE},
    {"delete SQ 14, which never was", twin_delete_sq, 14, BELLRAFTER_NO_QUEUE},
    {"delete SQ 1, one outstanding", twin_delete_sq, 1, BELLRAFTER_SQ_BUSY},
    {"delete CQ 2, no SQ names it", twin_delete_cq, 2, 0},
    {"delete CQ 14, no SQ names it", twin_delete_cq, 14, 0},
    {"delete CQ 0, 35 before 34", twin_delete_cq, 0, BELLRAFTER_ADMIN},
    {"delete CQ 3, which never was", twin_delete_cq, 3, BELLRAFTER_NO_QUEUE},
    {"delete CQ 13, which never was", twin_delete_cq, 13, BELLRAFTER_NO_QUEUE},
    {"delete CQ 1, named", twin_delete_cq, 1, BELLRAFTER_CQ_NAMED},
    {"delete CQ 15, named by a marked SQ", twin_delete_cq, 15, BELLRAFTER_CQ_NAMED},
};

/* A deletion from there, and where it is done once more: 9 before 33 and 34. */
static void refusal_case(const char *what, deletion *call, uint64_t id, uint64_t refusal)
{
    go_back(&here);
    want(what, refusal, call(id));
    look_at_all();
    if (refusal != 0) {
        compare_saved(&here);
    } else {
        same_memory();
        want(what, BELLRAFTER_NO_QUEUE, call(id));
    }
}

/* 1 before all others: some of these ids would be 0, 1 or 15 in fewer bits. */
static void far_ids(void)
{
    static const uint64_t ids[] = {16, 17, 31, 32, 63, 64, 255, 256, 257, 271, 65535, 65536, 65537, UINT32_MAX,
                                   (uint64_t)1 << 32, ((uint64_t)1 << 32) + 1, (uint64_t)1 << 63, TOP - 15, TOP};

    for (size_t i = 0; i < COUNT_OF(ids); i++) {
        refusal_case("delete SQ, 1 before all others", twin_delete_sq, ids[i], BELLRAFTER_QUEUE_ID);
        refusal_case("delete CQ, 1 before all others", twin_delete_cq, ids[i], BELLRAFTER_QUEUE_ID);
    }
}

/* "Id 0 is never deleted (35)": also where there is none. */
static void admin_cases(void)
{
    twin_clear();
    want("setting up", 0, twin_new(0, 0));
    save_twin(&here);
    for (uint64_t id = 0; id < 16; id++) {
        uint64_t refusal = id == 0 ? BELLRAFTER_ADMIN : BELLRAFTER_NO_QUEUE;
        refusal_case("delete an SQ, 35 before 9", twin_delete_sq, id, refusal);
        refusal_case("delete a CQ, 35 before 9", twin_delete_cq, id, refusal);
    }
    make_cq(0, 4);
    save_twin(&here);
    refusal_case("delete CQ 0, no SQ names it", twin_delete_cq, 0, BELLRAFTER_ADMIN);
    refusal_case("delete SQ 0, which never was", twin_delete_sq, 0, BELLRAFTER_ADMIN);
    make_sq(0, 4, 0);
    save_twin(&here);
    refusal_case("delete SQ 0, new", twin_delete_sq, 0, BELLRAFTER_ADMIN);
    refusal_case("delete CQ 0, named", twin_delete_cq, 0, BELLRAFTER_ADMIN);
    want("marking", BELLRAFTER_DOORBELL, twin_tail(0, 0));
    save_twin(&here);
    refusal_case("delete SQ 0, marked", twin_delete_sq, 0, BELLRAFTER_ADMIN);
}

static void refusal_table(void)
{
    exist();
    for (size_t i = 0; i < COUNT_OF(refusal_cases); i++)
        refusal_case(refusal_cases[i].what, refusal_cases[i].call, refusal_cases[i].id, refusal_cases[i].refusal);
    far_ids();
    admin_cases();
}

/* 33: until the last command is finished, be it half of a pair or one with a verdict. Those of others do not count. */

static void busy_cases(void)
{
    fresh(0, 7, 8);
    make_sq(1, 8, 0);
    make_sq(2, 8, 0);
    submit_pair(1, 1, 2);
    submit(1, (struct submitted){.fuse = 3, .cid = 3});
    submit_plain(1, 4);
    submit_plain(1, 5);
    submit_plain(2, 1);
    want_start("a pair", (struct bellrafter_start){0, 1, 2, 0, 1, 0, 0, 0}, M);
    want_start("with a verdict", (struct bellrafter_start){0, 1, 1, 2, 0, 2, INVALID_FIELD, 2}, M);
    want_start("a good one", (struct bellrafter_start){0, 1, 1, 3, 0, 3, 0, 3}, M);
    want("marking", BELLRAFTER_DOORBELL, twin_tail(1, 8));
    want_start("of another SQ", (struct bellrafter_start){0, 2, 1, 4, 0, 0, 0, 4}, M);

    want_delete_sq("four outstanding", 1, BELLRAFTER_SQ_BUSY);
    want_finish("the good one", M, 3, 0, 0, 3);
    want_delete_sq("a pair and one with a verdict", 1, BELLRAFTER_SQ_BUSY);
    refused_finish("second half first", M, 1, 0, BELLRAFTER_FIRST_HALF);
    want_finish("first half", M, 0, 7, 1, 0);
    want_delete_sq("a second half and one with a verdict", 1, BELLRAFTER_SQ_BUSY);
    want_finish("second half", M, 1, 0, 2, 1);
    want_delete_sq("one with a verdict", 1, BELLRAFTER_SQ_BUSY);
    want_finish("the one with a verdict", M, 2, 0, 3, 2);
    save_twin(&here);
    want_delete_sq("none outstanding, but of another SQ", 1, 0);
    same_memory();
    want_delete_sq("deleted: 9 before 33", 1, BELLRAFTER_NO_QUEUE);
    want_delete_sq("the other SQ", 2, BELLRAFTER_SQ_BUSY);
    want_finish("the other SQ's", M, 4, 0, 4, 4);
    want_delete_sq("the other SQ, none outstanding", 2, 0);
    refused_start("no SQ is left", M, BELLRAFTER_NO_CANDIDATE);
    look_at_all();
}

/* A finish that is refused leaves its command outstanding. */
static void full_cq_case(void)
{
    fresh(0, 0, 2);
    make_sq(1, 4, 0);
    submit_plain(1, 1);
    submit_plain(1, 2);
    want_start("start", (struct bellrafter_start){0, 1, 1, 0, 0, 0, 0, 0}, M);
    want_start("start", (struct bellrafter_start){0, 1, 1, 1, 0, 1, 0, 1}, M);
    want_finish("finish", M, 0, 0, 0, 0);
    refused_finish("the CQ is full", M, 1, 0, BELLRAFTER_CQ_FULL);
    want_delete_sq("the CQ is full", 1, BELLRAFTER_SQ_BUSY);
    want("released", 0, twin_head(1, 1));
    want_delete_sq("the CQ has a slot", 1, BELLRAFTER_SQ_BUSY);
    want_finish("finish", M, 1, 0, 1, 1);
    want_delete_sq("finished", 1, 0);
}

/* One tag is SQ 1's, the 63 others are SQ 2's. */
static void tag_case(uint64_t tag)
{
    fresh(0, 0, 64);
    make_sq(1, 64, 0);
    make_sq(2, 64, 0);
    for (uint64_t i = 0; i < 64; i++) {
        uint64_t id = i == tag ? 1 : 2;
        submit_plain(id, i);
        want_start("start", (struct bellrafter_start){0, id, 1, i, 0, plain.sqs[id].head, 0, i}, M);
    }
    want_delete_sq("one of 64 outstanding", 1, BELLRAFTER_SQ_BUSY);
    want_delete_sq("all but one of 64 outstanding", 2, BELLRAFTER_SQ_BUSY);
    want_finish("finish", M, tag, 0, 0, tag);
    want_delete_sq("none of 63 outstanding", 1, 0);
    want_delete_sq("all of 63 outstanding", 2, BELLRAFTER_SQ_BUSY);
}

/* 34: until the last SQ that names the CQ is deleted. */

static void named_by(uint64_t sq, uint64_t cq)
{
    want("setting up", 0, twin_new(0, 0));
    make_cq(cq, 4);
    make_cq(cq % 15 + 1, 4);
    want("setting up", 0, twin_create_sq(M, sq, 4, sq_base(sq), cq, 0));
    want_delete_cq("named by an SQ", cq, BELLRAFTER_CQ_NAMED);
    want_delete_cq("another CQ", cq % 15 + 1, 0);
    want_delete_sq("the SQ that names it", sq, 0);
    want_delete_cq("named by a deleted SQ", cq, 0);
    want_delete_cq("deleted: 9 before 34", cq, BELLRAFTER_NO_QUEUE);
}

static void named_cases(void)
{
    static const uint64_t order[] = {7, 15, 1, 8, 2, 14, 3, 13, 4, 12, 5, 11, 6, 10, 9};

    for (uint64_t sq = 1; sq < 16; sq++) {
        for (uint64_t cq = 1; cq < 16; cq++)
            named_by(sq, cq);
    }
    fresh(1, 0, 8);
    for (uint64_t id = 1; id < 16; id++)
        make_sq(id, 4, id % 4);
    for (size_t i = 0; i < COUNT_OF(order); i++) {
        want_delete_cq("named by SQs", 1, BELLRAFTER_CQ_NAMED);
        want_delete_sq("one of them", order[i], 0);
    }
    want_delete_cq("named by none of 15 any more", 1, 0);
}

/* What is dropped, and what a queue is that is created again. */

static void dropped_cases(void)
{
    fresh(0, 0, 8);
    make_sq(1, 4, 0);
    make_sq(2, 4, 0);
    submit_plain(1, 10);
    submit_plain(1, 11);
    submit_plain(2, 20);
    serve("before", (const uint64_t[]){1}, 1, 0);
    save_twin(&here);
    want_delete_sq("one entry not started", 1, 0);
    same_memory();
    want_sq("deleted", 1, (struct bellrafter_sq){.refusal = BELLRAFTER_NO_QUEUE});
    want("tail of a deleted SQ", BELLRAFTER_NO_QUEUE, twin_tail(1, 3));
    want("tail of a deleted SQ, 9 before 10", BELLRAFTER_NO_QUEUE, twin_tail(1, 4));
    serve("the others go on", (const uint64_t[]){2}, 1, 1);
    refused_start("what was not started is dropped", M, BELLRAFTER_NO_CANDIDATE);

    make_sq(1, 4, 0);
    want_sq("created again", 1, (struct bellrafter_sq){0, sq_base(1), 4, 0, 0, 0, 1, 0});
    want_delete_sq("created again, all finished before", 1, 0);
    make_sq(1, 4, 0);
    refused_start("nothing is submitted, though entries lie there", M, BELLRAFTER_NO_CANDIDATE);
    want("tail", 0, twin_tail(1, 1));
    want_start("slot 0 again, number 2", (struct bellrafter_start){0, 1, 1, 0, 0, 0, 0, 2}, M);
    want_command("the entry that lies there", 0, (struct bellrafter_command){0, 1, 10, 0, 2});
    want_finish("number 2", M, 0, 0, 2, 2);
    want_posted("SQHD counts from the latest creation", 1, 2,
                (struct bellrafter_completion){0, 0xDDCCBBAA, 1, 1, 10, 0, 1});
    look_at_all();
}

/* "a mark ends with its queue": it neither stops a deletion nor comes back. */
static void mark_cases(void)
{
    fresh(0, 0, 8);
    make_sq(1, 4, 0);
    submit_plain(1, 1);
    submit_plain(1, 2);
    want_start("start", (struct bellrafter_start){0, 1, 1, 0, 0, 0, 0, 0}, M);
    want("marking", BELLRAFTER_DOORBELL, twin_tail(1, 2));
    want_delete_sq("marked, one outstanding", 1, BELLRAFTER_SQ_BUSY);
    want_finish("finish", M, 0, 0, 0, 0);
    want("still marked", BELLRAFTER_MARKED, twin_tail(1, 3));
    want_delete_sq("marked", 1, 0);
    want("9 before 11", BELLRAFTER_NO_QUEUE, twin_tail(1, 3));
    make_sq(1, 4, 0);
    want_sq("not marked", 1, (struct bellrafter_sq){0, sq_base(1), 4, 0, 0, 0, 1, 0});
    submit_plain(1, 3);
    serve("not marked", (const uint64_t[]){1}, 1, 1);
    want("marking again", BELLRAFTER_DOORBELL, twin_tail(1, 1));
    refused_start("marked again", M, BELLRAFTER_NO_CANDIDATE);
}

/* What waits in a CQ, here all that it can hold, neither stops its deletion nor fills it when it is created again. */
static void unread_cases(void)
{
    fresh(0, 0, 4);
    make_sq(1, 4, 0);
    for (uint64_t cid = 0; cid < 3; cid++)
        submit_plain(1, cid);
    serve("three wait", (const uint64_t[]){1, 1, 1}, 3, 0);
    save_twin(&here);
    want_delete_sq("three are unread", 1, 0);
    want_delete_cq("three are unread", 1, 0);
    same_memory();
    want_cq("deleted", 1, (struct bellrafter_cq){.refusal = BELLRAFTER_NO_QUEUE});
    want("head of a deleted CQ", BELLRAFTER_NO_QUEUE, twin_head(1, 2));
    want("head of a deleted CQ, 9 before 10", BELLRAFTER_NO_QUEUE, twin_head(1, 4));
    want("SQ that names a deleted CQ", BELLRAFTER_WRONG_CQ, twin_create_sq(M, 1, 4, sq_base(1), 1, 0));
    make_cq(1, 4);
    want_cq("created again", 1, (struct bellrafter_cq){0, cq_base(1), 4, 0, 0, 1});
    want("nothing waits", BELLRAFTER_DOORBELL, twin_head(1, 3));
    make_sq(1, 4, 0);
    submit_plain(1, 3);
    serve("there is a slot", (const uint64_t[]){1}, 1, 3);
    want_posted("in slot 0", 1, 0, (struct bellrafter_completion){0, 0xDDCCBBAA, 1, 1, 3, 0, 1});
}

/* With the same numbers as before, whatever the queues have been through, they look as they did when they were new. */
static void again_case(uint64_t id, uint64_t priority_class)
{
    fresh(1, 0x03030301, 4);
    make_sq(id, 8, priority_class);
    struct bellrafter_sq new_sq = twin_look_sq(id);
    struct bellrafter_cq new_cq = twin_look_cq(1);
    for (int time = 0; time < 3; time++) {
        for (uint64_t i = 0; i < 9; i++) {
            submit_plain(id, i);
            serve("used", &id, 1, 9 * (uint64_t)time + i);
            if (i < 8)
                want("used", 0, twin_head(1, (i + 1) % 4));
        }
        submit_plain(id, 9);
        want("marking", BELLRAFTER_DOORBELL, twin_tail(id, 8));
        want_sq("used", id, (struct bellrafter_sq){0, sq_base(id), 8, 1, 2, 1, 1, priority_class});
        want_cq("used", 1, (struct bellrafter_cq){0, cq_base(1), 4, 0, 1, 1});
        want_delete_sq("used", id, 0);
        want_delete_cq("used", 1, 0);
        make_cq(1, 4);
        make_sq(id, 8, priority_class);
        want_sq("created again", id, new_sq);
        want_cq("created again", 1, new_cq);
    }
    look_at_all();
}

/*
 * "A deleted id and its bytes may be used again", and 6 looks at living rings only. SQ 1 is in 8000h to 8FFFh and SQ 2
 * in 9000h to 9FFFh; CQ 1 is in 10000h to 10FFFh and CQ 2 in 11000h to 113FFh; CQ 3 is never deleted.
 */

enum { SQ_1 = 1, SQ_2 = 2, CQ_1 = 4, CQ_2 = 8 };

static void places(void)
{
    twin_clear();
    want("setting up", 0, twin_new(0, 0));
    want("setting up", 0, twin_create_cq(M, 1, 256, 0x10000));
    want("setting up", 0, twin_create_cq(M, 2, 64, 0x11000));
    want("setting up", 0, twin_create_cq(M, 3, 4, 0x14000));
    want("setting up", 0, twin_create_sq(M, 1, 64, 0x8000, 1, 0));
    want("setting up", 0, twin_create_sq(M, 2, 64, 0x9000, 2, 0));
    save_twin(&here);
}

/* From there, with some of the queues deleted. */
static void deleted(unsigned queues)
{
    go_back(&here);
    for (uint64_t id = 1; id <= 2; id++) {
        if (queues & (id == 1 ? SQ_1 : SQ_2))
            want_delete_sq("a place", id, 0);
        if (queues & (id == 1 ? CQ_1 : CQ_2))
            want_delete_cq("a place", id, 0);
    }
}

static const struct {
    const char *what;
    unsigned deleted;
    uint64_t id, size, base, cq, priority_class, refusal;
} sq_places[] = {
    {"SQ on a living SQ", 0, 3, 2, 0x8000, 3, 0, BELLRAFTER_RING_SHARED},
    {"SQ on a deleted SQ", SQ_1, 3, 64, 0x8000, 3, 0, 0},
    {"SQ on a living CQ", SQ_1 | SQ_2, 3, 2, 0x10000, 3, 0, BELLRAFTER_RING_SHARED},
    {"SQ on a deleted CQ", SQ_1 | CQ_1, 3, 64, 0x10000, 3, 0, 0},
    {"SQ on a deleted CQ, into a living one", SQ_1 | CQ_1, 3, 65, 0x10000, 3, 0, BELLRAFTER_RING_SHARED},
    {"SQ on two deleted CQs", SQ_1 | SQ_2 | CQ_1 | CQ_2, 3, 80, 0x10000, 3, 0, 0},
    {"SQ again", SQ_1, 1, 64, 0x8000, 1, 0, 0},
    {"SQ again, of another CQ and class", SQ_1, 1, 64, 0x8000, 2, 3, 0},
    {"SQ again, smaller", SQ_1, 1, 2, 0x8000, 1, 0, 0},
    {"SQ again, larger, from before", SQ_1, 1, 128, 0x7000, 1, 0, 0},
    {"SQ again, larger, into a living SQ", SQ_1, 1, 65, 0x8000, 1, 0, BELLRAFTER_RING_SHARED},
    {"SQ again, larger, on two deleted SQs", SQ_1 | SQ_2, 1, 128, 0x8000, 1, 0, 0},
    {"SQ again, the largest, elsewhere", SQ_1, 1, 1024, 0x15000, 1, 0, 0},
    {"SQ again, not deleted", SQ_2, 1, 64, 0x8000, 1, 0, BELLRAFTER_QUEUE_EXISTS},
    {"SQ again, its CQ deleted", SQ_1 | CQ_1, 1, 64, 0x8000, 1, 0, BELLRAFTER_WRONG_CQ},
    {"SQ again, its CQ deleted, another one", SQ_1 | CQ_1, 1, 64, 0x8000, 2, 0, 0},
};

static const struct {
    const char *what;
    unsigned deleted;
    uint64_t id, size, base, refusal;
} cq_places[] = {
    {"CQ on a living CQ", SQ_1, 4, 2, 0x10000, BELLRAFTER_RING_SHARED},
    {"CQ on a deleted CQ", SQ_1 | CQ_1, 4, 256, 0x10000, 0},
    {"CQ on a deleted CQ, into a living one", SQ_1 | CQ_1, 4, 257, 0x10000, BELLRAFTER_RING_SHARED},
    {"CQ on two deleted CQs", SQ_1 | SQ_2 | CQ_1 | CQ_2, 4, 320, 0x10000, 0},
    {"CQ on a living SQ", SQ_2, 4, 2, 0x8000, BELLRAFTER_RING_SHARED},
    {"CQ on a deleted SQ", SQ_1, 4, 256, 0x8000, 0},
    {"CQ on a deleted SQ, into a living one", SQ_1, 4, 257, 0x8000, BELLRAFTER_RING_SHARED},
    {"CQ on two deleted SQs", SQ_1 | SQ_2, 4, 512, 0x8000, 0},
    {"CQ again", SQ_1 | CQ_1, 1, 256, 0x10000, 0},
    {"CQ again, smaller", SQ_1 | CQ_1, 1, 2, 0x10000, 0},
    {"CQ again, larger, from before", SQ_1 | CQ_1, 1, 512, 0xF000, 0},
    {"CQ again, on a deleted SQ", SQ_1 | CQ_1, 1, 256, 0x8000, 0},
    {"CQ again, the largest, elsewhere", SQ_1 | CQ_1, 1, 1024, 0x18000, 0},
    {"CQ again, not deleted", SQ_1 | SQ_2 | CQ_2, 1, 256, 0x10000, BELLRAFTER_QUEUE_EXISTS},
};

static void place_cases(void)
{
    places();
    for (size_t i = 0; i < COUNT_OF(sq_places); i++) {
        deleted(sq_places[i].deleted);
        want(sq_places[i].what, sq_places[i].refusal,
             twin_create_sq(M, sq_places[i].id, sq_places[i].size, sq_places[i].base, sq_places[i].cq,
                            sq_places[i].priority_class));
        look_at_all();
        same_memory();
    }
    for (size_t i = 0; i < COUNT_OF(cq_places); i++) {
        deleted(cq_places[i].deleted);
        want(cq_places[i].what, cq_places[i].refusal,
             twin_create_cq(M, cq_places[i].id, cq_places[i].size, cq_places[i].base));
        look_at_all();
        same_memory();
    }
}

/* 5 looks at living rings only: SQ 3 and CQ 2 end behind the memory lent. */
static void memory_cases(void)
{
    size_t lent = cq_base(1) + 16 * 4;

    fresh(0, 0, 4);
    make_cq(2, 4);
    make_sq(1, 4, 0);
    want("setting up", 0, twin_create_sq(M, 3, 4, cq_base(3), 1, 0));
    submit_plain(1, 1);
    submit_plain(1, 2);
    want_start("start", (struct bellrafter_start){0, 1, 1, 0, 0, 0, 0, 0}, M);
    save_twin(&here);
    want_delete_cq("a CQ behind the memory lent", 2, 0);
    refused_start("an SQ behind the memory lent", lent, BELLRAFTER_RING_MEMORY);
    refused_finish("an SQ behind the memory lent", lent, 0, 0, BELLRAFTER_RING_MEMORY);
    go_back(&here);
    want_delete_sq("an SQ behind the memory lent", 3, 0);
    refused_start("a CQ behind the memory lent", lent, BELLRAFTER_RING_MEMORY);
    refused_finish("a CQ behind the memory lent", lent, 0, 0, BELLRAFTER_RING_MEMORY);
    want_delete_cq("both behind the memory lent", 2, 0);
    want_start("both deleted", (struct bellrafter_start){0, 1, 1, 1, 0, 1, 0, 1}, lent);
    want_finish("both deleted", lent, 0, 0, 0, 0);
    refused_start("the ring of a living CQ", lent - 1, BELLRAFTER_RING_MEMORY);
}

/* Phase tags: CQ 1 of 4 entries is created again after so many postings, over a ring that the host has cleared. */

static uint64_t waiting(uint64_t head, uint64_t phase)
{
    return bellrafter_ring_read(plain_memory + cq_base(1), 16 * 4, 4, head, phase).count;
}

static void post(uint64_t count, uint64_t number)
{
    for (uint64_t i = 0; i < count; i++) {
        submit_plain(1, i);
        serve("posting", (const uint64_t[]){1}, 1, number + i);
        want_posted("posting", 1, i % 4,
                    (struct bellrafter_completion){0, 0xDDCCBBAA, (uint16_t)((i + 1) % 8), 1, (uint16_t)i, 0,
                                                   i / 4 % 2 == 0});
        want("one waits", 1, waiting(i % 4, 1 - i / 4 % 2));
        want("released", 0, twin_head(1, (i + 1) % 4));
    }
}

static void phase_case(uint64_t count)
{
    static const uint8_t zeros[16 * 4];

    fresh(0, 0, 4);
    make_sq(1, 8, 0);
    post(count, 0);
    want_cq("posted so many", 1, (struct bellrafter_cq){0, cq_base(1), 4, count % 4, count % 4, 1 - count / 4 % 2});
    want_delete_sq("posted so many", 1, 0);
    want_delete_cq("posted so many", 1, 0);
    twin_poke(cq_base(1), zeros, sizeof zeros);
    make_cq(1, 4);
    make_sq(1, 8, 0);
    want_cq("phase tag 1 again", 1, (struct bellrafter_cq){0, cq_base(1), 4, 0, 0, 1});
    want("none waits", 0, waiting(0, 1));
    post(9, count);
}

/* Not cleared, the ring has what was posted before, which its reader takes for new. */
static void stale_case(void)
{
    fresh(0, 0, 4);
    make_sq(1, 8, 0);
    post(4, 0);
    save_twin(&here);
    want_delete_sq("four posted", 1, 0);
    want_delete_cq("four posted", 1, 0);
    make_cq(1, 4);
    same_memory();
    want("nothing is posted, three seem to wait", 3, waiting(0, 1));
    want("nothing is posted", BELLRAFTER_DOORBELL, twin_head(1, 3));
}

/*
 * "Turn holders and remainders stay as numbers." SQ `id` and another one of the same group; bursts of four, weights of
 * 256. The first is served once, so that it holds the turn with a remainder of three, and then deleted.
 */

static struct bellrafter_arbiter holder_deleted(uint64_t mechanism, uint64_t priority_class, uint64_t id,
                                                uint64_t other)
{
    fresh(mechanism, 0xFFFFFF02, 64);
    make_sq(id, 8, priority_class);
    make_sq(other, 8, priority_class);
    submit_plain(id, 0);
    serve("the holder", &id, 1, 0);
    struct bellrafter_arbiter left = twin_look_arbiter();
    want_delete_sq("the holder", id, 0);
    want_arbiter("the holder is deleted", left);
    return left;
}

static void holder_again(uint64_t mechanism, uint64_t priority_class, uint64_t id, uint64_t other)
{
    struct bellrafter_arbiter left = holder_deleted(mechanism, priority_class, id, other);

    make_sq(id, 8, priority_class);
    want_arbiter("the holder is created again", left);
    submit_plain(other, 1);
    for (uint64_t cid = 0; cid < 4; cid++)
        submit_plain(id, cid);
    serve("the holder goes on with its remainder", (const uint64_t[]){id, id, id, other, id}, 5, 1);
}

static void another_holder(uint64_t mechanism, uint64_t priority_class, uint64_t id, uint64_t other)
{
    holder_deleted(mechanism, priority_class, id, other);
    submit_plain(other, 1);
    submit_plain(other, 2);
    serve("another one takes the turn", &other, 1, 1);
    make_sq(id, 8, priority_class);
    submit_plain(id, 1);
    serve("and keeps it", (const uint64_t[]){other, id}, 2, 2);
}

static void both_deleted(uint64_t mechanism, uint64_t priority_class, uint64_t id, uint64_t other)
{
    struct bellrafter_arbiter left = holder_deleted(mechanism, priority_class, id, other);

    want_delete_sq("the other one", other, 0);
    want_arbiter("both are deleted", left);
    refused_start("none is left", M, BELLRAFTER_NO_CANDIDATE);
    make_sq(other, 8, priority_class);
    make_sq(id, 8, priority_class);
    submit_plain(other, 1);
    submit_plain(id, 1);
    serve("the holder first", (const uint64_t[]){id, other}, 2, 1);
}

static void turn_cases(void)
{
    static const uint64_t groups[][2] = {{0, 0}, {1, 0}, {1, 1}, {1, 2}, {1, 3}}; /* mechanism and class */

    for (size_t i = 0; i < COUNT_OF(groups); i++) {
        for (uint64_t id = 1; id < 16; id++) {
            holder_again(groups[i][0], groups[i][1], id, id % 15 + 1);
            another_holder(groups[i][0], groups[i][1], id, id % 15 + 1);
            both_deleted(groups[i][0], groups[i][1], id, id % 15 + 1);
        }
    }
}

/* SQ 1 leaves its group and comes back: each group goes by its own numbers. SQ 2 is high, SQ 3 medium. */
static void class_case(void)
{
    const uint32_t word = 0xFFFFFF02;

    fresh(1, word, 64);
    make_sq(1, 8, 1);
    make_sq(2, 8, 1);
    make_sq(3, 8, 2);
    submit_plain(1, 0);
    serve("high", (const uint64_t[]){1}, 1, 0);
    want_delete_sq("high", 1, 0);
    make_sq(1, 8, 2);
    submit_plain(3, 0);
    for (uint64_t cid = 0; cid < 5; cid++)
        submit_plain(1, cid);
    serve("medium, a full remainder", (const uint64_t[]){1, 1, 1, 1, 3, 1}, 6, 1);
    want_arbiter("high as it was", (struct bellrafter_arbiter){1, word, 15, 0, 1, 3, 255, 1, 3, 250, 15, 0, 256});
    want_delete_sq("medium", 1, 0);
    make_sq(1, 8, 1);
    submit_plain(2, 0);
    for (uint64_t cid = 0; cid < 4; cid++)
        submit_plain(1, cid);
    serve("high again, the remainder left", (const uint64_t[]){1, 1, 1, 2, 1}, 5, 7);
    want_arbiter("medium as it was", (struct bellrafter_arbiter){1, word, 15, 0, 1, 3, 250, 1, 3, 250, 15, 0, 256});
}

/* Credits stay: weights of 2, 1 and 1, no limit. SQ 1 is high, SQ 2 medium. */
static void credit_case(void)
{
    const uint32_t word = 0x01000007;

    fresh(1, word, 64);
    make_sq(1, 8, 1);
    make_sq(2, 8, 2);
    submit_plain(1, 0);
    serve("high", (const uint64_t[]){1}, 1, 0);
    want_delete_sq("high", 1, 0);
    want_arbiter("one credit left", (struct bellrafter_arbiter){1, word, 15, 0, 1, 1, 1, 15, 0, 1, 15, 0, 1});
    make_sq(1, 8, 1);
    want_arbiter("one credit left", (struct bellrafter_arbiter){1, word, 15, 0, 1, 1, 1, 15, 0, 1, 15, 0, 1});
    for (uint64_t cid = 0; cid < 3; cid++) {
        submit_plain(1, cid);
        submit_plain(2, cid);
    }
    serve("one credit left", (const uint64_t[]){1, 2, 1, 1, 2, 2}, 6, 1);
}

/* A remainder without limit stays one. */
static void no_limit_case(void)
{
    struct bellrafter_arbiter left = {0, 7, 1, BELLRAFTER_NO_LIMIT, 15, 0, 1, 15, 0, 1, 15, 0, 1};

    fresh(0, 7, 64);
    make_sq(1, 8, 0);
    make_sq(2, 8, 0);
    submit_plain(1, 0);
    serve("no limit", (const uint64_t[]){1}, 1, 0);
    want_delete_sq("no limit", 1, 0);
    want_arbiter("no limit", left);
    make_sq(1, 8, 0);
    for (uint64_t cid = 0; cid < 3; cid++) {
        submit_plain(2, cid);
        submit_plain(1, cid);
    }
    serve("no limit", (const uint64_t[]){1, 1, 1, 2, 2, 2}, 6, 1);
}

/* All queues, with all 64 tags used before. */
static void all_used(void)
{
    fresh(1, 0, 64);
    for (uint64_t id = 2; id < 16; id++)
        make_cq(id, 4);
    for (uint64_t id = 0; id < 16; id++)
        want("setting up", 0, twin_create_sq(M, id, 8, sq_base(id), id, id % 4));
    for (uint64_t i = 0; i < 64; i++)
        submit_plain(i % 16, i);
    while (twin_start(M).refusal == 0)
        ;
    for (uint64_t tag = 0; tag < 64; tag++) {
        uint64_t cq = plain.sqs[plain.commands[tag].sq].cq;
        if (plain.cqs[cq].tail == 3)
            want("setting up", 0, twin_head(cq, 3));
        want("setting up", 0, twin_finish(M, tag, 0, 0).refusal);
    }
    save_twin(&here);
}

/* All but 0 are deleted, and created again, SQs where CQs were. */
static void all_cases(void)
{
    all_used();
    for (uint64_t id = 1; id < 16; id++) {
        want_delete_cq("all", 16 - id, BELLRAFTER_CQ_NAMED);
        want_delete_sq("all", 16 - id, 0);
        want_delete_cq("all", 16 - id, 0);
    }
    same_memory();
    look_at_all();
    submit_plain(0, 64);
    serve("queue 0 is left", (const uint64_t[]){0}, 1, 64);
    for (uint64_t id = 15; id > 0; id--) {
        want("all again", 0, twin_create_cq(M, id, 8, sq_base(id)));
        want("all again", 0, twin_create_sq(M, id, 8, cq_base(id), id, 1));
    }
    submit_plain(9, 65);
    serve("all again", (const uint64_t[]){9}, 1, 65);
    look_at_all();
}

/* No queue is left: a start and a finish want no memory. */
static void none_left(void)
{
    want("setting up", 0, twin_new(0, 0));
    make_cq(1, 4);
    make_sq(1, 4, 0);
    refused_start("a new SQ", 0, BELLRAFTER_RING_MEMORY);
    want_delete_sq("the only SQ", 1, 0);
    refused_start("no SQ", 0, BELLRAFTER_RING_MEMORY);
    want_delete_cq("the only CQ", 1, 0);
    refused_start("no queue", 0, BELLRAFTER_NO_CANDIDATE);
    refused_finish("no queue", 0, 0, 0, BELLRAFTER_NO_COMMAND);
}

/* A replay of a tail write to SQ 1, a head write to CQ 1 and a start, with what stands in the answer records. */
static void replay_three(const char *what, const uint8_t answers[3][4])
{
    static const uint8_t calls[3][4] = {{BELLRAFTER_CALL_TAIL_WRITE, 1, 1}, {BELLRAFTER_CALL_HEAD_WRITE, 1, 1},
                                        {BELLRAFTER_CALL_START}};
    uint8_t trace[48] = {0}, wanted[48] = {0};

    for (size_t i = 0; i < 3; i++) {
        memcpy(trace + 16 * i, calls[i], 4);
        memcpy(wanted + 16 * i, answers[i], 4);
    }
    twin_replay(what, M, trace, sizeof trace, sizeof trace);
    require(memcmp(answer_room, wanted, sizeof wanted) == 0, what);
}

static void replayed_cases(void)
{
    fresh(0, 0, 4);
    make_sq(1, 4, 0);
    submit_plain(1, 1);
    want_delete_sq("before a replay", 1, 0);
    want_delete_cq("before a replay", 1, 0);
    replay_three("replay, queues deleted", (const uint8_t[3][4]){{1, 9}, {2, 9}, {3, 12}});
    make_cq(1, 4);
    make_sq(1, 4, 0);
    replay_three("replay, queues created again", (const uint8_t[3][4]){{1, 0, 1}, {2, 10}, {3}});
    want_delete_sq("after a replay", 1, BELLRAFTER_SQ_BUSY);
}

/* The library alone: queues that are deleted and created again very often, of many ids and sizes, at two places. */
static void many_times(void)
{
    static uint64_t words[BELLRAFTER_STATE_WORDS];
    static uint8_t rings[4 * 4096];
    bool done = bellrafter_controller_new(words, 0, 0) == 0;

    for (uint64_t i = 0; done && i < 10000; i++) {
        uint64_t sq = 1 + i % 15, cq = 1 + i % 13, base = 8192 * (i % 2), size = 2 + i % 63;
        done = bellrafter_create_cq(words, rings, sizeof rings, cq, size, base) == 0 &&
               bellrafter_create_sq(words, rings, sizeof rings, sq, size, base + 4096, cq, i % 4) == 0 &&
               bellrafter_tail_write(words, sq, 1) == 0;
        struct bellrafter_start s = bellrafter_start(words, rings, sizeof rings);
        done = done && s.refusal == 0 && s.sq == sq && s.first == 0 && s.slot == 0 && s.number == i;
        done = done && bellrafter_delete_sq(words, sq) == BELLRAFTER_SQ_BUSY;
        struct bellrafter_finish f = bellrafter_finish(words, rings, sizeof rings, 0, 0, 0);
        done = done && f.refusal == 0 && f.slot == 0 && f.number == i && rings[base + 14] % 2 == 1;
        done = done && bellrafter_delete_cq(words, cq) == BELLRAFTER_CQ_NAMED;
        done = done && bellrafter_delete_sq(words, sq) == 0 && bellrafter_delete_cq(words, cq) == 0;
    }
    require(done, "deleted and created again 10,000 times");
}

void delete_cases(void)
{
    for (int round = 0; round < 2; round++) { /* the second time with what is const read-only */
        guard_reads(round == 1);
        refusal_table();
        busy_cases();
        full_cq_case();
        named_cases();
        dropped_cases();
        mark_cases();
        unread_cases();
        for (uint64_t id = 1; id < 16; id++)
            again_case(id, id % 4);
        place_cases();
        memory_cases();
        for (uint64_t count = 0; count < 10; count++)
            phase_case(count);
        stale_case();
        turn_cases();
        class_case();
        credit_case();
        no_limit_case();
        all_cases();
        none_left();
        replayed_cases();
    }
    guard_reads(false);
    for (uint64_t tag = 0; tag < 64; tag++)
        tag_case(tag);
    many_times();
}
