/*
 * Fixed cases of the controller: the paper's traced examples, every refusal, refusals that apply together, verdicts,
 * pairs, start numbers. Each call is made on the library and on the plain controller (twin.h), and the answer is also
 * held to the one that is written here. Deletions have a file of their own (delete_cases.c).
 */
#include "reference.h"
#include "wanted.h"

/* The layout that the library's side has: each field's place and width. A wrong one does not compile. */
#define HOLDS(name, condition) typedef char name[(condition) ? 1 : -1]
#define FIELD(type, name, at, width) \
    HOLDS(type##_##name, offsetof(struct type, name) == (at) && sizeof(((struct type *)0)->name) == (width))

FIELD(bellrafter_start, refusal, 0, 8);
FIELD(bellrafter_start, sq, 8, 8);
FIELD(bellrafter_start, count, 16, 8);
FIELD(bellrafter_start, first, 24, 8);
FIELD(bellrafter_start, second, 32, 8);
FIELD(bellrafter_start, slot, 40, 8);
FIELD(bellrafter_start, verdict, 48, 8);
FIELD(bellrafter_start, number, 56, 8);
HOLDS(start_bytes, sizeof(struct bellrafter_start) == 64);
FIELD(bellrafter_finish, refusal, 0, 8);
FIELD(bellrafter_finish, slot, 8, 8);
FIELD(bellrafter_finish, number, 16, 8);
HOLDS(finish_bytes, sizeof(struct bellrafter_finish) == 24);
FIELD(bellrafter_replay, refusal, 0, 8);
FIELD(bellrafter_replay, records, 8, 8);
HOLDS(replay_bytes, sizeof(struct bellrafter_replay) == 16);
FIELD(bellrafter_sq, refusal, 0, 8);
FIELD(bellrafter_sq, base, 8, 8);
FIELD(bellrafter_sq, size, 16, 8);
FIELD(bellrafter_sq, head, 24, 8);
FIELD(bellrafter_sq, tail, 32, 8);
FIELD(bellrafter_sq, marked, 40, 8);
FIELD(bellrafter_sq, cq, 48, 8);
FIELD(bellrafter_sq, priority_class, 56, 8);
HOLDS(sq_bytes, sizeof(struct bellrafter_sq) == 64);
FIELD(bellrafter_cq, refusal, 0, 8);
FIELD(bellrafter_cq, base, 8, 8);
FIELD(bellrafter_cq, size, 16, 8);
FIELD(bellrafter_cq, head, 24, 8);
FIELD(bellrafter_cq, tail, 32, 8);
FIELD(bellrafter_cq, phase, 40, 8);
HOLDS(cq_bytes, sizeof(struct bellrafter_cq) == 48);
FIELD(bellrafter_command, refusal, 0, 8);
FIELD(bellrafter_command, sq, 8, 8);
FIELD(bellrafter_command, cid, 16, 8);
FIELD(bellrafter_command, verdict, 24, 8);
FIELD(bellrafter_command, number, 32, 8);
HOLDS(command_bytes, sizeof(struct bellrafter_command) == 40);
FIELD(bellrafter_arbiter, mechanism, 0, 8);
FIELD(bellrafter_arbiter, word, 8, 8);
FIELD(bellrafter_arbiter, holder, 16, 8);
FIELD(bellrafter_arbiter, remainder, 24, 8);
FIELD(bellrafter_arbiter, high_holder, 32, 8);
FIELD(bellrafter_arbiter, high_remainder, 40, 8);
FIELD(bellrafter_arbiter, high_credit, 48, 8);
FIELD(bellrafter_arbiter, medium_holder, 56, 8);
FIELD(bellrafter_arbiter, medium_remainder, 64, 8);
FIELD(bellrafter_arbiter, medium_credit, 72, 8);
FIELD(bellrafter_arbiter, low_holder, 80, 8);
FIELD(bellrafter_arbiter, low_remainder, 88, 8);
FIELD(bellrafter_arbiter, low_credit, 96, 8);
HOLDS(arbiter_bytes, sizeof(struct bellrafter_arbiter) == 104);
FIELD(bellrafter_submission, refusal, 0, 8);
FIELD(bellrafter_submission, fuse, 8, 8);
FIELD(bellrafter_submission, psdt, 16, 8);
FIELD(bellrafter_submission, mptr, 24, 8);
FIELD(bellrafter_submission, prp1, 32, 8);
FIELD(bellrafter_submission, prp2, 40, 8);
FIELD(bellrafter_submission, slba, 48, 8);
FIELD(bellrafter_submission, nsid, 56, 4);
FIELD(bellrafter_submission, cdw13, 60, 4);
FIELD(bellrafter_submission, cdw14, 64, 4);
FIELD(bellrafter_submission, cdw15, 68, 4);
FIELD(bellrafter_submission, cid, 72, 2);
FIELD(bellrafter_submission, nlb, 74, 2);
FIELD(bellrafter_submission, cdw12_upper, 76, 2);
FIELD(bellrafter_submission, opc, 78, 2);
HOLDS(submission_bytes, sizeof(struct bellrafter_submission) == 80);

HOLDS(number_most, BELLRAFTER_NUMBER_MOST == UINT64_C(18446744073709551614));
HOLDS(number_bytes, sizeof(BELLRAFTER_NUMBER_MOST) == 8);

static struct saved here;

/* New controllers. */

static void new_cases(void)
{
    static const struct {
        const char *what;
        uint64_t mechanism;
        uint32_t word;
        uint64_t refusal;
    } cases[] = {
        {"new 0", 0, 0, 0},
        {"new 0, word", 0, 0xFFFFFFFF, 0},
        {"new 1", 1, 0, 0},
        {"new 1, word", 1, 0x12345678, 0},
        {"new 2", 2, 0x12345678, BELLRAFTER_MECHANISM},
        {"new 256", 256, 0xFFFFFFFF, BELLRAFTER_MECHANISM},
        {"new 2^32", (uint64_t)1 << 32, 7, BELLRAFTER_MECHANISM},
        {"new 2^32 + 1", ((uint64_t)1 << 32) + 1, 7, BELLRAFTER_MECHANISM},
        {"new 2^64 - 1", TOP, 1, BELLRAFTER_MECHANISM},
    };

    for (size_t i = 0; i < COUNT_OF(cases); i++) {
        fresh(1, 0x01020305, 64); /* what is overwritten */
        make_sq(1, 4, 2);
        submit_plain(1, 1);
        twin_start(M);
        want(cases[i].what, cases[i].refusal, twin_new(cases[i].mechanism, cases[i].word));
        look_at_all();
        refused_start("start without a queue", 0, BELLRAFTER_NO_CANDIDATE);
        refused_finish("finish without a queue", 0, 0, 0, BELLRAFTER_NO_COMMAND);
    }
}

/* Creating. Queues that exist: CQ 0 in 0 to 3FFFh, SQ 1 in 8000h to 8FFFh, CQ 1 in 10000h to 103FFh. */

static void exist(void)
{
    twin_clear();
    want("setting up", 0, twin_new(0, 0));
    want("create CQ 0", 0, twin_create_cq(M, 0, 1024, 0));
    want("create CQ 1", 0, twin_create_cq(M, 1, 64, 0x10000));
    want("create SQ 1", 0, twin_create_sq(M, 1, 64, 0x8000, 1, 3));
    save_twin(&here);
}

static const struct {
    const char *what;
    uint64_t lent, id, size, base, refusal;
} cq_cases[] = {
    {"create CQ, size 2", M, 2, 2, 0x4000, 0},
    {"create CQ, size 1,024, to the next ring", M, 15, 1024, 0x4000, 0},
    {"create CQ behind a ring", M, 2, 4, 0x9000, 0},
    {"create CQ to the end of memory", M, 2, 256, M - 4096, 0},
    {"create CQ to the end of the memory lent", 0x14000 + 64, 2, 4, 0x14000, 0},
    {"create CQ, others outside the memory lent", 0x4040, 2, 4, 0x4000, 0},
    {"create CQ 16", M, 16, 4, 0x14000, BELLRAFTER_QUEUE_ID},
    {"create CQ 256", M, 256, 4, 0x14000, BELLRAFTER_QUEUE_ID},
    {"create CQ 2^32", M, (uint64_t)1 << 32, 4, 0x14000, BELLRAFTER_QUEUE_ID},
    {"create CQ 2^64 - 1", M, TOP, 4, 0x14000, BELLRAFTER_QUEUE_ID},
    {"create CQ again", M, 1, 4, 0x14000, BELLRAFTER_QUEUE_EXISTS},
    {"create CQ 0 again", M, 0, 1024, 0, BELLRAFTER_QUEUE_EXISTS},
    {"create CQ, size 0", M, 2, 0, 0x14000, BELLRAFTER_RING_SIZE},
    {"create CQ, size 1", M, 2, 1, 0x14000, BELLRAFTER_RING_SIZE},
    {"create CQ, size 1,025", M, 2, 1025, 0x14000, BELLRAFTER_RING_SIZE},
    {"create CQ, size 65,536 + 4", M, 2, 65540, 0x14000, BELLRAFTER_RING_SIZE},
    {"create CQ, size 2^60", M, 2, (uint64_t)1 << 60, 0x14000, BELLRAFTER_RING_SIZE},
    {"create CQ, size 2^64 - 1", M, 2, TOP, 0x14000, BELLRAFTER_RING_SIZE},
    {"create CQ, base 1", M, 2, 4, 1, BELLRAFTER_RING_BASE},
    {"create CQ, base half a page", M, 2, 4, 0x14800, BELLRAFTER_RING_BASE},
    {"create CQ, base 2^64 - 1", M, 2, 4, TOP, BELLRAFTER_RING_BASE},
    {"create CQ at the end of memory", M, 2, 2, M, BELLRAFTER_RING_MEMORY},
    {"create CQ over the end of memory", M, 2, 257, M - 4096, BELLRAFTER_RING_MEMORY},
    {"create CQ over the end of the memory lent", 0x14000 + 63, 2, 4, 0x14000, BELLRAFTER_RING_MEMORY},
    {"create CQ at 2^63", M, 2, 2, (uint64_t)1 << 63, BELLRAFTER_RING_MEMORY},
    {"create CQ at 2^64 - 4,096", M, 2, 256, TOP - 4095, BELLRAFTER_RING_MEMORY},
    {"create CQ over 2^64", M, 2, 1024, TOP - 4095, BELLRAFTER_RING_MEMORY},
    {"create CQ in no memory", 0, 2, 4, 0, BELLRAFTER_RING_MEMORY},
    {"create CQ in 31 bytes", 31, 2, 2, 0, BELLRAFTER_RING_MEMORY},
    {"create CQ on a CQ", M, 2, 4, 0, BELLRAFTER_RING_SHARED},
    {"create CQ in a CQ", M, 2, 4, 0x3000, BELLRAFTER_RING_SHARED},
    {"create CQ on an SQ", M, 2, 4, 0x8000, BELLRAFTER_RING_SHARED},
    {"create CQ up into an SQ", M, 2, 1024, 0x5000, BELLRAFTER_RING_SHARED},
    {"create CQ around a CQ", M, 2, 1024, 0xE000, BELLRAFTER_RING_SHARED},
    {"create CQ on a ring outside the memory lent", 0x3040, 2, 4, 0x3000, BELLRAFTER_RING_SHARED},
    {"create CQ, 1 before 3", M, 16, 0, 1, BELLRAFTER_QUEUE_ID},
    {"create CQ, 2 before 3", M, 1, 0, 1, BELLRAFTER_QUEUE_EXISTS},
    {"create CQ, 2 before 6", M, 1, 64, 0x10000, BELLRAFTER_QUEUE_EXISTS},
    {"create CQ, 3 before 4", M, 2, 1025, 1, BELLRAFTER_RING_SIZE},
    {"create CQ, 4 before 5", 0, 2, 4, TOP, BELLRAFTER_RING_BASE},
    {"create CQ, 4 before 6", M, 2, 4, 0x3800, BELLRAFTER_RING_BASE},
    {"create CQ, 5 before 6", 0x303F, 2, 4, 0x3000, BELLRAFTER_RING_MEMORY},
};

static const struct {
    const char *what;
    uint64_t lent, id, size, base, cq, priority_class, refusal;
} sq_cases[] = {
    {"create SQ 0", M, 0, 2, 0x4000, 0, 0, 0},
    {"create SQ 0, low", M, 0, 2, 0x4000, 0, 3, 0},
    {"create SQ, to the next ring", M, 15, 256, 0x4000, 1, 3, 0},
    {"create SQ, size 1,024", M, 2, 1024, 0x11000, 1, 2, 0},
    {"create SQ to the end of memory", M, 2, 64, M - 4096, 1, 1, 0},
    {"create SQ to the end of the memory lent", 0x14000 + 256, 2, 4, 0x14000, 1, 1, 0},
    {"create SQ, others outside the memory lent", 0x4100, 2, 4, 0x4000, 1, 0, 0},
    {"create SQ 16", M, 16, 4, 0x14000, 1, 0, BELLRAFTER_QUEUE_ID},
    {"create SQ 2^32 + 2", M, ((uint64_t)1 << 32) + 2, 4, 0x14000, 1, 0, BELLRAFTER_QUEUE_ID},
    {"create SQ 2^64 - 1", M, TOP, 4, 0x14000, 1, 0, BELLRAFTER_QUEUE_ID},
    {"create SQ again", M, 1, 4, 0x14000, 1, 0, BELLRAFTER_QUEUE_EXISTS},
    {"create SQ, class 4", M, 2, 4, 0x14000, 1, 4, BELLRAFTER_CLASS},
    {"create SQ, class 256", M, 2, 4, 0x14000, 1, 256, BELLRAFTER_CLASS},
    {"create SQ, class 2^64 - 1", M, 2, 4, 0x14000, 1, TOP, BELLRAFTER_CLASS},
    {"create SQ 0, class 4", M, 0, 4, 0x14000, 0, 4, BELLRAFTER_CLASS},
    {"create SQ, no such CQ", M, 2, 4, 0x14000, 2, 0, BELLRAFTER_WRONG_CQ},
    {"create SQ, CQ 16", M, 2, 4, 0x14000, 16, 0, BELLRAFTER_WRONG_CQ},
    {"create SQ, CQ 257", M, 2, 4, 0x14000, 257, 0, BELLRAFTER_WRONG_CQ},
    {"create SQ, CQ 2^32 + 1", M, 2, 4, 0x14000, ((uint64_t)1 << 32) + 1, 0, BELLRAFTER_WRONG_CQ},
    {"create SQ, CQ 2^64 - 1", M, 2, 4, 0x14000, TOP, 0, BELLRAFTER_WRONG_CQ},
    {"create SQ 0 with CQ 1", M, 0, 4, 0x14000, 1, 0, BELLRAFTER_WRONG_CQ},
    {"create SQ 2 with CQ 0", M, 2, 4, 0x14000, 0, 0, BELLRAFTER_WRONG_CQ},
    {"create SQ, size 1", M, 2, 1, 0x14000, 1, 0, BELLRAFTER_RING_SIZE},
    {"create SQ, size 1,025", M, 2, 1025, 0x11000, 1, 0, BELLRAFTER_RING_SIZE},
    {"create SQ, size 2^58", M, 2, (uint64_t)1 << 58, 0x14000, 1, 0, BELLRAFTER_RING_SIZE},
    {"create SQ, base 4,095", M, 2, 4, 4095, 1, 0, BELLRAFTER_RING_BASE},
    {"create SQ at the end of memory", M, 2, 2, M, 1, 0, BELLRAFTER_RING_MEMORY},
    {"create SQ over the end of memory", M, 2, 65, M - 4096, 1, 0, BELLRAFTER_RING_MEMORY},
    {"create SQ over the end of the memory lent", 0x14000 + 255, 2, 4, 0x14000, 1, 0, BELLRAFTER_RING_MEMORY},
    {"create SQ at 2^64 - 4,096", M, 2, 64, TOP - 4095, 1, 0, BELLRAFTER_RING_MEMORY},
    {"create SQ over 2^64", M, 2, 1024, TOP - 4095, 1, 0, BELLRAFTER_RING_MEMORY},
    {"create SQ in no memory", 0, 2, 4, 0, 1, 0, BELLRAFTER_RING_MEMORY},
    {"create SQ on an SQ", M, 2, 4, 0x8000, 1, 0, BELLRAFTER_RING_SHARED},
    {"create SQ up into an SQ", M, 2, 257, 0x4000, 1, 0, BELLRAFTER_RING_SHARED},
    {"create SQ in a CQ", M, 2, 4, 0x3000, 1, 0, BELLRAFTER_RING_SHARED},
    {"create SQ around a CQ", M, 2, 128, 0xF000, 1, 0, BELLRAFTER_RING_SHARED},
    {"create SQ, 1 before 8", M, 16, 0, 1, 16, 4, BELLRAFTER_QUEUE_ID},
    {"create SQ, 2 before 8", M, 1, 0, 1, 16, 4, BELLRAFTER_QUEUE_EXISTS},
    {"create SQ, 8 before 7", M, 2, 0, 1, 16, 4, BELLRAFTER_CLASS},
    {"create SQ, 7 before 3", M, 2, 0, 1, 16, 0, BELLRAFTER_WRONG_CQ},
    {"create SQ, 3 before 4", M, 2, 0, 1, 1, 0, BELLRAFTER_RING_SIZE},
    {"create SQ, 4 before 5", 0, 2, 4, TOP, 1, 0, BELLRAFTER_RING_BASE},
    {"create SQ, 5 before 6", 0x30FF, 2, 4, 0x3000, 1, 0, BELLRAFTER_RING_MEMORY},
};

static void create_cases(void)
{
    exist();
    for (size_t i = 0; i < COUNT_OF(cq_cases); i++) {
        go_back(&here);
        want(cq_cases[i].what, cq_cases[i].refusal,
             twin_create_cq(cq_cases[i].lent, cq_cases[i].id, cq_cases[i].size, cq_cases[i].base));
        look_at_all();
        compare_memories();
    }
    for (size_t i = 0; i < COUNT_OF(sq_cases); i++) {
        go_back(&here);
        want(sq_cases[i].what, sq_cases[i].refusal,
             twin_create_sq(sq_cases[i].lent, sq_cases[i].id, sq_cases[i].size, sq_cases[i].base, sq_cases[i].cq,
                            sq_cases[i].priority_class));
        look_at_all();
        compare_memories();
    }
}

/*
 * Doorbells. SQ 1 of 4 entries at head 0 and tail 3, SQ 2 at head 2 and tail 3, SQ 3 marked, SQ 5 new; CQ 1 at head 0
 * and tail 2, CQ 0 new.
 */

static void doorbells(void)
{
    fresh(0, 7, 4);
    for (uint64_t id = 1; id <= 3; id++)
        make_sq(id, 4, 0);
    make_sq(5, 4, 0);
    for (uint64_t cid = 0; cid < 3; cid++)
        submit_plain(2, cid);
    twin_start(M);
    twin_start(M);
    for (uint64_t cid = 0; cid < 3; cid++)
        submit_plain(1, cid);
    want("marking", BELLRAFTER_DOORBELL, twin_tail(3, 4));
    want_finish("posting", M, 0, 0, 0, 0);
    want_finish("posting", M, 1, 0, 1, 1);
    save_twin(&here);
}

static const struct {
    const char *what;
    uint64_t id, value, refusal;
} tail_cases[] = {
    {"tail P4, write 4", 1, 4, BELLRAFTER_DOORBELL},
    {"tail P4, write 0", 1, 0, BELLRAFTER_DOORBELL},
    {"tail at P4, write 1", 1, 1, BELLRAFTER_DOORBELL},
    {"tail at P4, write 2", 1, 2, BELLRAFTER_DOORBELL},
    {"tail at P4, write 3, the value held", 1, 3, BELLRAFTER_DOORBELL},
    {"tail P5, write 1", 2, 1, 0},
    {"tail P5, write 2", 2, 2, BELLRAFTER_DOORBELL},
    {"tail at P5, write 0", 2, 0, 0},
    {"tail at P5, write 3, the value held", 2, 3, BELLRAFTER_DOORBELL},
    {"tail of a new SQ, write 0, the value held", 5, 0, BELLRAFTER_DOORBELL},
    {"tail of a new SQ, write 1", 5, 1, 0},
    {"tail of a new SQ, write 3", 5, 3, 0},
    {"tail, write 2^16 + 1", 2, 65537, BELLRAFTER_DOORBELL},
    {"tail, write 2^64 - 1", 2, TOP, BELLRAFTER_DOORBELL},
    {"tail of SQ 16", 16, 0, BELLRAFTER_QUEUE_ID},
    {"tail of SQ 257", 257, 0, BELLRAFTER_QUEUE_ID},
    {"tail of SQ 2^64 - 1", TOP, TOP, BELLRAFTER_QUEUE_ID},
    {"tail of no SQ", 4, 0, BELLRAFTER_NO_QUEUE},
    {"tail, 9 before 10", 0, TOP, BELLRAFTER_NO_QUEUE},
    {"tail of a marked SQ", 3, 1, BELLRAFTER_MARKED},
    {"tail of a marked SQ, the value held", 3, 0, BELLRAFTER_MARKED},
    {"tail, 11 before 10", 3, 4, BELLRAFTER_MARKED},
};

static const struct {
    const char *what;
    uint64_t id, value, refusal;
} head_cases[] = {
    {"head, the value held", 1, 0, BELLRAFTER_DOORBELL},
    {"head, one", 1, 1, 0},
    {"head, all", 1, 2, 0},
    {"head past the tail", 1, 3, BELLRAFTER_DOORBELL},
    {"head at the size", 1, 4, BELLRAFTER_DOORBELL},
    {"head 2^16", 1, 65536, BELLRAFTER_DOORBELL},
    {"head 2^64 - 1", 1, TOP, BELLRAFTER_DOORBELL},
    {"head of a new CQ, write 0, the value held", 0, 0, BELLRAFTER_DOORBELL},
    {"head past the tail of a new CQ", 0, 1, BELLRAFTER_DOORBELL},
    {"head of CQ 16", 16, 0, BELLRAFTER_QUEUE_ID},
    {"head of CQ 2^32 + 1", ((uint64_t)1 << 32) + 1, 0, BELLRAFTER_QUEUE_ID},
    {"head, 1 before 10", TOP, TOP, BELLRAFTER_QUEUE_ID},
    {"head of no CQ", 2, 0, BELLRAFTER_NO_QUEUE},
    {"head, 9 before 10", 15, TOP, BELLRAFTER_NO_QUEUE},
};

static void doorbell_write_cases(void)
{
    doorbells();
    for (size_t i = 0; i < COUNT_OF(tail_cases); i++) {
        go_back(&here);
        uint64_t tail = tail_cases[i].id < 16 ? plain.sqs[tail_cases[i].id].tail : 0;
        want(tail_cases[i].what, tail_cases[i].refusal, twin_tail(tail_cases[i].id, tail_cases[i].value));
        look_at_all();
        if (tail_cases[i].refusal == BELLRAFTER_DOORBELL)
            want("a bad tail marks", BELLRAFTER_MARKED, twin_tail(tail_cases[i].id, tail));
    }
    for (size_t i = 0; i < COUNT_OF(head_cases); i++) {
        go_back(&here);
        want(head_cases[i].what, head_cases[i].refusal, twin_head(head_cases[i].id, head_cases[i].value));
        look_at_all();
        if (head_cases[i].refusal != 0)
            compare_saved(&here);
    }
    go_back(&here);
    want("marking", BELLRAFTER_DOORBELL, twin_tail(2, 2));
    want("marking", BELLRAFTER_DOORBELL, twin_tail(1, 0));
    refused_start("marked SQs start nothing", M, BELLRAFTER_NO_CANDIDATE);
}

/* The value held is the last one accepted, 0 at first: it cannot be written again, and refused writes do not count. */
static void held_cases(void)
{
    fresh(0, 0, 4);
    make_sq(1, 4, 0);
    make_sq(2, 4, 0);
    for (uint64_t cid = 0; cid < 3; cid++)
        submit_plain(1, cid);
    want_start("start", (struct bellrafter_start){0, 1, 1, 0, 0, 0, 0, 0}, M);
    want_start("start", (struct bellrafter_start){0, 1, 1, 1, 0, 1, 0, 1}, M);
    want_finish("posting", M, 0, 0, 0, 0);

    want("head 0, never written", BELLRAFTER_DOORBELL, twin_head(1, 0));
    want("head 2, past the tail", BELLRAFTER_DOORBELL, twin_head(1, 2));
    want("head 0, after a refused write", BELLRAFTER_DOORBELL, twin_head(1, 0));
    want("head 1, after refused writes", 0, twin_head(1, 1));
    want("head 1 again", BELLRAFTER_DOORBELL, twin_head(1, 1));
    want("head 1 a third time", BELLRAFTER_DOORBELL, twin_head(1, 1));
    want_finish("posting", M, 1, 0, 1, 1);
    want("head 1 again, with one waiting", BELLRAFTER_DOORBELL, twin_head(1, 1));
    want("head 2, refused before", 0, twin_head(1, 2));

    want("tail 0 of a new SQ", BELLRAFTER_DOORBELL, twin_tail(2, 0));
    want("tail 1, marked by tail 0", BELLRAFTER_MARKED, twin_tail(2, 1));
    want("tail 0 again, 11 before 10", BELLRAFTER_MARKED, twin_tail(2, 0));
    save_twin(&here);
    want("tail 0, held no longer", 0, twin_tail(1, 0));
    want("tail 0 again", BELLRAFTER_DOORBELL, twin_tail(1, 0));
    go_back(&here);
    want("tail 3 again, one waiting", BELLRAFTER_DOORBELL, twin_tail(1, 3));
    refused_start("marked by the value held, starts nothing", M, BELLRAFTER_NO_CANDIDATE);
    go_back(&here);
    want_start("start", (struct bellrafter_start){0, 1, 1, 0, 0, 2, 0, 2}, M);
    want("tail 3 again, all started", BELLRAFTER_DOORBELL, twin_tail(1, 3));
    want_finish("a marked SQ's command", M, 0, 0, 2, 2);
    look_at_all();
}

/* The order in which SQs are served: each digit is an SQ, and each SQ gets as many commands as it has digits. */

static void served(const char *what, uint64_t mechanism, uint32_t word, const char *classes, const char *order)
{
    fresh(mechanism, word, 64);
    for (uint64_t id = 0; id < strlen(classes); id++) {
        if (classes[id] != ' ')
            make_sq(id, 64, (uint64_t)(classes[id] - '0'));
    }
    for (uint64_t cid = 0; cid < strlen(order); cid++)
        submit_plain((uint64_t)(order[cid] - '0'), cid);
    for (uint64_t tag = 0; tag < strlen(order); tag++) {
        uint64_t id = (uint64_t)(order[tag] - '0');
        want_start(what, (struct bellrafter_start){0, id, 1, tag, 0, plain.sqs[id].head, 0, tag}, M);
    }
    refused_start(what, M, BELLRAFTER_NO_CANDIDATE);
    look_at_all();
}

static void order_cases(void)
{
    served("P1", 0, 0, "000", "012012");
    served("P2", 0, 1, " 00", "112212");
    served("P3", 1, 0x01000000, " 123", "112311232323");
    served("no limit", 0, 7, "0321", "000111222333");
    served("class without effect", 0, 0, "3210", "01230123");
    served("SQ 0 first, then urgent", 1, 0, "3001", "001212" "33");
    served("urgent without limit", 1, 7, " 003", "111222" "333");
    served("a level's full remainder is its credit", 1, 0x02000007, " 112", "1113" "2223" "1113");
    served("burst 2, credit 3", 1, 0x02000001, " 11", "112" "112" "22");
    served("bits 7:3 are ignored", 0, 0xF8, " 00", "1212");
}

/* Starts and finishes refused. */

/* SQ 1 is served before SQ 2 under both mechanisms: it keeps the turn, or has the higher level. */
static void start_cases(uint64_t mechanism)
{
    fresh(mechanism, 0xFFFFFF07, 64);
    refused_start("start, nothing submitted", M, BELLRAFTER_NO_CANDIDATE);
    make_sq(1, 64, 1);
    make_sq(2, 64, 2);
    refused_start("start, 5 before 12, no memory", 0, BELLRAFTER_RING_MEMORY);
    refused_start("start, 5 before 12, one byte short", cq_base(1) + 1023, BELLRAFTER_RING_MEMORY);
    refused_start("start, memory ends with the last ring", cq_base(1) + 1024, BELLRAFTER_NO_CANDIDATE);
    for (uint64_t cid = 0; cid < 63; cid++)
        submit_plain(1, cid);
    refused_start("start, one byte short", cq_base(1) + 1023, BELLRAFTER_RING_MEMORY);
    for (uint64_t tag = 0; tag < 63; tag++)
        want_start("start 63", (struct bellrafter_start){0, 1, 1, tag, 0, tag, 0, tag}, cq_base(1) + 1024);
    submit_pair(1, 100, 101);
    submit_plain(2, 5);
    save_twin(&here);
    refused_start("start, one tag for a pair, no other SQ tried", M, BELLRAFTER_NO_TAG);
    refused_start("start, 13 changes no turn", M, BELLRAFTER_NO_TAG);
    refused_start("start, 5 before 13", cq_base(1) + 1023, BELLRAFTER_RING_MEMORY);
    want_finish("a tag is freed", M, 17, 0, 0, 17);
    want_start("start, a pair over the wrap gets 17 and 63",
               (struct bellrafter_start){0, 1, 2, 17, 63, 63, 0, 63}, M);
    refused_start("start, no tag", M, BELLRAFTER_NO_TAG);
    refused_start("start, 5 before 13, no memory", 0, BELLRAFTER_RING_MEMORY);
    refused_finish("second half first", M, 63, 0, BELLRAFTER_FIRST_HALF);
    want_finish("a tag is freed", M, 62, 0, 1, 62);
    want_start("start with the last tag", (struct bellrafter_start){0, 2, 1, 62, 0, 0, 0, 65}, M);
    look_at_all();

    go_back(&here); /* a pair needs two tags whatever its verdict */
    twin_poke(sq_base(1) + 64 * 63, (const uint8_t[]){0x77}, 1);
    refused_start("start, one tag for a bad pair", M, BELLRAFTER_NO_TAG);
}

static void finish_cases(void)
{
    fresh(0, 7, 2);
    refused_finish("finish, nothing started", M, 0, 0, BELLRAFTER_NO_COMMAND);
    make_sq(1, 8, 0);
    submit_pair(1, 1, 2);
    submit_plain(1, 3);
    submit_plain(1, 4);
    for (int i = 0; i < 3; i++)
        twin_start(M);
    save_twin(&here);
    refused_finish("finish tag 4", M, 4, 0, BELLRAFTER_NO_COMMAND);
    refused_finish("finish tag 63", M, 63, 0, BELLRAFTER_NO_COMMAND);
    refused_finish("finish tag 64", M, 64, 0, BELLRAFTER_NO_COMMAND);
    refused_finish("finish tag 256", M, 256, 0, BELLRAFTER_NO_COMMAND);
    refused_finish("finish tag 2^32", M, (uint64_t)1 << 32, 0, BELLRAFTER_NO_COMMAND);
    refused_finish("finish tag 2^64 - 1", M, TOP, 0, BELLRAFTER_NO_COMMAND);
    refused_finish("finish status 32,768", M, 2, 32768, BELLRAFTER_STATUS);
    refused_finish("finish status 65,536", M, 2, 65536, BELLRAFTER_STATUS);
    refused_finish("finish status 2^64 - 1", M, 2, TOP, BELLRAFTER_STATUS);
    refused_finish("finish a second half", M, 1, 0, BELLRAFTER_FIRST_HALF);
    refused_finish("finish without memory", 0, 2, 0, BELLRAFTER_RING_MEMORY);
    refused_finish("finish, one byte short", cq_base(1) + 31, 2, 0, BELLRAFTER_RING_MEMORY);
    want_finish("finish, memory ends with the last ring", cq_base(1) + 32, 2, 32767, 0, 2);
    want_posted("posted", 1, 0, (struct bellrafter_completion){0, 0xDDCCBBAA, 4, 1, 3, 32767, 1});
    refused_finish("finish, CQ full", M, 3, 0, BELLRAFTER_CQ_FULL);
    refused_finish("finish a tag that is free again", M, 2, 0, BELLRAFTER_NO_COMMAND);
    refused_finish("finish, 5 before 14", cq_base(1) + 31, 64, 0, BELLRAFTER_RING_MEMORY);
    refused_finish("finish, 5 before all", 0, 64, TOP, BELLRAFTER_RING_MEMORY);
    refused_finish("finish, 14 before 15", M, 64, 32768, BELLRAFTER_NO_COMMAND);
    refused_finish("finish, 15 before 16", M, 1, 32768, BELLRAFTER_STATUS);
    refused_finish("finish, 16 before 17", M, 1, 0, BELLRAFTER_FIRST_HALF);
    refused_finish("finish, 15 before 17", M, 3, 32768, BELLRAFTER_STATUS);
    look_at_all();

    want("marking", BELLRAFTER_DOORBELL, twin_tail(1, 8));
    want("head", 0, twin_head(1, 1));
    want_finish("a marked SQ's command", M, 3, 5, 1, 3);
    want_posted("posted", 1, 1, (struct bellrafter_completion){0, 0xDDCCBBAA, 4, 1, 4, 5, 1});
}

/* "CQ size 2: one posting, then 17; head write 1; slot 1 with tag 1; head write 0; slot 0 with tag 0." */
static void small_cq(void)
{
    fresh(0, 0, 2);
    make_sq(1, 8, 0);
    for (uint64_t cid = 0; cid < 7; cid++)
        submit_plain(1, cid);
    for (int i = 0; i < 7; i++)
        twin_start(M);
    want_finish("CQ size 2, posting", M, 0, 0, 0, 0);
    want_posted("CQ size 2, tag 1", 1, 0, (struct bellrafter_completion){0, 0xDDCCBBAA, 7, 1, 0, 0, 1});
    refused_finish("CQ size 2, then 17", M, 1, 0, BELLRAFTER_CQ_FULL);
    want("CQ size 2, head write 1", 0, twin_head(1, 1));
    want_finish("CQ size 2, slot 1", M, 1, 0, 1, 1);
    want_posted("CQ size 2, slot 1 with tag 1", 1, 1, (struct bellrafter_completion){0, 0xDDCCBBAA, 7, 1, 1, 0, 1});
    refused_finish("CQ size 2, 17 again", M, 2, 0, BELLRAFTER_CQ_FULL);
    want("CQ size 2, head write 0", 0, twin_head(1, 0));
    want_finish("CQ size 2, slot 0", M, 2, 0, 0, 2);
    want_posted("CQ size 2, slot 0 with tag 0", 1, 0, (struct bellrafter_completion){0, 0xDDCCBBAA, 7, 1, 2, 0, 0});
    want("CQ size 2, head write 1", 0, twin_head(1, 1));
    want_finish("CQ size 2, slot 1", M, 3, 0, 1, 3);
    want_posted("CQ size 2, slot 1 with tag 0", 1, 1, (struct bellrafter_completion){0, 0xDDCCBBAA, 7, 1, 3, 0, 0});
    want("CQ size 2, head write 0", 0, twin_head(1, 0));
    want_finish("CQ size 2, slot 0", M, 4, 0, 0, 4);
    want_posted("CQ size 2, third pass, tag 1", 1, 0, (struct bellrafter_completion){0, 0xDDCCBBAA, 7, 1, 4, 0, 1});
    look_at_all();
}

/*
 * Verdicts. On SQ 1, CIDs 7 (good) and 8 (with a verdict) are outstanding; on SQ 2, CID 9. Up to two entries are
 * submitted to an SQ; `behind` is whether the second one is, or only lies behind the tail. The numbers of an entry are
 * OPC, FUSE, PSDT, CID, NSID, SLBA, NLB and what fills the other fields.
 */

#define FIRST 5, 1, 0, 1, 4, 5, 6, 0
#define SECOND 1, 2, 0, 2, 4, 5, 6, 0
#define HIGH_BIT(n) ((uint64_t)1 << (n))

static const struct {
    const char *what;
    uint64_t id;
    struct submitted first, second;
    bool behind;
    uint64_t count, verdict;
} verdict_cases[] = {
    {"good", 1, {.opc = 2, .cid = 1}, {0}, false, 1, 0},
    {"good, any opcode and fields", 1, {.opc = 0xFF, .cid = 0xFFFF, .nsid = 9, .others = TOP}, {0}, false, 1, 0},
    {"Admin", 0, {.opc = 2, .cid = 7}, {0}, false, 1, 0},
    {"Admin, FUSE 1", 0, {FIRST}, {0}, false, 1, INVALID_FIELD},
    {"Admin, FUSE 2", 0, {SECOND}, {0}, false, 1, INVALID_FIELD},
    {"Admin, FUSE 3", 0, {.fuse = 3}, {0}, false, 1, INVALID_FIELD},
    {"Admin, a pair is taken apart", 0, {FIRST}, {SECOND}, true, 1, INVALID_FIELD},
    {"Admin, PSDT 1", 0, {.psdt = 1}, {0}, false, 1, INVALID_FIELD},
    {"FUSE 3", 1, {.fuse = 3, .cid = 1}, {0}, false, 1, INVALID_FIELD},
    {"FUSE 3 with a follower", 1, {.fuse = 3, .cid = 1}, {SECOND}, true, 1, INVALID_FIELD},
    {"FUSE 2", 1, {SECOND}, {0}, false, 1, MISSING_FUSED},
    {"FUSE 2 before FUSE 1", 1, {SECOND}, {FIRST}, true, 1, MISSING_FUSED},
    {"FUSE 1 alone", 1, {FIRST}, {0}, false, 1, MISSING_FUSED},
    {"FUSE 1, its follower not submitted", 1, {FIRST}, {SECOND}, false, 1, MISSING_FUSED},
    {"FUSE 1, 0", 1, {FIRST}, {.opc = 1, .cid = 2}, true, 1, MISSING_FUSED},
    {"FUSE 1, 1", 1, {FIRST}, {FIRST}, true, 1, MISSING_FUSED},
    {"FUSE 1, 3", 1, {FIRST}, {.fuse = 3}, true, 1, MISSING_FUSED},
    {"PSDT 1", 1, {.psdt = 1, .cid = 1}, {0}, false, 1, INVALID_FIELD},
    {"PSDT 2", 1, {.psdt = 2, .cid = 1}, {0}, false, 1, INVALID_FIELD},
    {"PSDT 3", 1, {.psdt = 3, .cid = 1}, {0}, false, 1, INVALID_FIELD},
    {"CID in use", 1, {.opc = 2, .cid = 7}, {0}, false, 1, ID_CONFLICT},
    {"CID in use by a command with a verdict", 1, {.opc = 2, .cid = 8}, {0}, false, 1, ID_CONFLICT},
    {"CID in use on another SQ", 1, {.opc = 2, .cid = 9}, {0}, false, 1, 0},
    {"CID, upper byte alike", 1, {.opc = 2, .cid = 0x107}, {0}, false, 1, 0},
    {"0Ah before 02h for PSDT", 1, {.fuse = 2, .psdt = 1, .cid = 7}, {0}, false, 1, MISSING_FUSED},
    {"02h for FUSE before 03h", 1, {.fuse = 3, .cid = 7}, {0}, false, 1, INVALID_FIELD},
    {"02h for PSDT before 03h", 1, {.psdt = 3, .cid = 7}, {0}, false, 1, INVALID_FIELD},
    {"pair", 1, {FIRST}, {SECOND}, true, 2, 0},
    {"pair, other fields differ", 1, {5, 1, 0, 1, 4, 5, 6, TOP}, {SECOND}, true, 2, 0},
    {"pair, first opcode", 1, {1, 1, 0, 1, 4, 5, 6, 0}, {SECOND}, true, 2, INVALID_FIELD},
    {"pair, second opcode", 1, {FIRST}, {5, 2, 0, 2, 4, 5, 6, 0}, true, 2, INVALID_FIELD},
    {"pair, second opcode 81h", 1, {FIRST}, {0x81, 2, 0, 2, 4, 5, 6, 0}, true, 2, INVALID_FIELD},
    {"pair, NSID", 1, {5, 1, 0, 1, 3, 5, 6, 0}, {SECOND}, true, 2, INVALID_FIELD},
    {"pair, NSID, highest bit", 1, {5, 1, 0, 1, HIGH_BIT(31) + 4, 5, 6, 0}, {SECOND}, true, 2, INVALID_FIELD},
    {"pair, SLBA", 1, {FIRST}, {1, 2, 0, 2, 4, 4, 6, 0}, true, 2, INVALID_FIELD},
    {"pair, SLBA, bit 32", 1, {FIRST}, {1, 2, 0, 2, 4, HIGH_BIT(32) + 5, 6, 0}, true, 2, INVALID_FIELD},
    {"pair, SLBA, highest bit", 1, {FIRST}, {1, 2, 0, 2, 4, HIGH_BIT(63) + 5, 6, 0}, true, 2, INVALID_FIELD},
    {"pair, NLB", 1, {FIRST}, {1, 2, 0, 2, 4, 5, 7, 0}, true, 2, INVALID_FIELD},
    {"pair, NLB, highest bit", 1, {5, 1, 0, 1, 4, 5, HIGH_BIT(15) + 6, 0}, {SECOND}, true, 2, INVALID_FIELD},
    {"pair, first PSDT", 1, {5, 1, 1, 1, 4, 5, 6, 0}, {SECOND}, true, 2, INVALID_FIELD},
    {"pair, second PSDT", 1, {FIRST}, {1, 2, 2, 2, 4, 5, 6, 0}, true, 2, INVALID_FIELD},
    {"pair, both CIDs equal", 1, {5, 1, 0, 2, 4, 5, 6, 0}, {SECOND}, true, 2, ID_CONFLICT},
    {"pair, first CID in use", 1, {5, 1, 0, 7, 4, 5, 6, 0}, {SECOND}, true, 2, ID_CONFLICT},
    {"pair, second CID in use", 1, {FIRST}, {1, 2, 0, 8, 4, 5, 6, 0}, true, 2, ID_CONFLICT},
    {"pair, CID in use on another SQ", 1, {5, 1, 0, 9, 4, 5, 6, 0}, {SECOND}, true, 2, 0},
    {"pair, 02h before 03h", 1, {5, 1, 1, 7, 4, 5, 6, 0}, {SECOND}, true, 2, INVALID_FIELD},
    {"pair, 02h for the opcode before 03h", 1, {5, 1, 0, 2, 4, 5, 6, 0}, {0, 2, 0, 2, 4, 5, 6, 0}, true, 2, INVALID_FIELD},
};

/* Starts and finishes `count` commands on SQs 0 and 1 of 8 entries, but for those that stay outstanding. */
static void outstanding(uint64_t count)
{
    fresh(0, 7, 64);
    for (uint64_t id = 0; id <= 2; id++)
        make_sq(id, 8, 0);
    submit_plain(1, 7);
    submit(1, (struct submitted){.psdt = 1, .cid = 8});
    submit_plain(2, 9);
    for (uint64_t i = 0; i < count; i++)
        submit_plain(0, 20 + i);
    for (uint64_t i = 2; i < count; i++)
        submit_plain(1, 20 + i);
    while (twin_start(M).refusal == 0)
        ;
    for (uint64_t tag = 0; tag < 64; tag++) {
        if (plain.commands[tag].outstanding && plain.commands[tag].cid >= 20)
            want("setting up", 0, twin_finish(M, tag, 0, 0).refusal);
    }
    save_twin(&here);
}

static uint64_t lowest_free(uint64_t from)
{
    while (plain.commands[from].outstanding)
        from++;
    return from;
}

static void verdict_case(size_t i, uint64_t slot)
{
    uint64_t id = verdict_cases[i].id, count = verdict_cases[i].count, verdict = verdict_cases[i].verdict;
    uint64_t next = (slot + 1) % 8, first = lowest_free(0), second = lowest_free(first + 1);
    uint64_t number = 2 * slot + 1; /* so many were started before */
    char what[120];

    snprintf(what, sizeof what, "verdict at slot %" PRIu64 ": %s", slot, verdict_cases[i].what);
    twin_submit(sq_base(id) + 64 * slot, verdict_cases[i].first);
    twin_submit(sq_base(id) + 64 * next, verdict_cases[i].second);
    want(what, 0, twin_tail(id, verdict_cases[i].behind ? (slot + 2) % 8 : next));
    want_start(what, (struct bellrafter_start){0, id, count, first, count == 2 ? second : 0, slot, verdict, number}, M);
    look_at_all();

    uint64_t cq = id != 0, at = plain.cqs[cq].tail;
    uint16_t head = (uint16_t)((slot + count) % 8);
    uint16_t status = (uint16_t)(verdict != 0 ? verdict : 0x1234);
    uint16_t failed_fused = (uint16_t)(verdict != 0 ? verdict : FAILED_FUSED);
    want_finish(what, M, first, 0x1234, at, number);
    want_posted(what, cq, at,
                (struct bellrafter_completion){0, 0xDDCCBBAA, head, (uint16_t)id,
                                               (uint16_t)verdict_cases[i].first.cid, status, 1});
    if (count == 2) {
        look_at_all();
        want_finish(what, M, second, 0, at + 1, number + 1);
        want_posted(what, cq, at + 1,
                    (struct bellrafter_completion){0, 0xDDCCBBAA, head, (uint16_t)id,
                                                   (uint16_t)verdict_cases[i].second.cid, failed_fused, 1});
    }
}

static void all_verdicts(void)
{
    static const uint64_t slots[] = {3, 6, 7}; /* in the middle, a pair up to the wrap, a pair over it */

    for (size_t n = 0; n < COUNT_OF(slots); n++) {
        outstanding(slots[n]);
        for (size_t i = 0; i < COUNT_OF(verdict_cases); i++) {
            go_back(&here);
            verdict_case(i, slots[n]);
        }
    }
}

/* Pairs. */

static void pair_cases(void)
{
    fresh(0, 0, 64);
    make_sq(1, 8, 0);
    submit(1, (struct submitted){5, 1, 0, 10, 4, 5, 6, 0});
    submit(1, (struct submitted){FIRST});
    submit(1, (struct submitted){SECOND});
    want_start("FUSE 1, 1, 2: the first alone", (struct bellrafter_start){0, 1, 1, 0, 0, 0, MISSING_FUSED, 0}, M);
    want_start("FUSE 1, 1, 2: then a pair", (struct bellrafter_start){0, 1, 2, 1, 2, 1, 0, 1}, M);
    want_finish("the single one", M, 0, 0, 0, 0);

    /* 16 is about the first half and not about its tag. */
    submit_plain(1, 20);
    submit_pair(1, 21, 22);
    refused_finish("second half before the first", M, 2, 0, BELLRAFTER_FIRST_HALF);
    want_finish("first half", M, 1, 0, 1, 1);
    want_start("tag 0 again", (struct bellrafter_start){0, 1, 1, 0, 0, 3, 0, 3}, M);
    want_start("the first half's tag again, for a pair", (struct bellrafter_start){0, 1, 2, 1, 3, 4, 0, 4}, M);
    refused_finish("second half of the newer pair", M, 3, 0, BELLRAFTER_FIRST_HALF);
    want_finish("second half whose first half's tag is in use", M, 2, 6, 2, 2);
    want_posted("its own status", 1, 2, (struct bellrafter_completion){0, 0xDDCCBBAA, 6, 1, 2, 6, 1});
    want_finish("first half of the newer pair fails", M, 1, 0x7FFF, 3, 4);
    expect("second half is told", of_command((struct bellrafter_command){0, 1, 22, FAILED_FUSED, 5}),
           of_command(ref_look_command(&plain, 3)));
    look_at_all();
    submit_plain(1, 30);
    want_start("another command with the first half's tag", (struct bellrafter_start){0, 1, 1, 1, 0, 6, 0, 6}, M);
    want_finish("the other command", M, 1, 0, 4, 6);
    want_posted("the other command's status is its own", 1, 4,
                (struct bellrafter_completion){0, 0xDDCCBBAA, 7, 1, 30, 0, 1});
    want_finish("second half", M, 3, 0, 5, 5);
    want_posted("second half of a failed first half", 1, 5,
                (struct bellrafter_completion){0, 0xDDCCBBAA, 7, 1, 22, FAILED_FUSED, 1});

    /* Two tail writes, one pair, over the wrap. */
    submit(1, (struct submitted){FIRST});
    submit(1, (struct submitted){SECOND});
    want_start("pair over the wrap", (struct bellrafter_start){0, 1, 2, 1, 2, 7, 0, 7}, M);
    want_finish("first half", M, 1, 0, 6, 7);
    want_finish("second half", M, 2, 3, 7, 8);
    want_posted("SQHD behind the wrap", 1, 7, (struct bellrafter_completion){0, 0xDDCCBBAA, 1, 1, 2, 3, 1});

    /* A pair with a verdict has the order of its halves too. */
    submit(1, (struct submitted){5, 1, 1, 1, 4, 5, 6, 0});
    submit(1, (struct submitted){SECOND});
    want_start("bad pair", (struct bellrafter_start){0, 1, 2, 1, 2, 1, INVALID_FIELD, 9}, M);
    refused_finish("bad pair, second half first", M, 2, 0, BELLRAFTER_FIRST_HALF);
    want_finish("bad pair, first half", M, 1, 0, 8, 9);
    want_finish("bad pair, second half", M, 2, 0, 9, 10);
    want_posted("bad pair's verdict stays", 1, 9,
                (struct bellrafter_completion){0, 0xDDCCBBAA, 3, 1, 2, INVALID_FIELD, 1});
    look_at_all();
}

/* A finish changes its 16 bytes alone, whatever the ring held, and the reader finds it. */
static void posting_cases(void)
{
    fresh(0, 7, 4);
    make_sq(1, 8, 0);
    twin_fill();
    for (uint64_t i = 0; i < 12; i++) {
        submit_plain(1, i);
        uint64_t tail = plain.cqs[1].tail, phase = plain.cqs[1].phase;
        want_start("start", (struct bellrafter_start){0, 1, 1, 0, 0, i % 8, 0, i}, M);
        want_finish("posting", M, 0, i, tail, i);
        want_posted("posted", 1, tail,
                    (struct bellrafter_completion){0, 0xDDCCBBAA, (uint16_t)((i + 1) % 8), 1, (uint16_t)i, (uint16_t)i,
                                                   (uint32_t)phase});
        require(phase == (i / 4 + 1) % 2, "the phase tag turns at each wrap");
        want("released", 0, twin_head(1, (tail + 1) % 4));
    }
}

/*
 * Start numbers: "0 for the first command a controller takes and one more for each further command, a pair taking two
 * in order". The cases above have them too; that 13 uses none is among start_cases.
 */

static void number_cases(void)
{
    fresh(0, 0, 64);
    make_sq(1, 16, 0);
    make_sq(2, 16, 0);
    refused_start("12 uses no number", M, BELLRAFTER_NO_CANDIDATE);
    submit_plain(1, 10);
    refused_start("5 uses no number", 0, BELLRAFTER_RING_MEMORY);
    want_start("number 0", (struct bellrafter_start){0, 1, 1, 0, 0, 0, 0, 0}, M);
    submit_pair(2, 20, 21);
    submit_plain(1, 11);
    submit(1, (struct submitted){.fuse = 3, .cid = 12});
    want_start("a pair takes 1 and 2", (struct bellrafter_start){0, 2, 2, 1, 2, 0, 0, 1}, M);
    want_command("a pair's first half", 1, (struct bellrafter_command){0, 2, 20, 0, 1});
    want_command("a pair's second half", 2, (struct bellrafter_command){0, 2, 21, 0, 2});
    want_start("number 3, on another SQ", (struct bellrafter_start){0, 1, 1, 3, 0, 1, 0, 3}, M);
    want_start("number 4, with a verdict", (struct bellrafter_start){0, 1, 1, 4, 0, 2, INVALID_FIELD, 4}, M);
    submit(2, (struct submitted){5, 1, 1, 22, 4, 5, 6, 0});
    submit(2, (struct submitted){1, 2, 0, 23, 4, 5, 6, 0});
    want_start("a bad pair takes 5 and 6", (struct bellrafter_start){0, 2, 2, 5, 6, 2, INVALID_FIELD, 5}, M);
    want_command("a bad pair's second half", 6, (struct bellrafter_command){0, 2, 23, INVALID_FIELD, 6});

    /* In another order than the starts; refusals between have no number. */
    want_finish("number 4 first", M, 4, 0, 0, 4);
    want_command("a free tag has no number", 4, (struct bellrafter_command){.refusal = BELLRAFTER_NO_COMMAND});
    refused_finish("14 has no number", M, 4, 0, BELLRAFTER_NO_COMMAND);
    refused_finish("5 has no number", 0, 3, 0, BELLRAFTER_RING_MEMORY);
    refused_finish("15 has no number", M, 3, 32768, BELLRAFTER_STATUS);
    refused_finish("16 has no number", M, 2, 0, BELLRAFTER_FIRST_HALF);
    want_finish("number 3", M, 3, 0, 1, 3);
    want_finish("number 5, of a bad first half", M, 5, 0, 2, 5);
    want_finish("number 1, of a first half that fails", M, 1, 6, 3, 1);
    want_command("told of it, number 2", 2, (struct bellrafter_command){0, 2, 21, 9, 2});

    /* Freed tags are used again, numbers are not. */
    submit_pair(2, 24, 25);
    submit_plain(1, 13);
    want_start("tag 1 again, number 7", (struct bellrafter_start){0, 1, 1, 1, 0, 3, 0, 7}, M);
    want_start("tags 3 and 4 again, numbers 8 and 9", (struct bellrafter_start){0, 2, 2, 3, 4, 4, 0, 8}, M);
    want_command("tag 4 has number 9", 4, (struct bellrafter_command){0, 2, 25, 0, 9});
    want_finish("number 8", M, 3, 0, 4, 8);
    want_finish("number 2, the older second half", M, 2, 0, 5, 2);
    want_finish("number 9", M, 4, 0, 6, 9);
    want_finish("number 0, the oldest", M, 0, 0, 7, 0);
    look_at_all();

    /* A copy of the state goes on with the same numbers. */
    submit_plain(2, 26);
    submit_plain(2, 27);
    save_twin(&here);
    for (int copy = 0; copy < 3; copy++) {
        want_start("number 10 in each copy", (struct bellrafter_start){0, 2, 1, 0, 0, 6, 0, 10}, M);
        want_start("number 11 in each copy", (struct bellrafter_start){0, 2, 1, 2, 0, 7, 0, 11}, M);
        want_finish("number 11 in each copy", M, 2, 0, 8, 11);
        want_finish("number 7 in each copy", M, 1, 0, 9, 7);
        go_back(&here);
    }
}

/* A new controller begins with 0, whatever the words were and also where it is refused. */
static void first_number_cases(void)
{
    for (uint64_t mechanism = 0; mechanism < 3; mechanism++) {
        want("new again", mechanism > 1 ? BELLRAFTER_MECHANISM : 0, twin_new(mechanism, 0));
        make_cq(1, 64);
        make_sq(1, 8, 0);
        want_command("no number before the first start", 0,
                     (struct bellrafter_command){.refusal = BELLRAFTER_NO_COMMAND});
        submit_pair(1, 1, 2);
        submit_plain(1, 3);
        want_start("number 0 again", (struct bellrafter_start){0, 1, 2, 0, 1, 0, 0, 0}, M);
        want_start("number 2 again", (struct bellrafter_start){0, 1, 1, 2, 0, 2, 0, 2}, M);
        want_finish("number 2 again", M, 2, 0, 0, 2);
    }
}

/* The library alone: numbers that have more than 8 and more than 16 bits. */
static void many_numbers(void)
{
    static uint64_t words[BELLRAFTER_STATE_WORDS];
    static uint8_t rings[2 * 4096];
    bool done = bellrafter_controller_new(words, 0, 0) == 0 &&
                bellrafter_create_cq(words, rings, sizeof rings, 1, 2, 0) == 0 &&
                bellrafter_create_sq(words, rings, sizeof rings, 1, 2, 4096, 1, 0) == 0;

    for (uint64_t i = 0; done && i < 70000; i++) {
        done = bellrafter_tail_write(words, 1, (i + 1) % 2) == 0;
        struct bellrafter_start s = bellrafter_start(words, rings, sizeof rings);
        struct bellrafter_command c = bellrafter_look_command(words, 0);
        struct bellrafter_finish f = bellrafter_finish(words, rings, sizeof rings, 0, 0, 0);
        done = done && s.refusal == 0 && c.refusal == 0 && f.refusal == 0;
        done = done && s.number == i && c.number == i && f.number == i;
        done = done && bellrafter_head_write(words, 1, (i + 1) % 2) == 0;
    }
    require(done, "numbers up to 70,000");
}

/*
 * "It does not appear in the ring." Two controllers that differ in numbers alone: with so many commands, started and
 * finished one after another, all rings are back at slot 0 and phase tag 1, and hold the same bytes again.
 */

enum { BACK = 8 };

static void run_through(uint64_t number)
{
    for (uint64_t i = 0; i < BACK; i++) {
        submit_plain(1, i);
        want_start("run through", (struct bellrafter_start){0, 1, 1, 0, 0, i, 0, number + i}, M);
        want_finish("run through", M, 0, i, i % 4, number + i);
        want("run through", 0, twin_head(1, (i + 1) % 4));
    }
}

/* Singles, pairs and a verdict, which are not finished in their order; the next number is `number`. */
static void same_calls(uint64_t number)
{
    submit_plain(1, 100);
    submit_pair(1, 101, 102);
    submit(1, (struct submitted){.psdt = 2, .cid = 103});
    want_start("same calls", (struct bellrafter_start){0, 1, 1, 0, 0, 0, 0, number}, M);
    want_start("same calls", (struct bellrafter_start){0, 1, 2, 1, 2, 1, 0, number + 1}, M);
    want_start("same calls", (struct bellrafter_start){0, 1, 1, 3, 0, 3, INVALID_FIELD, number + 3}, M);
    want_finish("same calls", M, 3, 0, 0, number + 3);
    want_finish("same calls", M, 1, 7, 1, number + 1);
    want_finish("same calls", M, 2, 0, 2, number + 2);
    want("same calls", 0, twin_head(1, 3));
    want_finish("same calls", M, 0, 0, 3, number);
}

static void number_memory_cases(void)
{
    static struct saved younger, older;

    fresh(0, 0, 4);
    make_sq(1, 8, 0);
    run_through(0);
    save_twin(&younger);
    run_through(BACK);
    save_twin(&older);
    require(memcmp(younger.memory, older.memory, M) == 0, "the same bytes before");
    for (uint64_t lap = 0; lap < 3; lap++) { /* with numbers that are 8 apart, then 16, then 24 */
        go_back(&older);
        same_calls(BACK * (2 + lap));
        save_twin(&here);
        go_back(&younger);
        same_calls(BACK);
        compare_memories();
        require(memcmp(here.memory, plain_memory, M) == 0, "the number does not appear in the ring");
        go_back(&older);
        run_through(BACK * (2 + lap));
        save_twin(&older);
    }
}

/*
 * 32. No calls lead there, so the next number is set, which can be done in the plain controller alone: `alone` is what
 * the twin's plain one is, with another next number. SQ 1 is served before SQ 2, as in start_cases.
 */

#define MOST UINT64_C(18446744073709551614)

static struct ref_controller alone;
static uint8_t alone_memory[MEMORY];

static void set_alone(uint64_t next)
{
    alone = plain;
    alone.next = next;
    memcpy(alone_memory, plain_memory, MEMORY);
}

static void start_alone(const char *what, size_t lent, struct bellrafter_start wanted)
{
    expect(what, of_start(wanted), of_start(ref_start(&alone, alone_memory, lent)));
}

/* A start that is refused from such a next number; twice, since it changes nothing: not a turn, not a credit. */
static void refused_alone(const char *what, size_t lent, uint64_t next, uint64_t refusal)
{
    set_alone(next);
    start_alone(what, lent, (struct bellrafter_start){.refusal = refusal});
    expect(what, of_number(next), of_number(alone.next));
    expect(what, of_arbiter(ref_look_arbiter(&plain)), of_arbiter(ref_look_arbiter(&alone)));
    for (uint64_t id = 0; id < 16; id++)
        expect(what, of_sq(ref_look_sq(&plain, id)), of_sq(ref_look_sq(&alone, id)));
    for (uint64_t tag = 0; tag < 64; tag++)
        expect(what, of_command(ref_look_command(&plain, tag)), of_command(ref_look_command(&alone, tag)));
    start_alone(what, lent, (struct bellrafter_start){.refusal = refusal});
}

/* A start that is done from such a next number: the numbers of what it took, and of the finish. */
static void done_alone(const char *what, uint64_t next, uint64_t count)
{
    set_alone(next);
    start_alone(what, M, (struct bellrafter_start){0, 1, count, 0, count - 1, 0, 0, next});
    expect(what, of_number(next), of_number(ref_look_command(&alone, 0).number));
    expect(what, of_number(count == 2 ? next + 1 : 0), of_number(ref_look_command(&alone, 1).number));
    for (uint64_t i = 0; i < count; i++)
        expect(what, of_finish((struct bellrafter_finish){0, i, next + i}),
               of_finish(ref_finish(&alone, alone_memory, M, i, 0, 0)));
    expect(what, of_number(next + count), of_number(alone.next));
}

static void last_number_cases(uint64_t mechanism)
{
    static const uint8_t trace[16] = {BELLRAFTER_CALL_START}, refused[16] = {BELLRAFTER_CALL_START, 32};
    uint8_t answer[16];

    fresh(mechanism, 0xFFFFFF07, 64);
    make_sq(1, 64, 1);
    make_sq(2, 64, 2);
    refused_alone("12 before 32", M, TOP, BELLRAFTER_NO_CANDIDATE);
    submit_plain(2, 5);
    save_twin(&here);

    submit_plain(1, 1);
    done_alone("one, two numbers left", MOST - 1, 1);
    done_alone("one, the last number", MOST, 1);
    refused_alone("one, no number left", M, TOP, BELLRAFTER_NO_NUMBER);
    refused_alone("5 before 32", cq_base(1) + 1023, TOP, BELLRAFTER_RING_MEMORY);
    set_alone(TOP);
    ref_replay(&alone, alone_memory, M, trace, 16, answer, 16);
    require(memcmp(answer, refused, 16) == 0, "32 in an answer record");

    go_back(&here);
    submit_pair(1, 1, 2);
    submit_plain(1, 3);
    done_alone("pair, three numbers left", MOST - 2, 2);
    done_alone("pair, the last two numbers", MOST - 1, 2);
    refused_alone("pair, one number left, no other SQ tried", M, MOST, BELLRAFTER_NO_NUMBER);
    refused_alone("pair, no number left", M, TOP, BELLRAFTER_NO_NUMBER);
    set_alone(MOST - 1);
    start_alone("pair, then one", M, (struct bellrafter_start){0, 1, 2, 0, 1, 0, 0, MOST - 1});
    start_alone("no number for one behind a pair", M, (struct bellrafter_start){.refusal = BELLRAFTER_NO_NUMBER});
    expect("a finish after 32", of_finish((struct bellrafter_finish){0, 0, MOST - 1}),
           of_finish(ref_finish(&alone, alone_memory, M, 0, 0, 0)));
    expect("a finish after 32", of_finish((struct bellrafter_finish){0, 1, MOST}),
           of_finish(ref_finish(&alone, alone_memory, M, 1, 0, 0)));
    start_alone("a finish frees no number", M, (struct bellrafter_start){.refusal = BELLRAFTER_NO_NUMBER});
    twin_poke(sq_base(1), (const uint8_t[]){0x77}, 1);
    refused_alone("a bad pair, one number left", M, MOST, BELLRAFTER_NO_NUMBER);

    go_back(&here);
    for (uint64_t cid = 0; cid < 63; cid++)
        submit_plain(1, 10 + cid);
    for (uint64_t i = 0; i < 63; i++)
        twin_start(M);
    submit_pair(1, 1, 2);
    refused_alone("13 before 32, one tag and one number for a pair", M, MOST, BELLRAFTER_NO_TAG);
    refused_alone("13 before 32, one tag for a pair", M, TOP, BELLRAFTER_NO_TAG);
    want("finishing", 0, twin_finish(M, 0, 0, 0).refusal);
    refused_alone("two tags, one number for a pair", M, MOST, BELLRAFTER_NO_NUMBER);
    twin_start(M);
    refused_alone("13 before 32, no tag", M, TOP, BELLRAFTER_NO_TAG);
}

/* Entries. */

static void submission_cases(void)
{
    static const uint8_t wanted_entry[64] = {
        0x05, 0x81, 0x22, 0x11, 0x66, 0x55, 0x44, 0x33, 0,    0,    0,    0,    0,    0,    0,    0,
        0x08, 0x07, 0x06, 0x05, 0x04, 0x03, 0x02, 0x01, 0x18, 0x17, 0x16, 0x15, 0x14, 0x13, 0x12, 0x11,
        0x28, 0x27, 0x26, 0x25, 0x24, 0x23, 0x22, 0x21, 0x38, 0x37, 0x36, 0x35, 0x34, 0x33, 0x32, 0x31,
        0x42, 0x41, 0x44, 0x43, 0x54, 0x53, 0x52, 0x51, 0x64, 0x63, 0x62, 0x61, 0x74, 0x73, 0x72, 0x71,
    };
    struct bellrafter_submission all = {0,
                                        1,
                                        2,
                                        0x0102030405060708,
                                        0x1112131415161718,
                                        0x2122232425262728,
                                        0x3132333435363738,
                                        0x33445566,
                                        0x51525354,
                                        0x61626364,
                                        0x71727374,
                                        0x1122,
                                        0x4142,
                                        0x4344,
                                        0x05};
    uint8_t wanted[GUARD + 80 + GUARD], actual[sizeof wanted];
    struct view view = {"entry", wanted, actual, sizeof wanted};

    for (size_t bytes = 0; bytes <= 80; bytes++) {
        bool done = bytes >= 64;
        memset(wanted, 0xA5, sizeof wanted);
        memset(actual, 0xA5, sizeof actual);
        if (done)
            memcpy(wanted + GUARD, wanted_entry, 64);
        uint64_t refusal = bellrafter_submission_write(
            bytes > 0 ? actual + GUARD : NULL, bytes, 0x05, TOP - 2, TOP - 1, 0x1122, 0x33445566, all.mptr, all.prp1,
            all.prp2, all.slba, 0x4142, 0x4344, 0x51525354, 0x61626364, 0x71727374);
        compare("submission written", of_number(done ? 0 : BELLRAFTER_BUFFER), of_number(refusal), &view, 1);
        actual[GUARD + 1] |= 0x3C; /* reserved bits */
        memset(actual + GUARD + 8, 0xFF, 8);
        expect("submission read",
               of_submission(done ? all : (struct bellrafter_submission){.refusal = BELLRAFTER_BUFFER}),
               of_submission(bellrafter_submission_read(bytes > 0 ? actual + GUARD : NULL, bytes)));
    }
}

/* Entries, rings and lists right before a page that cannot be touched; what is const is read-only. */
static void guarded_cases(void)
{
    struct guarded area = guarded_bytes(16 * 1024), results = guarded_bytes(8 * MOST_PAGES);
    struct guarded more_results = guarded_bytes(4 * MOST_PAGES);
    struct answer short_entry = of_number(BELLRAFTER_BUFFER);

    fill_random(area.bytes, area.room);
    for (size_t bytes = 0; bytes <= 80; bytes++) {
        uint8_t *entry = last_bytes(area, bytes);
        uint64_t sub = bellrafter_submission_write(entry, bytes, 1, 2, 3, 4, 5, 6, 7, 8, 9, 10, 11, 12, 13, 14);
        expect("guarded submission", bytes < 64 ? short_entry : of_number(0), of_number(sub));
        read_only(area, true);
        expect("guarded submission read", of_submission(ref_submission_read(entry, bytes)),
               of_submission(bellrafter_submission_read(entry, bytes)));
        read_only(area, false);
        uint64_t com = bellrafter_completion_write(entry, bytes, 1, 2, 3, 4, 5, 1);
        expect("guarded completion", bytes < 16 ? short_entry : of_number(0), of_number(com));
        read_only(area, true);
        expect("guarded completion read", of_completion(ref_completion_read(entry, bytes)),
               of_completion(bellrafter_completion_read(entry, bytes)));
        read_only(area, false);
    }
    memset(area.bytes, 0, area.room);
    read_only(area, true);
    for (uint64_t size = 1; size <= 1025; size++) {
        for (size_t more = 0; more < 3; more++) {
            size_t bytes = 16 * (size < 1024 ? size : 1024) - more;
            const uint8_t *ring = last_bytes(area, bytes);
            expect("guarded ring", of_waiting(ref_ring_read(ring, bytes, size, size / 2, 0)),
                   of_waiting(bellrafter_ring_read(ring, bytes, size, size / 2, 0)));
        }
    }
    for (uint64_t pages = 1; pages <= MOST_PAGES; pages++) { /* a list of zeros: every entry is page 0 */
        size_t bytes = 8 * (pages - 1);
        struct bellrafter_pages actual = bellrafter_page_walk(
            last_bytes(area, bytes), bytes, 4092, 0, 4096 * (pages - 1) + (pages == 1 ? 4 : 0), 0,
            last_bytes(results, 8 * pages), 8 * pages, last_bytes(more_results, 4 * pages), 4 * pages);
        expect("guarded walk", of_pages((struct bellrafter_pages){0, pages, pages > 2 ? pages - 1 : 0}),
               of_pages(actual));
    }
    read_only(area, false);
}

/* Texts: every number has one, and those of the numbers that mean something are all different. */
static void text_cases(void)
{
    char version[40];

    snprintf(version, sizeof version, "%d.%d", BELLRAFTER_VERSION_MAJOR, BELLRAFTER_VERSION_MINOR);
    require(strcmp(version, BELLRAFTER_VERSION) == 0, "the version is that of its two numbers");
    for (uint64_t a = 0; a <= 40; a++) {
        bool number = a <= 23 || (a >= 30 && a <= 35);
        bool none = strcmp(bellrafter_refusal_text(a), bellrafter_refusal_text(TOP)) == 0;
        require(strlen(bellrafter_refusal_text(a)) > 0, "a refusal has a text");
        require(number != none, "a text for refusal numbers, another one for all others");
        for (uint64_t b = 0; number && b < a; b++)
            require(strcmp(bellrafter_refusal_text(a), bellrafter_refusal_text(b)) != 0, "texts of refusals differ");
    }
    require(strcmp(bellrafter_refusal_text(0), "done") == 0, "done");
    require(strcmp(bellrafter_refusal_text(32), "too few start numbers are left") == 0, "32");
    require(strcmp(bellrafter_refusal_text(33), "the submission queue has outstanding commands") == 0, "33");
    require(strcmp(bellrafter_refusal_text(34), "a submission queue names the completion queue") == 0, "34");
    require(strcmp(bellrafter_refusal_text(35), "queue 0 is never deleted") == 0, "35");
    require(strcmp(bellrafter_status_text(0x02), "Invalid Field in Command") == 0, "02h");
    require(strcmp(bellrafter_status_text(0x03), "Command ID Conflict") == 0, "03h");
    require(strcmp(bellrafter_status_text(0x09), "Command Aborted due to Failed Fused Command") == 0, "09h");
    require(strcmp(bellrafter_status_text(0x0A), "Command Aborted due to Missing Fused Command") == 0, "0Ah");
    require(strcmp(bellrafter_status_text(1), bellrafter_status_text(32767)) == 0, "another status");
    require(strcmp(bellrafter_status_text(32768), bellrafter_status_text(TOP)) == 0, "no status");
    require(strcmp(bellrafter_status_text(32767), bellrafter_status_text(32768)) != 0, "the largest status");
}

void controller_cases(void)
{
    for (int round = 0; round < 2; round++) { /* the second time with what is const read-only */
        guard_reads(round == 1);
        new_cases();
        create_cases();
        doorbell_write_cases();
        held_cases();
        order_cases();
        start_cases(0);
        start_cases(1);
        finish_cases();
        small_cq();
        all_verdicts();
        pair_cases();
        posting_cases();
        number_cases();
        first_number_cases();
        number_memory_cases();
    }
    guard_reads(false);
    last_number_cases(0);
    last_number_cases(1);
    many_numbers();
    submission_cases();
    guarded_cases();
    text_cases();
}
