/*
 * A rig that judges a cartridge by the model.
 *
 * The rig is the cartridge's host: it writes commands into submission rings, rings doorbells and reads the completion
 * ring. Every doorbell write goes to the model too. Whenever the cartridge has posted, the model is let post the same
 * commands, and the two completion rings are compared entry by entry, to the byte.
 *
 * What is the cartridge's own affair is taken from what it posts: the order in which it finishes commands, a command's
 * status and its result. Everything else is the model's: in which slot and with which phase tag an entry is posted,
 * whether there is a free slot at all, SQHD, which commands are outstanding, which half of a fused pair comes first,
 * and a status that is not the cartridge's to choose, as that of a command that is wrong or whose first half has
 * failed.
 *
 *     judge                 judges the good cartridge
 *     judge MISBEHAVIOUR    judges one that misbehaves:
 *         over      it posts over entries that are unread
 *         full      it calls the ring full when it holds as many entries as it has slots, and not one fewer
 *         phase     it writes phase tag 1 on every pass
 *         sqhd      it posts a wrong SQHD, once
 *         fused     it finishes a fused Write well although the Compare has failed
 *         twice     it finishes a command twice
 *         lost      it forgets a command
 *
 * The program says where the first difference is. Its exit status is 0 if none was found, 1 if one was, 2 if it was
 * called wrongly, or if the model refused what the rig itself did.
 *
 * The cartridge is a small simulated one, at the end of this file. To judge a real one, put its memory and its
 * doorbells behind the four functions of struct cartridge, and copy what it writes, with the barriers that your
 * platform asks for, before you look at it.
 */
#include <stdbool.h>
#include <stdio.h>
#include <stdlib.h>
#include <string.h>

#include "bellrafter.h"

/* Two submission queues that share a completion queue, so short that all of them wrap. */
enum {
    SQS = 2,
    CQ = 1,
    SQ_SIZE = 8,
    CQ_SIZE = 4,
    PAGE = 4096,
    CQ_BASE = 0,
    MEMORY = (1 + SQS) * PAGE,
    ROUNDS = 12
};

static uint64_t sq_base(uint64_t sq)
{
    return PAGE * sq; /* SQs 1 and 2 */
}

/* The cartridge, as far as the rig sees it. */
struct cartridge;
static void cartridge_reset(struct cartridge *c, const char *misbehaviour);
static void cartridge_write_tail(struct cartridge *c, uint64_t sq, uint64_t value);
static void cartridge_write_head(struct cartridge *c, uint64_t value);
static void cartridge_run(struct cartridge *c); /* until it has nothing more to do */

/*
 * The rig.
 */

static uint8_t memory[MEMORY];       /* what the cartridge reads and writes */
static uint8_t model_memory[MEMORY]; /* the same for the model */
static uint64_t model[BELLRAFTER_STATE_WORDS];
static unsigned matched; /* completions that were equal */

static void print_entry(const char *whose, const uint8_t *entry)
{
    struct bellrafter_completion c = bellrafter_completion_read(entry, BELLRAFTER_COMPLETION_BYTES);

    printf("  %-10s result %08xh, SQHD %u, SQ %u, CID %04xh, status %04xh, phase %u  (%s)\n", whose, (unsigned)c.result,
           (unsigned)c.sqhd, (unsigned)c.sqid, (unsigned)c.cid, (unsigned)c.status, (unsigned)c.phase,
           bellrafter_status_text(c.status));
}

/* Says where the first difference is; answers false, for the caller to stop. */
static bool difference(unsigned round, uint64_t slot, const char *what)
{
    printf("first difference: round %u, CQ %d, slot %u, after %u equal completions: %s\n", round, CQ, (unsigned)slot,
           matched, what);
    print_entry("cartridge", memory + CQ_BASE + BELLRAFTER_COMPLETION_BYTES * slot);
    print_entry("model", model_memory + CQ_BASE + BELLRAFTER_COMPLETION_BYTES * slot);
    return false;
}

/* The tag that the model gave to a command, or BELLRAFTER_TAGS if it is not outstanding. */
static uint64_t tag_of(uint64_t sq, uint64_t cid)
{
    uint64_t tag;

    for (tag = 0; tag < BELLRAFTER_TAGS; tag++) {
        struct bellrafter_command c = bellrafter_look_command(model, tag);
        if (c.refusal == BELLRAFTER_DONE && c.sq == sq && c.cid == cid)
            break;
    }
    return tag;
}

/* Lets the model post what the cartridge has posted in `slot`, and compares. */
static bool same_posting(unsigned round, uint64_t slot)
{
    const uint64_t at = CQ_BASE + BELLRAFTER_COMPLETION_BYTES * slot;
    struct bellrafter_completion c = bellrafter_completion_read(memory + at, BELLRAFTER_COMPLETION_BYTES);
    uint64_t tag = tag_of(c.sqid, c.cid);

    if (tag == BELLRAFTER_TAGS)
        return difference(round, slot, "the cartridge finishes a command that is not outstanding");
    struct bellrafter_finish f = bellrafter_finish(model, model_memory, MEMORY, tag, c.status, c.result);
    if (f.refusal != BELLRAFTER_DONE)
        return difference(round, slot, bellrafter_refusal_text(f.refusal));
    if (memcmp(memory + at, model_memory + at, BELLRAFTER_COMPLETION_BYTES) != 0)
        return difference(round, slot, "the entries differ");
    matched++;
    return true;
}

/* Compares the rings after the cartridge has run. */
static bool same_ring(unsigned round)
{
    /* This cartridge fetches all that is submitted before it posts, so the model starts all of it too. */
    while (bellrafter_start(model, model_memory, MEMORY).refusal == BELLRAFTER_DONE)
        continue;

    /* An entry is new if its phase tag is the one that the model's next posting gets. */
    for (int i = 0; i < CQ_SIZE; i++) {
        struct bellrafter_cq q = bellrafter_look_cq(model, CQ);
        const uint8_t *entry = memory + CQ_BASE + BELLRAFTER_COMPLETION_BYTES * q.tail;
        if (bellrafter_completion_read(entry, BELLRAFTER_COMPLETION_BYTES).phase != q.phase)
            break;
        if (!same_posting(round, q.tail))
            return false;
    }
    for (uint64_t slot = 0; slot < CQ_SIZE; slot++) {
        uint64_t at = CQ_BASE + BELLRAFTER_COMPLETION_BYTES * slot;
        if (memcmp(memory + at, model_memory + at, BELLRAFTER_COMPLETION_BYTES) != 0)
            return difference(round, slot, "the cartridge wrote where the model posts nothing");
    }
    return true;
}

/* The host's side. Commands are numbered; a command's CID is its number. */

static uint64_t sq_tail[SQS + 1];
static uint64_t cq_head, cq_tag;
static uint16_t next_cid;

static bool room_in(uint64_t sq, uint64_t count)
{
    struct bellrafter_sq q = bellrafter_look_sq(model, sq);

    return (q.tail + SQ_SIZE - q.head) % SQ_SIZE + count < SQ_SIZE;
}

/* Writes a command at the tail, for the cartridge and for the model. */
static void submit(uint64_t sq, uint8_t opc, uint64_t fuse, uint64_t slba)
{
    uint64_t at = sq_base(sq) + BELLRAFTER_SUBMISSION_BYTES * sq_tail[sq];

    bellrafter_submission_write(memory + at, BELLRAFTER_SUBMISSION_BYTES, opc, fuse, 0, next_cid++, 1, 0, 0, 0, slba, 0,
                                0, 0, 0, 0);
    memcpy(model_memory + at, memory + at, BELLRAFTER_SUBMISSION_BYTES);
    sq_tail[sq] = (sq_tail[sq] + 1) % SQ_SIZE;
}

/* The model's answer to a doorbell write of the rig. A refusal is the rig's own fault: nothing can be judged by it. */
static void expect_done(uint64_t refusal)
{
    if (refusal != BELLRAFTER_DONE) {
        fprintf(stderr, "the rig's doorbell write was refused: %s\n", bellrafter_refusal_text(refusal));
        exit(2);
    }
}

static void write_tail(struct cartridge *c, uint64_t sq)
{
    cartridge_write_tail(c, sq, sq_tail[sq]);
    expect_done(bellrafter_tail_write(model, sq, sq_tail[sq]));
}

/* Reads what waits, at most `most` completions, and releases it: a recorder that is slow. */
static void release(struct cartridge *c, uint64_t most)
{
    struct bellrafter_waiting w =
        bellrafter_ring_read(memory + CQ_BASE, BELLRAFTER_COMPLETION_BYTES * CQ_SIZE, CQ_SIZE, cq_head, cq_tag);

    if (w.count == 0)
        return; /* a host may not write the head that the queue holds */
    for (uint64_t i = 0; i < w.count && i < most; i++) {
        if (++cq_head == CQ_SIZE) {
            cq_head = 0;
            cq_tag = 1 - cq_tag;
        }
    }
    cartridge_write_head(c, cq_head);
    expect_done(bellrafter_head_write(model, CQ, cq_head));
}

static bool set_up(struct cartridge *c, const char *misbehaviour)
{
    uint64_t refusal = bellrafter_controller_new(model, 0, 0);

    cartridge_reset(c, misbehaviour);
    cq_tag = 1;
    next_cid = 0x100;
    refusal |= bellrafter_create_cq(model, model_memory, MEMORY, CQ, CQ_SIZE, CQ_BASE);
    for (uint64_t sq = 1; sq <= SQS; sq++)
        refusal |= bellrafter_create_sq(model, model_memory, MEMORY, sq, SQ_SIZE, sq_base(sq), CQ, 0);
    return refusal == BELLRAFTER_DONE;
}

/* All rounds; answers whether no difference was found. */
static bool judge(struct cartridge *c)
{
    for (unsigned round = 1; round <= ROUNDS; round++) {
        for (uint64_t sq = 1; sq <= SQS; sq++) {
            if (room_in(sq, 3)) {
                submit(sq, 0x02, 0, round);     /* Read */
                submit(sq, 0x05, 1, round % 3); /* Compare, which fails at SLBA 1, */
                submit(sq, 0x01, 2, round % 3); /* and Write, fused with it */
                write_tail(c, sq);
            }
        }
        /* The host is slow at first: the ring of 4 fills with 3 entries, and the rest must wait. */
        for (int i = 0; i < (round < 3 ? 1 : 6); i++) {
            cartridge_run(c);
            if (!same_ring(round))
                return false;
            release(c, round < 3 ? 1 : CQ_SIZE);
        }
    }
    for (uint64_t tag = 0; tag < BELLRAFTER_TAGS; tag++) {
        struct bellrafter_command left = bellrafter_look_command(model, tag);
        if (left.refusal == BELLRAFTER_DONE) {
            printf("first difference: after %u equal completions: command %04xh of SQ %u was never finished\n", matched,
                   (unsigned)left.cid, (unsigned)left.sq);
            printf("  model      start number %llu\n", (unsigned long long)left.number);
            return false;
        }
    }
    return true;
}

/*
 * The cartridge: a simulated one. It fetches all that is submitted, one queue after the other, executes it in that
 * order and posts as long as the completion queue has room.
 */

struct fetched {
    uint16_t sq, cid, status;
};

struct cartridge {
    bool over, full, phase, sqhd, fused, twice, lost; /* how it misbehaves */
    uint64_t tails[SQS + 1], heads[SQS + 1];
    uint64_t cq_head, cq_tail, cq_phase, unread;
    struct fetched fetched[BELLRAFTER_TAGS]; /* not yet posted, oldest first */
    unsigned count, posted;
};

static const char *const misbehaviours[] = {"over", "full", "phase", "sqhd", "fused", "twice", "lost"};

static bool is(const char *misbehaviour, const char *name)
{
    return misbehaviour != NULL && strcmp(misbehaviour, name) == 0;
}

static void cartridge_reset(struct cartridge *c, const char *misbehaviour)
{
    memset(c, 0, sizeof *c);
    c->cq_phase = 1;
    c->over = is(misbehaviour, "over");
    c->full = is(misbehaviour, "full");
    c->phase = is(misbehaviour, "phase");
    c->sqhd = is(misbehaviour, "sqhd");
    c->fused = is(misbehaviour, "fused");
    c->twice = is(misbehaviour, "twice");
    c->lost = is(misbehaviour, "lost");
}

static void cartridge_write_tail(struct cartridge *c, uint64_t sq, uint64_t value)
{
    c->tails[sq] = value;
}

static void cartridge_write_head(struct cartridge *c, uint64_t value)
{
    c->unread -= (value + CQ_SIZE - c->cq_head) % CQ_SIZE;
    c->cq_head = value;
}

/* Executes a command: a Compare at SLBA 1 fails (status 285h), and a Write that is fused with it is aborted (09h). */
static void fetch(struct cartridge *c, uint16_t sq)
{
    const uint8_t *entry = memory + sq_base(sq) + BELLRAFTER_SUBMISSION_BYTES * c->heads[sq];
    struct bellrafter_submission s = bellrafter_submission_read(entry, BELLRAFTER_SUBMISSION_BYTES);
    uint16_t status = 0;

    if (s.fuse == 1 && s.slba == 1)
        status = 0x285;
    if (s.fuse == 2 && s.slba == 1 && !c->fused) /* the misbehaviour: it writes although the comparison failed */
        status = BELLRAFTER_STATUS_FAILED_FUSED;
    c->fetched[c->count++] = (struct fetched){sq, s.cid, status};
    c->heads[sq] = (c->heads[sq] + 1) % SQ_SIZE;
}

static void post(struct cartridge *c, struct fetched done)
{
    uint64_t sqhd = c->heads[done.sq];

    if (c->sqhd && c->posted == 9) /* the misbehaviour: one short, once */
        sqhd = (sqhd + SQ_SIZE - 1) % SQ_SIZE;
    bellrafter_completion_write(memory + CQ_BASE + BELLRAFTER_COMPLETION_BYTES * c->cq_tail,
                                BELLRAFTER_COMPLETION_BYTES, done.cid * 3u, (uint16_t)sqhd, done.sq, done.cid,
                                done.status, c->cq_phase);
    c->posted++;
    c->unread++;
    if (++c->cq_tail == CQ_SIZE) {
        c->cq_tail = 0;
        if (!c->phase) /* the misbehaviour: phase tag 1 on every pass */
            c->cq_phase = 1 - c->cq_phase;
    }
}

static bool cq_has_room(const struct cartridge *c)
{
    return c->over || c->unread < (c->full ? CQ_SIZE : CQ_SIZE - 1); /* the misbehaviours: any, or one too many */
}

static void cartridge_run(struct cartridge *c)
{
    for (uint16_t sq = 1; sq <= SQS; sq++) {
        while (c->heads[sq] != c->tails[sq])
            fetch(c, sq);
    }
    while (c->count > 0 && cq_has_room(c)) {
        bool forgets = c->lost && c->posted == 20; /* the misbehaviours: a command is lost, or is finished twice */
        bool repeats = c->twice && c->posted == 13;
        if (!forgets)
            post(c, c->fetched[0]);
        else
            c->posted++;
        if (!repeats) {
            c->count--;
            memmove(c->fetched, c->fetched + 1, c->count * sizeof c->fetched[0]);
        }
    }
}

int main(int argc, char **argv)
{
    static struct cartridge cartridge;
    const char *misbehaviour = argc > 1 ? argv[1] : NULL;
    bool known = misbehaviour == NULL;

    for (size_t i = 0; i < sizeof misbehaviours / sizeof misbehaviours[0]; i++)
        known = known || is(misbehaviour, misbehaviours[i]);
    if (argc > 2 || !known) {
        fprintf(stderr, "usage: judge [over | full | phase | sqhd | fused | twice | lost]\n");
        return 2;
    }
    if (!set_up(&cartridge, misbehaviour)) {
        fprintf(stderr, "the rig's queues were refused\n");
        return 2;
    }
    bool good = judge(&cartridge);
    if (good)
        printf("%u completions of %u commands, equal to the byte\n", matched, (unsigned)(next_cid - 0x100));
    printf("verdict: %s\n", good ? "no difference" : "the cartridge does not follow the model");
    return good ? 0 : 1;
}
