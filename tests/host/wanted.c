#include "wanted.h"

void want(const char *what, uint64_t wanted, uint64_t actual)
{
    expect(what, of_number(wanted), of_number(actual));
}

void want_start(const char *what, struct bellrafter_start wanted, size_t lent)
{
    expect(what, of_start(wanted), of_start(twin_start(lent)));
}

void refused_start(const char *what, size_t lent, uint64_t refusal)
{
    want_start(what, (struct bellrafter_start){.refusal = refusal}, lent);
}

void want_finish(const char *what, size_t lent, uint64_t tag, uint64_t status, uint64_t slot, uint64_t number)
{
    expect(what, of_finish((struct bellrafter_finish){0, slot, number}),
           of_finish(twin_finish(lent, tag, status, 0xDDCCBBAA)));
}

void refused_finish(const char *what, size_t lent, uint64_t tag, uint64_t status, uint64_t refusal)
{
    expect(what, of_finish((struct bellrafter_finish){.refusal = refusal}),
           of_finish(twin_finish(lent, tag, status, 0xDDCCBBAA)));
}

uint64_t sq_base(uint64_t id)
{
    return 4096 * id;
}

uint64_t cq_base(uint64_t id)
{
    return 4096 * (16 + id);
}

void make_cq(uint64_t id, uint64_t size)
{
    want("setting up a CQ", 0, twin_create_cq(M, id, size, cq_base(id)));
}

void make_sq(uint64_t id, uint64_t size, uint64_t priority_class)
{
    want("setting up an SQ", 0, twin_create_sq(M, id, size, sq_base(id), id != 0, priority_class));
}

void fresh(uint64_t mechanism, uint32_t word, uint64_t cq_size)
{
    twin_clear();
    want("setting up", 0, twin_new(mechanism, word));
    make_cq(0, cq_size);
    make_cq(1, cq_size);
}

void submit(uint64_t id, struct submitted s)
{
    const struct ref_sq *sq = &plain.sqs[id];

    twin_submit(sq->base + 64 * sq->tail, s);
    want("submitting", 0, twin_tail(id, (sq->tail + 1) % sq->size));
}

void submit_plain(uint64_t id, uint64_t cid)
{
    submit(id, (struct submitted){.opc = 2, .cid = cid, .others = TOP});
}

void submit_pair(uint64_t id, uint64_t first, uint64_t second)
{
    submit(id, (struct submitted){.opc = 5, .fuse = 1, .cid = first, .nsid = 1, .slba = 9, .nlb = 3});
    submit(id, (struct submitted){.opc = 1, .fuse = 2, .cid = second, .nsid = 1, .slba = 9, .nlb = 3});
}

void want_posted(const char *what, uint64_t id, uint64_t slot, struct bellrafter_completion wanted)
{
    const uint8_t *entry = plain_memory + plain.cqs[id].base + 16 * slot;

    compare_memories();
    expect(what, of_completion(wanted), of_completion(bellrafter_completion_read(entry, 16)));
}

void want_sq(const char *what, uint64_t id, struct bellrafter_sq wanted)
{
    expect(what, of_sq(wanted), of_sq(twin_look_sq(id)));
}

void want_cq(const char *what, uint64_t id, struct bellrafter_cq wanted)
{
    expect(what, of_cq(wanted), of_cq(twin_look_cq(id)));
}

void want_command(const char *what, uint64_t tag, struct bellrafter_command wanted)
{
    expect(what, of_command(wanted), of_command(twin_look_command(tag)));
}

void want_arbiter(const char *what, struct bellrafter_arbiter wanted)
{
    expect(what, of_arbiter(wanted), of_arbiter(twin_look_arbiter()));
}
