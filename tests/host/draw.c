#include "draw.h"

uint64_t draw_sq(uint64_t none)
{
    uint64_t from = below(16);

    for (uint64_t i = 0; i < 16; i++) {
        if (plain.sqs[(from + i) % 16].exists)
            return (from + i) % 16;
    }
    return none;
}

uint64_t draw_cq(uint64_t none)
{
    uint64_t from = below(16);

    for (uint64_t i = 0; i < 16; i++) {
        if (plain.cqs[(from + i) % 16].exists)
            return (from + i) % 16;
    }
    return none;
}

uint64_t draw_tag(uint64_t none)
{
    uint64_t from = below(64);

    for (uint64_t i = 0; i < 64; i++) {
        if (plain.commands[(from + i) % 64].outstanding)
            return (from + i) % 64;
    }
    return none;
}

size_t draw_lent(void)
{
    uint64_t sq = draw_sq(16), cq = draw_cq(16), end = below(MEMORY);

    if (once_in(8))
        return 0;
    if (sq < 16 && once_in(3))
        end = plain.sqs[sq].base + 64 * plain.sqs[sq].size;
    else if (cq < 16 && once_in(2))
        end = plain.cqs[cq].base + 16 * plain.cqs[cq].size;
    end += once_in(2) ? 0 : below(3) - 1;
    return end < MEMORY ? end : MEMORY;
}

uint64_t waiting_in(uint64_t size, uint64_t head, uint64_t tail)
{
    return (tail + size - head) % size;
}

uint64_t room_in(const struct ref_sq *sq)
{
    return sq->size - 1 - waiting_in(sq->size, sq->head, sq->tail);
}

/* An entry for slot `slot`: the fields of an SQ's pairs are alike as a rule, and differ in one bit else. */
static struct submitted draw_entry(uint64_t id, const struct ref_sq *sq, uint64_t slot)
{
    const uint8_t *last = plain_memory + sq->base + 64 * ((slot + sq->size - 1) % sq->size);
    struct submitted s = {.opc = below(256), .cid = below(once_in(8) ? 8 : 512), .nsid = 0x80000001 + id,
                          .slba = UINT64_C(0x0123456789ABCDEF) * (id + 1), .nlb = 0x8000 + id, .others = any_number()};

    if (last[1] % 4 == 1 && !once_in(4))
        s.fuse = 2;
    else
        s.fuse = once_in(3) ? 1 : once_in(16) ? 2 : once_in(16) ? 3 : 0;
    if (s.fuse != 0 && !once_in(24))
        s.opc = s.fuse == 1 ? 5 : 1;
    if (once_in(24))
        s.psdt = 1 + below(3);
    if (once_in(40))
        s.nsid ^= (uint64_t)1 << below(32);
    if (once_in(40))
        s.slba ^= (uint64_t)1 << below(64);
    if (once_in(40))
        s.nlb ^= (uint64_t)1 << below(16);
    if (s.fuse == 2 && once_in(24))
        s.cid = last[2] + 256 * (uint64_t)last[3];
    s.fuse += 4 * below(4);
    s.psdt += 4 * (any_number() >> 3);
    return s;
}

void draw_entries(uint64_t id, uint64_t count)
{
    const struct ref_sq *sq = &plain.sqs[id];

    for (uint64_t i = 0; i < count; i++) {
        uint64_t slot = (sq->tail + i) % sq->size, at = sq->base + 64 * slot;
        twin_submit(at, draw_entry(id, sq, slot));
        if (once_in(8)) { /* reserved bits and bytes */
            uint8_t reserved[8], flags = (uint8_t)(plain_memory[at + 1] | below(16) << 2);
            fill_random(reserved, sizeof reserved);
            twin_poke(at + 8, reserved, sizeof reserved);
            twin_poke(at + 1, &flags, 1);
        }
    }
}
