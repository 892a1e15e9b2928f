/*
 * The choices of crates/rounds, made by the plain controller's arbiter: the plan from standard input, the digest of all
 * answers to standard output. The choice is no call of the controller, so its text is taken in whole.
 */
#include "controller.c"

#include <inttypes.h>
#include <stdio.h>

/* TURNS: a burst of 1, so that every choice names the next turn holder, and a low weight of 256. */
enum { QUEUES = 16, OTHERS = 15, CHOICES = 960, TURNS = 0xff00 };

enum kind { NEAREST = 5, FARTHEST, BUSY };

static uint64_t mixed(uint64_t digest, uint64_t x)
{
    return (digest * 31 + x) % 4294967296u;
}

static uint16_t mask_of(uint64_t kind, uint64_t busy, unsigned place)
{
    if (kind == NEAREST)
        return 2u << place;
    if (kind == FARTHEST)
        return 2;
    return busy < QUEUES ? 0xfffe : 0xffff;
}

/* A batch of choices of a fresh arbiter; under mechanism 1 all queues are of low priority. */
static uint64_t choices(uint64_t digest, uint64_t kind, uint64_t mechanism, uint64_t busy)
{
    struct controller c;
    uint16_t masks[OTHERS];
    for (unsigned i = 0; i < OTHERS; i++)
        masks[i] = mask_of(kind, busy, i);
    controller_init(&c, mechanism, TURNS);
    digest = mixed(digest, 1);
    unsigned place = 0;
    for (unsigned i = 0; i < CHOICES; i++) {
        uint16_t mask = masks[place];
        struct candidates found = {.all = mask, .of_class = {0, 0, 0, mask}};
        digest = mixed(digest, choose(&c, &found));
        place = place + 1 < OTHERS ? place + 1 : 0;
    }
    return digest;
}

int main(void)
{
    uint64_t kind, mechanism, busy, outstanding, batches, digest = 0;
    if (scanf("%" SCNu64 "%" SCNu64 "%" SCNu64 "%" SCNu64 "%" SCNu64, &kind, &mechanism, &busy, &outstanding,
              &batches) != 5)
        return 1;
    for (uint64_t i = 0; i < batches; i++)
        digest = choices(digest, kind, mechanism, busy);
    printf("%" PRIu64, digest);
    return 0;
}
