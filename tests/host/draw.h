/*
 * Random arguments of calls, drawn from what the plain controller of twin.h holds, so that the calls lead somewhere.
 */
#ifndef DRAW_H
#define DRAW_H

#include "twin.h"

/* A queue that exists, or the tag of an outstanding command; `none` where there is nothing of the kind. */
uint64_t draw_sq(uint64_t none);
uint64_t draw_cq(uint64_t none);
uint64_t draw_tag(uint64_t none);

/* A part of memory: none, any, or one that ends with a ring or some bytes before or behind its end. */
size_t draw_lent(void);

/* How many entries a ring holds, and how many more a submission ring has room for. */
uint64_t waiting_in(uint64_t size, uint64_t head, uint64_t tail);
uint64_t room_in(const struct ref_sq *sq);

/* The host writes so many entries, from the tail of SQ `id` on. */
void draw_entries(uint64_t id, uint64_t count);

/* A controller with queues over a random memory, after so many random calls (controller_random.c). */
void draw_controller(uint64_t calls);

#endif
