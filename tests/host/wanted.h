/*
 * What the fixed cases of controllers share: calls of the twin, each with the answer that is wanted, which is one
 * expectation more; and queues at known places, with entries in them.
 */
#ifndef WANTED_H
#define WANTED_H

#include "twin.h"

#define TOP UINT64_MAX /* 2^64 - 1 */

enum { M = MEMORY };

/* The verdicts, and the status of a second half whose first half failed. */
enum {
    INVALID_FIELD = BELLRAFTER_STATUS_INVALID_FIELD,
    ID_CONFLICT = BELLRAFTER_STATUS_ID_CONFLICT,
    FAILED_FUSED = BELLRAFTER_STATUS_FAILED_FUSED,
    MISSING_FUSED = BELLRAFTER_STATUS_MISSING_FUSED
};

void want(const char *what, uint64_t wanted, uint64_t actual);
void want_start(const char *what, struct bellrafter_start wanted, size_t lent);
void refused_start(const char *what, size_t lent, uint64_t refusal);
void want_finish(const char *what, size_t lent, uint64_t tag, uint64_t status, uint64_t slot, uint64_t number);
void refused_finish(const char *what, size_t lent, uint64_t tag, uint64_t status, uint64_t refusal);
void want_sq(const char *what, uint64_t id, struct bellrafter_sq wanted);
void want_cq(const char *what, uint64_t id, struct bellrafter_cq wanted);
void want_command(const char *what, uint64_t tag, struct bellrafter_command wanted);
void want_arbiter(const char *what, struct bellrafter_arbiter wanted);

/* The completion in a slot of CQ `id`. */
void want_posted(const char *what, uint64_t id, uint64_t slot, struct bellrafter_completion wanted);

/* Where the case tests put the rings: a page for each queue. SQ 0 has CQ 0, all others CQ 1. */
uint64_t sq_base(uint64_t id);
uint64_t cq_base(uint64_t id);
void make_cq(uint64_t id, uint64_t size);
void make_sq(uint64_t id, uint64_t size, uint64_t priority_class);

/* A fresh controller with CQs 0 and 1 over a memory of zeros. */
void fresh(uint64_t mechanism, uint32_t word, uint64_t cq_size);

/* Writes an entry at the tail and moves the tail. */
void submit(uint64_t id, struct submitted s);
void submit_plain(uint64_t id, uint64_t cid);
void submit_pair(uint64_t id, uint64_t first, uint64_t second);

#endif
