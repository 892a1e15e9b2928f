/*
 * The controller once more, in plain C, written to be read beside the scope paper: what the library's answers, its
 * memory and its look_ calls are compared with. It is built for clarity and not for speed.
 */
#ifndef CONTROLLER_H
#define CONTROLLER_H

#include <stdbool.h>

#include "bellrafter.h"

struct ref_sq {
    bool exists, marked;
    uint64_t base, size, head, tail, cq, priority_class;
};

struct ref_cq {
    bool exists;
    uint64_t base, size, head, tail, phase; /* phase: the tag of the next posting */
};

/*
 * A command by its tag. Start numbers are never used again, so that a half knows its other half by that one's number,
 * also where the tag has long been given to another command.
 */
struct ref_command {
    bool outstanding, second_half;
    uint64_t sq, cid, verdict;
    uint64_t number;       /* the start number, this command's own */
    uint64_t first_number; /* of a second half: its first half's */
};

/* A group of queues that take turns; only a level has credit. */
struct ref_group {
    uint64_t holder, remainder, credit;
};

/* The groups: all queues under mechanism 0 or the urgent ones under mechanism 1, then the levels by their class. */
enum { GROUP, HIGH, MEDIUM, LOW, GROUPS };

struct ref_controller {
    uint64_t mechanism;
    uint32_t word;
    struct ref_group groups[GROUPS];
    struct ref_sq sqs[16];
    struct ref_cq cqs[16];
    struct ref_command commands[64];
    uint64_t next; /* the start number that the next command gets */
};

uint64_t ref_controller_new(struct ref_controller *c, uint64_t mechanism, uint32_t word);
uint64_t ref_create_cq(struct ref_controller *c, size_t memory_bytes, uint64_t id, uint64_t size, uint64_t base);
uint64_t ref_create_sq(struct ref_controller *c, size_t memory_bytes, uint64_t id, uint64_t size, uint64_t base,
                       uint64_t cq, uint64_t priority_class);
uint64_t ref_delete_sq(struct ref_controller *c, uint64_t id);
uint64_t ref_delete_cq(struct ref_controller *c, uint64_t id);
uint64_t ref_tail_write(struct ref_controller *c, uint64_t id, uint64_t value);
uint64_t ref_head_write(struct ref_controller *c, uint64_t id, uint64_t value);
struct bellrafter_start ref_start(struct ref_controller *c, const uint8_t *memory, size_t memory_bytes);
struct bellrafter_finish ref_finish(struct ref_controller *c, uint8_t *memory, size_t memory_bytes, uint64_t tag,
                                    uint64_t status, uint32_t result);
struct bellrafter_replay ref_replay(struct ref_controller *c, uint8_t *memory, size_t memory_bytes,
                                    const uint8_t *trace, size_t trace_bytes, uint8_t *answers, size_t answers_bytes);
struct bellrafter_sq ref_look_sq(const struct ref_controller *c, uint64_t id);
struct bellrafter_cq ref_look_cq(const struct ref_controller *c, uint64_t id);
struct bellrafter_command ref_look_command(const struct ref_controller *c, uint64_t tag);
struct bellrafter_arbiter ref_look_arbiter(const struct ref_controller *c);

/*
 * The parts of a replay: what is wrong with a record by itself, 31 or 30, where the trace has `bytes` bytes from it on;
 * the value in it; and the answer record to a call.
 */
uint64_t ref_record_refusal(const uint8_t *record, size_t bytes);
uint64_t ref_record_value(const uint8_t *record);
void ref_answer_record(uint8_t *answer, uint8_t call, uint64_t refusal, uint64_t result);

#endif
