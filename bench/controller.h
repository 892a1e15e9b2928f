/* A plain controller: the same rules as the model, with the state behind a pointer. */
#ifndef BENCH_CONTROLLER_H
#define BENCH_CONTROLLER_H

#include <stdbool.h>
#include <stddef.h>
#include <stdint.h>

struct ring {
    uint64_t base;
    uint16_t size;
    uint16_t head;
    uint16_t tail;
    bool exists;
};

struct submission_queue {
    struct ring ring;
    bool marked;
    uint8_t cq;
    uint8_t class;
};

struct completion_queue {
    struct ring ring;
    uint8_t phase;
};

struct command {
    uint16_t cid;
    uint16_t verdict;
    uint8_t sq;
    uint8_t first;
    uint8_t second;
};

#define NO_LIMIT UINT32_MAX
#define NUMBER_MOST (UINT64_MAX - 1)

struct group {
    uint32_t holder;
    uint32_t remainder;
};

struct level {
    struct group group;
    uint32_t credit;
};

struct controller {
    struct submission_queue sqs[16];
    struct completion_queue cqs[16];
    struct command commands[64];
    uint64_t numbers[64]; /* by tag, like the commands, which a start looks through without them */
    uint64_t next;        /* the next start number */
    uint64_t free;
    bool weighted;
    uint32_t word;
    struct group group;
    struct level levels[3];
};

struct started {
    uint8_t sq;
    uint8_t count;
    uint8_t first;
    uint8_t second;
    uint16_t slot;
    uint16_t verdict;
    uint64_t number;
};

struct finished {
    uint16_t slot;
    uint64_t number;
};

unsigned controller_init(struct controller *c, uint64_t mechanism, uint32_t word);
unsigned create_cq(struct controller *c, size_t memory, uint64_t id, uint64_t size, uint64_t base);
unsigned create_sq(struct controller *c, size_t memory, uint64_t id, uint64_t size, uint64_t base, uint64_t cq, uint64_t class);
unsigned delete_sq(struct controller *c, uint64_t id);
unsigned delete_cq(struct controller *c, uint64_t id);
unsigned tail_write(struct controller *c, uint64_t id, uint64_t value);
unsigned head_write(struct controller *c, uint64_t id, uint64_t value);
unsigned start(struct controller *c, const uint8_t *memory, size_t length, struct started *out);
unsigned finish(struct controller *c, uint8_t *memory, size_t length, uint64_t tag, uint64_t status, uint32_t result,
                struct finished *out);
unsigned replay(struct controller *c, uint8_t *memory, size_t length, const uint8_t *trace, size_t trace_bytes, uint8_t *answers,
                size_t room, size_t *records);

#endif
