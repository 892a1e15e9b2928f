/* What all parts of the test share: expectations, random numbers, buffers with guard bytes and guard pages. */
#ifndef CHECK_H
#define CHECK_H

#include <inttypes.h>
#include <stdbool.h>
#include <stdio.h>
#include <string.h>

#include "bellrafter.h"

#define COUNT_OF(array) (sizeof(array) / sizeof(array)[0])

/* GUARD: the bytes around every buffer, which no call may change. */
enum { GUARD = 32, MOST_PAGES = 257 };

extern uint64_t passed;
extern uint64_t failed;

/* An answer as a row of numbers, the refusal number first. */
struct answer {
    size_t count;
    uint64_t number[16];
};

struct answer of_number(uint64_t refusal);
struct answer of_completion(struct bellrafter_completion completion);
struct answer of_waiting(struct bellrafter_waiting waiting);
struct answer of_pages(struct bellrafter_pages pages);
struct answer of_start(struct bellrafter_start start);
struct answer of_finish(struct bellrafter_finish finish);
struct answer of_replay(struct bellrafter_replay replay);
struct answer of_sq(struct bellrafter_sq sq);
struct answer of_cq(struct bellrafter_cq cq);
struct answer of_command(struct bellrafter_command command);
struct answer of_arbiter(struct bellrafter_arbiter arbiter);
struct answer of_submission(struct bellrafter_submission submission);

/* A buffer after a call, from its first guard byte on. */
struct view {
    const char *name;
    const uint8_t *wanted;
    const uint8_t *actual;
    size_t bytes;
};

/* One expectation, of the answer and all the views: prints a line for each difference. */
void compare(const char *what, struct answer wanted, struct answer actual, const struct view *views, size_t view_count);

/* One expectation, of an answer alone. */
void expect(const char *what, struct answer wanted, struct answer actual);

/* One expectation, of anything: prints the text if it is not met. */
void require(bool met, const char *what);

/* A call with the refusal numbers that it can give, each below REFUSALS. */
enum { REFUSALS = 36 };
struct refusals {
    const char *name;
    size_t count;
    uint64_t number[10];
};

/* Prints how often it gave each of them, by number, one expectation each that it did. */
void report_refusals(const struct refusals *refusals, const uint64_t times[REFUSALS]);

/* Counts how often each thing named happened. */
void note(const char *what, bool happened);

/* Prints the counts, one expectation each that it is not 0, and starts again. */
void report_notes(const char *title);

/*
 * Random numbers: any, one below a bound, one that is too large (near the limit or anywhere), a choice that is true
 * once in so many times. The place in the row of numbers is a seed that leads back to it.
 */
void seed_random(uint64_t seed);
uint64_t random_place(void);
uint64_t any_number(void);
uint64_t beyond(uint64_t limit);
uint64_t below(uint64_t bound);
bool once_in(uint64_t times);
void fill_random(uint8_t *bytes, size_t count);

/* The low `width` bytes of `value`, little-endian. */
void put(uint8_t *bytes, int width, uint64_t value);

typedef uint64_t doorbell_check(uint64_t size, uint64_t head, uint64_t tail, uint64_t value);
typedef struct bellrafter_pages page_walk(const uint8_t *memory, size_t memory_bytes, uint64_t prp1, uint64_t prp2,
                                          uint64_t length, uint64_t page, uint8_t *addresses, size_t address_bytes,
                                          uint8_t *counts, size_t count_bytes);

/* The numbers of a page walk, and its result buffers with the guard bytes around them. */
struct walk {
    uint64_t prp1, prp2, length, page;
    size_t memory_bytes, address_bytes, count_bytes;
};

struct results {
    uint8_t addresses[GUARD + 8 * MOST_PAGES + 2 * GUARD];
    uint8_t counts[GUARD + 4 * MOST_PAGES + 2 * GUARD];
};

/* Calls a page walk; a buffer of no bytes is passed as NULL. */
struct answer call_walk(page_walk *function, const struct walk *w, const uint8_t *memory, struct results *results);

/*
 * Bytes between two pages that cannot be touched: whoever reads or writes past the end crashes. Where fewer bytes are
 * needed than there are, the last ones are used.
 */
struct guarded {
    uint8_t *bytes;
    size_t room;
};

struct guarded guarded_bytes(size_t room);
uint8_t *last_bytes(struct guarded guarded, size_t count);

/* Lets the bytes be read alone, or read and written again. */
void read_only(struct guarded guarded, bool yes);

/* The parts of the test. */
void fixed_cases(void);
void controller_cases(void);
void delete_cases(void);
void replay_cases(void);
void all_turns(void);
void random_calls(uint64_t calls);
void random_controllers(uint64_t calls);
void random_replays(uint64_t replays);

#endif
