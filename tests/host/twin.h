/*
 * One controller twice: the library's, and the plain one of controller.h, each with a memory of its own. Each function
 * here makes a call of both, and is one expectation: that the answers are equal and so are the memories; that a refused
 * call has changed no word of the state (save by the mark); and that nothing around the state was touched. It answers
 * what the library answered. The library's state and memory lie right before pages that cannot be touched.
 */
#ifndef TWIN_H
#define TWIN_H

#include "check.h"
#include "controller.h"

/*
 * The bytes of memory. A call may be lent fewer: the library then gets a copy that ends before such a page. A trace has
 * no more than ROOM bytes, nor has the room for its answer records.
 */
enum { MEMORY_PAGES = 40, MEMORY = MEMORY_PAGES * 4096, ROOM = 5 * 4096 };

/* The plain controller and its memory: to draw calls from. The memory is written by the functions here alone. */
extern struct ref_controller plain;
extern uint8_t plain_memory[MEMORY];

/* How many calls of the library were made, and a digest of their answers. */
extern uint64_t calls_made;
extern uint64_t answers_digest;

/* Gives the library its buffers; to be called once. */
void open_twin(void);

/* Whether the library's state and memory are to be read-only where a call may only read them. */
void guard_reads(bool yes);

uint64_t twin_new(uint64_t mechanism, uint32_t word);
uint64_t twin_create_cq(size_t lent, uint64_t id, uint64_t size, uint64_t base);
uint64_t twin_create_sq(size_t lent, uint64_t id, uint64_t size, uint64_t base, uint64_t cq, uint64_t priority_class);
uint64_t twin_delete_sq(uint64_t id);
uint64_t twin_delete_cq(uint64_t id);
uint64_t twin_tail(uint64_t id, uint64_t value);
uint64_t twin_head(uint64_t id, uint64_t value);
struct bellrafter_start twin_start(size_t lent);
struct bellrafter_finish twin_finish(size_t lent, uint64_t tag, uint64_t status, uint32_t result);

/*
 * A replay with so many bytes of room for answer records, each of them FRESH_ROOM before. Further expectations: that
 * the two rooms are equal, with the bytes before them, all of both memories, and all look_ calls; `what` is shown where
 * the rooms differ. Afterwards the library's room is at `answer_room`.
 */
enum { FRESH_ROOM = 0x5A };
extern const uint8_t *answer_room;
struct bellrafter_replay twin_replay(const char *what, size_t lent, const uint8_t *trace, size_t trace_bytes,
                                     size_t room);

/* All look_ calls, for every id and tag and some beyond, one expectation each; and one of them alone. */
void look_at_all(void);
struct bellrafter_sq twin_look_sq(uint64_t id);
struct bellrafter_cq twin_look_cq(uint64_t id);
struct bellrafter_command twin_look_command(uint64_t tag);
struct bellrafter_arbiter twin_look_arbiter(void);

/* The fields of a submission entry that the controller looks at, and one number that fills the others. */
struct submitted {
    uint64_t opc, fuse, psdt, cid, nsid, slba, nlb, others;
};

/* Writes an entry into both memories by the submission writers. */
void twin_submit(uint64_t at, struct submitted s);

/* Writes bytes into both memories; clears them; fills them with random bytes. */
void twin_poke(uint64_t at, const uint8_t *bytes, size_t count);
void twin_clear(void);
void twin_fill(void);

/* All of both memories is equal: one expectation. */
void compare_memories(void);

/* The twin as it stood: state, memories, plain controller. */
struct saved {
    uint64_t state[BELLRAFTER_STATE_WORDS];
    uint8_t memory[MEMORY], plain_memory[MEMORY];
    struct ref_controller plain;
};

void save_twin(struct saved *saved);

/* Goes back; the library's state is put to another place than before, with another alignment. */
void go_back(const struct saved *saved);

/* The library's state and memory are what was saved, to the bit: one expectation. */
void compare_saved(const struct saved *saved);

#endif
