/*
 * Bellrafter: a proved reference model of NVMe queues, the calls for C programs.
 *
 *     A controller   create and delete its queues, ring its doorbells, let it start and finish commands, replay a trace
 *                    of doorbell writes, starts and finishes, look at what it holds
 *     Entries        write and read submission and completion queue entries
 *     Checks         count the completions that wait in a ring, check a doorbell value, walk the pages of a PRP
 *
 * The first kind works on the state of one controller, which the caller keeps; the others on plain numbers and byte
 * buffers alone. A program may have as many controllers as it likes. docs/RULES.md has the rules that they follow.
 *
 *
 * WHAT HOLDS FOR EVERY CALL
 *
 * Refusals. Each call answers a refusal number: 0 if it was done, else one of enum bellrafter_refusal
 * (bellrafter_look_arbiter alone has none). Where several would apply, the first one in the order given at the call is
 * answered. On a refusal every other number of the answer is 0, and every byte of every buffer and every word of the
 * state is as it was. There are two exceptions: a tail value that is refused with BELLRAFTER_DOORBELL marks its
 * submission queue, and bellrafter_controller_new always writes the whole state. A replay that was done has a refusal
 * number in each of its answer records too, which is about that record alone.
 *
 * Numbers. Every parameter takes any number of its type. There is no number for which a call is undefined, and
 * no sum wraps around: a number out of range is refused, or has the meaning given at the call.
 *
 * State. A controller is BELLRAFTER_STATE_WORDS words, and `state` points to that many. What they mean is the library's
 * own affair: they come from bellrafter_controller_new and are changed by these calls alone. Handing over other words
 * is the caller's fault, and what the call does then is not said; beside the pointers they are the one thing that the
 * library trusts. The words hold no pointer, so a state may be copied, moved and saved: a call on the copy does what it
 * would have done on the original, and a saved state can be gone back to, as long as the memory is put back with it.
 * Each copy counts its start numbers by itself, so that two of them give the same numbers. The words need the alignment
 * of uint64_t and no more. Words that another release of the library made are other words.
 *
 * Memory. The memory that the rings lie in belongs to the caller, who hands it to each call that looks at it; an
 * address is an offset in it. It may be another one at each call, as long as it holds what the controller and the host
 * wrote: the rings are found in it by their addresses. The host writes submission entries into it between the calls;
 * the controller writes nothing but the 16 bytes of each completion. The bytes of a deleted queue's ring keep what they
 * hold and are bytes like any others, for another ring too.
 *
 * Buffers. A buffer is a pointer and then its length in bytes, and the pointer must be valid for that length: to
 * read where it is const, to read and write otherwise. NULL may be passed together with length 0 and with no other
 * length. No alignment is needed. What one call may write, a state among it, must overlap neither another buffer nor
 * the state of the same call. Numbers in buffers are little-endian.
 *
 * Side effects. A call keeps no pointer, allocates nothing and touches nothing global. It is re-entrant, and
 * threads may call at the same time, as long as nothing that one of them writes is in use by another. A buffer is
 * read as ordinary memory and must not change during the call; the page walk reads a list twice and trusts what it has
 * checked, and a replay is one call, whatever it makes inside. To look at a ring or a list that a device is writing,
 * copy it first, with the barriers that your platform asks for.
 *
 * Time. No call waits, fails in another way than by its refusal number, or runs without limit: the ring reader looks
 * at no more than 1,023 entries, the page walk at no more than 257, each at most twice; a start looks at no more than
 * two entries, 32 queues and 64 outstanding commands, a deletion at no more than 16 queues or 64 outstanding commands.
 * A replay takes the time of the calls that its records name, one for each at most, and of reading 16 bytes and writing
 * 16 for each.
 *
 * The archive is for x86-64 Linux, with size_t of 64 bits.
 *
 *
 * EXAMPLE
 *
 *     static uint64_t state[BELLRAFTER_STATE_WORDS];
 *     static uint8_t memory[3 * 4096];         // the rings: all zero, so no entry has phase tag 1
 *
 *     bellrafter_controller_new(state, 0, 0);                                  // round robin, one command a turn
 *     bellrafter_create_cq(state, memory, sizeof memory, 1, 4, 0);             // CQ 1: 4 entries at address 0
 *     bellrafter_create_sq(state, memory, sizeof memory, 1, 8, 4096, 1, 0);    // SQ 1: 8 entries, posting to CQ 1
 *
 *     // The host: a command 0102h into slot 0, and the doorbell.
 *     bellrafter_submission_write(memory + 4096, 64, 0x02, 0, 0, 0x0102, 1, 0, 0x2000, 0, 0, 0, 0, 0, 0, 0);
 *     bellrafter_tail_write(state, 1, 1);
 *
 *     // The controller: start it, and finish it with status 0 and result 7.
 *     struct bellrafter_start s = bellrafter_start(state, memory, sizeof memory);
 *     if (s.refusal != BELLRAFTER_DONE)
 *         puts(bellrafter_refusal_text(s.refusal));
 *     bellrafter_finish(state, memory, sizeof memory, s.first, 0, 7);
 *
 *     // The host: how many wait, and what are they?
 *     uint64_t head = 0, phase = 1;            // it stands at slot 0; the first pass has phase tag 1
 *     struct bellrafter_waiting waiting = bellrafter_ring_read(memory, 4 * 16, 4, head, phase);
 *     for (uint64_t i = 0; i < waiting.count; i++) {
 *         struct bellrafter_completion c = bellrafter_completion_read(memory + 16 * head, 16);
 *         printf("command %04x: status %x\n", (unsigned)c.cid, (unsigned)c.status);
 *         if (++head == 4) {                   // the phase tag turns at the wrap
 *             head = 0;
 *             phase = 1 - phase;
 *         }
 *     }
 *     if (waiting.count > 0)                   // released; a write of the value held would be refused
 *         bellrafter_head_write(state, 1, head);
 *
 * In C++ too, write the word `struct` before the name of an answer: bellrafter_start, bellrafter_finish and
 * bellrafter_replay each name a call and its answer.
 */
#ifndef BELLRAFTER_H
#define BELLRAFTER_H

#include <stddef.h>
#include <stdint.h>

#ifdef __cplusplus
extern "C" {
#endif

#define BELLRAFTER_VERSION_MAJOR 2
#define BELLRAFTER_VERSION_MINOR 1
#define BELLRAFTER_VERSION "2.1"

/* The limits. */
#define BELLRAFTER_STATE_WORDS 623      /* words of a controller's state */
#define BELLRAFTER_QUEUES 16            /* submission queues, and completion queues: ids 0 to 15, 0 being Admin */
#define BELLRAFTER_TAGS 64              /* commands that may be outstanding: tags 0 to 63 */
#define BELLRAFTER_SIZE_LEAST 2         /* entries of a ring */
#define BELLRAFTER_SIZE_MOST 1024
#define BELLRAFTER_BASE_UNIT 4096       /* a ring begins at a multiple of it */
#define BELLRAFTER_CLASSES 4            /* priority classes: 0 urgent, 1 high, 2 medium, 3 low */
#define BELLRAFTER_SUBMISSION_BYTES 64  /* bytes of a submission queue entry */
#define BELLRAFTER_COMPLETION_BYTES 16  /* bytes of a completion queue entry */
#define BELLRAFTER_RECORD_BYTES 16      /* bytes of a trace's record, and of its answer record */
#define BELLRAFTER_STATUS_MOST 32767    /* the largest status */
#define BELLRAFTER_LENGTH_MOST 1048576  /* the longest data of a page walk, in bytes */
#define BELLRAFTER_PAGES_MOST 257       /* the most pages that such data touch */
#define BELLRAFTER_NO_LIMIT UINT64_MAX  /* a remainder without limit: struct bellrafter_arbiter */
#define BELLRAFTER_NUMBER_MOST (UINT64_MAX - 1) /* the largest start number: 18,446,744,073,709,551,614 */

/* The refusal numbers, with the calls that give them. The answer records of replay have those of the calls it makes. */
enum bellrafter_refusal {
    /* Done, no refusal: every call. */
    BELLRAFTER_DONE = 0,
    /* The queue's own id is above 15: create_cq, create_sq, delete_sq, delete_cq, tail_write, head_write, look_sq,
       look_cq. */
    BELLRAFTER_QUEUE_ID = 1,
    /* The queue exists already: create_cq, create_sq. */
    BELLRAFTER_QUEUE_EXISTS = 2,
    /* The size is outside 2 to 1,024 entries: create_cq, create_sq, ring_read, tail_check, head_check. */
    BELLRAFTER_RING_SIZE = 3,
    /* The base is no multiple of 4,096: create_cq, create_sq. */
    BELLRAFTER_RING_BASE = 4,
    /* A ring does not lie wholly in the memory given. create_cq, create_sq: the new ring. start, finish: any ring of
       an existing queue. ring_read: it was given fewer than 16 times size bytes. */
    BELLRAFTER_RING_MEMORY = 5,
    /* The new ring shares a byte with the ring of an existing queue: create_cq, create_sq. */
    BELLRAFTER_RING_SHARED = 6,
    /* The submission queue names a completion queue that does not exist; or SQ 0 names another one than CQ 0; or
       another one than SQ 0 names CQ 0: create_sq. */
    BELLRAFTER_WRONG_CQ = 7,
    /* The class number is above 3: create_sq. */
    BELLRAFTER_CLASS = 8,
    /* The queue does not exist, or no longer: delete_sq, delete_cq, tail_write, head_write, look_sq, look_cq. */
    BELLRAFTER_NO_QUEUE = 9,
    /* The doorbell value is invalid, as the one held is: tail_write, head_write, tail_check, head_check. Also, a head
       or tail is not below the size: ring_read (which takes a head alone), tail_check, head_check. */
    BELLRAFTER_DOORBELL = 10,
    /* The submission queue is marked, by an earlier tail value that was refused: tail_write. */
    BELLRAFTER_MARKED = 11,
    /* No submission queue is a candidate: start. */
    BELLRAFTER_NO_CANDIDATE = 12,
    /* Too few tags are free: start. */
    BELLRAFTER_NO_TAG = 13,
    /* The tag is not outstanding: finish, look_command. */
    BELLRAFTER_NO_COMMAND = 14,
    /* The status is above 32,767: finish, completion_write. */
    BELLRAFTER_STATUS = 15,
    /* A pair's second half is finished while its first half is outstanding: finish. */
    BELLRAFTER_FIRST_HALF = 16,
    /* The completion queue has no free slot: finish. */
    BELLRAFTER_CQ_FULL = 17,
    /* A PRP has a wrong offset or alignment: page_walk. */
    BELLRAFTER_PRP_OFFSET = 18,
    /* A PRP list entry does not lie wholly in memory: page_walk. */
    BELLRAFTER_PRP_MEMORY = 19,
    /* The length is outside 1 to 1,048,576 bytes: page_walk. */
    BELLRAFTER_LENGTH = 20,
    /* A buffer is too short. submission_write, submission_read: the entry is under 64 bytes. completion_write,
       completion_read: the entry is under 16 bytes. page_walk: a result buffer has room for fewer pages than the data
       touch. replay: there is room for fewer answer records than the trace has records. */
    BELLRAFTER_BUFFER = 21,
    /* The page size number is above 4: page_walk. */
    BELLRAFTER_PAGE_SIZE = 22,
    /* The mechanism is neither 0 nor 1: controller_new. */
    BELLRAFTER_MECHANISM = 23,
    /* The record names no call, or a spare byte of it is not zero: an answer record of replay. */
    BELLRAFTER_RECORD = 30,
    /* The trace ends before the record does: the last answer record of replay. */
    BELLRAFTER_RECORD_SHORT = 31,
    /* A start number above 18,446,744,073,709,551,614 would be needed, after a command for each number up to there:
       start. */
    BELLRAFTER_NO_NUMBER = 32,
    /* The submission queue has outstanding commands: delete_sq. */
    BELLRAFTER_SQ_BUSY = 33,
    /* A submission queue names the completion queue: delete_cq. */
    BELLRAFTER_CQ_NAMED = 34,
    /* It is queue 0, which is never deleted, whether it exists or not: delete_sq, delete_cq. */
    BELLRAFTER_ADMIN = 35
};

/* The calls that a trace's record names: replay. */
enum bellrafter_call {
    BELLRAFTER_CALL_TAIL_WRITE = 1,
    BELLRAFTER_CALL_HEAD_WRITE = 2,
    BELLRAFTER_CALL_START = 3,
    BELLRAFTER_CALL_FINISH = 4
};

/*
 * The status codes that the controller gives by itself, as verdicts: of the generic command status of NVMe. Any other
 * status comes from the caller of finish.
 */
enum bellrafter_status {
    BELLRAFTER_STATUS_SUCCESS = 0x00,
    /* Invalid Field in Command. */
    BELLRAFTER_STATUS_INVALID_FIELD = 0x02,
    /* Command ID Conflict. */
    BELLRAFTER_STATUS_ID_CONFLICT = 0x03,
    /* Command Aborted due to Failed Fused Command. */
    BELLRAFTER_STATUS_FAILED_FUSED = 0x09,
    /* Command Aborted due to Missing Fused Command. */
    BELLRAFTER_STATUS_MISSING_FUSED = 0x0A
};

/* What a refusal number means, for any number; the text is constant and is not to be freed. */
static inline const char *bellrafter_refusal_text(uint64_t refusal)
{
    switch (refusal) {
    case BELLRAFTER_DONE:
        return "done";
    case BELLRAFTER_QUEUE_ID:
        return "the queue id is above 15";
    case BELLRAFTER_QUEUE_EXISTS:
        return "the queue exists already";
    case BELLRAFTER_RING_SIZE:
        return "the size is outside 2 to 1,024 entries";
    case BELLRAFTER_RING_BASE:
        return "the base is no multiple of 4,096";
    case BELLRAFTER_RING_MEMORY:
        return "a ring does not lie wholly in the memory given";
    case BELLRAFTER_RING_SHARED:
        return "the new ring shares a byte with an existing ring";
    case BELLRAFTER_WRONG_CQ:
        return "the submission queue cannot use that completion queue";
    case BELLRAFTER_CLASS:
        return "the class number is above 3";
    case BELLRAFTER_NO_QUEUE:
        return "the queue does not exist";
    case BELLRAFTER_DOORBELL:
        return "the doorbell value is invalid, or a head or tail is not below the size";
    case BELLRAFTER_MARKED:
        return "the submission queue is marked";
    case BELLRAFTER_NO_CANDIDATE:
        return "no submission queue has a command to start";
    case BELLRAFTER_NO_TAG:
        return "too few tags are free";
    case BELLRAFTER_NO_COMMAND:
        return "the tag is not outstanding";
    case BELLRAFTER_STATUS:
        return "the status is above 32,767";
    case BELLRAFTER_FIRST_HALF:
        return "the first half of the pair is still outstanding";
    case BELLRAFTER_CQ_FULL:
        return "the completion queue has no free slot";
    case BELLRAFTER_PRP_OFFSET:
        return "a PRP has a wrong offset or alignment";
    case BELLRAFTER_PRP_MEMORY:
        return "a PRP list entry does not lie wholly in memory";
    case BELLRAFTER_LENGTH:
        return "the length is outside 1 to 1,048,576 bytes";
    case BELLRAFTER_BUFFER:
        return "a buffer is too short";
    case BELLRAFTER_PAGE_SIZE:
        return "the page size number is above 4";
    case BELLRAFTER_MECHANISM:
        return "the mechanism is neither 0 nor 1";
    case BELLRAFTER_RECORD:
        return "the record names no call, or a spare byte of it is not zero";
    case BELLRAFTER_RECORD_SHORT:
        return "the trace ends before its last record does";
    case BELLRAFTER_NO_NUMBER:
        return "too few start numbers are left";
    case BELLRAFTER_SQ_BUSY:
        return "the submission queue has outstanding commands";
    case BELLRAFTER_CQ_NAMED:
        return "a submission queue names the completion queue";
    case BELLRAFTER_ADMIN:
        return "queue 0 is never deleted";
    default:
        return "no refusal number";
    }
}

/* What a status means if it is one of those, for any number; the text is constant and is not to be freed. */
static inline const char *bellrafter_status_text(uint64_t status)
{
    switch (status) {
    case BELLRAFTER_STATUS_SUCCESS:
        return "Successful Completion";
    case BELLRAFTER_STATUS_INVALID_FIELD:
        return "Invalid Field in Command";
    case BELLRAFTER_STATUS_ID_CONFLICT:
        return "Command ID Conflict";
    case BELLRAFTER_STATUS_FAILED_FUSED:
        return "Command Aborted due to Failed Fused Command";
    case BELLRAFTER_STATUS_MISSING_FUSED:
        return "Command Aborted due to Missing Fused Command";
    default:
        return status > BELLRAFTER_STATUS_MOST ? "no status" : "another status";
    }
}


/*
 * A CONTROLLER
 *
 * Submission queues (SQ) and completion queues (CQ) are rings in memory. A ring of size n holds at most n - 1 entries
 * and is empty where head and tail are equal. The host writes submission entries and moves an SQ's tail; a start takes
 * them and moves the SQ's head; a finish posts a completion and moves the CQ's tail; the host reads it and moves the
 * CQ's head.
 *
 * Any queue but 0 can be deleted, and created again with the same numbers or others. A deleted queue is as one that
 * never was: it does not exist for any call, no refusal looks at its ring, and its id and its bytes may be used again.
 * The rest of the controller stays as it is: outstanding commands of other queues, turn holders, remainders, credits,
 * and the next start number.
 *
 * Each command that a controller takes gets a start number: 0 for the first, and one more for each further one,
 * whichever queue it comes from. The two commands of a fused pair get two in order, the first half the lower. A start
 * answers the number, and the finish of that command answers it again: an inspector matches starts to completions by a
 * number that never repeats, where tags and CIDs are used again. It does not appear in the ring.
 */

/* What a start took. */
struct bellrafter_start {
    uint64_t refusal;
    uint64_t sq;      /* the submission queue served */
    uint64_t count;   /* commands taken: 1, or 2 for a fused pair */
    uint64_t first;   /* the tag of the first, 0 to 63 */
    uint64_t second;  /* the tag of the second; 0 if one was taken */
    uint64_t slot;    /* the slot of the first in the SQ; the second's is the next one, slot 0 after the last */
    uint64_t verdict; /* 0, or the status that will be posted whatever the caller of finish gives */
    uint64_t number;  /* the start number of the first; the second's is one more */
};

/* Where a finish posted, and which command. */
struct bellrafter_finish {
    uint64_t refusal;
    uint64_t slot;   /* in the CQ */
    uint64_t number; /* the start number of the command */
};

/* What a replay wrote. */
struct bellrafter_replay {
    uint64_t refusal;
    uint64_t records; /* answer records: as many as the trace has records, a last short one counted */
};

struct bellrafter_sq {
    uint64_t refusal;
    uint64_t base;
    uint64_t size;
    uint64_t head;
    uint64_t tail;
    uint64_t marked; /* 0 or 1 */
    uint64_t cq;
    uint64_t priority_class;
};

struct bellrafter_cq {
    uint64_t refusal;
    uint64_t base;
    uint64_t size;
    uint64_t head;
    uint64_t tail;
    uint64_t phase; /* the phase tag of the next posting, 0 or 1 */
};

struct bellrafter_command {
    uint64_t refusal;
    uint64_t sq;
    uint64_t cid;
    uint64_t verdict; /* that of the start; for a second half 09h instead of 0, once its first half has failed */
    uint64_t number;  /* its start number; no two outstanding commands have the same */
};

/*
 * Whose turn it is. A group has a turn holder and a remainder, which is BELLRAFTER_NO_LIMIT where it has no limit; a
 * level has credit too. `holder` and `remainder` are those of all SQs under mechanism 0, of the urgent ones under
 * mechanism 1. At first each holder is 15, each remainder 0 and each credit its level's weight; mechanism 0 leaves the
 * levels so. They are numbers, which creating and deleting queues leaves alone: a holder may be the id of a queue that
 * was deleted.
 */
struct bellrafter_arbiter {
    uint64_t mechanism;
    uint64_t word;
    uint64_t holder;
    uint64_t remainder;
    uint64_t high_holder;
    uint64_t high_remainder;
    uint64_t high_credit;
    uint64_t medium_holder;
    uint64_t medium_remainder;
    uint64_t medium_credit;
    uint64_t low_holder;
    uint64_t low_remainder;
    uint64_t low_credit;
};

/*
 * Makes a controller without queues, with an arbitration mechanism and the Arbitration feature word, and writes all
 * of `state`, whatever is in it. The first command that it takes will have start number 0.
 *
 * `mechanism` is 0, round robin, or 1, weighted round robin with urgent priority class. Of `word`, bits 2:0 give the
 * burst as a power of two, 7 meaning no limit; bits 15:8, 23:16 and 31:24 are the low, medium and high weights less
 * one; bits 7:3 are ignored.
 *
 * Answers the refusal number: BELLRAFTER_MECHANISM; the state is then that of mechanism 0 and word 0.
 */
uint64_t bellrafter_controller_new(uint64_t *state, uint64_t mechanism, uint32_t word);

/*
 * Creates a completion queue of `size` entries of 16 bytes at address `base`, with head and tail 0 and phase tag 1.
 *
 * Memory is looked at for its length alone. Nothing is written: a host that is going to tell new entries by their phase
 * tag clears the ring before. It clears it again before the queue is created again, at whatever bytes: the completions
 * and entries of deleted queues that lie there might be read as new ones.
 *
 * Answers the refusal number. In order: BELLRAFTER_QUEUE_ID; BELLRAFTER_QUEUE_EXISTS; BELLRAFTER_RING_SIZE;
 * BELLRAFTER_RING_BASE; BELLRAFTER_RING_MEMORY for the new ring; BELLRAFTER_RING_SHARED.
 */
uint64_t bellrafter_create_cq(uint64_t *state, const uint8_t *memory, size_t memory_bytes, uint64_t id, uint64_t size,
                              uint64_t base);

/*
 * Creates a submission queue of `size` entries of 64 bytes at address `base`, with head and tail 0. Its completions
 * go to the completion queue `cq`: SQ 0 has CQ 0, and any other SQ any other CQ; several may share one. It is not
 * marked, and nothing is submitted to it, whatever entries lie in the ring.
 *
 * `priority_class` is 0 urgent, 1 high, 2 medium or 3 low. It has no effect under mechanism 0, and none on SQ 0. Memory
 * is looked at for its length alone.
 *
 * Answers the refusal number. In order: BELLRAFTER_QUEUE_ID; BELLRAFTER_QUEUE_EXISTS; BELLRAFTER_CLASS;
 * BELLRAFTER_WRONG_CQ; BELLRAFTER_RING_SIZE; BELLRAFTER_RING_BASE; BELLRAFTER_RING_MEMORY for the new ring;
 * BELLRAFTER_RING_SHARED.
 */
uint64_t bellrafter_create_sq(uint64_t *state, const uint8_t *memory, size_t memory_bytes, uint64_t id, uint64_t size,
                              uint64_t base, uint64_t cq, uint64_t priority_class);

/*
 * Deletes submission queue `id`. Entries that were submitted to it and not started are dropped: no start takes them. A
 * mark ends with its queue, and does not stop the deletion. The id may be created again, and the bytes of the ring may
 * be used again, by this queue or another one.
 *
 * Completions stay where they were posted. Turn holders, remainders and credits stay as numbers: a submission queue
 * that is created with the id of its group's holder goes on with the remainder left. Start numbers go on. No byte of
 * memory is looked at or written.
 *
 * Answers the refusal number. In order: BELLRAFTER_QUEUE_ID; BELLRAFTER_ADMIN, also where SQ 0 does not exist;
 * BELLRAFTER_NO_QUEUE; BELLRAFTER_SQ_BUSY until each command that was started from the queue is finished.
 */
uint64_t bellrafter_delete_sq(uint64_t *state, uint64_t id);

/*
 * Deletes completion queue `id`. Completions that wait in it do not stop the deletion: they lie in memory, unreleased,
 * until something else is written there. The id may be created again, and the bytes of the ring may be used again, by
 * this queue or another one. A queue that is created again begins at slot 0 with phase tag 1, and its reader does too;
 * bellrafter_create_cq says what the host clears before. No byte of memory is looked at or written.
 *
 * Answers the refusal number. In order: BELLRAFTER_QUEUE_ID; BELLRAFTER_ADMIN, also where CQ 0 does not exist;
 * BELLRAFTER_NO_QUEUE; BELLRAFTER_CQ_NAMED until each submission queue that names it is deleted.
 */
uint64_t bellrafter_delete_cq(uint64_t *state, uint64_t id);

/*
 * The host writes `value` to the tail doorbell of submission queue `id`. bellrafter_tail_check says which values are
 * valid; the one held is not, which is the queue's tail: the last value accepted, 0 in a new queue. An invalid value,
 * the one held like any other, marks the queue until it is deleted: it takes no more tail writes and starts no more
 * commands; started ones may finish.
 *
 * Answers the refusal number. In order: BELLRAFTER_QUEUE_ID; BELLRAFTER_NO_QUEUE; BELLRAFTER_MARKED, for any value;
 * BELLRAFTER_DOORBELL, which marks.
 */
uint64_t bellrafter_tail_write(uint64_t *state, uint64_t id, uint64_t value);

/*
 * The host writes `value` to the head doorbell of completion queue `id`. bellrafter_head_check says which values are
 * valid; the one held is not, which is the queue's head: the last value accepted, 0 in a new queue. An invalid value
 * marks nothing and does not count: the value held stays.
 *
 * Answers the refusal number. In order: BELLRAFTER_QUEUE_ID; BELLRAFTER_NO_QUEUE; BELLRAFTER_DOORBELL.
 */
uint64_t bellrafter_head_write(uint64_t *state, uint64_t id, uint64_t value);

/*
 * The controller starts the next command, or the next fused pair, which counts as one. Arbitration chooses the
 * submission queue among the candidates, which are those that are neither empty nor marked; its head moves past what is
 * taken. A command gets the lowest free tag, a pair the two lowest, its first half the lower.
 *
 * A command gets the next start number, a pair the next two, its first half the lower. A start that is refused uses
 * none.
 *
 * The verdict is the first of these that applies. For a single command:
 *
 *     FUSE not 0 on SQ 0, or FUSE 3                                              02h
 *     FUSE 2, or FUSE 1 with no submitted entry of FUSE 2 right behind it        0Ah
 *     PSDT not 0                                                                 02h
 *     its CID is that of an outstanding command of the same SQ                   03h
 *
 * For a pair, FUSE 1 then FUSE 2 on another SQ than 0, where both halves get the same:
 *
 *     opcodes other than 05h then 01h; NSID, SLBA or NLB unequal; a PSDT not 0   02h
 *     a CID is in use, or both are equal                                         03h
 *
 * In order: BELLRAFTER_RING_MEMORY for any ring; BELLRAFTER_NO_CANDIDATE; BELLRAFTER_NO_TAG if the queue chosen needs
 * more tags than are free; BELLRAFTER_NO_NUMBER if it needs a start number above BELLRAFTER_NUMBER_MOST, of a pair the
 * second one too. With the last two no other queue is tried.
 */
struct bellrafter_start bellrafter_start(uint64_t *state, const uint8_t *memory, size_t memory_bytes);

/*
 * The controller finishes the command with tag `tag`: it posts a completion to the tail of its completion queue, and
 * the tag is free again. Exactly those 16 bytes of memory change.
 *
 * The status posted is the command's verdict if that is not 0; else 09h for a second half whose first half posted a
 * status other than 0; else `status`. `result` is posted in every case. SQHD is the head of the submission queue now.
 * The start number is answered and not posted.
 *
 * In order: BELLRAFTER_RING_MEMORY for any ring; BELLRAFTER_NO_COMMAND; BELLRAFTER_STATUS, also where a verdict
 * overrules the status; BELLRAFTER_FIRST_HALF; BELLRAFTER_CQ_FULL.
 */
struct bellrafter_finish bellrafter_finish(uint64_t *state, uint8_t *memory, size_t memory_bytes, uint64_t tag,
                                           uint64_t status, uint32_t result);

/*
 * Replays a trace: makes the calls that its records name, one after another, on the controller and the memory as they
 * stand, and writes an answer record for each record. The queues are created before; no record creates or deletes any.
 *
 * A trace is records of 16 bytes, from its first byte on; the last one may be short, which is refused in its answer
 * record. A record:
 *
 *                      tail write     head write     start    finish
 *     byte   0         1              2              3        4             enum bellrafter_call
 *     byte   1         the SQ's id    the CQ's id    0        the tag
 *     bytes  2 to  3   the value      the value      0        the status
 *     bytes  4 to 15   0              0              0        0
 *
 * The bytes shown as 0 are spare. The others may be any: the call is bellrafter_tail_write, bellrafter_head_write,
 * bellrafter_start or bellrafter_finish of these numbers, a finish with result 0, and does what that does. An answer
 * record, also of 16 bytes, the first one for the first record:
 *
 *     byte   0         byte 0 of the record, whatever it is
 *     byte   1         the refusal number, 0 if the call was done
 *     bytes  2 to  3   the value that a tail write or head write wrote, the tag of the first command that a start took,
 *                      the slot in the CQ that a finish posted to; 0 beside a refusal
 *     bytes  4 to 15   0
 *
 * The refusal number of an answer record is, in order: BELLRAFTER_RECORD_SHORT if the trace ends before the record
 * does, whatever is in it; BELLRAFTER_RECORD if byte 0 is none of the four or a spare byte is not 0; that of the call.
 * With the first two no call is made, and the record changes nothing. After any other refusal than the first the
 * replay goes on with the next record. A trace that writes a doorbell's value again, with no other between, has that
 * write refused, and the queue marked if it is a tail's. The commands that a replay starts get start numbers as all
 * others do; an answer record does not tell them, bellrafter_look_command does.
 *
 * An example, with four bytes of each record, behind which twelve zeros stand. SQ 1 and CQ 1 are new, of 4 entries, and
 * an ordinary command lies in slot 0 of SQ 1:
 *
 *     record         answer record
 *     01 01 01 00    01 00 01 00      tail write, SQ 1, value 1: done, 1 written
 *     03 00 00 00    03 00 00 00      start: done, tag 0
 *     03 00 00 00    03 0C 00 00      start: refused with BELLRAFTER_NO_CANDIDATE
 *
 * `answers` is the room for the answer records, 16 bytes for each record, a last short one too; the bytes past them are
 * left as they are. `memory` and `answers` must overlap neither each other nor `trace` nor the state, and nobody else
 * writes any of them during the replay. A host that has entries to write between two records cuts the trace there: two
 * replays, one of each part, do what one of the whole does.
 *
 * Refusal: BELLRAFTER_BUFFER if `answers_bytes` is under 16 for each record. It is tested first, so no call is made
 * then. An empty trace has no record and needs no room.
 */
struct bellrafter_replay bellrafter_replay(uint64_t *state, uint8_t *memory, size_t memory_bytes, const uint8_t *trace,
                                           size_t trace_bytes, uint8_t *answers, size_t answers_bytes);

/* A submission queue as it stands. In order: BELLRAFTER_QUEUE_ID; BELLRAFTER_NO_QUEUE. */
struct bellrafter_sq bellrafter_look_sq(const uint64_t *state, uint64_t id);

/* A completion queue as it stands. In order: BELLRAFTER_QUEUE_ID; BELLRAFTER_NO_QUEUE. */
struct bellrafter_cq bellrafter_look_cq(const uint64_t *state, uint64_t id);

/* An outstanding command. Refusal: BELLRAFTER_NO_COMMAND. */
struct bellrafter_command bellrafter_look_command(const uint64_t *state, uint64_t tag);

/* The arbitration. It has no refusal. */
struct bellrafter_arbiter bellrafter_look_arbiter(const uint64_t *state);


/*
 * ENTRIES
 *
 * A submission queue entry is 64 bytes:
 *
 *     byte   0         OPC, the opcode
 *     byte   1         bits 1:0 FUSE, bits 7:6 PSDT; the others reserved
 *     bytes  2 to  3   CID, the command's id
 *     bytes  4 to  7   NSID
 *     bytes  8 to 15   reserved: written as 0, ignored when read
 *     bytes 16 to 23   MPTR
 *     bytes 24 to 31   PRP1
 *     bytes 32 to 39   PRP2
 *     bytes 40 to 47   SLBA
 *     bytes 48 to 49   NLB, one less than the number of blocks
 *     bytes 50 to 51   the upper half of CDW12
 *     bytes 52 to 63   CDW13, CDW14, CDW15
 */
struct bellrafter_submission {
    uint64_t refusal;
    uint64_t fuse; /* 0 to 3 */
    uint64_t psdt; /* 0 to 3 */
    uint64_t mptr;
    uint64_t prp1;
    uint64_t prp2;
    uint64_t slba;
    uint32_t nsid;
    uint32_t cdw13;
    uint32_t cdw14;
    uint32_t cdw15;
    uint16_t cid;
    uint16_t nlb;
    uint16_t cdw12_upper;
    uint16_t opc; /* 0 to 255 */
};

/*
 * A completion queue entry is 16 bytes:
 *
 *     bytes  0 to  3   the command's result
 *     bytes  4 to  7   reserved: written as 0, ignored when read
 *     bytes  8 to  9   SQHD, the submission queue head when the entry was posted
 *     bytes 10 to 11   the submission queue's id
 *     bytes 12 to 13   CID, the command's id
 *     bytes 14 to 15   twice the 15-bit status, plus the phase tag (bit 0)
 */
struct bellrafter_completion {
    uint64_t refusal;
    uint32_t result;
    uint16_t sqhd;
    uint16_t sqid;
    uint16_t cid;
    uint16_t status; /* 0 to 32,767 */
    uint32_t phase;  /* 0 or 1 */
};

/*
 * Writes a submission to the first 64 bytes of `entry`; bytes past them are left as they are. The reserved bytes and
 * bits become 0. `fuse` and `psdt` are taken modulo 4.
 *
 * Answers the refusal number: BELLRAFTER_BUFFER if `entry_bytes` is under 64.
 */
uint64_t bellrafter_submission_write(uint8_t *entry, size_t entry_bytes, uint8_t opc, uint64_t fuse, uint64_t psdt,
                                     uint16_t cid, uint32_t nsid, uint64_t mptr, uint64_t prp1, uint64_t prp2,
                                     uint64_t slba, uint16_t nlb, uint16_t cdw12_upper, uint32_t cdw13, uint32_t cdw14,
                                     uint32_t cdw15);

/*
 * Reads the submission in the first 64 bytes of `entry`. Any 64 bytes can be read.
 *
 * Refusal: BELLRAFTER_BUFFER if `entry_bytes` is under 64.
 */
struct bellrafter_submission bellrafter_submission_read(const uint8_t *entry, size_t entry_bytes);

/*
 * Writes a completion to the first 16 bytes of `entry`; bytes past them are left as they are.
 *
 * `status` is 0 to 32,767. `phase` is the phase tag and is taken modulo 2.
 *
 * Answers the refusal number. In order: BELLRAFTER_STATUS; BELLRAFTER_BUFFER if `entry_bytes` is under 16.
 */
uint64_t bellrafter_completion_write(uint8_t *entry, size_t entry_bytes, uint32_t result, uint16_t sqhd,
                                     uint16_t sqid, uint16_t cid, uint64_t status, uint64_t phase);

/*
 * Reads the completion in the first 16 bytes of `entry`. Any 16 bytes can be read.
 *
 * Refusal: BELLRAFTER_BUFFER if `entry_bytes` is under 16.
 */
struct bellrafter_completion bellrafter_completion_read(const uint8_t *entry, size_t entry_bytes);


/*
 * CHECKS
 *
 * Of rings, doorbell values and PRPs, on plain numbers: no controller is needed.
 */
struct bellrafter_waiting {
    uint64_t refusal;
    uint64_t count; /* completions that wait, 0 to size - 1 */
};

struct bellrafter_pages {
    uint64_t refusal;
    uint64_t pages; /* pages that the data touch, 1 to 257 */
    uint64_t reads; /* PRP list entries read, pointers to a next list included, 0 to 257 */
};

/*
 * Counts the completions that wait in a completion ring of `size` entries, which is the first 16 times `size` bytes
 * of `ring`; bytes past them are not looked at.
 *
 * `head` is the slot at which the host reads next, and `phase` the phase tag that a new entry has there, modulo 2: 1 in
 * the first pass, turning over each time the head wraps to slot 0. The reader walks forward from the head
 * while the entry's phase tag is the one expected, which turns at the wrap, and stops after size - 1 entries. The
 * completions that wait are those slots, in that order; bellrafter_completion_read reads each.
 *
 * In order: BELLRAFTER_RING_SIZE; BELLRAFTER_RING_MEMORY if `ring_bytes` is under 16 times `size`;
 * BELLRAFTER_DOORBELL if `head` is not below `size`.
 */
struct bellrafter_waiting bellrafter_ring_read(const uint8_t *ring, size_t ring_bytes, uint64_t size, uint64_t head,
                                               uint64_t phase);

/*
 * Checks the value that a host writes to a submission queue's tail doorbell, for a ring of `size` entries that stands
 * at `head` and `tail`.
 *
 * The value is valid if it is below the size and its distance from the head, modulo the size, is more than the old
 * tail's: the tail moves forward and never past the head. The value held, which is `tail`, is not valid.
 *
 * Answers the refusal number. In order: BELLRAFTER_RING_SIZE; BELLRAFTER_DOORBELL if `head` or `tail` is not below
 * `size` or the value is not valid.
 */
uint64_t bellrafter_tail_check(uint64_t size, uint64_t head, uint64_t tail, uint64_t value);

/*
 * Checks the value that a host writes to a completion queue's head doorbell, for a ring of `size` entries that stands
 * at `head` and `tail`.
 *
 * The value is valid if it is below the size and its distance from the old head, modulo the size, is at least 1 and no
 * more than the tail's: the head moves forward and never past the tail. The value held, which is `head`, is not valid.
 *
 * Answers the refusal number, in the order of bellrafter_tail_check.
 */
uint64_t bellrafter_head_check(uint64_t size, uint64_t head, uint64_t tail, uint64_t value);

/*
 * Finds the pages that a command's data touch, from its two PRPs.
 *
 * `memory` is the memory that PRP lists are read from; an address is an offset in it. Addresses of data are not
 * followed and may lie outside it. `length` is that of the data in bytes, 1 to 1,048,576. `page` is the page size
 * number 0 to 4: a page has 4,096 times 2 to the power `page` bytes.
 *
 * With N the pages touched, by `prp1`'s offset in its page and `length`:
 *
 *     prp1      the address of the first byte, a multiple of 4
 *     N = 1     prp2 is not looked at
 *     N = 2     prp2 is the second page, offset 0
 *     N > 2     prp2 is the address of a PRP list, a multiple of 8 at any offset in its page. The list's entries
 *               are 8 bytes each, one for each page after the first, all with offset 0. The last entry of a list
 *               page points to the next list exactly if more than one page of data is left; otherwise it is data.
 *
 * Result buffers, filled only if the walk is done:
 *
 *     addresses   8 bytes for each page: prp1, then the pages' addresses
 *     counts      4 bytes for each page: how many bytes of the data lie on it; they add up to `length`
 *
 * The bytes past the first 8 * N and 4 * N are left as they are. N is at most 257, so 2,056 and 1,028 bytes are
 * always enough. The two must overlap neither each other nor `memory`.
 *
 * In order: BELLRAFTER_LENGTH; BELLRAFTER_PAGE_SIZE; BELLRAFTER_PRP_OFFSET for `prp1`; BELLRAFTER_BUFFER if
 * `address_bytes` is under 8 * N or `count_bytes` under 4 * N; then for `prp2` and each list entry, in reading order,
 * BELLRAFTER_PRP_OFFSET for its value before BELLRAFTER_PRP_MEMORY for the place that it leads to.
 */
struct bellrafter_pages bellrafter_page_walk(const uint8_t *memory, size_t memory_bytes, uint64_t prp1, uint64_t prp2,
                                             uint64_t length, uint64_t page, uint8_t *addresses,
                                             size_t address_bytes, uint8_t *counts, size_t count_bytes);

#ifdef __cplusplus
}
#endif

#endif
