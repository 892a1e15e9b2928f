/* The header must be readable as C and as C++, and every name in it must be usable as the header says. */
#include "bellrafter.h"

int use_the_header(uint64_t *state, uint8_t *memory, size_t memory_bytes);

int use_the_header(uint64_t *state, uint8_t *memory, size_t memory_bytes)
{
    uint64_t refusals = bellrafter_controller_new(state, 0, 0);
    refusals += bellrafter_create_cq(state, memory, memory_bytes, 1, BELLRAFTER_SIZE_LEAST, 0);
    refusals += bellrafter_create_sq(state, memory, memory_bytes, 1, BELLRAFTER_SIZE_MOST, 4096, 1, 0);
    refusals += bellrafter_submission_write(memory, BELLRAFTER_SUBMISSION_BYTES, 0x02, 0, 0, 0x0102, 1, 0, 0x2000, 0, 0,
                                            0, 0, 0, 0, 0);
    refusals += bellrafter_tail_write(state, 1, 1);
    struct bellrafter_start s = bellrafter_start(state, memory, memory_bytes);
    struct bellrafter_finish f = bellrafter_finish(state, memory, memory_bytes, s.first, 0, 7);
    uint8_t trace[BELLRAFTER_RECORD_BYTES] = {BELLRAFTER_CALL_START}, answers[BELLRAFTER_RECORD_BYTES];
    struct bellrafter_replay r =
        bellrafter_replay(state, memory, memory_bytes, trace, sizeof trace, answers, sizeof answers);
    refusals += r.refusal + (r.records > 0 ? answers[1] : 0U);
    struct bellrafter_waiting w = bellrafter_ring_read(memory, memory_bytes, 4, 0, 1);
    struct bellrafter_completion c = bellrafter_completion_read(memory, BELLRAFTER_COMPLETION_BYTES);
    struct bellrafter_submission e = bellrafter_submission_read(memory, memory_bytes);
    refusals += bellrafter_completion_write(memory, memory_bytes, c.result, c.sqhd, c.sqid, c.cid, c.status, c.phase);
    refusals += bellrafter_head_write(state, 1, w.count) + bellrafter_tail_check(4, 0, 0, 1) +
                bellrafter_head_check(4, 0, 1, 1);
    struct bellrafter_pages p =
        bellrafter_page_walk(memory, memory_bytes, e.prp1, e.prp2, BELLRAFTER_LENGTH_MOST, 0, memory, 0, memory, 0);
    struct bellrafter_sq sq = bellrafter_look_sq(state, BELLRAFTER_QUEUES - 1);
    struct bellrafter_cq cq = bellrafter_look_cq(state, sq.cq);
    struct bellrafter_command k = bellrafter_look_command(state, BELLRAFTER_TAGS - 1);
    struct bellrafter_arbiter a = bellrafter_look_arbiter(state);
    refusals += bellrafter_delete_sq(state, 1) + bellrafter_delete_cq(state, 1);
    const char *texts[] = {bellrafter_refusal_text(refusals), bellrafter_status_text(k.verdict), BELLRAFTER_VERSION,
                           bellrafter_refusal_text(BELLRAFTER_NO_NUMBER), bellrafter_refusal_text(BELLRAFTER_SQ_BUSY),
                           bellrafter_refusal_text(BELLRAFTER_CQ_NAMED), bellrafter_refusal_text(BELLRAFTER_ADMIN)};
    uint8_t results[12 * BELLRAFTER_PAGES_MOST] = {0};
    uint64_t numbers[] = {f.slot, p.pages, cq.phase, a.low_credit, BELLRAFTER_NO_LIMIT, BELLRAFTER_STATUS_MOST,
                          BELLRAFTER_STATE_WORDS, BELLRAFTER_CLASSES, BELLRAFTER_BASE_UNIT, results[0],
                          s.number, f.number, k.number, BELLRAFTER_NUMBER_MOST};
    return texts[0][0] + (numbers[0] > 0) + BELLRAFTER_VERSION_MAJOR + BELLRAFTER_VERSION_MINOR;
}
