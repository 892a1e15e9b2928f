/* Random calls of each function, valid and damaged, each compared with the reference. */
#include "check.h"
#include "reference.h"

/* Writes an entry and reads it; where the writing is refused, any bytes are read. */
static void random_entries(uint64_t calls)
{
    uint8_t wanted[GUARD + 64 + GUARD], actual[sizeof wanted];
    struct view view = {"entry", wanted, actual, sizeof wanted};
    char what[160];

    while (calls-- > 0) {
        size_t start = GUARD + below(16);
        size_t bytes = once_in(4) ? below(16) : 16 + below(32);
        uint32_t result = (uint32_t)any_number();
        uint16_t sqhd = (uint16_t)any_number(), sqid = (uint16_t)any_number(), cid = (uint16_t)any_number();
        uint64_t status = once_in(4) ? beyond(32768) : once_in(8) ? 32767 : below(32768);
        uint64_t phase = any_number();

        fill_random(wanted, sizeof wanted);
        memcpy(actual, wanted, sizeof actual);
        snprintf(what, sizeof what, "entry: %zu bytes, %u, %u, %u, %u, status %" PRIu64 ", phase %" PRIu64, bytes,
                 (unsigned)result, (unsigned)sqhd, (unsigned)sqid, (unsigned)cid, status, phase);
        uint64_t reference = ref_completion_write(wanted + start, bytes, result, sqhd, sqid, cid, status, phase);
        uint64_t refusal = bellrafter_completion_write(actual + start, bytes, result, sqhd, sqid, cid, status, phase);
        compare(what, of_number(reference), of_number(refusal), &view, 1);
        struct bellrafter_completion c = bellrafter_completion_read(actual + start, bytes);
        compare(what, of_completion(ref_completion_read(wanted + start, bytes)), of_completion(c), &view, 1);
        note("written", refusal == 0);
        note("write refusal 15", refusal == 15);
        note("write refusal 21", refusal == 21);
        note("read, phase 0", c.refusal == 0 && c.phase == 0);
        note("read, phase 1", c.refusal == 0 && c.phase == 1);
        note("read, bytes not written", c.refusal == 0 && refusal != 0);
        note("read refusal 21", c.refusal == 21);
    }
    report_notes("completion_write, completion_read");
}

/* Writes a submission and reads it, right before a page that cannot be touched; then reads any bytes. */
static void random_submissions(uint64_t calls)
{
    struct guarded area = guarded_bytes(128);
    uint8_t wanted[128];
    char what[80];

    while (calls-- > 0) {
        size_t bytes = once_in(4) ? below(64) : 64 + below(32);
        uint8_t *expected = wanted + sizeof wanted - bytes, *entry = last_bytes(area, bytes);
        uint8_t *all = last_bytes(area, sizeof wanted);
        struct view view = {"entry", wanted, all, sizeof wanted};
        uint64_t n[14];

        for (size_t i = 0; i < COUNT_OF(n); i++)
            n[i] = any_number();
        fill_random(wanted, sizeof wanted);
        memcpy(all, wanted, sizeof wanted);
        snprintf(what, sizeof what, "submission: %zu bytes", bytes);
        uint64_t reference = ref_submission_write(
            expected, bytes, (uint8_t)n[0], n[1], n[2], (uint16_t)n[3], (uint32_t)n[4], n[5], n[6], n[7], n[8],
            (uint16_t)n[9], (uint16_t)n[10], (uint32_t)n[11], (uint32_t)n[12], (uint32_t)n[13]);
        uint64_t refusal = bellrafter_submission_write(
            bytes > 0 ? entry : NULL, bytes, (uint8_t)n[0], n[1], n[2], (uint16_t)n[3], (uint32_t)n[4], n[5], n[6],
            n[7], n[8], (uint16_t)n[9], (uint16_t)n[10], (uint32_t)n[11], (uint32_t)n[12], (uint32_t)n[13]);
        compare(what, of_number(reference), of_number(refusal), &view, 1);
        for (int round = 0; round < 2; round++) {
            struct bellrafter_submission s = bellrafter_submission_read(bytes > 0 ? entry : NULL, bytes);
            compare(what, of_submission(ref_submission_read(expected, bytes)), of_submission(s), &view, 1);
            note("read refusal 21", s.refusal == 21);
            note("read, any bytes", s.refusal == 0 && round == 1);
            fill_random(wanted, sizeof wanted);
            memcpy(all, wanted, sizeof wanted);
        }
        note("written", refusal == 0);
        note("write refusal 21", refusal == 21);
    }
    report_notes("submission_write, submission_read");
}

/* Gives each slot the phase that it has after `posted` entries. */
static void post(uint8_t *ring, uint64_t size, uint64_t posted)
{
    for (uint64_t slot = 0; slot < size; slot++) {
        uint64_t passes = (posted + size - 1 - slot) / size;
        ring[16 * slot + 14] = (uint8_t)((any_number() & 0xFE) | passes % 2);
    }
}

static void note_ring(struct bellrafter_waiting w, uint64_t size, uint64_t head)
{
    note("nothing waits", w.refusal == 0 && w.count == 0);
    note("some wait", w.refusal == 0 && w.count > 0 && w.count < size - 1);
    note("size - 1 wait", w.refusal == 0 && w.count == size - 1);
    note("waiting over the wrap", w.refusal == 0 && head + w.count > size);
    note("refusal 3", w.refusal == 3);
    note("refusal 5", w.refusal == 5);
    note("refusal 10", w.refusal == 10);
}

/* Rings in their first passes, half of the calls sound, the other half at times damaged. */
static void random_rings(uint64_t calls)
{
    static uint8_t wanted[GUARD + 16 * 1024 + GUARD], actual[sizeof wanted];
    struct view view = {"ring", wanted, actual, sizeof wanted};
    char what[160];

    fill_random(wanted, sizeof wanted);
    while (calls-- > 0) {
        uint64_t size = 2 + below(once_in(4) ? 1023 : 15);
        uint64_t posted = below(4 * size + 1);
        uint64_t waiting = below((posted < size ? posted : size - 1) + 1);
        uint64_t head = (posted - waiting) % size;
        uint64_t phase = 1 - (posted - waiting) / size % 2 + any_number() / 2 * 2;
        size_t bytes = 16 * size + below(GUARD);
        bool sound = once_in(2);

        post(wanted + GUARD, size, posted);
        if (!sound) {
            wanted[GUARD + 16 * below(size) + 14] ^= once_in(2);
            head = once_in(8) ? beyond(size) : once_in(4) ? below(size) : head;
            phase ^= once_in(4);
            bytes = once_in(8) ? below(16 * size) : bytes;
            size = once_in(8) ? (once_in(2) ? below(2) : beyond(1025)) : size;
        }
        memcpy(actual, wanted, sizeof actual);
        snprintf(what, sizeof what, "ring: %zu bytes, size %" PRIu64 ", head %" PRIu64 ", phase %" PRIu64, bytes, size,
                 head, phase);
        struct bellrafter_waiting w = bellrafter_ring_read(actual + GUARD, bytes, size, head, phase);
        compare(what, of_waiting(ref_ring_read(wanted + GUARD, bytes, size, head, phase)), of_waiting(w), &view, 1);
        if (sound)
            expect(what, of_waiting((struct bellrafter_waiting){0, waiting}), of_waiting(w));
        note_ring(w, size, head);
    }
    report_notes("ring_read");
}

/* `tails`: whether the value is a tail's. `farthest` is the value that fills the ring, or empties it. */
static void random_doorbells(const char *name, doorbell_check *check, doorbell_check *reference, bool tails,
                             uint64_t calls)
{
    char what[160];

    while (calls-- > 0) {
        uint64_t size = 2 + below(once_in(4) ? 1023 : 7);
        uint64_t head = once_in(16) ? beyond(size) : below(size);
        uint64_t tail = once_in(16) ? beyond(size) : below(size);
        uint64_t value = once_in(16) ? beyond(size) : below(size);
        uint64_t held = tails ? tail : head, farthest = tails ? (head + size - 1) % size : tail;
        bool inside = head < size && tail < size && value < size;

        if (once_in(8))
            size = once_in(2) ? below(2) : beyond(1025);
        snprintf(what, sizeof what, "%s: size %" PRIu64 ", head %" PRIu64 ", tail %" PRIu64 ", value %" PRIu64, name,
                 size, head, tail, value);
        uint64_t refusal = check(size, head, tail, value);
        expect(what, of_number(reference(size, head, tail, value)), of_number(refusal));
        note("done, farthest value", refusal == 0 && value == farthest);
        note("done, another value", refusal == 0 && value != farthest);
        note("refusal 3", refusal == 3);
        note("refusal 10, the value held", refusal == 10 && inside && value == held);
        note("refusal 10, all below size", refusal == 10 && inside && value != held);
        note("refusal 10, one not below", refusal == 10 && !inside);
    }
    report_notes(name);
}

/* Page walks, over a memory of three list pages. */

enum { LIST_PAGES = 3, LARGEST_PAGE = 65536, MOST_BYTES = 1048576 };

static uint8_t came_memory[GUARD + LIST_PAGES * LARGEST_PAGE + GUARD];
static uint8_t wanted_memory[sizeof came_memory];

static uint64_t any_page(uint64_t page_bytes)
{
    return any_number() / page_bytes * page_bytes;
}

/* An entry that is good as data; in the last place of a list page as a pointer too. */
static void plant(uint64_t page_bytes, uint64_t at)
{
    bool last = at % page_bytes == page_bytes - 8;

    put(wanted_memory + GUARD + at, 8, last ? page_bytes * below(LIST_PAGES) : any_page(page_bytes));
}

/* An entry with an offset, or leading outside memory, or both, or neither. */
static void damage(uint64_t page_bytes, uint64_t at)
{
    uint64_t value = once_in(2) ? page_bytes * below(LIST_PAGES) : any_page(page_bytes);

    put(wanted_memory + GUARD + at, 8, value + (once_in(2) ? 1 + below(page_bytes - 1) : 0));
}

/* PRP1 and a length that touch so many pages. */
static void draw_data(struct walk *w, uint64_t page_bytes, uint64_t pages)
{
    uint64_t offset = once_in(4) ? page_bytes - 4 : once_in(4) ? 0 : 4 * below(page_bytes / 4);

    if (offset == 0 && pages * page_bytes > MOST_BYTES)
        offset = 4;
    uint64_t low = pages == 1 ? 1 : (pages - 1) * page_bytes + 1 - offset;
    uint64_t high = pages * page_bytes - offset;
    if (high > MOST_BYTES)
        high = MOST_BYTES;
    w->length = once_in(4) ? low : once_in(4) ? high : low + below(high - low + 1);
    w->prp1 = (once_in(8) ? UINT64_MAX / page_bytes * page_bytes : any_page(page_bytes)) + offset;
    if (once_in(32))
        w->length = once_in(2) ? 0 : beyond(MOST_BYTES + 1);
    if (once_in(16))
        w->prp1 += 1 + below(3);
}

/* A list at a list page's start, near its end, where it just fits or just does not, or anywhere. */
static uint64_t draw_list(uint64_t page_bytes, uint64_t pages)
{
    uint64_t places = page_bytes / 8;
    uint64_t starts[] = {0, places - 1 - below(4), places - (pages - 2 + below(3)), below(places)};

    return page_bytes * below(LIST_PAGES) + 8 * starts[below(4)];
}

static uint64_t draw_prp2(uint64_t page_bytes, uint64_t pages)
{
    uint64_t prp2 = pages > 2 ? draw_list(page_bytes, pages) : any_page(page_bytes);

    if (pages == 1 || once_in(32))
        return any_number();
    if (once_in(16))
        return prp2 + 1 + below(7);
    if (once_in(16))
        return prp2 ^ (uint64_t)1 << below(12);
    return once_in(32) ? UINT64_MAX - 7 - 8 * below(4) : prp2;
}

/* Room for a result, at times too little. */
static size_t draw_room(uint64_t needed)
{
    return once_in(32) ? below(needed) : once_in(32) ? needed - 1 : needed + (once_in(2) ? below(GUARD) : 0);
}

/* The whole memory, at times less, at times ending in the list. */
static size_t draw_memory(uint64_t whole, uint64_t prp2, uint64_t pages)
{
    uint64_t in_list = prp2 % whole + below(8 * pages + 8);

    return once_in(16) ? below(whole) : once_in(4) && in_list < whole ? in_list : whole;
}

/* The place of an entry that the walk may well read. */
static uint64_t likely_place(uint64_t page_bytes, uint64_t prp2, uint64_t pages)
{
    uint64_t here = prp2 / 8 * 8 + 8 * below(pages);
    uint64_t page_end = prp2 / page_bytes * page_bytes + page_bytes - 8;
    uint64_t next_list = page_bytes * below(LIST_PAGES) + 8 * below(pages);
    uint64_t places[] = {here, page_end, next_list};

    return places[below(3)] % (LIST_PAGES * page_bytes);
}

static struct answer compare_walk(const struct walk *w, size_t whole)
{
    static struct results wanted, actual;
    struct view views[] = {{"memory", wanted_memory, came_memory, GUARD + whole + GUARD},
                           {"addresses", wanted.addresses, actual.addresses, sizeof actual.addresses},
                           {"counts", wanted.counts, actual.counts, sizeof actual.counts}};
    char what[240];

    memset(&wanted, (int)below(256), sizeof wanted);
    actual = wanted;
    memcpy(came_memory, wanted_memory, GUARD + whole + GUARD);
    snprintf(what, sizeof what,
             "walk: prp1 %" PRIx64 "h, prp2 %" PRIx64 "h, length %" PRIu64 ", page %" PRIu64 ", bytes %zu, %zu, %zu",
             w->prp1, w->prp2, w->length, w->page, w->memory_bytes, w->address_bytes, w->count_bytes);
    struct answer reference = call_walk(ref_page_walk, w, wanted_memory + GUARD, &wanted);
    struct answer answer = call_walk(bellrafter_page_walk, w, came_memory + GUARD, &actual);
    compare(what, reference, answer, views, COUNT_OF(views));
    return answer;
}

static void note_walk(const struct walk *w, uint64_t page_bytes, uint64_t drawn, struct answer answer)
{
    uint64_t refusal = answer.number[0], pages = answer.number[1], reads = answer.number[2];
    bool plain = pages > 2 && reads == pages - 1;
    bool prp2_off = w->prp2 % (drawn > 2 ? 8 : page_bytes) != 0;
    bool prp2_outside = w->memory_bytes < 8 || w->prp2 > w->memory_bytes - 8;

    note("one page", pages == 1);
    note("two pages", pages == 2);
    note("list without a pointer", plain);
    note("list to its page's end", plain && (w->prp2 + 8 * reads) % page_bytes == 0);
    note("list with a pointer", pages > 2 && reads == pages);
    note("257 pages", pages == MOST_PAGES);
    note("refusal 18 for prp1", refusal == 18 && w->prp1 % 4 != 0);
    note("refusal 18 for prp2", refusal == 18 && w->prp1 % 4 == 0 && prp2_off);
    note("refusal 18 in the list", refusal == 18 && w->prp1 % 4 == 0 && !prp2_off);
    note("refusal 19 for prp2", refusal == 19 && prp2_outside);
    note("refusal 19 in the list", refusal == 19 && !prp2_outside);
    note("refusal 20", refusal == 20);
    note("refusal 21", refusal == 21);
    note("refusal 22", refusal == 22);
}

/* Walks for one page size, over a memory full of good entries with at times a damaged one. */
static void random_walks(uint64_t page, uint64_t calls)
{
    uint64_t page_bytes = (uint64_t)4096 << page;
    uint64_t whole = LIST_PAGES * page_bytes;

    fill_random(wanted_memory, sizeof wanted_memory);
    for (uint64_t at = 0; at < whole; at += 8)
        plant(page_bytes, at);
    while (calls-- > 0) {
        struct walk w = {.page = once_in(32) ? beyond(5) : page};
        uint64_t pages = 1 + below(once_in(2) ? 3 : MOST_BYTES / page_bytes + 1);

        if (once_in(8))
            pages = MOST_BYTES / page_bytes + 1;
        draw_data(&w, page_bytes, pages);
        w.prp2 = draw_prp2(page_bytes, pages);
        w.memory_bytes = draw_memory(whole, w.prp2, pages);
        w.address_bytes = draw_room(8 * pages);
        w.count_bytes = draw_room(4 * pages);
        uint64_t place = likely_place(page_bytes, w.prp2, pages);
        if (once_in(3))
            damage(page_bytes, place);
        note_walk(&w, page_bytes, pages, compare_walk(&w, whole));
        plant(page_bytes, place);
    }
}

void random_calls(uint64_t calls)
{
    random_entries(calls);
    random_submissions(calls);
    random_rings(calls);
    random_doorbells("tail_check", bellrafter_tail_check, ref_tail_check, true, calls);
    random_doorbells("head_check", bellrafter_head_check, ref_head_check, false, calls);
    for (uint64_t page = 0; page <= 4; page++)
        random_walks(page, calls / 5);
    report_notes("page_walk");
}
