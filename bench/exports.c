/*
 * Times the calls of bellrafter.h that need no controller against the same calls in plain C, in one process: both on
 * the same inputs and buffers, through the same loop, in alternating runs. Before a row is timed each of its calls is
 * made on both sides: answers and buffers must be equal, and the refusal number the one that the row is about. The loop
 * around the calls is in all times.
 */
#include <stdbool.h>
#include <stdio.h>
#include <stdlib.h>
#include <string.h>

#include "plain.h"
#include "timing.h"

#define COUNT_OF(array) (sizeof(array) / sizeof(array)[0])

/* INPUTS: a row has no more inputs than these. */
enum { INPUTS = 512, SLOTS = 64, MOST_ENTRIES = 1024, MOST_PAGES = 257 };

/* Instead of the refusal number that each call of a row answers. */
#define ANY UINT64_MAX

/* One of the two sides. */
struct side {
    uint64_t (*completion_write)(uint8_t *, size_t, uint32_t, uint16_t, uint16_t, uint16_t, uint64_t, uint64_t);
    struct bellrafter_completion (*completion_read)(const uint8_t *, size_t);
    struct bellrafter_waiting (*ring_read)(const uint8_t *, size_t, uint64_t, uint64_t, uint64_t);
    uint64_t (*tail_check)(uint64_t, uint64_t, uint64_t, uint64_t);
    uint64_t (*head_check)(uint64_t, uint64_t, uint64_t, uint64_t);
    struct bellrafter_pages (*page_walk)(const uint8_t *, size_t, uint64_t, uint64_t, uint64_t, uint64_t, uint8_t *,
                                         size_t, uint8_t *, size_t);
};

static const struct side ours = {bellrafter_completion_write, bellrafter_completion_read, bellrafter_ring_read,
                                 bellrafter_tail_check,       bellrafter_head_check,      bellrafter_page_walk};
static const struct side plain = {plain_completion_write, plain_completion_read, plain_ring_read,
                                  plain_tail_check,       plain_head_check,      plain_page_walk};

/* What the calls take. */
static struct {
    uint32_t result;
    uint16_t sqhd, sqid, cid;
    uint64_t status, phase;
} completions[SLOTS];
static struct doorbell {
    uint64_t size, head, tail, value;
} doorbells[INPUTS];
static struct {
    uint64_t size, head, phase;
} reader;
static struct {
    uint64_t prp1, prp2, length, page;
} data;
static uint8_t ring[16 * MOST_ENTRIES];
static uint8_t memory[1 << 20];

/* What a run leaves: the sum of all numbers answered, the last refusal number and answer, and the buffers. */
static struct {
    uint64_t sum;
    uint64_t refusal;
    struct bellrafter_completion completion;
    struct bellrafter_waiting waiting;
    struct bellrafter_pages pages;
    uint8_t entries[16 * SLOTS];
    uint8_t addresses[8 * MOST_PAGES];
    uint8_t counts[4 * MOST_PAGES];
} left, left_by_ours;

/*
 * A row of the table: its inputs are made from two numbers, then `run` makes the calls from number `first` on. Each of
 * them must answer `refusal`.
 */
struct row {
    const char *what;
    void (*make)(uint64_t, uint64_t);
    uint64_t numbers[2];
    void (*run)(const struct side *side, uint64_t first, uint64_t calls);
    uint64_t refusal;
};

/* The generator is splitmix64. */
static uint64_t any_number(void)
{
    static uint64_t state;
    uint64_t z = state += UINT64_C(0x9E3779B97F4A7C15);

    z = (z ^ (z >> 30)) * UINT64_C(0xBF58476D1CE4E5B9);
    z = (z ^ (z >> 27)) * UINT64_C(0x94D049BB133111EB);
    return z ^ (z >> 31);
}

static uint64_t below(uint64_t bound)
{
    return any_number() % bound;
}

static void make_completions(uint64_t slots, uint64_t bytes)
{
    for (uint64_t i = 0; i < slots; i++) {
        completions[i].result = (uint32_t)any_number();
        completions[i].sqhd = (uint16_t)below(1024);
        completions[i].sqid = (uint16_t)below(16);
        completions[i].cid = (uint16_t)any_number();
        completions[i].status = below(32768);
        completions[i].phase = below(2);
    }
    for (uint64_t i = 0; i < slots * bytes; i++)
        ring[i] = (uint8_t)any_number();
}

/* Numbers of rings, one in `wrong_size` with a wrong size and one in `beyond` with a value that may be too large. */
static void make_doorbells(uint64_t wrong_size, uint64_t beyond)
{
    for (size_t i = 0; i < INPUTS; i++) {
        uint64_t size = 2 + below(1023);
        doorbells[i].head = below(size);
        doorbells[i].tail = below(size);
        doorbells[i].value = below(below(beyond) == 0 ? 2 * size : size);
        doorbells[i].size = below(wrong_size) == 0 ? 1025 * below(2) : size;
    }
}

/* Tails written to rings of up to `most` entries with room for one more: each moves on, or it is the one held. */
static void make_tails(uint64_t most, uint64_t moves)
{
    for (size_t i = 0; i < INPUTS; i++) {
        uint64_t size = 2 + below(most - 1), head = below(size), waiting = below(size - 1);
        uint64_t steps = moves ? 1 + below(size - 1 - waiting) : 0;
        doorbells[i] = (struct doorbell){size, head, (head + waiting) % size, (head + waiting + steps) % size};
    }
}

/* Heads written to such rings in which at least one entry waits. */
static void make_heads(uint64_t most, uint64_t moves)
{
    for (size_t i = 0; i < INPUTS; i++) {
        uint64_t size = 2 + below(most - 1), head = below(size), waiting = 1 + below(size - 1);
        uint64_t steps = moves ? 1 + below(waiting) : 0;
        doorbells[i] = (struct doorbell){size, head, (head + waiting) % size, (head + steps) % size};
    }
}

/* A ring in which `waiting` completions wait, from its second quarter on and over the wrap. */
static void make_ring(uint64_t size, uint64_t waiting)
{
    reader.size = size;
    reader.head = size / 4;
    reader.phase = 1;
    for (uint64_t n = 0; n < size; n++) {
        uint64_t slot = (reader.head + n) % size;
        uint64_t expected = slot < reader.head ? 0 : 1;
        ring[16 * slot + 14] = (uint8_t)((any_number() & 0xFE) | (n < waiting ? expected : 1 - expected));
    }
}

static void put_entry(uint64_t at, uint64_t value)
{
    for (int i = 0; i < 8; i++)
        memory[at++] = (uint8_t)(value >> (8 * i));
}

/* Data on `pages` pages. Their list stands eight entries before the end of its page and goes on at page 3. */
static void make_list(uint64_t pages, uint64_t page)
{
    uint64_t page_bytes = (uint64_t)4096 << page;
    uint64_t at = 2 * page_bytes - 64;

    data.prp1 = 5 * page_bytes + 4;
    data.prp2 = pages == 2 ? 6 * page_bytes : at;
    data.length = pages == 1 ? 4000 : (pages - 1) * page_bytes;
    data.page = page;
    for (uint64_t n = 1; n < pages; n++) {
        if (at == 2 * page_bytes - 8 && n < pages - 1) {
            put_entry(at, 3 * page_bytes);
            at = 3 * page_bytes;
        }
        put_entry(at, below(1 << 20) * page_bytes);
        at += 8;
    }
}

static void run_write(const struct side *side, uint64_t first, uint64_t calls)
{
    uint64_t sum = 0, refusal = 0;

    for (uint64_t n = first; n < first + calls; n++) {
        uint64_t i = n % SLOTS;
        refusal = side->completion_write(left.entries + 16 * i, 16, completions[i].result, completions[i].sqhd,
                                         completions[i].sqid, completions[i].cid, completions[i].status,
                                         completions[i].phase);
        sum += refusal;
    }
    left.sum = sum;
    left.refusal = refusal;
}

static void run_read(const struct side *side, uint64_t first, uint64_t calls)
{
    struct bellrafter_completion c;
    uint64_t sum = 0;

    for (uint64_t n = first; n < first + calls; n++) {
        c = side->completion_read(ring + 16 * (n % SLOTS), 16);
        sum += c.refusal + c.result + c.sqhd + c.sqid + c.cid + c.status + c.phase;
    }
    left.sum = sum;
    left.refusal = c.refusal;
    left.completion = c;
}

static void run_ring(const struct side *side, uint64_t first, uint64_t calls)
{
    struct bellrafter_waiting w;
    uint64_t sum = 0;

    for (uint64_t n = first; n < first + calls; n++) {
        w = side->ring_read(ring, sizeof ring, reader.size, reader.head, reader.phase);
        sum += w.refusal + w.count;
    }
    left.sum = sum;
    left.refusal = w.refusal;
    left.waiting = w;
}

/* Each pass over the doorbell values has another order, so that no branch predictor can learn it. */
static const struct doorbell *doorbell_of(uint64_t n)
{
    uint64_t stride = 2 * (n / INPUTS) + 1;

    return &doorbells[n * stride % INPUTS];
}

static void run_tail(const struct side *side, uint64_t first, uint64_t calls)
{
    uint64_t sum = 0, refusal = 0;

    for (uint64_t n = first; n < first + calls; n++) {
        const struct doorbell *d = doorbell_of(n);
        refusal = side->tail_check(d->size, d->head, d->tail, d->value);
        sum += refusal;
    }
    left.sum = sum;
    left.refusal = refusal;
}

static void run_head(const struct side *side, uint64_t first, uint64_t calls)
{
    uint64_t sum = 0, refusal = 0;

    for (uint64_t n = first; n < first + calls; n++) {
        const struct doorbell *d = doorbell_of(n);
        refusal = side->head_check(d->size, d->head, d->tail, d->value);
        sum += refusal;
    }
    left.sum = sum;
    left.refusal = refusal;
}

static void run_walk(const struct side *side, uint64_t first, uint64_t calls)
{
    struct bellrafter_pages p;
    uint64_t sum = 0;

    for (uint64_t n = first; n < first + calls; n++) {
        p = side->page_walk(memory, sizeof memory, data.prp1, data.prp2, data.length, data.page, left.addresses,
                            sizeof left.addresses, left.counts, sizeof left.counts);
        sum += p.refusal + p.pages + p.reads;
    }
    left.sum = sum;
    left.refusal = p.refusal;
    left.pages = p;
}

static const struct row rows[] = {
    {"completion writer", make_completions, {SLOTS, 16}, run_write, BELLRAFTER_DONE},
    {"completion reader", make_completions, {SLOTS, 16}, run_read, BELLRAFTER_DONE},
    {"ring reader, 64 entries, all wait", make_ring, {64, 63}, run_ring, BELLRAFTER_DONE},
    {"ring reader, 256 entries, all wait", make_ring, {256, 255}, run_ring, BELLRAFTER_DONE},
    {"ring reader, 1,024 entries, all wait", make_ring, {1024, 1023}, run_ring, BELLRAFTER_DONE},
    {"ring reader, 1,024 entries, 512 wait", make_ring, {1024, 512}, run_ring, BELLRAFTER_DONE},
    {"ring reader, 1,024 entries, none wait", make_ring, {1024, 0}, run_ring, BELLRAFTER_DONE},
    {"tail check, accepted", make_tails, {MOST_ENTRIES, true}, run_tail, BELLRAFTER_DONE},
    {"tail check, tail held: refused", make_tails, {MOST_ENTRIES, false}, run_tail, BELLRAFTER_DOORBELL},
    {"tail check, values of all kinds", make_doorbells, {8, 4}, run_tail, ANY},
    {"head check, accepted", make_heads, {MOST_ENTRIES, true}, run_head, BELLRAFTER_DONE},
    {"head check, head held: refused", make_heads, {MOST_ENTRIES, false}, run_head, BELLRAFTER_DOORBELL},
    {"head check, values of all kinds", make_doorbells, {8, 4}, run_head, ANY},
    {"page walk, 1 page of 4,096", make_list, {1, 0}, run_walk, BELLRAFTER_DONE},
    {"page walk, 2 pages of 4,096", make_list, {2, 0}, run_walk, BELLRAFTER_DONE},
    {"page walk, 3 pages of 4,096", make_list, {3, 0}, run_walk, BELLRAFTER_DONE},
    {"page walk, 17 pages of 4,096", make_list, {17, 0}, run_walk, BELLRAFTER_DONE},
    {"page walk, 65 pages of 4,096", make_list, {65, 0}, run_walk, BELLRAFTER_DONE},
    {"page walk, 257 pages of 4,096", make_list, {257, 0}, run_walk, BELLRAFTER_DONE},
    {"page walk, 17 pages of 65,536", make_list, {17, 4}, run_walk, BELLRAFTER_DONE},
};

static void failed(const struct row *row, const char *why, uint64_t call)
{
    printf("FAILED %s: %s (call %u)\n", row->what, why, (unsigned)call);
    exit(1);
}

/* Makes every call of a row on both sides; ends the program if they differ, or if a call answers another refusal. */
static void compare(const struct row *row)
{
    for (uint64_t n = 0; n < INPUTS; n++) {
        memset(&left, 0xA5, sizeof left);
        row->run(&ours, n, 1);
        memcpy(&left_by_ours, &left, sizeof left);
        memset(&left, 0xA5, sizeof left);
        row->run(&plain, n, 1);
        if (memcmp(&left, &left_by_ours, sizeof left) != 0)
            failed(row, "the sides differ", n);
        if (row->refusal != ANY && left.refusal != row->refusal)
            failed(row, "another refusal number", n);
    }
}

static double run_ns(const void *of_row, const void *side, uint64_t calls)
{
    const struct row *row = of_row;
    double from = spent_ns();

    row->run(side, 0, calls);
    return spent_ns() - from;
}

/* exports [TEXT]: the rows whose name contains TEXT. */
int main(int argc, char **argv)
{
    struct times times;

    print_heading("without a controller");
    for (size_t i = 0; i < COUNT_OF(rows); i++) {
        if (argc > 1 && strstr(rows[i].what, argv[1]) == NULL)
            continue;
        rows[i].make(rows[i].numbers[0], rows[i].numbers[1]);
        compare(&rows[i]);
        time_both(&times, run_ns, &rows[i], &ours, &plain);
        print_row(rows[i].what, &times, 1, 0);
    }
    return 0;
}
