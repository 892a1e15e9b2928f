/* Fixed cases: the paper's examples, every refusal, every two refusals in their order, the edges. */
#include "check.h"

/* The layout that the library's side has: each field's place and width. A wrong one does not compile. */
#define HOLDS(name, condition) typedef char name[(condition) ? 1 : -1]
#define FIELD(type, name, at, width) \
    HOLDS(type##_##name, offsetof(struct type, name) == (at) && sizeof(((struct type *)0)->name) == (width))

FIELD(bellrafter_completion, refusal, 0, 8);
FIELD(bellrafter_completion, result, 8, 4);
FIELD(bellrafter_completion, sqhd, 12, 2);
FIELD(bellrafter_completion, sqid, 14, 2);
FIELD(bellrafter_completion, cid, 16, 2);
FIELD(bellrafter_completion, status, 18, 2);
FIELD(bellrafter_completion, phase, 20, 4);
HOLDS(completion_bytes, sizeof(struct bellrafter_completion) == 24);
FIELD(bellrafter_waiting, refusal, 0, 8);
FIELD(bellrafter_waiting, count, 8, 8);
HOLDS(waiting_bytes, sizeof(struct bellrafter_waiting) == 16);
FIELD(bellrafter_pages, refusal, 0, 8);
FIELD(bellrafter_pages, pages, 8, 8);
FIELD(bellrafter_pages, reads, 16, 8);
HOLDS(pages_bytes, sizeof(struct bellrafter_pages) == 24);
HOLDS(length_bytes, sizeof(size_t) == 8);

#define TOP UINT64_MAX /* 2^64 - 1 */

/* Completion entries: the first 14 bytes are the same in every case. */

static const uint8_t p6[16] = {0x44, 0x33, 0x22, 0x11, 0, 0, 0, 0, 3, 0, 1, 0, 2, 1, 1, 0};

static const struct written {
    const char *what;
    size_t entry_bytes;
    uint64_t status, phase, refusal;
    uint8_t last[2]; /* bytes 14 and 15, if not refused */
} written_cases[] = {
    {"write P6", 16, 0, 1, 0, {0x01, 0x00}},
    {"write P7", 16, 0x09, 0, 0, {0x12, 0x00}},
    {"write P8", 16, 0x285, 1, 0, {0x0B, 0x05}},
    {"write top status, phase tag 0", 16, 32767, 0, 0, {0xFE, 0xFF}},
    {"write top status, phase tag 1", 16, 32767, 1, 0, {0xFF, 0xFF}},
    {"write phase tag 2 is 0", 16, 0, 2, 0, {0x00, 0x00}},
    {"write phase tag 2^64 - 1 is 1", 16, 0, TOP, 0, {0x01, 0x00}},
    {"write into 20 bytes", 20, 1, 0, 0, {0x02, 0x00}},
    {"write status 32,768", 16, 32768, 0, BELLRAFTER_STATUS, {0}},
    {"write status 2^64 - 1", 16, TOP, 1, BELLRAFTER_STATUS, {0}},
    {"write 15 bytes", 15, 0, 1, BELLRAFTER_BUFFER, {0}},
    {"write NULL", 0, 0, 1, BELLRAFTER_BUFFER, {0}},
    {"write 15 before 21", 15, 32768, 1, BELLRAFTER_STATUS, {0}},
    {"write NULL, 15 before 21", 0, TOP, 1, BELLRAFTER_STATUS, {0}},
};

static void completion_written(const struct written *c)
{
    uint8_t wanted[GUARD + 20 + GUARD], actual[sizeof wanted];
    struct view view = {"entry", wanted, actual, sizeof wanted};
    uint8_t *entry = c->entry_bytes > 0 ? actual + GUARD : NULL;

    memset(wanted, 0xA5, sizeof wanted);
    memset(actual, 0xA5, sizeof actual);
    if (c->refusal == 0) {
        memcpy(wanted + GUARD, p6, 14);
        memcpy(wanted + GUARD + 14, c->last, 2);
    }
    uint64_t refusal = bellrafter_completion_write(entry, c->entry_bytes, 0x11223344, 3, 1, 0x0102, c->status, c->phase);
    compare(c->what, of_number(c->refusal), of_number(refusal), &view, 1);
}

static void completion_read(const char *what, const uint8_t *entry, size_t bytes, struct bellrafter_completion wanted)
{
    expect(what, of_completion(wanted), of_completion(bellrafter_completion_read(entry, bytes)));
}

static void completion_cases(void)
{
    static const uint8_t tops[16] = {1, 2, 3, 0xFF, 0xFF, 1, 0x80, 0xFF, 0, 0x80, 0xFF, 1, 0xFE, 0xDC, 0xFE, 0xFF};
    struct bellrafter_completion refused = {.refusal = BELLRAFTER_BUFFER};

    for (size_t i = 0; i < COUNT_OF(written_cases); i++)
        completion_written(&written_cases[i]);
    completion_read("read P6", p6, 16, (struct bellrafter_completion){0, 0x11223344, 3, 1, 0x0102, 0, 1});
    completion_read("read top bits, reserved bits", tops, 16,
                    (struct bellrafter_completion){0, 0xFF030201, 0x8000, 0x01FF, 0xDCFE, 32767, 0});
    completion_read("read 15 bytes", p6, 15, refused);
    completion_read("read NULL", NULL, 0, refused);
}

/* Rings. */

/* Reads a ring whose phase tags are given as text, one digit for each slot. */
static void phases_read(const char *phases, uint64_t head, uint64_t phase, uint64_t count)
{
    uint8_t ring[16 * 4];
    size_t size = strlen(phases);
    char what[80];

    memset(ring, 0xFE, sizeof ring);
    for (size_t i = 0; i < size; i++)
        ring[16 * i + 14] |= phases[i] == '1';
    snprintf(what, sizeof what, "ring %s, head %" PRIu64 ", phase tag %" PRIu64, phases, head, phase);
    expect(what, of_waiting((struct bellrafter_waiting){0, count}),
           of_waiting(bellrafter_ring_read(ring, 16 * size, size, head, phase)));
}

/* Reads a ring of zeros but for the last slot, which has phase tag 1. */
static void zeros_read(const char *what, size_t bytes, uint64_t size, uint64_t head, uint64_t refusal, uint64_t count)
{
    static uint8_t ring[16 * 1025];

    ring[16 * 1023 + 14] = 1;
    expect(what, of_waiting((struct bellrafter_waiting){refusal, count}),
           of_waiting(bellrafter_ring_read(bytes > 0 ? ring : NULL, bytes, size, head, head == 1023)));
}

static void ring_cases(void)
{
    /* Two entries over three passes, one posting at a time. */
    phases_read("00", 0, 1, 0);
    phases_read("10", 0, 1, 1);
    phases_read("10", 1, 1, 0);
    phases_read("11", 1, 1, 1);
    phases_read("11", 0, 0, 0);
    phases_read("01", 0, 0, 1);
    phases_read("01", 1, 0, 0);
    phases_read("00", 1, 0, 1);
    phases_read("00", 0, 1, 0);
    /* At most size - 1; the phase tag turns at the wrap; a phase tag modulo 2. */
    phases_read("1111", 0, 1, 3);
    phases_read("0011", 2, 1, 3);
    phases_read("0111", 2, 1, 3);
    phases_read("1011", 2, 1, 2);
    phases_read("1100", 2, 0, 3);
    phases_read("1001", 3, 1, 1);
    phases_read("1100", 0, TOP, 2);
    phases_read("1100", 0, TOP - 1, 0);

    zeros_read("ring 1,024, all but one", 16 * 1024, 1024, 0, 0, 1023);
    zeros_read("ring 1,024, from the last slot on", 16 * 1025, 1024, 1023, 0, 1023);
    zeros_read("ring size 0", 64, 0, 0, BELLRAFTER_RING_SIZE, 0);
    zeros_read("ring size 1", 64, 1, 0, BELLRAFTER_RING_SIZE, 0);
    zeros_read("ring size 1,025", 16 * 1025, 1025, 0, BELLRAFTER_RING_SIZE, 0);
    zeros_read("ring size 2^60", 64, (uint64_t)1 << 60, 0, BELLRAFTER_RING_SIZE, 0);
    zeros_read("ring size 2^64 - 1", 64, TOP, 0, BELLRAFTER_RING_SIZE, 0);
    zeros_read("ring one byte short", 63, 4, 0, BELLRAFTER_RING_MEMORY, 0);
    zeros_read("ring NULL", 0, 2, 0, BELLRAFTER_RING_MEMORY, 0);
    zeros_read("ring head at size", 64, 4, 4, BELLRAFTER_DOORBELL, 0);
    zeros_read("ring head 2^64 - 1", 64, 4, TOP, BELLRAFTER_DOORBELL, 0);
    zeros_read("ring 3 before 5", 0, 1, 0, BELLRAFTER_RING_SIZE, 0);
    zeros_read("ring 3 before 10", 64, 1, 1, BELLRAFTER_RING_SIZE, 0);
    zeros_read("ring 5 before 10", 63, 4, 4, BELLRAFTER_RING_MEMORY, 0);
}

/* Doorbells. */

static void doorbell(const char *name, doorbell_check *check, uint64_t size, uint64_t head, uint64_t tail,
                     uint64_t value, uint64_t refusal)
{
    char what[120];

    snprintf(what, sizeof what, "%s, size %" PRIu64 ", head %" PRIu64 ", tail %" PRIu64 ", value %" PRIu64, name, size,
             head, tail, value);
    expect(what, of_number(refusal), of_number(check(size, head, tail, value)));
}

/* Tries the values 0 to size; bit n of `valid` says whether n is valid. */
static void values(const char *name, doorbell_check *check, uint64_t size, uint64_t head, uint64_t tail, unsigned valid)
{
    for (unsigned value = 0; value <= size; value++)
        doorbell(name, check, size, head, tail, value, (valid >> value) % 2 == 1 ? 0 : BELLRAFTER_DOORBELL);
}

static void either_doorbell(const char *name, doorbell_check *check)
{
    doorbell(name, check, 0, 0, 0, 0, BELLRAFTER_RING_SIZE);
    doorbell(name, check, 1, 0, 0, 0, BELLRAFTER_RING_SIZE);
    doorbell(name, check, 1025, 0, 0, 0, BELLRAFTER_RING_SIZE);
    doorbell(name, check, TOP, 0, 0, 0, BELLRAFTER_RING_SIZE);
    doorbell(name, check, 1, 1, 1, 1, BELLRAFTER_RING_SIZE); /* 3 before 10 */
    doorbell(name, check, 1025, TOP, TOP, TOP, BELLRAFTER_RING_SIZE);
    doorbell(name, check, 4, 4, 0, 0, BELLRAFTER_DOORBELL);
    doorbell(name, check, 4, 0, 4, 0, BELLRAFTER_DOORBELL);
    doorbell(name, check, 4, TOP, 0, 0, BELLRAFTER_DOORBELL);
    doorbell(name, check, 4, 0, TOP, 0, BELLRAFTER_DOORBELL);
    doorbell(name, check, 4, 0, 0, TOP, BELLRAFTER_DOORBELL);
    doorbell(name, check, 4, TOP, TOP, TOP, BELLRAFTER_DOORBELL);
    doorbell(name, check, 1024, 1023, 1023, 1023, BELLRAFTER_DOORBELL); /* the value held */
    doorbell(name, check, 1024, 1023, 1023, 1024, BELLRAFTER_DOORBELL);
}

static void doorbell_cases(void)
{
    values("tail P4", bellrafter_tail_check, 4, 0, 3, 0);
    values("tail P5", bellrafter_tail_check, 4, 2, 3, 0x3);
    values("tail, new", bellrafter_tail_check, 4, 0, 0, 0xE);
    values("tail, empty", bellrafter_tail_check, 4, 1, 1, 0xD);
    values("tail, wrapped", bellrafter_tail_check, 4, 3, 1, 0x4);
    values("tail, size 2, full", bellrafter_tail_check, 2, 1, 0, 0);
    values("tail, size 2, empty", bellrafter_tail_check, 2, 1, 1, 0x1);
    values("head, new", bellrafter_head_check, 4, 0, 0, 0);
    values("head, full", bellrafter_head_check, 4, 0, 3, 0xE);
    values("head, one", bellrafter_head_check, 4, 2, 3, 0x8);
    values("head, empty", bellrafter_head_check, 4, 1, 1, 0);
    values("head, wrapped", bellrafter_head_check, 4, 3, 1, 0x3);
    values("head, size 2, full", bellrafter_head_check, 2, 1, 0, 0x1);
    values("head, size 2, empty", bellrafter_head_check, 2, 1, 1, 0);
    doorbell("tail", bellrafter_tail_check, 1024, 0, 1022, 1023, BELLRAFTER_DONE);
    doorbell("tail", bellrafter_tail_check, 1024, 0, 1023, 1023, BELLRAFTER_DOORBELL);
    doorbell("head", bellrafter_head_check, 1024, 0, 1023, 1023, BELLRAFTER_DONE);
    doorbell("head", bellrafter_head_check, 1024, 0, 1023, 0, BELLRAFTER_DOORBELL);
    either_doorbell("tail", bellrafter_tail_check);
    either_doorbell("head", bellrafter_head_check);
}

/* Page walks. */

static uint8_t memory[0x40000];

enum { ALL = sizeof memory, A = 8 * MOST_PAGES, C = 4 * MOST_PAGES };

struct part {
    uint64_t address;
    uint32_t bytes;
};

static const struct {
    const char *what;
    struct walk walk;
    uint64_t pages, reads;
    struct part parts[4];
} done_cases[] = {
    {"walk P9", {0x1004, 0x5000, 4096, 0, ALL, A, C}, 2, 0, {{0x1004, 4092}, {0x5000, 4}}},
    {"walk P9, no memory, exact room", {0x1004, 0x5000, 4096, 0, 0, 16, 8}, 2, 0, {{0x1004, 4092}, {0x5000, 4}}},
    {"walk one page", {0xFFC, TOP, 4, 0, 0, 8, 4}, 1, 0, {{0xFFC, 4}}},
    {"walk past 2^64", {TOP - 3, 0x5000, 8, 0, ALL, A, C}, 2, 0, {{TOP - 3, 4}, {0x5000, 4}}},
    {"walk up to 2^64", {TOP - 4095, 1, 4096, 0, ALL, A, C}, 1, 0, {{TOP - 4095, 4096}}},
    {"walk largest page", {4, TOP - 65535, 65536, 4, ALL, A, C}, 2, 0, {{4, 65532}, {TOP - 65535, 4}}},
    {"walk P10", {0x1000, 0x2000, 16384, 0, ALL, A, C}, 4, 3,
     {{0x1000, 4096}, {0x100000, 4096}, {0x110000, 4096}, {0x120000, 4096}}},
    {"walk P10, memory ends with the list", {0x1000, 0x2000, 16384, 0, 0x2018, 32, 16}, 4, 3,
     {{0x1000, 4096}, {0x100000, 4096}, {0x110000, 4096}, {0x120000, 4096}}},
    {"walk P11", {0x1000, 0x2FF8, 16384, 0, ALL, A, C}, 4, 4,
     {{0x1000, 4096}, {0x100000, 4096}, {0x110000, 4096}, {0x120000, 4096}}},
    {"walk list at 2FF0h with N = 3", {0x1004, 0x2FF0, 8192, 0, ALL, A, C}, 3, 2,
     {{0x1004, 4092}, {0x100000, 4096}, {0x3000, 4}}},
};

static const struct {
    const char *what;
    struct walk walk;
    uint64_t refusal;
} refused_cases[] = {
    {"walk length 0", {0x1000, 0x2000, 0, 0, ALL, A, C}, BELLRAFTER_LENGTH},
    {"walk length 1,048,577", {0x1000, 0x2000, 1048577, 0, ALL, A, C}, BELLRAFTER_LENGTH},
    {"walk length 2^64 - 1", {0x1000, 0x2000, TOP, 0, ALL, A, C}, BELLRAFTER_LENGTH},
    {"walk page size 5", {0x1000, 0x2000, 1, 5, ALL, A, C}, BELLRAFTER_PAGE_SIZE},
    {"walk page size 64", {0x1000, 0x2000, 1, 64, ALL, A, C}, BELLRAFTER_PAGE_SIZE},
    {"walk page size 2^64 - 1", {0x1000, 0x2000, 1, TOP, ALL, A, C}, BELLRAFTER_PAGE_SIZE},
    {"walk prp1 + 1", {0x1001, 0, 4, 0, ALL, A, C}, BELLRAFTER_PRP_OFFSET},
    {"walk prp1 + 2", {0x1002, 0, 4, 0, ALL, A, C}, BELLRAFTER_PRP_OFFSET},
    {"walk address room one short", {0x1004, 0x5000, 4096, 0, ALL, 15, 8}, BELLRAFTER_BUFFER},
    {"walk count room one short", {0x1004, 0x5000, 4096, 0, ALL, 16, 7}, BELLRAFTER_BUFFER},
    {"walk NULL addresses", {0x1000, 0, 1, 0, ALL, 0, C}, BELLRAFTER_BUFFER},
    {"walk NULL counts", {0x1000, 0, 1, 0, ALL, A, 0}, BELLRAFTER_BUFFER},
    {"walk page with an offset", {0x1004, 0x5008, 4096, 0, ALL, A, C}, BELLRAFTER_PRP_OFFSET},
    {"walk page with half a page", {4, 0x8000, 65536, 4, ALL, A, C}, BELLRAFTER_PRP_OFFSET},
    {"walk list no multiple of 8", {0x1000, 0x2004, 16384, 0, ALL, A, C}, BELLRAFTER_PRP_OFFSET},
    {"walk list past memory", {0x1000, ALL, 16384, 0, ALL, A, C}, BELLRAFTER_PRP_MEMORY},
    {"walk list at 2^64 - 8", {0x1000, TOP - 7, 16384, 0, ALL, A, C}, BELLRAFTER_PRP_MEMORY},
    {"walk list at 2^64 - 16", {0x1000, TOP - 15, 16384, 0, ALL, A, C}, BELLRAFTER_PRP_MEMORY},
    {"walk memory ends in an entry", {0x1000, 0x2000, 16384, 0, 0x2017, A, C}, BELLRAFTER_PRP_MEMORY},
    {"walk memory ends before the list", {0x1000, 0x2000, 16384, 0, 0x2000, A, C}, BELLRAFTER_PRP_MEMORY},
    {"walk memory of 7 bytes", {0x1000, 0, 16384, 0, 7, A, C}, BELLRAFTER_PRP_MEMORY},
    {"walk NULL memory", {0x1000, 0, 16384, 0, 0, A, C}, BELLRAFTER_PRP_MEMORY},
    {"walk entry with an offset", {0x1000, 0x4000, 16384, 0, ALL, A, C}, BELLRAFTER_PRP_OFFSET},
    {"walk offset, then memory ends", {0x1000, 0x4000, 16384, 0, 0x4010, A, C}, BELLRAFTER_PRP_OFFSET},
    {"walk pointer outside memory", {0x1000, 0x4FF8, 16384, 0, ALL, A, C}, BELLRAFTER_PRP_MEMORY},
    {"walk pointer with an offset", {0x1000, 0x5FF8, 16384, 0, ALL, A, C}, BELLRAFTER_PRP_OFFSET},
    {"walk 20 before 22", {0x1002, 0x2000, 0, 5, ALL, A, C}, BELLRAFTER_LENGTH},
    {"walk 22 before 18", {0x1002, 0x2000, 1, 5, ALL, A, C}, BELLRAFTER_PAGE_SIZE},
    {"walk 18 for prp1 before 21", {0x1002, 0x2000, 4096, 0, ALL, 0, 0}, BELLRAFTER_PRP_OFFSET},
    {"walk 21 before 18 for a page", {0x1004, 0x5004, 4096, 0, ALL, 16, 7}, BELLRAFTER_BUFFER},
    {"walk 21 before 18 for a list", {0x1000, 0x2004, 16384, 0, ALL, 31, 16}, BELLRAFTER_BUFFER},
    {"walk 21 before 19", {0x1000, TOP - 7, 16384, 0, ALL, 31, 16}, BELLRAFTER_BUFFER},
    {"walk 18 before 19 for prp2", {0x1000, TOP, 16384, 0, ALL, A, C}, BELLRAFTER_PRP_OFFSET},
    {"walk 18 before 19 for a pointer", {0x1000, 0x6FF8, 16384, 0, ALL, A, C}, BELLRAFTER_PRP_OFFSET},
};

/* A list of `count` entries: from 100000h on, 10000h apart. */
static void plant(uint64_t at, uint64_t count)
{
    for (uint64_t i = 0; i < count; i++)
        put(memory + at + 8 * i, 8, 0x100000 + 0x10000 * i);
}

/* Expects the parts in the result buffers and every other byte as it was. */
static void walk_case(const char *what, const struct walk *w, struct bellrafter_pages wanted, const struct part *parts)
{
    static struct results results, actual;
    struct view views[] = {{"addresses", results.addresses, actual.addresses, sizeof actual.addresses},
                           {"counts", results.counts, actual.counts, sizeof actual.counts}};

    memset(&results, 0xA5, sizeof results);
    actual = results;
    for (uint64_t i = 0; i < wanted.pages; i++) {
        put(results.addresses + GUARD + 8 * i, 8, parts[i].address);
        put(results.counts + GUARD + 4 * i, 4, parts[i].bytes);
    }
    compare(what, of_pages(wanted), call_walk(bellrafter_page_walk, w, memory, &actual), views, COUNT_OF(views));
}

/* The last entry of a list page, for each page size: with one page left data, with two left a pointer. */
static void list_page_end(uint64_t page)
{
    uint32_t bytes = (uint32_t)4096 << page;
    struct part parts[] = {{0x40000, bytes}, {0x100000, bytes}, {0x110000, 1}};
    struct walk w = {0x40000, bytes - 16, 2 * bytes + 1, page, ALL, 24, 12};

    plant(bytes - 16, 2);
    walk_case("walk, last entry is data", &w, (struct bellrafter_pages){0, 3, 2}, parts);
    plant(2 * bytes, 2);
    put(memory + bytes - 8, 8, 2 * bytes);
    w.prp2 = bytes - 8;
    walk_case("walk, last entry is a pointer", &w, (struct bellrafter_pages){0, 3, 3}, parts);
    put(memory + bytes - 8, 8, bytes / 2);
    walk_case("walk, pointer to half a page", &w, (struct bellrafter_pages){BELLRAFTER_PRP_OFFSET, 0, 0}, NULL);
}

/* 1,048,576 bytes, with a list in one page and one with a pointer after its first entry. */
static void longest_walks(void)
{
    static struct part parts[MOST_PAGES];
    struct walk w = {0x1000, 0x8000, 1048576, 0, ALL, A, C};

    for (uint32_t i = 1; i < MOST_PAGES; i++)
        parts[i] = (struct part){0x100000 + 0x10000 * (i - 1), i < 256 ? 4096 : 4};
    parts[0] = (struct part){0x1000, 4096};
    plant(0x8000, 256);
    walk_case("walk 256 pages", &w, (struct bellrafter_pages){0, 256, 255}, parts);
    w.prp1 = 0x1004;
    parts[0] = (struct part){0x1004, 4092};
    walk_case("walk 257 pages", &w, (struct bellrafter_pages){0, 257, 256}, parts);
    w.prp2 = 0xAFF0;
    plant(0xAFF0, 1);
    put(memory + 0xAFF8, 8, 0xB000);
    memcpy(memory + 0xB000, memory + 0x8008, 8 * 255);
    walk_case("walk 257 pages over two list pages", &w, (struct bellrafter_pages){0, 257, 257}, parts);
    w.address_bytes--;
    walk_case("walk 257 pages, one byte short", &w, (struct bellrafter_pages){BELLRAFTER_BUFFER, 0, 0}, NULL);
}

static void walk_cases(void)
{
    plant(0x2000, 3);
    plant(0x2FF0, 1);
    put(memory + 0x2FF8, 8, 0x3000);
    plant(0x3000, 3);
    plant(0x4000, 3);
    put(memory + 0x4008, 8, 0x110800);
    put(memory + 0x4FF8, 8, TOP - 4095);
    put(memory + 0x5FF8, 8, 0x3008);
    put(memory + 0x6FF8, 8, TOP - 4087);
    for (size_t i = 0; i < COUNT_OF(done_cases); i++)
        walk_case(done_cases[i].what, &done_cases[i].walk,
                  (struct bellrafter_pages){0, done_cases[i].pages, done_cases[i].reads}, done_cases[i].parts);
    for (size_t i = 0; i < COUNT_OF(refused_cases); i++)
        walk_case(refused_cases[i].what, &refused_cases[i].walk,
                  (struct bellrafter_pages){refused_cases[i].refusal, 0, 0}, NULL);
    for (uint64_t page = 0; page <= 4; page++)
        list_page_end(page);
    longest_walks();
}

void fixed_cases(void)
{
    completion_cases();
    ring_cases();
    doorbell_cases();
    walk_cases();
}
