#define _DEFAULT_SOURCE /* MAP_ANONYMOUS */
#include "check.h"

#include <stdlib.h>
#include <sys/mman.h>

/* Failures printed; the rest are only counted. */
enum { PRINTED = 40 };

uint64_t passed;
uint64_t failed;

struct answer of_number(uint64_t refusal)
{
    return (struct answer){1, {refusal}};
}

struct answer of_completion(struct bellrafter_completion c)
{
    return (struct answer){7, {c.refusal, c.result, c.sqhd, c.sqid, c.cid, c.status, c.phase}};
}

struct answer of_waiting(struct bellrafter_waiting waiting)
{
    return (struct answer){2, {waiting.refusal, waiting.count}};
}

struct answer of_pages(struct bellrafter_pages pages)
{
    return (struct answer){3, {pages.refusal, pages.pages, pages.reads}};
}

struct answer of_start(struct bellrafter_start s)
{
    return (struct answer){8, {s.refusal, s.sq, s.count, s.first, s.second, s.slot, s.verdict, s.number}};
}

struct answer of_finish(struct bellrafter_finish f)
{
    return (struct answer){3, {f.refusal, f.slot, f.number}};
}

struct answer of_replay(struct bellrafter_replay r)
{
    return (struct answer){2, {r.refusal, r.records}};
}

struct answer of_sq(struct bellrafter_sq q)
{
    return (struct answer){8, {q.refusal, q.base, q.size, q.head, q.tail, q.marked, q.cq, q.priority_class}};
}

struct answer of_cq(struct bellrafter_cq q)
{
    return (struct answer){6, {q.refusal, q.base, q.size, q.head, q.tail, q.phase}};
}

struct answer of_command(struct bellrafter_command c)
{
    return (struct answer){5, {c.refusal, c.sq, c.cid, c.verdict, c.number}};
}

struct answer of_arbiter(struct bellrafter_arbiter a)
{
    return (struct answer){
        13,
        {a.mechanism, a.word, a.holder, a.remainder, a.high_holder, a.high_remainder, a.high_credit, a.medium_holder,
         a.medium_remainder, a.medium_credit, a.low_holder, a.low_remainder, a.low_credit}};
}

struct answer of_submission(struct bellrafter_submission s)
{
    return (struct answer){15,
                           {s.refusal, s.opc, s.fuse, s.psdt, s.cid, s.nsid, s.mptr, s.prp1, s.prp2, s.slba, s.nlb,
                            s.cdw12_upper, s.cdw13, s.cdw14, s.cdw15}};
}

static void count(bool good)
{
    passed += good;
    failed += !good;
}

static void print_answers(const char *what, const struct answer *wanted, const struct answer *actual)
{
    printf("FAILED %s: wanted", what);
    for (size_t i = 0; i < wanted->count; i++)
        printf(" %" PRIu64, wanted->number[i]);
    printf(", actual");
    for (size_t i = 0; i < actual->count; i++)
        printf(" %" PRIu64, actual->number[i]);
    printf("\n");
}

static void print_first_difference(const char *what, const struct view *view)
{
    size_t at = 0;

    while (view->wanted[at] == view->actual[at])
        at++;
    printf("FAILED %s: %s byte %ld: wanted %02x, actual %02x\n", what, view->name, (long)at - GUARD, view->wanted[at],
           view->actual[at]);
}

void compare(const char *what, struct answer wanted, struct answer actual, const struct view *views, size_t view_count)
{
    bool print = failed < PRINTED;
    bool good = memcmp(wanted.number, actual.number, sizeof wanted.number) == 0;

    if (!good && print)
        print_answers(what, &wanted, &actual);
    for (size_t i = 0; i < view_count; i++) {
        bool same = memcmp(views[i].wanted, views[i].actual, views[i].bytes) == 0;
        if (!same && print)
            print_first_difference(what, &views[i]);
        good = good && same;
    }
    count(good);
}

void expect(const char *what, struct answer wanted, struct answer actual)
{
    compare(what, wanted, actual, NULL, 0);
}

void require(bool met, const char *what)
{
    if (!met && failed < PRINTED)
        printf("FAILED %s\n", what);
    count(met);
}

void report_refusals(const struct refusals *refusals, const uint64_t times[REFUSALS])
{
    char what[80];

    printf("%s", refusals->name);
    for (size_t i = 0; i < refusals->count; i++) {
        uint64_t number = refusals->number[i];
        printf("%s%" PRIu64 ": %" PRIu64, i == 0 ? "  " : ", ", number, times[number]);
        snprintf(what, sizeof what, "%s never answered %" PRIu64, refusals->name, number);
        require(times[number] > 0, what);
    }
    printf("\n");
}

static struct {
    const char *what;
    uint64_t times;
} notes[24];

void note(const char *what, bool happened)
{
    size_t i = 0;

    while (notes[i].what != NULL && strcmp(notes[i].what, what) != 0)
        i++;
    notes[i].what = what;
    notes[i].times += happened;
}

void report_notes(const char *title)
{
    printf("%s\n", title);
    count(notes[0].what != NULL);
    for (size_t i = 0; notes[i].what != NULL; i++) {
        printf("%s  %-26s %" PRIu64 "\n", notes[i].times > 0 ? "" : "FAILED", notes[i].what, notes[i].times);
        count(notes[i].times > 0);
    }
    memset(notes, 0, sizeof notes);
}

/* The generator is splitmix64. */
static uint64_t state;

void seed_random(uint64_t seed)
{
    state = seed;
}

uint64_t random_place(void)
{
    return state;
}

uint64_t any_number(void)
{
    uint64_t z = state += UINT64_C(0x9E3779B97F4A7C15);

    z = (z ^ (z >> 30)) * UINT64_C(0xBF58476D1CE4E5B9);
    z = (z ^ (z >> 27)) * UINT64_C(0x94D049BB133111EB);
    return z ^ (z >> 31);
}

uint64_t below(uint64_t bound)
{
    return any_number() % bound;
}

uint64_t beyond(uint64_t limit)
{
    return once_in(2) ? limit + below(3) : any_number() | limit;
}

bool once_in(uint64_t times)
{
    return below(times) == 0;
}

void fill_random(uint8_t *bytes, size_t count)
{
    for (size_t at = 0; at < count; at += 8)
        put(bytes + at, count - at < 8 ? (int)(count - at) : 8, any_number());
}

void put(uint8_t *bytes, int width, uint64_t value)
{
    for (int i = 0; i < width; i++)
        bytes[i] = (uint8_t)(value >> (8 * i));
}

struct answer call_walk(page_walk *function, const struct walk *w, const uint8_t *memory, struct results *results)
{
    uint8_t *addresses = w->address_bytes > 0 ? results->addresses + GUARD : NULL;
    uint8_t *counts = w->count_bytes > 0 ? results->counts + GUARD : NULL;

    return of_pages(function(w->memory_bytes > 0 ? memory : NULL, w->memory_bytes, w->prp1, w->prp2, w->length, w->page,
                             addresses, w->address_bytes, counts, w->count_bytes));
}

enum { PAGE = 4096 };

struct guarded guarded_bytes(size_t room)
{
    size_t whole = (room + PAGE - 1) / PAGE * PAGE;
    uint8_t *pages = mmap(NULL, PAGE + whole + PAGE, PROT_NONE, MAP_PRIVATE | MAP_ANONYMOUS, -1, 0);

    if (pages == MAP_FAILED || mprotect(pages + PAGE, whole, PROT_READ | PROT_WRITE) != 0) {
        perror("no memory with guard pages");
        exit(2);
    }
    return (struct guarded){pages + PAGE, whole};
}

uint8_t *last_bytes(struct guarded guarded, size_t count)
{
    return guarded.bytes + guarded.room - count;
}

void read_only(struct guarded guarded, bool yes)
{
    if (mprotect(guarded.bytes, guarded.room, yes ? PROT_READ : PROT_READ | PROT_WRITE) != 0) {
        perror("no change of protection");
        exit(2);
    }
}
