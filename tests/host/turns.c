/*
 * Every case of the turn rule: each holder, with a remainder and without, beside each set of candidates of its group.
 * "If the holder is a candidate with remainder above 0, it is served. Otherwise the next candidate in rising id order
 * after the holder, wrapping, the holder last, takes the turn with a full remainder and is served."
 *
 * Calls of the twin lead to a holder. From there the library alone is called, on copies of its words: the tail of each
 * candidate is written, and one command started.
 */
#include "twin.h"

/* A burst of two, and weights of 256. */
enum { BURST = 2, WEIGHT = 256 };
#define WORD 0xFFFFFF01

/* A group of one mechanism. Under mechanism 1, SQ 0 is in none. */
struct group {
    const char *name;
    uint64_t mechanism, priority_class;
    size_t holder_at; /* its place among the numbers of the arbiter; the remainder's is the next */
};

static const struct group groups[] = {
    {"all", 0, 0, 2}, {"urgent", 1, 0, 2}, {"high", 1, 1, 4}, {"medium", 1, 2, 7}, {"low", 1, 3, 10},
};

/* Whose turn it is in a group, and how often the group was served: the next start number, since no other group was. */
struct turn {
    uint64_t holder, remainder, starts;
};

static const struct turn first_turn = {15, 0, 0};

static struct saved here;
static uint64_t state[BELLRAFTER_STATE_WORDS];

static void set_up(uint64_t refusal)
{
    expect("setting up", of_number(0), of_number(refusal));
}

/* A fresh controller, over a memory of zeros, with 16 SQs of one class and a CQ for each. */
static void fresh(const struct group *group)
{
    twin_clear();
    set_up(twin_new(group->mechanism, WORD));
    for (uint64_t id = 0; id < 16; id++) {
        set_up(twin_create_cq(MEMORY, id, 4, 4096 * (16 + id)));
        set_up(twin_create_sq(MEMORY, id, 4, 4096 * id, id, group->priority_class));
    }
}

/* The arbiter's numbers where no other group was ever served. */
static struct answer arbiter(const struct group *group, struct turn turn)
{
    struct answer numbers = of_arbiter((struct bellrafter_arbiter){
        group->mechanism, WORD, 15, 0, 15, 0, WEIGHT, 15, 0, WEIGHT, 15, 0, WEIGHT});

    numbers.number[group->holder_at] = turn.holder;
    numbers.number[group->holder_at + 1] = turn.remainder;
    if (group->mechanism == 1 && group->priority_class > 0)
        numbers.number[group->holder_at + 2] = WEIGHT - turn.starts;
    return numbers;
}

/* The turn after a start, by the rule; as it was where there is no candidate. */
static struct turn served(struct turn turn, unsigned candidates)
{
    if (turn.remainder > 0 && (candidates >> turn.holder & 1))
        return (struct turn){turn.holder, turn.remainder - 1, turn.starts + 1};
    for (uint64_t step = 1; step <= 16; step++) {
        uint64_t id = (turn.holder + step) % 16;
        if (candidates >> id & 1)
            return (struct turn){id, BURST - 1, turn.starts + 1};
    }
    return turn;
}

/* Where the next command of a queue lies: the holder alone was served before. */
static uint64_t slot_of(uint64_t id, struct turn turn)
{
    return id == turn.holder ? turn.starts : 0;
}

/* A start with these candidates; or the refusal of a tail. */
static struct answer start(struct turn turn, unsigned candidates)
{
    memcpy(state, here.state, sizeof state);
    for (uint64_t id = 0; id < 16; id++) {
        uint64_t refusal = candidates >> id & 1 ? bellrafter_tail_write(state, id, slot_of(id, turn) + 1) : 0;
        if (refusal != 0)
            return of_number(refusal);
    }
    return of_start(bellrafter_start(state, here.memory, MEMORY));
}

static bool equal(const struct answer *a, const struct answer *b)
{
    return memcmp(a->number, b->number, sizeof a->number) == 0;
}

/* One expectation: of the start's answer, and of the arbiter that it leaves. A text is made only where one differs. */
static void turn_case(const struct group *group, struct turn turn, unsigned candidates)
{
    struct turn next = served(turn, candidates);
    struct answer wanted = of_number(BELLRAFTER_NO_CANDIDATE), actual = start(turn, candidates);
    struct answer left_wanted = arbiter(group, next), left = of_arbiter(bellrafter_look_arbiter(state));
    char what[120];

    if (candidates != 0)
        wanted = of_start((struct bellrafter_start){
            0, next.holder, 1, 0, 0, slot_of(next.holder, turn), 0, turn.starts});
    bool answered = equal(&wanted, &actual);
    if (answered && equal(&left_wanted, &left)) {
        passed++;
        return;
    }
    snprintf(what, sizeof what, "turn, mechanism %" PRIu64 ", %s, holder %" PRIu64 ", remainder %" PRIu64
             ", candidates %04xh%s", group->mechanism, group->name, turn.holder, turn.remainder, candidates,
             answered ? ", arbiter" : "");
    expect(what, answered ? left_wanted : wanted, answered ? left : actual);
}

/* Under mechanism 1, SQ 0 is served before all groups, and the turn stays as it was. */
static void admin_case(const struct group *group, struct turn turn)
{
    expect("SQ 0 before a turn", of_start((struct bellrafter_start){.count = 1, .number = turn.starts}),
           start(turn, 0xFFFF));
    expect("SQ 0 takes no turn", arbiter(group, turn), of_arbiter(bellrafter_look_arbiter(state)));
}

/* All sets of candidates from the turn that the twin was led to; answers how many. */
static uint64_t all_sets(const struct group *group, struct turn turn)
{
    unsigned step = group->mechanism == 0 ? 1 : 2; /* with SQ 0, or without */

    save_twin(&here);
    expect("the turn led to", arbiter(group, turn), of_arbiter(bellrafter_look_arbiter(here.state)));
    turn_case(group, turn, 0);
    require(memcmp(state, here.state, sizeof state) == 0, "a start without a candidate has changed a word");
    for (unsigned candidates = step; candidates < 65536; candidates += step)
        turn_case(group, turn, candidates);
    if (group->mechanism == 1)
        admin_case(group, turn);
    return 65536 / step;
}

/* Has one command of a queue started and finished. */
static void serve(uint64_t id, uint64_t slot)
{
    set_up(twin_tail(id, slot + 1));
    expect("leading", of_start((struct bellrafter_start){0, id, 1, 0, 0, slot, 0, slot}), of_start(twin_start(MEMORY)));
    expect("leading", of_finish((struct bellrafter_finish){0, slot, slot}), of_finish(twin_finish(MEMORY, 0, 0, 0)));
}

/* From the first turn of the group, and from each queue that has been served once, and twice. */
static uint64_t turns_of(const struct group *group)
{
    fresh(group);
    uint64_t cases = all_sets(group, first_turn);
    for (uint64_t id = group->mechanism == 0 ? 0 : 1; id < 16; id++) { /* with SQ 0, or without */
        fresh(group);
        for (uint64_t slot = 0; slot < BURST; slot++) {
            serve(id, slot);
            cases += all_sets(group, (struct turn){id, BURST - 1 - slot, slot + 1});
        }
    }
    return cases;
}

void all_turns(void)
{
    uint64_t cases = 0;

    for (size_t i = 0; i < COUNT_OF(groups); i++)
        cases += turns_of(&groups[i]);
    printf("turns: %" PRIu64 " cases\n", cases);
}
