/*
 * Calls every function of bellrafter.h: first the fixed cases, each with the answer that it must have, then every case
 * of the turn rule, then random calls, each compared with the reference.
 *
 * host [SEED [CALLS]]   CALLS random calls of each function that needs no controller, 20 times as many of controllers,
 *                       and one replay for each 20
 */
#include <stdlib.h>

#include "twin.h"

int main(int argc, char **argv)
{
    uint64_t seed = argc > 1 ? strtoull(argv[1], NULL, 0) : 1;
    uint64_t calls = argc > 2 ? strtoull(argv[2], NULL, 0) : 100000;

    setvbuf(stdout, NULL, _IOLBF, BUFSIZ); /* so that nothing printed is lost if a call crashes */
    printf("seed %" PRIu64 "\n", seed);
    open_twin();
    fixed_cases();
    controller_cases();
    delete_cases();
    replay_cases();
    printf("fixed cases: %" PRIu64 " passed, %" PRIu64 " calls of the controller\n", passed, calls_made);
    all_turns();
    seed_random(seed);
    random_calls(calls);
    random_controllers(20 * calls);
    random_replays(calls / 20);
    printf("%" PRIu64 " passed, %" PRIu64 " failed\n", passed, failed);
    return failed > 0;
}
