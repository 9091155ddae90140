/* Times the emitted C of the three programs, or C by hand: emitted PROGRAM (emitted | hand) COUNT. It prints the line that
 * interpreter.c prints; COUNT stands there as the number of instructions. */
#include <stdint.h>
#include <stdio.h>
#include <string.h>
#include <time.h>

#include "by_hand.h"
#include "counting.h"
#include "nested.h"
#include "straight.h"

/* Runs a program, and answers its number of globals, or -1. */
static int run(const char *name, int is_emitted, int64_t globals[5]) {
    int status = 0;
    if (strcmp(name, "counting") == 0) {
        if (is_emitted) status = counting_run(globals, UINT64_MAX);
        else counting_by_hand(globals);
        return status ? -1 : counting_globals;
    }
    if (strcmp(name, "nested") == 0) {
        if (is_emitted) status = nested_run(globals, UINT64_MAX);
        else nested_by_hand(globals);
        return status ? -1 : nested_globals;
    }
    if (is_emitted) status = straight_run(globals, UINT64_MAX);
    else straight_by_hand(globals);
    return status ? -1 : straight_globals;
}

int main(int count, char **words) {
    if (count != 4) return 2;
    int64_t globals[5] = {0};
    struct timespec start, stop;
    clock_gettime(CLOCK_MONOTONIC, &start);
    int found = run(words[1], strcmp(words[2], "emitted") == 0, globals);
    clock_gettime(CLOCK_MONOTONIC, &stop);
    long long time = (stop.tv_sec - start.tv_sec) * 1000000000LL + (stop.tv_nsec - start.tv_nsec);
    printf("%s %s %lld", found < 0 ? "OutOfBudget" : "Halted", words[3], time);
    for (int i = 0; i < found; i++) printf(" %lld", (long long)globals[i]);
    printf("\n");
    return 0;
}
