/* What a step of a run takes, for a program of 4,000 arithmetic instructions. Without arguments it prints
   nanoseconds. With the number ROUNDS it runs so many rounds and prints nothing, for a count of its
   instructions. */
#include <stdint.h>
#include <stdio.h>
#include <stdlib.h>
#include <time.h>

/* Runs a program of so many slots in each round, and answers the sum of the steps: as many as there are
   slots in a round. */
uint64_t bench_exports_steps(uint32_t slots, uint32_t rounds);

static double seconds(void) {
    struct timespec now;
    clock_gettime(CLOCK_MONOTONIC, &now);
    return (double)now.tv_sec + (double)now.tv_nsec * 1e-9;
}

int main(int count, char **words) {
    const uint32_t slots = 4001;
    if (count == 2) {
        const uint32_t wanted = (uint32_t)atoi(words[1]);
        return bench_exports_steps(slots, wanted) != (uint64_t)slots * wanted;
    }
    const uint32_t rounds = 2000;
    double best = 0.0;
    for (int attempt = 0; attempt < 5; attempt++) {
        const double begin = seconds();
        const uint64_t sum = bench_exports_steps(slots, rounds);
        const double taken = seconds() - begin;
        if (sum != (uint64_t)slots * rounds) {
            fprintf(stderr, "ran wrongly: %llu steps\n", (unsigned long long)sum);
            return 1;
        }
        if (attempt == 0 || taken < best) {
            best = taken;
        }
    }
    printf("run: %.2f ns a step (4,000 arithmetic instructions and an exit)\n", best * 1e9 / ((double)slots * rounds));
    return 0;
}
