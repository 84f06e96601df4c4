/* What a judged record takes, for the default classifier. Without arguments it prints nanoseconds. With
   the number ROUNDS it judges so many rounds and prints nothing, for a count of its instructions. */
#include <stdint.h>
#include <stdio.h>
#include <stdlib.h>
#include <time.h>

/* Judges 256 records in each round, and answers how many were failures: 128 a round. */
uint64_t bench_exports_judge(uint32_t rounds);

static double seconds(void) {
    struct timespec now;
    clock_gettime(CLOCK_MONOTONIC, &now);
    return (double)now.tv_sec + (double)now.tv_nsec * 1e-9;
}

int main(int count, char **words) {
    if (count == 2) {
        const uint32_t wanted = (uint32_t)atoi(words[1]);
        return bench_exports_judge(wanted) != 128u * (uint64_t)wanted;
    }
    const uint32_t rounds = 40000;
    double best = 0.0;
    for (int attempt = 0; attempt < 5; attempt++) {
        const double begin = seconds();
        const uint64_t failures = bench_exports_judge(rounds);
        const double taken = seconds() - begin;
        if (failures != 128u * (uint64_t)rounds) {
            fprintf(stderr, "judged wrongly: %llu failures\n", (unsigned long long)failures);
            return 1;
        }
        if (attempt == 0 || taken < best) {
            best = taken;
        }
    }
    printf("judge: %.1f ns a record (default classifier, 6 steps)\n", best * 1e9 / (256.0 * rounds));
    return 0;
}
