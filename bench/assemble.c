/* Microseconds for the assembly of a text, for two numbers of lines. */
#include <stdint.h>
#include <stdio.h>
#include <time.h>

/* Assembles a text of so many lines in each round, and answers the sum of the slots: as many as there
   are lines in a round. */
uint64_t bench_exports_assemble(uint32_t lines, uint32_t rounds);

static double seconds(void) {
    struct timespec now;
    clock_gettime(CLOCK_MONOTONIC, &now);
    return (double)now.tv_sec + (double)now.tv_nsec * 1e-9;
}

/* The best of five attempts, in seconds an assembly; negative where a program was wrong. */
static double best_assembly(uint32_t lines, uint32_t rounds) {
    double best = 0.0;
    for (int attempt = 0; attempt < 5; attempt++) {
        const double begin = seconds();
        const uint64_t sum = bench_exports_assemble(lines, rounds);
        const double taken = seconds() - begin;
        if (sum != (uint64_t)lines * rounds) {
            fprintf(stderr, "assembled wrongly: %llu slots\n", (unsigned long long)sum);
            return -1.0;
        }
        if (attempt == 0 || taken < best) {
            best = taken;
        }
    }
    return best / rounds;
}

int main(void) {
    const uint32_t sizes[] = {512, 4096};
    for (int i = 0; i < 2; i++) {
        const double taken = best_assembly(sizes[i], 4096u * 100u / sizes[i]);
        if (taken < 0.0) {
            return 1;
        }
        printf("assemble: %.1f us a text of %u lines (%.1f ns a line)\n", taken * 1e6, sizes[i], taken * 1e9 / sizes[i]);
    }
    return 0;
}
