/* What verifying a program takes. Without arguments it prints microseconds for two numbers of slots, and the
   most memory that verifying takes for three forms of programs of 4,096 slots. With the numbers FORM SLOTS
   ROUNDS it verifies so many rounds and prints nothing, for a count of its instructions. The forms are 0,
   straight code, 1, a ladder of branches, and 2, with half of its slots awaited at once. With the number
   ROUNDS alone it does the same with the default classifier. */
#include <stdint.h>
#include <stdio.h>
#include <stdlib.h>
#include <sys/resource.h>
#include <sys/wait.h>
#include <time.h>
#include <unistd.h>

/* Verifies a program of a form and of so many slots in each round, and answers the sum of the budgets: as
   many as there are slots in a round. */
uint64_t bench_exports_verify(uint8_t form, uint32_t slots, uint32_t rounds);

/* Verifies the default classifier in each round, and answers the sum of the budgets: 6 a round. */
uint64_t bench_exports_default_classifier(uint32_t rounds);

static double seconds(void) {
    struct timespec now;
    clock_gettime(CLOCK_MONOTONIC, &now);
    return (double)now.tv_sec + (double)now.tv_nsec * 1e-9;
}

/* The best of five attempts, in seconds a program; negative where a budget was wrong. */
static double best_verify(uint32_t slots, uint32_t rounds) {
    double best = 0.0;
    for (int attempt = 0; attempt < 5; attempt++) {
        const double begin = seconds();
        const uint64_t sum = bench_exports_verify(0, slots, rounds);
        const double taken = seconds() - begin;
        if (sum != (uint64_t)slots * rounds) {
            fprintf(stderr, "verified wrongly: budgets of %llu\n", (unsigned long long)sum);
            return -1.0;
        }
        if (attempt == 0 || taken < best) {
            best = taken;
        }
    }
    return best / rounds;
}

/* The most memory that this process has held so far, in KB. */
static long peak(void) {
    struct rusage usage;
    getrusage(RUSAGE_SELF, &usage);
    return usage.ru_maxrss;
}

/* Prints how much more memory a process of its own holds at most once it has verified a program of 4,096
   slots than once it has verified a small one. Answers whether that was done. */
static int print_memory(uint8_t form, const char *name) {
    const pid_t child = fork();
    if (child == 0) {
        const uint32_t slots = 4096;
        if (bench_exports_verify(form, 8, 1) != 8) {
            _exit(1);
        }
        const long before = peak();
        if (bench_exports_verify(form, slots, 1) != slots) {
            _exit(1);
        }
        printf("verify: %ld KB at most for a program of %u slots, %s\n", peak() - before, slots, name);
        fflush(stdout);
        _exit(0);
    }
    int status = 1;
    return child > 0 && waitpid(child, &status, 0) == child && status == 0;
}

int main(int count, char **words) {
    if (count == 2) {
        const uint32_t rounds = (uint32_t)atoi(words[1]);
        return bench_exports_default_classifier(rounds) != 6 * (uint64_t)rounds;
    }
    if (count == 4) {
        const uint8_t form = (uint8_t)atoi(words[1]);
        const uint32_t slots = (uint32_t)atoi(words[2]);
        const uint32_t rounds = (uint32_t)atoi(words[3]);
        return bench_exports_verify(form, slots, rounds) != (uint64_t)slots * rounds;
    }
    /* The memory comes first: a process that has held much before starts with its peak. */
    if (!print_memory(0, "straight code") || !print_memory(1, "a ladder of branches") || !print_memory(2, "half of its slots awaited at once")) {
        return 1;
    }
    const uint32_t sizes[] = {8, 4000};
    for (int i = 0; i < 2; i++) {
        const double taken = best_verify(sizes[i], 4000u * 500u / sizes[i]);
        if (taken < 0.0) {
            return 1;
        }
        printf("verify: %.2f us a program of %u slots (%.1f ns a slot)\n", taken * 1e6, sizes[i], taken * 1e9 / sizes[i]);
    }
    return 0;
}
