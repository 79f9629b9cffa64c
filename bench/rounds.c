/* Plays the two loads of core.py, as `rounds storm N` or `rounds wide N`, and prints how many lines and bytes came out,
   what was decided, and the sum of the revisions; with a third word the lines themselves. */
#include <stdio.h>
#include <stdlib.h>
#include "rendezvous.h"

enum { THREADS = 256, GROUPS = 128, OLD = 0xb4, NEW = 0xf0 };

/* A sink that counts, and that prints where a third word was given. */
static char line[64];
static uint64_t lines, bytes;
static bool prints;

static __attribute__((noinline)) void take(size_t len) {
    lines += line[len - 1] == '\n';
    bytes += len;
    if (prints) {
        fwrite(line, 1, len, stdout);
    }
}

static inline char *line_begin(void) {
    return line;
}

static inline void line_end(char *end) {
    take(end - line);
}

/* Two threads in each group, numbered as many apart as there are groups. */
static void make_plan(void) {
    plan.threads = THREADS;
    plan.groups = GROUPS;
    for (int t = 0; t < THREADS; t++) {
        plan.group[t] = t % GROUPS;
    }
    for (int g = 0; g < GROUPS; g++) {
        plan.primary[g] = g;
        plan.offered[g] = true;
        plan.offer[g] = NEW;
        plan.first[g] = OLD;
    }
}

int main(int count, char **words) {
    size_t number = count > 2 ? strtoul(words[2], NULL, 10) : 0;
    bool storm = count > 1 && !strcmp(words[1], "storm");
    prints = count > 3;
    make_plan();
    struct beat *beats = malloc(number * sizeof *beats + sizeof *beats);
    if (!beats) {
        return 7;
    }
    beats[0] = (struct beat){ROUNDS, 60};
    for (size_t k = 0; storm && k < number; k++) {
        beats[k] = (struct beat){STEP, k % (THREADS - 1)};
    }
    for (size_t k = 0; storm && k < number; k++) {
        if (beats[k].number >= plan.threads) {
            return 1;
        }
    }
    for (size_t load = 0; load < (storm ? 1 : number); load++) {
        play(beats, storm ? number : 1);
    }
    uint64_t revisions = 0;
    for (int g = 0; g < GROUPS; g++) {
        revisions += now.rev[g];
    }
    if (!prints) {
        printf("%lu %lu %lu %lu\n", lines, bytes, now.decide, revisions);
    }
    free(beats);
}
