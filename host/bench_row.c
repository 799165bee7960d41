/* A row of a benchmark: the least time of each side, and whether the library stays within the row's bound. */
#define _POSIX_C_SOURCE 199309L
#include <stdio.h>
#include <stdlib.h>
#include <time.h>

#include "bench.h"

enum { LIBRARY, PLAIN, SAME, SIDES, ROUNDS = 15 };

static FILE *above;

double now(void) {
    struct timespec t;
    clock_gettime(CLOCK_MONOTONIC, &t);
    return (double)t.tv_sec * 1e9 + (double)t.tv_nsec;
}

unsigned next_random(void) {
    static uint64_t state = 88172645463325252u;
    state ^= state << 13;
    state ^= state >> 7;
    state ^= state << 17;
    return (unsigned)(state >> 33);
}

unsigned below(unsigned end) { return next_random() % end; }

void give_up(const char *what) {
    printf("%s\n", what);
    exit(1);
}

void open_above(const char *name) {
    above = fopen(name, "w");
    if (above == NULL) give_up("the file for the rows above their bounds cannot be written");
}

void close_above(void) {
    if (fclose(above) != 0) give_up("the file for the rows above their bounds cannot be written");
}

void bench_heading(const char *what, const char *state) {
    char text[80];
    snprintf(text, sizeof text, "%s%s%s", what, state == NULL ? "" : ", ", state == NULL ? "" : state);
    printf("\n%-49s %9s %9s %13s %11s %14s\n", text, "library", "plain C", "library / C", "same in C", "library / it");
}

/* Some rounds, with each side in turn in each of them: the least time of a side stays. */
static void measure(const struct row *row, double least[SIDES]) {
    const struct calls *const sides[SIDES] = {&library, row->peer == NULL ? &plain : row->peer, &same};
    for (int i = 0; i < ROUNDS; i++) {
        uint64_t answers[SIDES];
        for (int k = 0; k < SIDES; k++) {
            double ns = row->round(sides[k], row->of, &answers[k]) / row->parts;
            if (ns < least[k]) least[k] = ns;
        }
        if (answers[LIBRARY] != answers[PLAIN] || answers[SAME] != answers[PLAIN]) give_up("the answers of the three sides differ");
    }
}

static int is_above(const struct row *row, const double least[SIDES]) { return least[LIBRARY] > (row->bound + MARGIN) * least[PLAIN]; }

static void tell_above(const struct row *row, const double least[SIDES]) {
    fprintf(above, "above its bound: %s%s%s: %.3f times plain C; bound %.2f, and %.2f for the measuring\n", row->what, row->state == NULL ? "" : ", ",
            row->state == NULL ? "" : row->state, least[LIBRARY] / least[PLAIN], row->bound, MARGIN);
}

struct times bench_row(const struct row *row) {
    double least[SIDES] = {1e12, 1e12, 1e12};
    measure(row, least);
    if (is_above(row, least)) measure(row, least);
    printf("%-49s %9.*f %9.*f %13.2f %11.*f %14.2f\n", row->what, row->places, least[LIBRARY], row->places, least[PLAIN], least[LIBRARY] / least[PLAIN], row->places,
           least[SAME], least[LIBRARY] / least[SAME]);
    fflush(stdout);
    if (is_above(row, least)) tell_above(row, least);
    return (struct times){least[LIBRARY], least[PLAIN]};
}

void bench_faster(const char *what, double times) {
    printf("%-49s %9.0f\n", what, times);
    if (times < FASTER) fprintf(above, "above its bound: %s: %.0f times; at least %d\n", what, times, FASTER);
}
