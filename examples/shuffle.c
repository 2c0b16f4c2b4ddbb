/* A permutation test of two groups of numbers that goes on where it was when it is started again, after a power cut too.

       shuffle PLAN SAVED SEED FILE1 FILE2 [EVERY]

   A FILE has the numbers of one group, decimals of at most nine places, with blanks or newlines between. The test is one-sided: a draw is 1 when
   dealing all numbers out anew gives the first group at least its real sum, and so at least the real difference of means. PLAN is a stored plan
   (rules 2.1). SAVED is made, and replaced after every EVERY draws, 1000 unless said, and at the end; started again with the same arguments, the
   test goes on from there. Shuffle i depends on SEED and i alone, so neither EVERY nor a cut changes the end. That is the line

       WORD BUCKET N S

   the first four fields of the program's (rules 9.2), and the exit status 0; or `refused` and a number, and 1. Usage and files that fail give 2.

   SAVED holds the form of an open test (saved 1) and nothing else. At the end this is the test before its last draw: started again, the program takes
   that draw once more and prints the same line. From the form of an ended test no call gives the answer: it is refused by 10. */
#define _POSIX_C_SOURCE 200809L
#include <errno.h>
#include <fcntl.h>
#include <inttypes.h>
#include <libgen.h>
#include <stdio.h>
#include <stdlib.h>
#include <string.h>
#include <unistd.h>

#include "vimorake.h"

#define MOST_NUMBERS 1000000
#define LONGEST_NAME 4096

/* Numbers in whole billionths, so that equal sums are equal; those of the first group stand first. */
struct groups {
    size_t first, count; /* numbers of the first group, and of both */
    int64_t real;        /* the sum of the first */
    uint64_t absolute;   /* the sum of all without their signs: it fits, so every sum of some does */
    int64_t number[MOST_NUMBERS], dealt[MOST_NUMBERS];
};

/* The contents of a file: one byte more than the longest form has, so that the call sees and refuses what is too long. */
struct bytes {
    size_t size;
    uint8_t at[VIMORAKE_LARGEST_FORM + 1];
};

struct job {
    struct bytes plan;
    struct groups groups;
    uint64_t seed, every;
    const char *saved;
    char aside[LONGEST_NAME], folder[LONGEST_NAME];
};

static void fail(const char *what, const char *why) {
    fprintf(stderr, "shuffle: %s: %s\n", what, why);
    exit(2);
}

/* --- the groups --- */

static int append(int64_t *v, int digit) {
    if (*v > (INT64_MAX - digit) / 10) return 0;
    *v = *v * 10 + digit;
    return 1;
}

static int to_billionths(const char *text, int64_t *number) {
    int64_t v = 0;
    int minus = *text == '-', point = 0, digits = 0, places = 0;
    if (minus || *text == '+') text++;
    for (; *text != '\0'; text++) {
        if (*text == '.' && !point) {
            point = 1;
            continue;
        }
        if (*text < '0' || *text > '9' || !append(&v, *text - '0')) return 0;
        digits++;
        places += point;
    }
    if (digits == 0 || places > 9) return 0;
    for (; places < 9; places++)
        if (!append(&v, 0)) return 0;
    *number = minus ? -v : v;
    return 1;
}

static int64_t read_group(const char *path, struct groups *g) {
    char text[64];
    int64_t sum = 0;
    size_t before = g->count;
    FILE *file = fopen(path, "r");
    if (!file) fail(path, strerror(errno));
    while (fscanf(file, "%63s", text) == 1) {
        int64_t v;
        if (strlen(text) == 63 || !to_billionths(text, &v)) fail(path, "not a decimal of at most nine places, or too large");
        g->absolute += (uint64_t)(v < 0 ? -v : v);
        if (g->absolute > INT64_MAX || g->count == MOST_NUMBERS) fail(path, "too many numbers, or too large ones");
        g->number[g->count++] = v;
        sum += v;
    }
    if (ferror(file)) fail(path, strerror(errno));
    if (g->count == before) fail(path, "no numbers");
    fclose(file);
    return sum;
}

/* --- a shuffle: SplitMix64, begun anew for each --- */

static uint64_t mixed(uint64_t x) {
    x = (x ^ x >> 30) * UINT64_C(0xbf58476d1ce4e5b9);
    x = (x ^ x >> 27) * UINT64_C(0x94d049bb133111eb);
    return x ^ x >> 31;
}

/* A number under the bound, each equally likely: 2^64 is cut to a multiple of the bound. */
static uint64_t below(uint64_t bound, uint64_t *stream) {
    uint64_t x, rest = (0 - bound) % bound;
    do x = mixed(*stream += UINT64_C(0x9e3779b97f4a7c15));
    while (x < rest);
    return x % bound;
}

static uint32_t draw_of(struct groups *g, uint64_t seed, uint32_t i) {
    uint64_t stream = mixed(mixed(seed) + i);
    int64_t sum = 0;
    memcpy(g->dealt, g->number, g->count * sizeof *g->number);
    for (size_t k = 0; k < g->first; k++) {
        size_t pick = k + (size_t)below(g->count - k, &stream);
        sum += g->dealt[pick];
        g->dealt[pick] = g->dealt[k];
    }
    return sum >= g->real;
}

/* --- files --- */

static int load(const char *path, struct bytes *b) { /* 0 where there is no such file */
    FILE *file = fopen(path, "rb");
    if (!file && errno == ENOENT) return 0;
    if (!file) fail(path, strerror(errno));
    b->size = fread(b->at, 1, sizeof b->at, file);
    if (ferror(file)) fail(path, strerror(errno));
    fclose(file);
    return 1;
}

static void set_names(struct job *job, const char *saved) {
    char copy[LONGEST_NAME];
    job->saved = saved;
    if (strlen(saved) + sizeof ".new" > LONGEST_NAME) fail(saved, "too long a name");
    strcat(strcpy(job->aside, saved), ".new");
    strcpy(job->folder, dirname(strcpy(copy, saved)));
}

/* Replaced whole: whenever the power is cut, the name leads to all bytes of this form or of the one before. */
static void save(const struct job *job, const struct bytes *form) {
    int file = open(job->aside, O_WRONLY | O_CREAT | O_TRUNC, 0666);
    if (file < 0 || write(file, form->at, form->size) != (ssize_t)form->size || fsync(file) != 0 || close(file) != 0 ||
        rename(job->aside, job->saved) != 0)
        fail(job->aside, strerror(errno));
    int folder = open(job->folder, O_RDONLY);
    if (folder < 0 || fsync(folder) != 0 || close(folder) != 0) fail(job->folder, strerror(errno));
}

/* --- the test --- */

static int report(uint32_t answer, const uint8_t *form) {
    const char *word = answer == VIMORAKE_CROSSED ? "crossed" : answer == VIMORAKE_WIDE ? "wide" : answer == VIMORAKE_SPENT ? "spent" : "decided";
    uint32_t bucket = answer < VIMORAKE_CROSSED ? answer - VIMORAKE_BUCKET(0) : 0;
    if (answer < VIMORAKE_OPEN) printf("refused %" PRIu32 "\n", answer);
    else printf("%s %" PRIu32 " %" PRIu32 " %" PRIu32 "\n", word, bucket, vimorake_taken(form), vimorake_ones(form));
    if (fflush(stdout) != 0) fail("output", strerror(errno));
    return answer < VIMORAKE_OPEN;
}

/* Draws to the end, on two forms in turn. Of a saved file that is too short to hold n the first draw is refused, whichever shuffle made it. */
static int run(struct job *job, struct bytes *saved, struct bytes *lent) {
    for (;;) {
        uint32_t i = vimorake_taken(saved->at), draw = draw_of(&job->groups, job->seed, i);
        uint32_t answer = vimorake_draw(job->plan.at, job->plan.size, saved->at, saved->size, draw, lent->at, sizeof lent->at);
        if (answer > VIMORAKE_OPEN) save(job, saved);
        if (answer != VIMORAKE_OPEN) return report(answer, lent->at);
        struct bytes *written = lent;
        lent = saved;
        saved = written;
        saved->size = vimorake_length(saved->at);
        if ((i + 1) % job->every == 0) save(job, saved);
    }
}

static uint64_t whole_number(const char *text) {
    char *end;
    errno = 0;
    uint64_t v = strtoull(text, &end, 10);
    if (*text < '0' || *text > '9' || *end != '\0' || errno != 0) fail(text, "not a whole number of 64 bits");
    return v;
}

int main(int argc, char **argv) {
    static struct job job;
    static struct bytes one, two;
    if (argc != 6 && argc != 7) fail("usage", "shuffle PLAN SAVED SEED FILE1 FILE2 [EVERY]");
    set_names(&job, argv[2]);
    job.seed = whole_number(argv[3]);
    job.every = argc == 7 ? whole_number(argv[6]) : 1000;
    if (job.every == 0) fail("EVERY", "at least 1");
    job.groups.real = read_group(argv[4], &job.groups);
    job.groups.first = job.groups.count;
    read_group(argv[5], &job.groups);
    if (!load(argv[1], &job.plan)) fail(argv[1], strerror(ENOENT));
    if (!load(job.saved, &one)) {
        uint32_t answer = vimorake_begin(job.plan.at, job.plan.size, one.at, sizeof one.at);
        if (answer != VIMORAKE_OPEN) return report(answer, one.at);
        one.size = vimorake_length(one.at);
    }
    return run(&job, &one, &two);
}
