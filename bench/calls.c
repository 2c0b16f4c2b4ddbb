/* The calls of include/vimorake.h beside the same by hand in C, bench/saved_test.c under the names by_hand_begin and by_hand_draw. It fails where an
   answer or a byte of a form differs. Then it times both in turn: nanoseconds a call over the whole chain of a case, and by the length of the form.
   calls FOLDER RUNS: FOLDER holds `plan` and `draws`. With 0 runs nothing is timed, and each side has taken every draw once. */
#include <stdio.h>
#include <stdlib.h>
#include <string.h>
#include <time.h>

#include "../include/vimorake.h"

#define MOST_DRAWS 50001
#define BLOCK 250
#define MOST_FORMS 16

uint32_t by_hand_begin(const uint8_t *plan, size_t plan_size, uint8_t *lent, size_t lent_size);
uint32_t by_hand_draw(const uint8_t *plan, size_t plan_size, const uint8_t *saved, size_t saved_size, uint32_t draw, uint8_t *lent,
                      size_t lent_size);

static const struct calls {
    uint32_t (*begin)(const uint8_t *, size_t, uint8_t *, size_t);
    uint32_t (*draw)(const uint8_t *, size_t, const uint8_t *, size_t, uint32_t, uint8_t *, size_t);
} both[2] = {{vimorake_begin, vimorake_draw}, {by_hand_begin, by_hand_draw}};

struct test {
    uint8_t form[2][VIMORAKE_LARGEST_FORM];
    int at; /* which of them holds the test */
    uint32_t answer, taken;
};

static uint8_t plan[VIMORAKE_LARGEST_PLAN], draws[MOST_DRAWS];
static size_t plan_size, draws_size;

static void fail(const char *what) {
    fprintf(stderr, "calls: %s\n", what);
    exit(1);
}

static size_t load(const char *folder, const char *name, uint8_t *to, size_t room) {
    char path[4096];
    if (snprintf(path, sizeof path, "%s/%s", folder, name) >= (int)sizeof path) fail(folder);
    FILE *file = fopen(path, "rb");
    if (!file) fail(path);
    size_t size = fread(to, 1, room, file);
    fclose(file);
    return size;
}

static double now(void) {
    struct timespec t;
    if (clock_gettime(CLOCK_MONOTONIC, &t) != 0) fail("clock");
    return (double)t.tv_sec * 1e9 + (double)t.tv_nsec;
}

/* --- a chain of calls (saved 7) --- */

static void begin(const struct calls *c, struct test *t) {
    t->at = 0;
    t->taken = 0;
    t->answer = c->begin(plan, plan_size, t->form[0], sizeof t->form[0]);
}

static int goes_on(const struct test *t) { return t->answer == VIMORAKE_OPEN && t->taken < draws_size; }

static void draw(const struct calls *c, struct test *t) {
    const uint8_t *saved = t->form[t->at];
    t->at = !t->at;
    t->answer = c->draw(plan, plan_size, saved, vimorake_length(saved), draws[t->taken++] - '0', t->form[t->at], sizeof t->form[0]);
}

/* --- held against each other --- */

static void compare(const struct test *a, const struct test *b) {
    uint32_t length = vimorake_length(a->form[a->at]);
    if (a->answer != b->answer || (a->answer >= VIMORAKE_OPEN && memcmp(a->form[a->at], b->form[b->at], length) != 0)) {
        fprintf(stderr, "calls: they differ after %u draws: %u and %u\n", a->taken, a->answer, b->answer);
        exit(1);
    }
}

/* Keeps open tests on the way, each at least four times as long as the one before, and at last the longest. */
static int hold_together(struct test *a, struct test *b, struct test *kept) {
    static struct test longest;
    int count = 0;
    uint32_t next = 1, most = 0;
    begin(&both[0], a);
    begin(&both[1], b);
    for (compare(a, b); goes_on(a); compare(a, b)) {
        uint32_t length = vimorake_length(a->form[a->at]);
        if (length >= next && count < MOST_FORMS - 1) {
            kept[count++] = *a;
            next = 4 * length;
        }
        if (length > most) {
            longest = *a;
            most = length;
        }
        draw(&both[0], a);
        draw(&both[1], b);
    }
    if (most > next / 4) kept[count++] = longest;
    return count;
}

/* --- timed: the least of all runs, in which both take turns --- */

static void keep_least(double *least, double took) {
    if (*least == 0 || took < *least) *least = took;
}

static void time_block(const struct calls *c, struct test *t, double *least) {
    double start = now();
    for (int i = 0; i < BLOCK && goes_on(t); i++) draw(c, t);
    keep_least(least, now() - start);
}

/* Block by block, since a whole chain is seldom left alone on a machine that does other things. */
static void time_chains(int runs) {
    static struct test t[2];
    static double least[2][MOST_DRAWS / BLOCK + 1];
    double ns[2] = {0, 0};
    int blocks = 0;
    for (int i = 0; i < runs; i++) {
        for (int k = 0; k < 2; k++) begin(&both[k], &t[k]);
        for (blocks = 0; goes_on(&t[0]); blocks++) {
            int first = i & 1;
            time_block(&both[first], &t[first], &least[first][blocks]);
            time_block(&both[!first], &t[!first], &least[!first][blocks]);
        }
    }
    for (int k = 0; k < 2; k++)
        for (int i = 0; i < blocks; i++) ns[k] += least[k][i] / t[k].taken;
    printf("  %.1f ns a call, C %.1f, ratio %.3f\n", ns[0], ns[1], ns[0] / ns[1]);
}

/* One form again and again: a call keeps nothing. */
static void time_form(const struct test *kept, int runs, double *ns) {
    static struct test t;
    int calls = (int)(4000000 / (vimorake_length(kept->form[kept->at]) + 1000));
    ns[0] = ns[1] = 0;
    for (int i = 0; i < 2 * runs; i++) {
        int which = (i ^ i >> 1) & 1; /* each is first in every other turn */
        t = *kept;
        double start = now();
        for (int k = 0; k < calls; k++) {
            draw(&both[which], &t);
            t.at = kept->at;
            t.taken = kept->taken;
        }
        keep_least(&ns[which], (now() - start) / calls);
    }
}

static void time_forms(const struct test *kept, int count, int runs) {
    double ns[2], before[2] = {0, 0};
    uint32_t length_before = 0;
    printf("  a form's bytes: ns a call, vimorake and C, ratio; ns a byte; ns for each byte more than the line above\n");
    for (int i = 0; i < count; i++) {
        uint32_t length = vimorake_length(kept[i].form[kept[i].at]);
        time_form(&kept[i], runs, ns);
        printf("  %6u: %9.1f %9.1f %6.3f; %6.3f %6.3f", length, ns[0], ns[1], ns[0] / ns[1], ns[0] / length, ns[1] / length);
        if (i > 0) printf("; %6.3f %6.3f", (ns[0] - before[0]) / (length - length_before), (ns[1] - before[1]) / (length - length_before));
        printf("\n");
        memcpy(before, ns, sizeof ns);
        length_before = length;
    }
}

int main(int argc, char **argv) {
    static struct test a, b, kept[MOST_FORMS];
    int runs = argc == 3 ? atoi(argv[2]) : -1;
    if (runs < 0) return 2;
    plan_size = load(argv[1], "plan", plan, sizeof plan);
    draws_size = load(argv[1], "draws", draws, sizeof draws);
    int count = hold_together(&a, &b, kept);
    printf("%s, %d runs each: %u after %u draws, %u bytes\n", argv[1], runs, a.answer, a.taken, vimorake_length(a.form[a.at]));
    if (a.taken == 0) fail("no draw was taken");
    if (runs == 0) return 0;
    time_chains(runs);
    time_forms(kept, count, runs);
    return 0;
}
