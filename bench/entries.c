/* The library's entries, those of the crate `host`, beside the same by hand in C, bench/drawing.h, on plans with points, which no stored plan can hold
   yet, and without. It fails where an answer, a state, the words or the interval differ after a draw. Then it times both in turn: nanoseconds a
   draw over the whole chain of a case. The library's plan and state go in and out by value; those copies are timed with it.
   entries CASE POINTS RUNS: the plan carries the first POINTS of the case's points. With 0 runs nothing is timed, and each side has taken every draw
   once. */
#include <stdio.h>
#include <stdlib.h>
#include <time.h>

#include "drawing.h"

#define MOST_DRAWS 50000
#define BLOCK 250
#define APART __attribute__((noipa)) /* as a function of another file */

/* --- the cases: adjacent buckets between the thresholds; of every `period` draws the last is a one; points lie `gap` steps apart --- */

static const struct test_case {
    const char *name;
    uint32_t count, threshold[10];
    uint64_t allowance;
    uint32_t horizon, period, gap;
} cases[] = {
    {"star", 9, {500, 1000, 2000, 8000, 10000, 12000, 45000, 50000, 55000}, 488671834, 50000, 100, 700},
    {"half", 1, {500000}, 1000000, 50000, 2, 300},
    {"plan-f", 1, {50000}, 4398046511, 200, 20, 25},
};

static const uint32_t shares[8] = {1000, 10000, 50000, 100000, 200000, 400000, 700000, 1000000};

/* --- the library's types: a state lies as an outcome and a state of bench/bucket_test.h do --- */

struct host_plan {
    uint32_t refusal, count, buckets, delay, horizon, points;
    uint32_t threshold[10];
    uint64_t allowance[10];
    uint32_t left[16], right[16];
    uint32_t step[8], share[8];
};

struct drawn {
    struct outcome outcome;
    struct state state;
};

struct report {
    struct outcome outcome;
    uint32_t low, high;
};

struct drawn host_begin(struct host_plan p, uint64_t *words, size_t length);
struct drawn host_draw(struct host_plan p, struct drawn s, uint64_t *words, size_t length, uint8_t d);
struct report host_report_on(struct host_plan p, struct drawn s);

/* --- both sides --- */

struct test {
    struct drawn drawn;
    uint64_t words[WIDE * 10];
};

static struct plan plan;
static struct host_plan host_plan;
static size_t length;
static uint8_t draws[MOST_DRAWS];

static void make_plans(const struct test_case *c, uint32_t points) {
    plan = (struct plan){.count = c->count, .buckets = c->count + 1, .delay = 1000, .horizon = c->horizon, .points = points};
    for (uint32_t i = 0; i < c->count; i++) {
        plan.threshold[i] = plan.right[i] = plan.left[i + 1] = c->threshold[i];
        plan.allowance[i] = c->allowance;
    }
    plan.right[c->count] = MILLION;
    for (uint32_t j = 0; j < points; j++) {
        plan.step[j] = (j + 1) * c->gap;
        plan.share[j] = shares[j];
    }
    host_plan = (struct host_plan){
        .count = plan.count, .buckets = plan.buckets, .delay = plan.delay, .horizon = plan.horizon, .points = plan.points};
#define COPY(table) memcpy(host_plan.table, plan.table, sizeof plan.table)
    COPY(threshold), COPY(allowance), COPY(left), COPY(right), COPY(step), COPY(share);
    length = (size_t)WIDE * c->count;
    for (uint32_t n = 1; n <= c->horizon; n++) draws[n - 1] = n % c->period == 0;
}

static APART void library_begin(struct test *t) { t->drawn = host_begin(host_plan, t->words, length); }
static APART void library_draw(struct test *t, uint8_t d) { t->drawn = host_draw(host_plan, t->drawn, t->words, length, d); }
static APART void by_hand_begin(struct test *t) { t->drawn.outcome = begin(&plan, &t->drawn.state, t->words); }
static APART void by_hand_draw(struct test *t, uint8_t d) { t->drawn.outcome = draw(&plan, &t->drawn.state, t->words, length, d); }

static const struct side {
    void (*begin)(struct test *);
    void (*draw)(struct test *, uint8_t);
} both[2] = {{library_begin, library_draw}, {by_hand_begin, by_hand_draw}};

static int goes_on(const struct test *t) { return t->drawn.outcome.answer == OPEN; }
static void next(const struct side *side, struct test *t) { side->draw(t, draws[t->drawn.state.n]); }

/* --- held against each other --- */

static int same_outcome(struct outcome a, struct outcome b) { return a.answer == b.answer && a.number == b.number; }

static int same_state(const struct state *a, const struct state *b) {
    int same = a->n == b->n && a->ones == b->ones;
    for (int i = 0; i < 10; i++) {
        const struct record *r = &a->record[i], *q = &b->record[i];
        same &= r->mark == q->mark && r->at == q->at && r->lower == q->lower && r->upper == q->upper && r->over == q->over &&
                r->under == q->under && r->rounded == q->rounded;
    }
    return same;
}

static struct report compare(const struct test *a, const struct test *b) {
    struct report report = host_report_on(host_plan, a->drawn);
    uint32_t low, high;
    interval(&plan, &b->drawn.state, &low, &high);
    if (!same_outcome(a->drawn.outcome, b->drawn.outcome) || !same_outcome(report.outcome, b->drawn.outcome) ||
        !same_state(&a->drawn.state, &b->drawn.state) || report.low != low || report.high != high ||
        memcmp(a->words, b->words, sizeof a->words) != 0) {
        fprintf(stderr, "entries: they differ after %u draws: %u %u and %u %u\n", b->drawn.state.n, a->drawn.outcome.answer,
                a->drawn.outcome.number, b->drawn.outcome.answer, b->drawn.outcome.number);
        exit(1);
    }
    return report;
}

static struct report hold_together(struct test *a, struct test *b) {
    both[0].begin(a);
    both[1].begin(b);
    struct report report = compare(a, b);
    while (goes_on(a)) {
        next(&both[0], a);
        next(&both[1], b);
        report = compare(a, b);
    }
    return report;
}

/* --- timed: the least of all runs, in which both take turns, block by block --- */

static double now(void) {
    struct timespec t;
    if (clock_gettime(CLOCK_MONOTONIC, &t) != 0) exit(1);
    return (double)t.tv_sec * 1e9 + (double)t.tv_nsec;
}

static void time_block(const struct side *side, struct test *t, double *least) {
    double start = now();
    for (int i = 0; i < BLOCK && goes_on(t); i++) next(side, t);
    double took = now() - start;
    if (*least == 0 || took < *least) *least = took;
}

static void time_chains(struct test *t, int runs) {
    static double least[2][MOST_DRAWS / BLOCK + 1];
    double ns[2] = {0, 0};
    for (int i = 0; i < runs; i++) {
        for (int k = 0; k < 2; k++) both[k].begin(&t[k]);
        for (int block = 0; goes_on(&t[0]); block++) {
            int first = i & 1;
            time_block(&both[first], &t[first], &least[first][block]);
            time_block(&both[!first], &t[!first], &least[!first][block]);
        }
    }
    for (int k = 0; k < 2; k++)
        for (int i = 0; i <= MOST_DRAWS / BLOCK; i++) ns[k] += least[k][i] / t[k].drawn.state.n;
    printf("  %.1f ns a draw, C %.1f, ratio %.3f\n", ns[0], ns[1], ns[0] / ns[1]);
}

int main(int argc, char **argv) {
    static const char *const word[] = {"open", "decided", "crossed", "wide", "spent", "refused"};
    static struct test t[2];
    if (argc != 4) return 2;
    int points = atoi(argv[2]), runs = atoi(argv[3]);
    const struct test_case *c = cases;
    while (c < cases + sizeof cases / sizeof *cases && strcmp(c->name, argv[1]) != 0) c++;
    if (c == cases + sizeof cases / sizeof *cases || points < 0 || points > 8 || runs < 0) return 2;
    make_plans(c, (uint32_t)points);
    struct report r = hold_together(&t[0], &t[1]);
    printf("%s, points %d, %d runs each: %s %u %u %u %u %u\n", c->name, points, runs, word[r.outcome.answer], r.outcome.number, t[0].drawn.state.n,
           t[0].drawn.state.ones, r.low, r.high);
    if (t[0].drawn.state.n == 0) return 1;
    if (runs > 0) time_chains(t, runs);
    return 0;
}
