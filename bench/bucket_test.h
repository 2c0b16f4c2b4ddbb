/* What the yardsticks share: the plan's rules, the walk, the answer, what a spoiled state is, and a step of a test. */
#include <stdint.h>
#include <string.h>

#define WIDE 769
#define WHOLE (UINT64_C(1) << 42)
#define MILLION 1000000u

enum mark { OPEN_MARK, ABOVE, AT_MOST };
enum answer { OPEN, DECIDED, CROSSED, IS_WIDE, SPENT, REFUSED };

struct plan {
    uint32_t count, buckets, delay, horizon, points;
    uint32_t threshold[10];
    uint64_t allowance[10];
    uint32_t left[16], right[16];
    uint32_t step[8], share[8];
};

struct record {
    enum mark mark;
    uint32_t at;
    int32_t lower;
    uint32_t upper;
    uint64_t over, under;
    uint32_t rounded;
};

struct state {
    uint32_t n, ones;
    struct record record[10];
};

struct outcome {
    enum answer answer;
    uint32_t number;
};

static struct outcome outcome(enum answer answer, uint32_t number) {
    struct outcome o = {answer, number};
    return o;
}

/* --- the plan's rules --- */

static int is_end(const struct plan *p, uint32_t x) {
    if (x == 0 || x == MILLION) return 1;
    for (uint32_t i = 0; i < p->count; i++)
        if (p->threshold[i] == x) return 1;
    return 0;
}

static int is_covered(const struct plan *p) {
    uint32_t reach = 0;
    for (;;) {
        uint32_t next = reach;
        for (uint32_t j = 0; j < p->buckets; j++)
            if (p->left[j] <= reach && p->right[j] > next) next = p->right[j];
        if (next >= MILLION) return 1;
        if (next == reach) return 0;
        reach = next;
    }
}

static int points_fit(const struct plan *p) {
    if (p->points > 8) return 0;
    for (uint32_t j = 0, step = 0, share = 0; j < p->points; j++) {
        if (p->step[j] <= step || p->step[j] > p->horizon || p->share[j] < share || p->share[j] > MILLION) return 0;
        step = p->step[j];
        share = p->share[j];
    }
    return 1;
}

static uint32_t plan_refusal(const struct plan *p) {
    if (p->count < 1 || p->count > 10 || p->buckets < 2 || p->buckets > 16) return 1;
    for (uint32_t i = 0, before = 0; i < p->count; before = p->threshold[i++])
        if (p->threshold[i] <= before || p->threshold[i] >= MILLION) return 2;
    for (uint32_t i = 1; i < p->count; i++)
        if (p->threshold[i] - p->threshold[i - 1] < 100) return 14;
    for (uint32_t i = 0; i < p->count; i++)
        if (p->allowance[i] < 1 || p->allowance[i] >= WHOLE / 2) return 3;
    if (p->delay < 1 || p->delay > 65535 || p->horizon < 1 || p->horizon > 50000) return 4;
    if (!points_fit(p)) return 16;
    for (uint32_t j = 0; j < p->buckets; j++) {
        uint32_t l = p->left[j], r = p->right[j];
        if (l >= r || (l == 0 && r == MILLION) || !is_end(p, l) || !is_end(p, r)) return 5;
    }
    return is_covered(p) ? 0 : 6;
}

/* --- the walk of one threshold --- */

/* The share of the last point at or before n; 0 before the first. The same for all thresholds. */
static uint32_t share_at(const struct plan *p, uint32_t n) {
    uint32_t share = 0;
    for (uint32_t j = 0; j < p->points && p->step[j] <= n; j++) share = p->share[j];
    return share;
}

/* E(n), with the share at n. */
static uint64_t spending(const struct plan *p, uint32_t i, uint32_t n, uint32_t share) {
    if (p->points) return p->allowance[i] * share / MILLION;
    return p->allowance[i] * n / ((uint64_t)n + p->delay);
}

static int is_wide(const struct record *r) {
    return (int64_t)r->upper - r->lower == WIDE + 1;
}

/* A new mass; whether it was rounded is added to a count, without a branch. */
static uint64_t mass_up(uint64_t sum, uint32_t *rounded) {
    uint64_t mass = (sum + 999999) / 1000000;
    *rounded += sum < mass * 1000000;
    return mass;
}

/* One step. Words behind the live masses are zero after it if it `clears` them: a saved test has none. */
static void walk(uint64_t *restrict mass, struct record *r, uint32_t a, uint64_t e, int clears) {
    uint32_t first = r->lower + 1, n = r->upper - first, rounded = 0;
    uint64_t prev = 0, stay = MILLION - a, come = a;
    for (uint32_t i = 0; i < n; i++) {
        uint64_t x = mass[i];
        mass[i] = mass_up(x * stay + prev * come, &rounded);
        prev = x;
    }
    mass[n] = mass_up(prev * come, &rounded);
    uint32_t hi = n + 1, lo = 0;
    uint64_t over = r->over, under = r->under;
    while (hi > 0 && over + mass[hi - 1] <= e) over += mass[--hi];
    while (lo < hi && under + mass[lo] <= e) under += mass[lo++];
    if (lo > 0) memmove(mass, mass + lo, (hi - lo) * sizeof *mass);
    if (clears) memset(mass + (hi - lo), 0, (WIDE - (hi - lo)) * sizeof *mass);
    r->upper = first + hi;
    r->lower += lo;
    r->over = over;
    r->under = under;
    r->rounded += rounded;
}

/* --- the answer --- */

static void interval(const struct plan *p, const struct state *s, uint32_t *low, uint32_t *high) {
    *low = 0;
    *high = MILLION;
    for (uint32_t i = 0; i < p->count; i++) {
        uint32_t t = p->threshold[i];
        if (s->record[i].mark == ABOVE && t > *low) *low = t;
        if (s->record[i].mark == AT_MOST && t < *high) *high = t;
    }
}

static struct outcome answer_of(const struct plan *p, const struct state *s) {
    uint32_t low, high;
    interval(p, s, &low, &high);
    if (low > high) return outcome(CROSSED, 0);
    uint32_t number = 0, width = 0;
    for (uint32_t j = 0; j < p->buckets; j++)
        if (p->left[j] <= low && high <= p->right[j] && (!number || p->right[j] - p->left[j] < width)) {
            number = j + 1;
            width = p->right[j] - p->left[j];
        }
    if (number) return outcome(DECIDED, number);
    for (uint32_t i = 0; i < p->count; i++)
        if (s->record[i].mark == OPEN_MARK && is_wide(&s->record[i])) return outcome(IS_WIDE, 0);
    return outcome(s->n == p->horizon ? SPENT : OPEN, 0);
}

/* --- spoiled states --- */

static int is_sound(const uint64_t *mass, const struct record *r, uint32_t n, uint32_t ones, uint64_t e) {
    int64_t apart = (int64_t)r->upper - r->lower;
    if (r->lower < -1 || r->upper > (uint64_t)n + 1 || apart < 2 || apart > WIDE + 1) return 0;
    if ((int64_t)ones <= r->lower || ones >= r->upper || r->over > e || r->under > e) return 0;
    uint64_t live = 0;
    for (int64_t i = 0; i < apart - 1; i++) {
        if (mass[i] > UINT64_C(1) << 43) return 0;
        live += mass[i];
    }
    return live + r->over + r->under >= WHOLE;
}

static int state_sound(const struct plan *p, const struct state *s, const uint64_t *words) {
    if (s->n > p->horizon || s->ones > s->n) return 0;
    uint32_t share = share_at(p, s->n);
    for (uint32_t i = 0; i < p->count; i++) {
        const struct record *r = &s->record[i];
        if (r->rounded > (uint64_t)WIDE * s->n) return 0;
        if (r->mark != OPEN_MARK) {
            if (r->at < 1 || r->at > s->n) return 0;
        } else if (!is_sound(words + WIDE * i, r, s->n, s->ones, spending(p, i, s->n, share))) {
            return 0;
        }
    }
    return 1;
}

/* --- a draw that nothing refuses --- */

static void take(const struct plan *p, struct state *s, uint64_t *words, uint32_t d, int clears) {
    s->n++;
    s->ones += d;
    uint32_t share = share_at(p, s->n);
    for (uint32_t i = 0; i < p->count; i++) {
        struct record *r = &s->record[i];
        if (r->mark != OPEN_MARK) continue;
        walk(words + WIDE * i, r, p->threshold[i], spending(p, i, s->n, share), clears);
        if (s->ones >= r->upper) r->mark = ABOVE;
        else if ((int64_t)s->ones <= r->lower) r->mark = AT_MOST;
        if (r->mark != OPEN_MARK) r->at = s->n;
    }
}
