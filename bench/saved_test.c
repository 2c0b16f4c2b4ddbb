/* The calls of include/vimorake.h by hand in C: the same duties as the proved ones. The yardstick of bench/calls.c; no part of the product. */
#include "../include/vimorake.h"
#include "bucket_test.h"

#define HEADER 24
#define RECORD 36
#define MASS sizeof(uint64_t)

#if __BYTE_ORDER__ != __ORDER_LITTLE_ENDIAN__
#error "numbers are copied as they stand: little-endian only"
#endif

static uint16_t get2(const uint8_t *b) {
    uint16_t v;
    memcpy(&v, b, sizeof v);
    return v;
}

static uint32_t get4(const uint8_t *b) {
    uint32_t v;
    memcpy(&v, b, sizeof v);
    return v;
}

static uint64_t get8(const uint8_t *b) {
    uint64_t v;
    memcpy(&v, b, sizeof v);
    return v;
}

static void put2(uint8_t *b, uint16_t v) { memcpy(b, &v, sizeof v); }
static void put4(uint8_t *b, uint32_t v) { memcpy(b, &v, sizeof v); }
static void put8(uint8_t *b, uint64_t v) { memcpy(b, &v, sizeof v); }

/* --- the stored plan (rules 2) --- */

static uint32_t read_plan(const uint8_t *b, size_t n, struct plan *p) {
    if (n < 16) return 7;
    p->count = get2(b);
    p->buckets = get2(b + 2);
    if (p->count < 1 || p->count > 10 || p->buckets < 2 || p->buckets > 16) return 1;
    size_t ends = 16 + 12 * p->count;
    if (get2(b + 4) != 16 || get2(b + 6) != ends || n != ends + 8 * p->buckets) return 7;
    p->delay = get4(b + 8);
    p->horizon = get4(b + 12);
    p->points = 0;
    for (uint32_t i = 0; i < p->count; i++) {
        p->threshold[i] = get4(b + 16 + 12 * i);
        p->allowance[i] = get8(b + 20 + 12 * i);
    }
    for (uint32_t j = 0; j < p->buckets; j++) {
        p->left[j] = get4(b + ends + 8 * j);
        p->right[j] = get4(b + ends + 8 * j + 4);
    }
    return plan_refusal(p);
}

/* --- reading: refusal 15 (saved 3) --- */

/* A record, and how many masses it counts; -1 for an unknown mark or open boundaries too close or too far apart. */
static int64_t get_record(const uint8_t *b, struct record *r) {
    uint32_t mark = get4(b);
    r->at = get4(b + 4);
    r->lower = (int32_t)get4(b + 8);
    r->upper = get4(b + 12);
    r->over = get8(b + 16);
    r->under = get8(b + 24);
    r->rounded = get4(b + 32);
    if (mark > AT_MOST) return -1;
    r->mark = (enum mark)mark;
    if (mark != OPEN_MARK) return 0;
    int64_t masses = (int64_t)r->upper - r->lower - 1;
    return r->at != 0 || masses < 1 || masses > WIDE ? -1 : masses;
}

static int read_test(const struct plan *p, const uint8_t *b, size_t size, struct state *s, uint64_t *words) {
    size_t offset = HEADER + RECORD * p->count, masses = 0;
    if (size < offset || get2(b) != p->count || get2(b + 4) != HEADER || get2(b + 6) != offset || get2(b + 20) != RECORD || get2(b + 22) != MASS)
        return 0;
    s->n = get4(b + 12);
    s->ones = get4(b + 16);
    for (uint32_t i = 0; i < p->count; i++) {
        int64_t more = get_record(b + HEADER + RECORD * i, &s->record[i]);
        if (more < 0) return 0;
        masses += (size_t)more;
    }
    if (get2(b + 2) != masses || get4(b + 8) != size || size != offset + MASS * masses) return 0;
    for (uint32_t i = 0; i < p->count; i++) {
        if (s->record[i].mark != OPEN_MARK) continue;
        size_t part = MASS * (s->record[i].upper - s->record[i].lower - 1);
        memcpy(words + WIDE * i, b + offset, part);
        offset += part;
    }
    return 1;
}

/* --- writing: refusal 12 (saved 2) --- */

static size_t masses_of(const struct record *r) { return r->mark == OPEN_MARK ? r->upper - r->lower - 1 : 0; }

static int write_test(const struct plan *p, const struct state *s, const uint64_t *words, uint8_t *b, size_t room) {
    size_t offset = HEADER + RECORD * p->count, masses = 0;
    for (uint32_t i = 0; i < p->count; i++) masses += masses_of(&s->record[i]);
    if (room < offset + MASS * masses) return 0;
    put2(b, (uint16_t)p->count);
    put2(b + 2, (uint16_t)masses);
    put2(b + 4, HEADER);
    put2(b + 6, (uint16_t)offset);
    put4(b + 8, (uint32_t)(offset + MASS * masses));
    put4(b + 12, s->n);
    put4(b + 16, s->ones);
    put2(b + 20, RECORD);
    put2(b + 22, MASS);
    for (uint32_t i = 0; i < p->count; i++) {
        const struct record *r = &s->record[i];
        uint8_t *at = b + HEADER + RECORD * i;
        put4(at, r->mark);
        put4(at + 4, r->at);
        put4(at + 8, (uint32_t)r->lower);
        put4(at + 12, r->upper);
        put8(at + 16, r->over);
        put8(at + 24, r->under);
        put4(at + 32, r->rounded);
        memcpy(b + offset, words + WIDE * i, MASS * masses_of(r));
        offset += MASS * masses_of(r);
    }
    return 1;
}

/* --- the calls (saved 6) --- */

static uint32_t number_of(struct outcome o) {
    static const uint32_t number[] = {VIMORAKE_OPEN, VIMORAKE_BUCKET(0), VIMORAKE_CROSSED, VIMORAKE_WIDE, VIMORAKE_SPENT};
    return number[o.answer] + o.number;
}

uint32_t vimorake_begin(const uint8_t *plan, size_t plan_size, uint8_t *lent, size_t lent_size) {
    struct plan p;
    struct state s = {0};
    uint64_t words[WIDE * 10];
    uint32_t bad = read_plan(plan, plan_size, &p);
    if (bad) return bad;
    for (uint32_t i = 0; i < p.count; i++) {
        s.record[i].lower = -1;
        s.record[i].upper = 1;
        words[WIDE * i] = WHOLE;
    }
    return write_test(&p, &s, words, lent, lent_size) ? VIMORAKE_OPEN : 12;
}

uint32_t vimorake_draw(const uint8_t *plan, size_t plan_size, const uint8_t *saved, size_t saved_size, uint32_t draw, uint8_t *lent,
                       size_t lent_size) {
    struct plan p;
    struct state s;
    uint64_t words[WIDE * 10];
    uint32_t bad = read_plan(plan, plan_size, &p);
    if (bad) return bad;
    if (!read_test(&p, saved, saved_size, &s, words)) return 15;
    if (draw > 1) return 9;
    if (answer_of(&p, &s).answer != OPEN) return 10;
    if (!state_sound(&p, &s, words)) return 11;
    take(&p, &s, words, draw, 0);
    return write_test(&p, &s, words, lent, lent_size) ? number_of(answer_of(&p, &s)) : 12;
}
