/* A beginning and a draw by hand in C, shared by bench/bucket_test.c and bench/entries.c. */
#include "bucket_test.h"

/* Of a plan that was judged. */
static struct outcome begin(const struct plan *p, struct state *s, uint64_t *words) {
    memset(words, 0, sizeof *words * WIDE * p->count);
    memset(s, 0, sizeof *s);
    for (int i = 0; i < 10; i++) {
        s->record[i].lower = -1;
        s->record[i].upper = 1;
    }
    for (uint32_t i = 0; i < p->count; i++) words[WIDE * i] = WHOLE;
    return answer_of(p, s);
}

static struct outcome draw(const struct plan *p, struct state *s, uint64_t *words, size_t length, uint8_t d) {
    uint32_t bad = plan_refusal(p);
    if (bad) return outcome(REFUSED, bad);
    if (length != (size_t)WIDE * p->count) return outcome(REFUSED, 8);
    if (d > 1) return outcome(REFUSED, 9);
    enum answer before = answer_of(p, s).answer;
    if (before != OPEN) return outcome(REFUSED, 10);
    if (!state_sound(p, s, words)) return outcome(REFUSED, 11);
    take(p, s, words, d, 1);
    return answer_of(p, s);
}
