/* The program by hand in C: the same duties for each draw as the proved one. The yardstick of bench/run; no part of the product. */
#include <fcntl.h>
#include <stdio.h>
#include <unistd.h>

#include "drawing.h"

/* --- the stored plan --- */

static uint64_t bytes_at(const uint8_t *b, int n) {
    uint64_t v = 0;
    while (n-- > 0) v = v << 8 | b[n];
    return v;
}

static uint32_t read_plan(const uint8_t *b, size_t n, struct plan *p) {
    memset(p, 0, sizeof *p);
    if (n < 16) return 7;
    p->count = bytes_at(b, 2);
    p->buckets = bytes_at(b + 2, 2);
    if (p->count < 1 || p->count > 10 || p->buckets < 2 || p->buckets > 16) return 1;
    size_t ends = 16 + 12 * p->count;
    if (bytes_at(b + 4, 2) != 16 || bytes_at(b + 6, 2) != ends || n != ends + 8 * p->buckets) return 7;
    p->delay = bytes_at(b + 8, 4);
    p->horizon = bytes_at(b + 12, 4);
    for (uint32_t i = 0; i < p->count; i++) {
        p->threshold[i] = bytes_at(b + 16 + 12 * i, 4);
        p->allowance[i] = bytes_at(b + 20 + 12 * i, 8);
    }
    for (uint32_t j = 0; j < p->buckets; j++) {
        p->left[j] = bytes_at(b + ends + 8 * j, 4);
        p->right[j] = bytes_at(b + ends + 8 * j + 4, 4);
    }
    return plan_refusal(p);
}

/* --- the program --- */

static struct outcome feed(const struct plan *p, struct state *s, uint64_t *words) {
    struct outcome o = begin(p, s, words);
    uint8_t chunk[4096];
    ssize_t got;
    while (o.answer == OPEN && (got = read(0, chunk, sizeof chunk)) > 0)
        for (ssize_t i = 0; i < got && o.answer == OPEN; i++)
            if (chunk[i] != '\n')
                o = draw(p, s, words, (size_t)WIDE * p->count, chunk[i] == '0' ? 0 : chunk[i] == '1' ? 1 : 2);
    return o;
}

int main(void) {
    static const char *const word[] = {"open", "decided", "crossed", "wide", "spent"};
    uint64_t words[WIDE * 10];
    uint8_t bytes[265];
    struct plan p;
    struct state s;
    uint32_t low, high;
    int fd = open("plan", O_RDONLY);
    ssize_t n = fd < 0 ? 0 : read(fd, bytes, sizeof bytes);
    uint32_t bad = read_plan(bytes, n < 0 ? 0 : n, &p);
    if (bad) {
        printf("refused %u\n", bad);
        return 0;
    }
    struct outcome o = feed(&p, &s, words);
    interval(&p, &s, &low, &high);
    if (o.answer == REFUSED) printf("refused %u\n", o.number);
    else printf("%s %u %u %u %u %u\n", word[o.answer], o.number, s.n, s.ones, low, high);
    return 0;
}
