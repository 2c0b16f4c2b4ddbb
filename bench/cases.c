/* Writes the cases of the benchmark, a folder each with a plan and its draws: cases FOLDER. */
#include <stdint.h>
#include <stdio.h>
#include <stdlib.h>
#include <sys/stat.h>
#include <unistd.h>

static FILE *file;

static void put(uint64_t v, int bytes) {
    for (; bytes > 0; bytes--, v >>= 8) fputc(v & 255, file);
}

static void open_file(const char *name) {
    file = fopen(name, "wb");
    if (!file) {
        perror(name);
        exit(1);
    }
}

/* Adjacent buckets between the thresholds; of every `period` draws the last is a one, so that the test stays open. */
static void write_case(const char *name, const uint32_t *t, int count, uint64_t allowance, uint32_t horizon, int period) {
    mkdir(name, 0777);
    if (chdir(name) != 0) exit(1);
    open_file("plan");
    put(count, 2), put(count + 1, 2), put(16, 2), put(16 + 12 * count, 2), put(1000, 4), put(horizon, 4);
    for (int i = 0; i < count; i++) put(t[i], 4), put(allowance, 8);
    for (int j = 0; j <= count; j++) put(j == 0 ? 0 : t[j - 1], 4), put(j == count ? 1000000 : t[j], 4);
    fclose(file);
    open_file("draws");
    for (uint32_t n = 1; n <= horizon; n++) fputc(n % period == 0 ? '1' : '0', file);
    fclose(file);
    if (chdir("..") != 0) exit(1);
}

int main(int argc, char **argv) {
    static const uint32_t star[] = {500, 1000, 2000, 8000, 10000, 12000, 45000, 50000, 55000};
    static const uint32_t half[] = {500000}, twentieth[] = {50000};
    static const uint32_t ten[] = {499550, 499650, 499750, 499850, 499950, 500050, 500150, 500250, 500350, 500450};
    if (argc != 2 || (mkdir(argv[1], 0777), chdir(argv[1])) != 0) return 2;
    write_case("star", star, 9, 488671834, 50000, 100);
    write_case("half", half, 1, 1000000, 50000, 2);
    write_case("plan-f", twentieth, 1, 4398046511, 200, 20);
    write_case("ten", ten, 10, 1000000, 50000, 2); /* for the longest forms: all ten stay open until they are wide */
    return 0;
}
