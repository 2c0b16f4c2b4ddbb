/* Runs two programs in turn on the same plan and draws, so often, and prints user time, draws per second, the least time of one run, peak
   memory and the ratios. The least time says most: user time comes in ticks on some machines, and both grow with what else runs.
   measure PRODUCT YARDSTICK FOLDER RUNS: FOLDER holds `plan` and `draws`. */
#include <fcntl.h>
#include <stdio.h>
#include <stdlib.h>
#include <string.h>
#include <sys/resource.h>
#include <sys/wait.h>
#include <time.h>
#include <unistd.h>

struct tally {
    double seconds, least;
    long peak;
    char line[80];
};

static void fail(const char *what) {
    perror(what);
    exit(1);
}

static double now(void) {
    struct timespec t;
    if (clock_gettime(CLOCK_MONOTONIC, &t) != 0) fail("clock");
    return t.tv_sec + t.tv_nsec / 1e9;
}

static void run(const char *program, struct tally *t) {
    int out[2], status;
    struct rusage used;
    if (pipe(out) != 0) fail("pipe");
    double start = now();
    pid_t child = fork();
    if (child < 0) fail("fork");
    if (child == 0) {
        int in = open("draws", O_RDONLY);
        if (in < 0 || dup2(in, 0) < 0 || dup2(out[1], 1) < 0) fail("draws");
        execl(program, program, (char *)NULL);
        fail(program);
    }
    close(out[1]);
    ssize_t n = read(out[0], t->line, sizeof t->line - 1);
    close(out[0]);
    if (wait4(child, &status, 0, &used) < 0 || status != 0 || n <= 0) fail(program);
    double took = now() - start;
    if (t->least == 0 || took < t->least) t->least = took;
    t->line[n] = 0;
    t->seconds += used.ru_utime.tv_sec + used.ru_utime.tv_usec / 1e6;
    if (used.ru_maxrss > t->peak) t->peak = used.ru_maxrss;
}

static void show(const char *name, const struct tally *t, double draws) {
    printf("  %-9s user %8.3f s  %10.0f draws/s  least %8.3f ms  peak %ld KB\n", name, t->seconds, draws / t->seconds, t->least * 1e3, t->peak);
}

int main(int argc, char **argv) {
    struct tally product = {0}, yardstick = {0};
    unsigned taken = 0;
    if (argc != 5) return 2;
    char *a = realpath(argv[1], NULL), *b = realpath(argv[2], NULL);
    int runs = atoi(argv[4]);
    if (!a || !b || chdir(argv[3]) != 0) fail(argv[3]);
    for (int i = 0; i < runs; i++) {
        run(a, &product);
        run(b, &yardstick);
        if (strcmp(product.line, yardstick.line) != 0) {
            fprintf(stderr, "they differ: %s and %s", product.line, yardstick.line);
            return 1;
        }
    }
    sscanf(product.line, "%*s %*u %u", &taken);
    printf("%s, %d runs each: %s", argv[3], runs, product.line);
    show("vimorake", &product, (double)taken * runs);
    show("C", &yardstick, (double)taken * runs);
    printf("  ratio of user time %.2f, of the least time %.3f\n", product.seconds / yardstick.seconds, product.least / yardstick.least);
    return 0;
}
