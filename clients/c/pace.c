/* Measures landtree_run:  pace SCRIPT LONG

   Prints the nanoseconds that a run of SCRIPT takes, the median of five rounds of 2,000 runs and the least; the bytes
   of the heap that are still held after 100,000 more; and the seconds of the processor that a run of LONG takes. */
#define _GNU_SOURCE
#include "landtree.h"
#include <malloc.h>
#include <stdio.h>
#include <stdlib.h>
#include <time.h>

enum { ROUNDS = 5, RUNS = 2000, MORE = 100000 };

struct text {
    uint8_t *bytes;
    size_t length;
};

static const uint8_t nothing[1];

static void *block(size_t size) {
    void *bytes = malloc(size);
    if (bytes == NULL) {
        fputs("pace: no memory\n", stderr);
        exit(1);
    }
    return bytes;
}

static struct text read_file(const char *path) {
    FILE *file = fopen(path, "rb");
    long length = -1;
    if (file != NULL && fseek(file, 0, SEEK_END) == 0) length = ftell(file);
    if (length < 0) {
        perror(path);
        exit(1);
    }
    rewind(file);
    struct text it = {block((size_t)length + 1), (size_t)length};
    if (fread(it.bytes, 1, it.length, file) != it.length) {
        perror(path);
        exit(1);
    }
    fclose(file);
    return it;
}

/* Runs the script, and returns the status. The length is that of the transcript. */
static uint32_t run(struct text script, struct text *out, size_t *length) {
    return landtree_run(0, 4096, 0, 0, nothing, 0, nothing, 0, script.bytes, script.length, out->bytes, out->length,
                        length);
}

/* Returns a buffer with room for the script's transcript. */
static struct text room_for(struct text script) {
    struct text out = {block(1), 1};
    size_t length;
    if (run(script, &out, &length) == LANDTREE_TOO_SHORT) {
        free(out.bytes);
        out = (struct text){block(length), length};
    }
    return out;
}

static void run_well(struct text script, struct text *out) {
    size_t length;
    uint32_t status = run(script, out, &length);
    if (status != LANDTREE_DONE) {
        fprintf(stderr, "pace: a run has the status %u\n", (unsigned)status);
        exit(1);
    }
}

static double seconds(clockid_t clock) {
    struct timespec it;
    clock_gettime(clock, &it);
    return (double)it.tv_sec + (double)it.tv_nsec / 1e9;
}

static size_t held(void) {
    struct mallinfo2 it = mallinfo2();
    return it.uordblks + it.hblkhd;
}

static int compare(const void *a, const void *b) {
    double x = *(const double *)a, y = *(const double *)b;
    return (x > y) - (x < y);
}

int main(int argc, char **argv) {
    if (argc != 3) {
        fprintf(stderr, "usage: %s SCRIPT LONG\n", argv[0]);
        return 2;
    }
    struct text script = read_file(argv[1]), longer = read_file(argv[2]);
    struct text out = room_for(script), longer_out = room_for(longer);
    double rounds[ROUNDS];
    for (int round = 0; round < ROUNDS; round++) {
        double began = seconds(CLOCK_MONOTONIC);
        for (int i = 0; i < RUNS; i++) run_well(script, &out);
        rounds[round] = (seconds(CLOCK_MONOTONIC) - began) / RUNS * 1e9;
    }
    qsort(rounds, ROUNDS, sizeof rounds[0], compare);
    size_t before = held();
    for (int i = 0; i < MORE; i++) run_well(script, &out);
    size_t after = held();
    double began = seconds(CLOCK_PROCESS_CPUTIME_ID);
    run_well(longer, &longer_out);
    double lasted = seconds(CLOCK_PROCESS_CPUTIME_ID) - began;
    printf("%.0f %.0f %td %.6f\n", rounds[ROUNDS / 2], rounds[0], (ptrdiff_t)(after - before), lasted);
    free(script.bytes);
    free(longer.bytes);
    free(out.bytes);
    free(longer_out.bytes);
    return 0;
}
