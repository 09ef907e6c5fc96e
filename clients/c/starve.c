/* Has each allocation of some calls fail in turn:

     starve SCRIPT TRANSCRIPT [POLICY PROFILE]
     starve check CHECKS REPORT [POLICY PROFILE]

   The first does so with a run, and with a profile that is learned; with a policy also with the table of rights, and
   with why the script's second command is answered so after the first. The second does so with a check.
   Then the status is LANDTREE_NO_MEMORY, or that of an opening that is refused for want of memory; or a run's answer
   has lines that are refused so, by which tests may fail; and as much memory is given back as was taken. Prints a line
   for each call. */
#include "landtree.h"
#include <stdio.h>
#include <stdlib.h>
#include <string.h>

static long left = -1, calls, blocks;
static char nothing[1];

static struct rattle_tried tried(void *bytes) {
    struct rattle_tried it = {bytes != NULL, bytes != NULL ? bytes : nothing};
    return it;
}

static int is_refused(void) {
    calls++;
    return left >= 0 && left-- == 0;
}

struct rattle_tried rattle_alloc(size_t size, size_t align) {
    if (is_refused()) return tried(NULL);
    blocks++;
    return tried(malloc(size != 0 ? size : align));
}

struct rattle_tried rattle_realloc(void *bytes, size_t kept, size_t size, size_t align) {
    (void)kept;
    return tried(is_refused() ? NULL : realloc(bytes, size != 0 ? size : align));
}

void rattle_dealloc(void *bytes) {
    blocks--;
    free(bytes);
}

static char *read_file(const char *path) {
    char *bytes = calloc(1, 1 << 20);
    FILE *file = fopen(path, "rb");
    if (file == NULL || fread(bytes, 1, (1 << 20) - 1, file) == 0) {
        perror(path);
        exit(1);
    }
    fclose(file);
    return bytes;
}

static const char *script, *policy = "", *profile = "";
static uint8_t out[1 << 20], first[sizeof out], history[1 << 12];
static size_t length, history_length;

static const uint8_t *bytes(const char *text) { return (const uint8_t *)text; }

static uint32_t run(void) {
    return landtree_run(0, 4096, 1000, 0, bytes(policy), strlen(policy), bytes(profile), strlen(profile), bytes(script),
                        strlen(script), out, sizeof out, &length);
}

static uint32_t check(void) {
    return landtree_check(0, 4096, LANDTREE_REPORT_USUAL, bytes(policy), strlen(policy), bytes(profile),
                          strlen(profile), bytes("checks"), 6, bytes(script), strlen(script), out, sizeof out, &length);
}

static uint32_t rights(void) {
    return landtree_rights(4096, LANDTREE_TABLE_JSON, bytes(policy), strlen(policy), bytes(profile), strlen(profile),
                           bytes(""), 0, out, sizeof out, &length);
}

/* Why the script's second command is answered as it is, after the first. */
static uint32_t why(void) {
    size_t line = strcspn(script, "\n") + 1;
    return landtree_why(4096, bytes(policy), strlen(policy), bytes(profile), strlen(profile), bytes(script),
                        line + strcspn(script + line, "\n"), out, sizeof out, &length);
}

static uint32_t learn(void) {
    return landtree_learn(1, 3, bytes("refer"), 5, bytes("/\n"), 2, bytes("a-1"), 3, history, history_length, out,
                          sizeof out, &length);
}

/* Makes the history that a profile is learned from. */
static void make_history(void) {
    static const char made[] = "make dir /a\nmake reg /a/f\nopen rw /a/f\nlist /\n";
    left = -1;
    if (landtree_history(0, 4096, 0, bytes(""), 0, bytes(""), 0, bytes(made), strlen(made), history, sizeof history,
                         &history_length) != 0) {
        printf("there is no history\n");
        exit(1);
    }
}

/* What else may come of a call than its whole answer or LANDTREE_NO_MEMORY. */
enum { REFUSED_OPENING = 1, REFUSED_LINES = 2, FAILED_TESTS = 4 };

static int may_come(uint32_t status, int is_same, int others) {
    switch (status) {
    case LANDTREE_DONE: return is_same || (others & REFUSED_LINES);
    case LANDTREE_WRONG: return others & REFUSED_OPENING;
    case LANDTREE_ENDED: return !is_same && (others & FAILED_TESTS);
    default: return status == LANDTREE_NO_MEMORY;
    }
}

/* Prints what is wrong, and ends. */
static void fail(const char *name, uint32_t status, const char *what, long round) {
    printf("%s: status %u, %s when allocation %ld fails\n", name, (unsigned)status, what, round);
    exit(1);
}

/* Makes the call, whose answer is the wanted one if that isn't null, and again with each allocation failing in turn. */
static void starve(const char *name, uint32_t (*call)(void), const char *wanted, int others) {
    size_t first_length = 0;
    long count[LANDTREE_TOO_SHORT] = {0}, other = 0, round = -1;
    for (;; round++) {
        left = round;
        calls = 0;
        uint32_t status = call();
        if (round < 0) {
            if (status != LANDTREE_DONE) fail(name, status, "no answer", round);
            if (wanted != NULL && (length != strlen(wanted) || memcmp(out, wanted, length) != 0))
                fail(name, status, "another answer than is wanted", round);
            memcpy(first, out, first_length = length);
        }
        int is_same = length == first_length && memcmp(out, first, length) == 0;
        if (blocks != 0) fail(name, status, "blocks are kept", round);
        if (!may_come(status, is_same, others)) fail(name, status, "another answer", round);
        count[status]++;
        other += status == LANDTREE_ENDED || (status == LANDTREE_DONE && !is_same);
        /* The last round was asked for fewer allocations than it could have refused. */
        if (left >= 0 && round >= 0) break;
    }
    printf("%s: %ld allocations failed in turn: %ld without an answer, %ld with refused lines, %ld as ever\n", name,
           round, count[LANDTREE_WRONG] + count[LANDTREE_NO_MEMORY], other,
           count[LANDTREE_DONE] + count[LANDTREE_ENDED] - other - 1);
}

int main(int argc, char **argv) {
    int is_check = argc > 1 && strcmp(argv[1], "check") == 0;
    argc -= is_check;
    argv += is_check;
    if (argc != 3 && argc != 5) return 2;
    script = read_file(argv[1]);
    const char *wanted = read_file(argv[2]);
    if (argc == 5) {
        policy = read_file(argv[3]);
        profile = argv[4];
    }
    if (is_check) {
        starve("check", check, wanted, REFUSED_OPENING | REFUSED_LINES | FAILED_TESTS);
        return 0;
    }
    starve("run", run, wanted, REFUSED_OPENING | REFUSED_LINES);
    if (argc == 5) {
        starve("rights", rights, NULL, REFUSED_OPENING);
        starve("why", why, NULL, REFUSED_OPENING);
    }
    make_history();
    starve("learn", learn, NULL, 0);
    return 0;
}
