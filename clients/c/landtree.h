/* Landtree in a program: a tree of files in memory, whose clients confine themselves by Landlock's rules.

   Each function makes what it needs anew, gives its answer, and forgets it: there is nothing to open or to close, and
   threads may call at will. An answer is a status and a text. docs/EMBEDDING.md says what each function answers. */
#ifndef LANDTREE_H
#define LANDTREE_H

#include <stddef.h>
#include <stdint.h>

#ifdef __cplusplus
extern "C" {
#endif

/* The version of these functions: what landtree_version returns. */
#define LANDTREE_VERSION 1

/* The statuses are those of the program, and one more. */
enum landtree_status {
    LANDTREE_DONE = 0,      /* the text is the answer */
    LANDTREE_TOO_LONG = 1,  /* the script is too long */
    LANDTREE_WRONG = 2,     /* a number or a text is wrong, or the opening is refused: the text tells which */
    LANDTREE_ENDED = 3,     /* the text is the answer: a strict run ended early, a history isn't legal or teaches
                               nothing, or a check doesn't pass */
    LANDTREE_NO_MEMORY = 4, /* memory ran out */
    LANDTREE_TOO_SHORT = 5  /* the buffer has no room for the answer: nothing is written */
};

/* A text is a pointer and a length. No pointer may be null, also if its length is 0. The answer's text goes to
   `out[0..capacity]`, if there is room for all of it. `*length` gets its length anyway. Neither may overlap anything
   else that is passed. */

uint32_t landtree_version(void);

/* Runs a script. The level is 1 to 3, or 0 for the newest; with a policy it is 0. `nodes` is 1 to 4096, `history` 1 to
   1000000, or 0 for as much as the script may need. An empty policy or profile isn't given; a profile is given only
   with a policy. The answer is a line for each line of the script. A run with `strict` other than 0 ends at the first
   line that spells no command, or that isn't made for want of room or memory, and at a refused layer. */
uint32_t landtree_run(uint64_t level, size_t nodes, size_t history, uint32_t strict,
                      const uint8_t *policy, size_t policy_length,
                      const uint8_t *profile, size_t profile_length,
                      const uint8_t *script, size_t script_length,
                      uint8_t *out, size_t capacity, size_t *length);

/* Runs a script, as above without `strict`. The answer is the run's saved history. */
uint32_t landtree_history(uint64_t level, size_t nodes, size_t history,
                          const uint8_t *policy, size_t policy_length,
                          const uint8_t *profile, size_t profile_length,
                          const uint8_t *script, size_t script_length,
                          uint8_t *out, size_t capacity, size_t *length);

/* Reports whether a text is a policy: 0 without a text, or LANDTREE_WRONG and its first fault. */
uint32_t landtree_policy(const uint8_t *policy, size_t policy_length,
                         uint8_t *out, size_t capacity, size_t *length);

/* Judges a saved history. The answer is the verdict's line. */
uint32_t landtree_audit(const uint8_t *history, size_t history_length,
                        uint8_t *out, size_t capacity, size_t *length);

/* Learns a profile for what a client did in a saved history. It has no right to spare. The client 0 is the second that
   connects, or the only one. `most` is the most rules, 1 to 256, or 0 for 256. `never` has rights that no rule may
   grant, with commas between, in their order, or is empty. `beneath` has a directory in each line, whose rule grants
   what is needed below it, or is empty. `name` is the profile's, of 1 to 32 of `a` to `z`, `0` to `9` and `-`; an empty
   one stands for `learned`. The answer is the profile, to be put behind the nodes of a policy; with LANDTREE_ENDED one
   line on why nothing is learned: the history's line, if it is about one, and what is wrong there. */
uint32_t landtree_learn(uint64_t client, size_t most,
                        const uint8_t *never, size_t never_length,
                        const uint8_t *beneath, size_t beneath_length,
                        const uint8_t *name, size_t name_length,
                        const uint8_t *history, size_t history_length,
                        uint8_t *out, size_t capacity, size_t *length);

/* Tells why the entry with this number, from 1, of a saved history was answered so. */
uint32_t landtree_why_entry(size_t number,
                            const uint8_t *history, size_t history_length,
                            uint8_t *out, size_t capacity, size_t *length);

/* Tells why a command of a policy's profile is answered as it is. `commands` has one or more commands, one a line; the
   last one is explained, in the tree that those before it leave. The last line may lack its line feed. LANDTREE_WRONG
   is also an empty policy or profile, a line that is no command, and no line at all. */
uint32_t landtree_why(size_t nodes,
                      const uint8_t *policy, size_t policy_length,
                      const uint8_t *profile, size_t profile_length,
                      const uint8_t *commands, size_t commands_length,
                      uint8_t *out, size_t capacity, size_t *length);

/* The forms of a table of rights: what is written of a path. */
enum landtree_table {
    LANDTREE_TABLE_USUAL = 0,  /* a line with the rights that all layers grant */
    LANDTREE_TABLE_LAYERS = 1, /* and with a column for each layer */
    LANDTREE_TABLE_JSON = 2    /* an object of JSON on a line, with all layers */
};

/* Tells which rights a policy's profile is granted. Each line of `paths` is a path; the last one may lack its line
   feed. The answer has a line for each path, or if `paths` is empty for each node of the policy. LANDTREE_WRONG is also
   another form, an empty policy or profile, and a line that is no path. */
uint32_t landtree_rights(size_t nodes, uint32_t form,
                         const uint8_t *policy, size_t policy_length,
                         const uint8_t *profile, size_t profile_length,
                         const uint8_t *paths, size_t paths_length,
                         uint8_t *out, size_t capacity, size_t *length);

/* The forms of a report on checks. */
enum landtree_report {
    LANDTREE_REPORT_USUAL = 0,   /* lines of text: the tests that fail, and the sum */
    LANDTREE_REPORT_QUIET = 1,   /* the sum alone */
    LANDTREE_REPORT_VERBOSE = 2, /* all tests, and the sum */
    LANDTREE_REPORT_TAP = 3,     /* TAP, version 14 */
    LANDTREE_REPORT_JUNIT = 4,   /* JUnit's XML */
    LANDTREE_REPORT_JSON = 5     /* an object for each test, and one with the sums, each on a line of its own */
};

/* Checks a file of checks (docs/GUIDE.md) with this text, each section in a tree of its own. Reports call it by its
   name. Level, nodes, policy and profile are as above. The answer is the report: LANDTREE_DONE if each section has a
   test and none fails, else LANDTREE_ENDED. LANDTREE_WRONG is also another form, and a line that is no test: the text
   tells its place. */
uint32_t landtree_check(uint64_t level, size_t nodes, uint32_t form,
                        const uint8_t *policy, size_t policy_length,
                        const uint8_t *profile, size_t profile_length,
                        const uint8_t *name, size_t name_length,
                        const uint8_t *checks, size_t checks_length,
                        uint8_t *out, size_t capacity, size_t *length);

/* What the archive allocates by. heap.c has them over malloc; a program that links it may bring its own. Of 0 bytes
   `align` bytes are asked for. If there is no memory, `is_there` is 0, and `bytes` is any pointer but null. */
struct rattle_tried {
    uint64_t is_there;
    void *bytes;
};
struct rattle_tried rattle_alloc(size_t size, size_t align);
struct rattle_tried rattle_realloc(void *bytes, size_t kept, size_t size, size_t align);
void rattle_dealloc(void *bytes);

#ifdef __cplusplus
}
#endif

#endif
