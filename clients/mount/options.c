/* The words of the command line. Each option may be given once. */
#include "options.h"
#include "faults.h"
#include <errno.h>
#include <stdarg.h>
#include <stddef.h>
#include <stdio.h>
#include <stdlib.h>
#include <string.h>

#define WAIT_MOST 3600

static const char help[] =
    "usage: landtree-mount DIR [OPTIONS] [-- CMD [WORD]..]\n"
    "\n"
    "Mounts a Landtree at DIR, an empty directory, runs CMD there, and ends with CMD's status. Only CMD and what it\n"
    "starts see the mount. Without CMD everybody sees it, until it is unmounted or a signal ends it.\n"
    "\n"
    "  --in REAL           begin with what is in the directory REAL\n"
    "  --policy POLICY     begin with the nodes of this policy\n"
    "  --profile NAME      the policy's profile whose layers confine all that is done in the mount\n"
    "  --save HISTORY      save the history of all calls in this file\n"
    "  --out REAL          copy what is in the tree at the end into a new directory\n"
    "  --log FILE          append each call to FILE, with the process that made it\n"
    "  --quiet             don't write denials on standard error\n"
    "  --wait S            seconds for each reply of the tree, 1 to 3600 (10)\n"
    "  --bytes tree|mount  where the bytes of files are (tree)\n"
    "  --landtree PROGRAM  the program landtree (the one beside this program, or on the PATH)\n";

static void wrong(const char *format, ...) __attribute__((format(printf, 1, 2), noreturn));
static void wrong(const char *format, ...) {
    char line[1024];
    va_list words;
    va_start(words, format);
    vsnprintf(line, sizeof line, format, words);
    va_end(words);
    report("%s", line);
    exit(WRONG_WORDS);
}

struct values {
    const char *in, *policy, *profile, *save, *out, *log, *program, *wait, *bytes;
};

static const struct option {
    const char *name;
    size_t place;
} table[] = {
    {"--in", offsetof(struct values, in)},           {"--policy", offsetof(struct values, policy)},
    {"--profile", offsetof(struct values, profile)}, {"--save", offsetof(struct values, save)},
    {"--out", offsetof(struct values, out)},         {"--log", offsetof(struct values, log)},
    {"--wait", offsetof(struct values, wait)},       {"--bytes", offsetof(struct values, bytes)},
    {"--landtree", offsetof(struct values, program)}};

/* Takes the option in `words[0]`, perhaps with its value behind `=`; returns how many words it has. */
static int take_value(struct values *values, char **words) {
    size_t length = strcspn(words[0], "=");
    for (size_t i = 0; i < sizeof table / sizeof *table; i++) {
        if (strlen(table[i].name) != length || strncmp(words[0], table[i].name, length) != 0) continue;
        const char **value = (const char **)((char *)values + table[i].place);
        const char *given = words[0][length] == '=' ? words[0] + length + 1 : words[1];
        if (*value != NULL) wrong("%s is given twice", table[i].name);
        if (given == NULL || *given == 0 || (given == words[1] && strncmp(given, "--", 2) == 0))
            wrong("%s needs a value", table[i].name);
        *value = given;
        return words[0][length] == '=' ? 1 : 2;
    }
    wrong("%s is no option: see landtree-mount --help", words[0]);
}

static int seconds(const char *text) {
    char *end;
    errno = 0;
    long number = strtol(text, &end, 10);
    if (errno != 0 || end == text || *end != 0 || number < 1 || number > WAIT_MOST)
        wrong("--wait %s: a number from 1 to %d is expected", text, WAIT_MOST);
    return (int)number;
}

static bool is_mount(const char *bytes) {
    if (strcmp(bytes, "tree") != 0 && strcmp(bytes, "mount") != 0)
        wrong("--bytes %s: tree or mount is expected", bytes);
    return strcmp(bytes, "mount") == 0;
}

static void read_words(struct options *options, struct values *values, char **words) {
    while (*words != NULL && strcmp(*words, "--") != 0) {
        if (strcmp(*words, "--help") == 0) {
            fputs(help, stdout);
            exit(fflush(stdout) != 0 ? OWN_FAULT : 0);
        }
        if (strcmp(*words, "--quiet") == 0) {
            if (options->is_quiet) wrong("--quiet is given twice");
            options->is_quiet = true;
            words++;
        } else if (strncmp(*words, "-", 1) == 0) {
            words += take_value(values, words);
        } else {
            if (options->directory != NULL)
                wrong("%s: DIR is %s already, and CMD comes behind --", *words, options->directory);
            options->directory = *words++;
        }
    }
    if (*words == NULL) return;
    if (words[1] == NULL) wrong("behind -- a command is expected");
    options->command = words + 1;
}

void read_options(struct options *options, int count, char **words) {
    struct values values = {0};
    (void)count;
    memset(options, 0, sizeof *options);
    read_words(options, &values, words + 1);
    options->in = values.in, options->policy = values.policy, options->profile = values.profile;
    options->save = values.save, options->out = values.out, options->log = values.log;
    options->program = values.program;
    options->wait = values.wait != NULL ? seconds(values.wait) : 10;
    options->keeps_bytes = values.bytes != NULL && is_mount(values.bytes);
    if (options->directory == NULL || *options->directory == 0) wrong("DIR is missing: see landtree-mount --help");
    if (options->profile != NULL && options->policy == NULL) wrong("--profile needs --policy");
}
