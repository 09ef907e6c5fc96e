/* What the words of the command line ask for. */
#ifndef OPTIONS_H
#define OPTIONS_H

#include <stdbool.h>

struct options {
    const char *directory, *in, *policy, *profile, *save, *out, *log, *program;
    int wait;             /* seconds for a reply of the tree */
    bool is_quiet;        /* writes no denials */
    bool keeps_bytes;     /* --bytes mount: contents aren't in the tree */
    char *const *command; /* CMD and its words, or NULL */
};

/* Ends the process where the words are wrong, or ask for help. */
void read_options(struct options *options, int count, char **words);

#endif
