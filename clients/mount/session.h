/* The one record of a mount, which all its parts are passed. */
#ifndef SESSION_H
#define SESSION_H

#define FUSE_USE_VERSION 312
#include "nodes.h"
#include "options.h"
#include "tree.h"
#include <fuse_lowlevel.h>
#include <stdio.h>

#define KINDS_MOST 256
#define KIND_ROOM 160
#define TRAILS 256
/* The session's first client opens nothing. From it come those that do, so that no descriptor is ever copied. */
#define OPENERS_MOST (CLIENTS_MOST - 2)
#define FIRST_OPENER 2

struct session {
    struct options options;
    struct tree tree;
    struct nodes nodes;
    struct fuse_session *fuse;
    char *root;   /* the real path of DIR */
    int policy;   /* the text that the tree begins with: a file without a name */
    pid_t asker;  /* the process, or thread, of the request at work */
    FILE *log;
    char (*shown)[KIND_ROOM]; /* the kinds of denials and limits that have had their line */
    size_t shown_count;
    struct {
        pid_t asker;
        unsigned long number, parent;
        char name[SPELLED_ROOM];
    } trails[TRAILS]; /* by which name each process looked a node up last */
    size_t next_trail;
    unsigned openers, openings[OPENERS_MOST]; /* descriptors of each client that opens */
    struct notices *notices;
};

/* Whether the mount has the bytes of files: instead of the tree, or for --out. */
static inline bool keeps(const struct session *session) {
    return session->options.keeps_bytes || session->options.out != NULL;
}

#endif
