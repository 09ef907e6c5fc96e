/* What the mount keeps beside the inode numbers of the tree: each node's names, and what the tree hasn't at all (mode,
 * owner, times, the text of a symbolic link, a device's number). Sizes and links are what the tree has said last. */
#ifndef NODES_H
#define NODES_H

#include "limits.h"
#include <stdbool.h>
#include <stddef.h>
#include <sys/stat.h>
#include <sys/types.h>
#include <time.h>

#define ROOT 1
#define CHAINS 4096

struct name {
    unsigned long parent;
    struct node *node;
    struct name *next, *beside; /* of the node, and in the chain */
    char text[];                /* spelled */
};

struct node {
    unsigned long number, links, openings, lookups; /* lookups: how often the kernel got it, less what it forgot */
    mode_t mode;
    uid_t owner;
    gid_t group;
    dev_t device;
    struct timespec read, written, changed;
    off_t size, in_tree; /* in_tree: what the tree says, which has no bytes with --bytes mount */
    char *text, *bytes; /* of a link; what the mount keeps of a file */
    size_t room;
    struct name *names;
    struct node *beside;
};

struct nodes {
    struct node *chains[CHAINS];
    struct name *names[CHAINS];
    long kept; /* bytes of all files that the mount keeps */
};

struct timespec now(void);

/* How the tree names a kind; 0 and NULL if it has no such kind. */
mode_t kind_of(const char *word);
const char *word_of(mode_t kind);

struct node *node_of(const struct nodes *nodes, unsigned long number);
struct node *add_node(struct nodes *nodes, unsigned long number, mode_t mode);

struct node *node_named(const struct nodes *nodes, unsigned long parent, const char *spelled);
bool add_name(struct nodes *nodes, struct node *node, unsigned long parent, const char *spelled);
void drop_name(struct nodes *nodes, unsigned long parent, const char *spelled);

/* Frees a node that the kernel doesn't know, and that has neither a name nor an opening. */
void free_if_gone(struct nodes *nodes, struct node *node);

/* The path of a name below a directory, or of the directory itself if `spelled` is NULL. A negative errno if it has no
 * name any more, or if the path is too long. */
int path_below(const struct nodes *nodes, unsigned long parent, const char *spelled, char path[PATH_ROOM]);

/* A directory has changed what it holds. */
void has_changed(struct nodes *nodes, unsigned long number);

void attributes_of(const struct node *node, struct stat *attributes);

/* How many nodes live in the tree: those with a name or an opening. Adds up the blocks of their bytes. */
unsigned long nodes_alive(const struct nodes *nodes, unsigned long *blocks);

/* The bytes that the mount keeps of a file: cut or filled with zeros to a length, and written over. A negative errno
 * beyond the mount's limits. */
int keep_length(struct nodes *nodes, struct node *node, off_t length);
int keep_bytes(struct nodes *nodes, struct node *node, const char *bytes, size_t count, off_t from);

#endif
