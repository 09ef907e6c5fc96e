/* The tree: a child process `landtree run -` on a socket pair, which answers each line with one line. Nobody else has
 * the other end. No reply is awaited longer than some seconds; after that the tree is lost, and every line fails. */
#ifndef TREE_H
#define TREE_H

#include <stdbool.h>
#include <stddef.h>
#include <sys/types.h>

#define OWED_MOST 64
#define REPLY_ROOM 96 /* of such a reply */

struct tree {
    pid_t child;
    int socket, messages; /* messages: a file without a name, the child's standard error */
    long shown;           /* how many bytes of the messages were written on */
    int wait;             /* seconds for a reply */
    bool is_lost, is_mounted; /* mounted: its loss is worth a line */
    struct {
        char replies[OWED_MOST][REPLY_ROOM]; /* what has to come, and nobody awaits: a ring */
        unsigned from, count;
    } owed;
    struct {
        char *bytes;
        size_t room, used, sent, heard; /* the lines of one exchange: how many bytes are sent, and are answered */
    } out;
    struct {
        char *bytes;
        size_t from, to;
    } in;
};

/* Starts the child with these words; `policy` is a descriptor that it inherits. */
void tree_start(struct tree *tree, const char *program, char *const words[], int policy, int wait);

/* From now on a reply may take so many seconds. */
void tree_limit(struct tree *tree, int wait);

/* Puts a line behind those that are to be sent. Bytes are written as hexadecimal digits behind it. */
void tree_say(struct tree *tree, const char *format, ...) __attribute__((format(printf, 2, 3)));
void tree_say_bytes(struct tree *tree, const char *bytes, size_t count);

/* Sends what was said; the reply of the first line without one, valid until the next call, or NULL. `call` becomes
 * that line. */
const char *tree_hear(struct tree *tree, const char **call);

/* Nobody awaits the reply of the line that was said, which can only be this one. (If another comes, the tree is lost.)
 * It is sent before the next line that has its reply awaited, or when there is nothing else to do. */
void tree_leave(struct tree *tree, const char *reply);
bool tree_has_unsent(const struct tree *tree);
void tree_send(struct tree *tree);

/* Ends the input, and waits until the child has ended, at most some seconds. Whether it has ended well. */
bool tree_end(struct tree *tree, int seconds);

/* Kills the child, so that it saves nothing. */
void tree_abandon(struct tree *tree);

/* What the child has written on standard error since the last time, as one line; NULL if it has written nothing. In
 * place of the path of the descriptor `policy` it has `name`. It is valid until the end. */
const char *tree_message(struct tree *tree, int policy, const char *name);

#endif
