/* What the kernel asks of names and nodes, and of open files and directories. Each is one call of the tree or more. */
#ifndef CALLS_H
#define CALLS_H

#include "session.h"

/* How long the kernel may keep what it was answered: nobody else changes the tree. */
#define KEPT_SECONDS 3600.0

struct session *session_of(fuse_req_t request);

void refuse(fuse_req_t request, int fault);

/* A name below a directory, spelled, and its path; or a negative errno. */
int path_of(const struct session *session, fuse_ino_t parent, const char *name, char spelled[SPELLED_ROOM],
            char path[PATH_ROOM]);

/* A node that the caller has just created, of which the tree's `stat` has answered `reply`. */
struct node *created(fuse_req_t request, const char *reply, unsigned long parent, const char *spelled, mode_t mode);

void fill_entry(struct node *node, struct fuse_entry_param *entry);

/* The paths by which the process at work may mean the node: the one that it has looked up last, or else all. */
int paths_of(struct session *session, const struct node *node, char (**paths)[PATH_ROOM], size_t *count);

void add_calls_on_names(struct fuse_lowlevel_ops *calls);
void add_calls_on_files(struct fuse_lowlevel_ops *calls);

/* Cuts a file by the descriptor of an opening. */
int cut_opening(struct session *session, const struct fuse_file_info *file, off_t length);

#endif
