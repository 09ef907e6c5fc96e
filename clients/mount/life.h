/* The life of a mount: its namespace, CMD, signals, requests, and its end. */
#ifndef LIFE_H
#define LIFE_H

#include "session.h"

/* Gives this process, and what it starts, a mount namespace of its own. */
void enter_own_namespace(void);

/* Mounts. Ends the process with a line if that fails. */
void mount_tree(struct session *session);

/* Runs CMD in the mount, or waits, and answers the kernel meanwhile; then unmounts. The status of CMD, or 0. */
int live(struct session *session);

#endif
