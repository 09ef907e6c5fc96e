/* Names that the kernel is to forget, so that it looks them up anew. A thread of its own asks it for that: the kernel
 * may hold a lock that it needs for this, until the mount has answered another request. */
#ifndef NOTICES_H
#define NOTICES_H

#include <stdbool.h>

struct notices;
struct fuse_session;

struct notices *start_notices(struct fuse_session *fuse);
void add_notice(struct notices *notices, unsigned long parent, const char *spelled);

/* From now on no notice is taken. Whether all are given, so that the thread waits for nothing of the kernel's. */
bool are_given(struct notices *notices);

/* Waits until all are given, or the mount is gone. */
void end_notices(struct notices *notices);

#endif
