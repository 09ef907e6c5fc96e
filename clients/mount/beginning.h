/* What the tree begins with: the policy's nodes, and what is in the directory of --in. */
#ifndef BEGINNING_H
#define BEGINNING_H

#include "session.h"

/* Writes the policy's text, with a node for each file of --in, into the session's file for it; and makes the nodes of
 * the mount that the tree will have. Ends the process with a line if something doesn't fit. */
void prepare(struct session *session, const char *program);

#endif
