/* The copy of the tree that --out asks for. */
#ifndef COPY_H
#define COPY_H

#include "session.h"

/* Ends the process if there is something already, or no directory to put it in. */
void check_copy(const char *out);

/* Copies what is in the tree into a new directory: whole, or not at all. Whether that went well; else it has a line. */
bool copy_tree(const struct session *session);

#endif
