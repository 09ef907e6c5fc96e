/* What the tree answers: each reply as an errno, in the log, and on standard error if it is a denial or a limit. */
#ifndef ANSWERS_H
#define ANSWERS_H

#include "session.h"

/* The reply of the first line that was said and not heard: 0, or a negative errno. */
int hear(struct session *session, const char **reply);

/* Says one line, and hears its reply. */
int ask(struct session *session, const char **reply, const char *format, ...) __attribute__((format(printf, 3, 4)));

/* Writes a line of the log about the process at work. */
void log_line(struct session *session, const char *call, const char *reply);

#endif
