/* Replies of the tree as errnos, in the log and on standard error. */
#include "answers.h"
#include "faults.h"
#include "processes.h"
#include <errno.h>
#include <stdarg.h>
#include <stdlib.h>
#include <string.h>

#define SHOWN 200

/* What becomes of each refusal of the tree. */
static const struct {
    int number;
    const char *name;
    int code;
    const char *limit; /* what has come to its end, where one line says so */
} refusals[] = {
    {1, "EACCES", EACCES, NULL}, /* only denials have it, */
    {2, "EXDEV", EXDEV, NULL},   /* and this */
    {3, "ENOENT", ENOENT, NULL},
    {4, "EEXIST", EEXIST, NULL},
    {5, "ENOTDIR", ENOTDIR, NULL},
    {6, "EISDIR", EISDIR, NULL},
    {7, "ENOTEMPTY", ENOTEMPTY, NULL},
    {8, "EINVAL", EINVAL, NULL},
    {9, "EPERM", EPERM, NULL},
    {10, "EBUSY", EBUSY, NULL},
    {11, "EBADF", EBADF, NULL},
    {12, "EMFILE", ENFILE, "no client has a free descriptor"}, /* the program itself may have few */
    {13, "ENOSPC", ENOSPC, "the tree has " NODES_WORD " nodes, or the directory 1,024 names"},
    {14, "EMLINK", EMLINK, "the file has 1,000 names"},
    {15, "ENAMETOOLONG", ENAMETOOLONG, NULL},
    {16, "EFBIG", EFBIG, "a file of the tree has at most 65,536 bytes: --bytes mount has larger ones"},
    {17, "ELOOP", ELOOP, NULL},
    {18, "ENXIO", ENXIO, NULL},
    {19, "E2BIG", EIO, "unexpected"}, /* these are about rules: no program's call can have them */
    {20, "ENOMSG", EIO, "unexpected"},
    {21, "HistoryFull", EIO, "the history is full, so from now on every call fails with EIO"},
    {22, "NoMemory", ENOMEM, "the tree got no memory"},
    {23, "BadLine", EIO, "unexpected"},
    {24, "Stale", EIO, "unexpected"}};

void log_line(struct session *session, const char *call, const char *reply) {
    char name[PROCESS_ROOM];
    if (session->log == NULL) return;
    name_of_process(session->asker, name);
    fprintf(session->log, "%s[%d]: %.*s = %.*s\n", name, (int)session->asker, SHOWN, call, SHOWN, reply);
}

/* Whether this kind gets a line: the call's verb and what was answered, once. */
static bool is_new_kind(struct session *session, const char *call, const char *reply) {
    char kind[KIND_ROOM];
    if (*call == '@') call += strcspn(call, " ") + 1;
    snprintf(kind, sizeof kind, "%.*s %s", (int)strcspn(call, " "), call, reply);
    for (size_t i = 0; i < session->shown_count; i++)
        if (strcmp(session->shown[i], kind) == 0) return false;
    if (session->shown_count == KINDS_MOST) return false;
    strcpy(session->shown[session->shown_count++], kind);
    return true;
}

static void show_denial(struct session *session, const char *call, const char *why) {
    char name[PROCESS_ROOM];
    if (session->options.is_quiet || !is_new_kind(session, call, why)) return;
    if (*call == '@') call += strcspn(call, " ") + 1;
    name_of_process(session->asker, name);
    fprintf(stderr, "denied: %s[%d]: %.*s: %s\n", name, (int)session->asker, SHOWN, call, why);
}

static int code_of(struct session *session, const char *call, const char *reply) {
    static const char denied[] = "denied ", refused[] = "refused ";
    if (strncmp(reply, denied, strlen(denied)) == 0) {
        const char *why = reply + strlen(denied);
        show_denial(session, call, why);
        return strncmp(why, "EXDEV ", strlen("EXDEV ")) == 0 ? -EXDEV : -EACCES;
    }
    if (strncmp(reply, refused, strlen(refused)) != 0) return 0;
    int number = atoi(reply + strlen(refused));
    for (size_t i = 0; i < sizeof refusals / sizeof *refusals; i++) {
        if (refusals[i].number != number) continue;
        if (refusals[i].limit != NULL && is_new_kind(session, "", reply))
            report("%.*s = %s: %s", SHOWN, call, reply, refusals[i].limit);
        return -refusals[i].code;
    }
    report("%.*s = %.*s: no such reply is known", SHOWN, call, SHOWN, reply);
    return -EIO;
}

int hear(struct session *session, const char **reply) {
    const char *call, *line = tree_hear(&session->tree, &call);
    if (line == NULL) return -EIO;
    if (reply != NULL) *reply = line;
    log_line(session, call, line);
    return code_of(session, call, line);
}

int ask(struct session *session, const char **reply, const char *format, ...) {
    char line[2 * PATH_ROOM + 32];
    va_list words;
    va_start(words, format);
    vsnprintf(line, sizeof line, format, words);
    va_end(words);
    tree_say(&session->tree, "%s", line);
    return hear(session, reply);
}
