/* The child that is the tree: its start, lines, replies and end. */
#include "tree.h"
#include "faults.h"
#include "limits.h"
#include "spelling.h"
#include <errno.h>
#include <fcntl.h>
#include <poll.h>
#include <signal.h>
#include <stdarg.h>
#include <stdio.h>
#include <stdlib.h>
#include <string.h>
#include <sys/mman.h>
#include <sys/socket.h>
#include <sys/time.h>
#include <sys/wait.h>
#include <time.h>
#include <unistd.h>

/* The longest reply is a listing of 262,150 bytes. */
#define REPLIES_ROOM (1 << 20)
#define SHOWN 120
/* Two paths, and the words around them. */
#define LINE_ROOM (2 * PATH_ROOM + 64)
/* A lost tree that isn't stopped ends by itself within this time. */
#define LOST_SECONDS 1

static const char full[] = "refused 21 HistoryFull";

static long milliseconds(void) {
    struct timespec now;
    clock_gettime(CLOCK_MONOTONIC, &now);
    return now.tv_sec * 1000L + now.tv_nsec / 1000000L;
}

static void become(const char *program, char *const words[], int policy, int end, int messages) {
    sigset_t none;
    sigemptyset(&none);
    sigprocmask(SIG_SETMASK, &none, NULL);
    /* A session of its own: what the terminal's keys send isn't for it, so that it can still save. */
    setsid();
    if (dup2(end, 0) < 0 || dup2(end, 1) < 0 || dup2(messages, 2) < 0) _exit(OWN_FAULT);
    if (fcntl(policy, F_SETFD, 0) != 0 || chdir("/") != 0) _exit(OWN_FAULT);
    execvp(program, words);
    dprintf(2, "%s: %s\n", program, strerror(errno));
    _exit(OWN_FAULT);
}

void tree_start(struct tree *tree, const char *program, char *const words[], int policy, int wait) {
    int ends[2];
    memset(tree, 0, sizeof *tree);
    tree->in.bytes = wanted(malloc(REPLIES_ROOM));
    tree->messages = memfd_create("messages", MFD_CLOEXEC);
    /* Each line goes to the end of it, wherever this process reads. */
    if (tree->messages < 0 || fcntl(tree->messages, F_SETFL, O_APPEND) != 0 ||
        socketpair(AF_UNIX, SOCK_STREAM | SOCK_CLOEXEC, 0, ends) != 0)
        give_up("no pair of sockets: %s", strerror(errno));
    tree->child = fork();
    if (tree->child < 0) give_up("no process: %s", strerror(errno));
    if (tree->child == 0) become(program, words, policy, ends[1], tree->messages);
    close(ends[1]);
    tree->socket = ends[0];
    tree_limit(tree, wait);
}

void tree_limit(struct tree *tree, int wait) {
    struct timeval most = {wait, 0};
    tree->wait = wait;
    if (setsockopt(tree->socket, SOL_SOCKET, SO_RCVTIMEO, &most, sizeof most) != 0)
        give_up("no time limit: %s", strerror(errno));
}

static const char *first_line(const struct tree *tree, size_t from, char shown[SHOWN + 1]) {
    size_t length = tree->out.used - from;
    const char *end = length != 0 ? memchr(tree->out.bytes + from, '\n', length) : NULL;
    if (end != NULL) length = (size_t)(end - tree->out.bytes) - from;
    snprintf(shown, SHOWN + 1, "%.*s", (int)(length < SHOWN ? length : SHOWN), tree->out.bytes + from);
    return shown;
}

/* No later reply would be the right one, so there is none. */
static void lose(struct tree *tree, const char *reason) {
    char shown[SHOWN + 1];
    if (!tree->is_lost && tree->is_mounted)
        report("%s (%s): every call fails now with EIO", reason, first_line(tree, tree->out.heard, shown));
    tree->is_lost = true;
    shutdown(tree->socket, SHUT_RDWR);
}

static void lose_late(struct tree *tree) {
    char reason[64];
    snprintf(reason, sizeof reason, "landtree gave no reply in %d s", tree->wait);
    lose(tree, reason);
}

static void lose_wrong(struct tree *tree, const char *reply, const char *want) {
    char reason[2 * SHOWN];
    snprintf(reason, sizeof reason, "landtree answers %.*s where only %s is right", SHOWN, reply, want);
    lose(tree, reason);
}

static void *room_for(struct tree *tree, size_t more) {
    if (tree->out.heard == tree->out.used && tree->out.sent == tree->out.used)
        tree->out.used = tree->out.sent = tree->out.heard = 0;
    if (tree->out.used + more > tree->out.room) {
        size_t room = 2 * (tree->out.used + more);
        char *bytes = realloc(tree->out.bytes, room);
        if (bytes == NULL) return NULL;
        tree->out.bytes = bytes, tree->out.room = room;
    }
    return tree->out.bytes + tree->out.used;
}

void tree_say(struct tree *tree, const char *format, ...) {
    if (tree->is_lost) return;
    char *line = room_for(tree, LINE_ROOM);
    if (line == NULL) return lose(tree, "no memory for a line");
    va_list words;
    va_start(words, format);
    int length = vsnprintf(line, LINE_ROOM, format, words);
    va_end(words);
    if (length < 0 || length >= LINE_ROOM - 1) return lose(tree, "a line that is too long");
    line[length] = '\n';
    tree->out.used += (size_t)length + 1;
}

void tree_say_bytes(struct tree *tree, const char *bytes, size_t count) {
    if (tree->is_lost) return;
    tree->out.used--; /* the line feed comes behind them */
    char *line = room_for(tree, 2 * count + 1);
    if (line == NULL) return lose(tree, "no memory for a line");
    spell_bytes(line, bytes, count);
    line[2 * count] = '\n';
    tree->out.used += 2 * count + 1;
}

/* Takes what has come, or waits for it if no flags are set; whether the other end is there. */
static bool receive(struct tree *tree, int flags) {
    if (tree->in.from != 0) {
        memmove(tree->in.bytes, tree->in.bytes + tree->in.from, tree->in.to - tree->in.from);
        tree->in.to -= tree->in.from, tree->in.from = 0;
    }
    if (tree->in.to == REPLIES_ROOM) return lose(tree, "a reply without an end"), false;
    ssize_t got = recv(tree->socket, tree->in.bytes + tree->in.to, REPLIES_ROOM - tree->in.to, flags);
    if (got < 0 && errno == EAGAIN && flags == 0) return lose_late(tree), false;
    if (got < 0 && (errno == EAGAIN || errno == EINTR)) return true;
    if (got <= 0) return lose(tree, "landtree has ended"), false;
    tree->in.to += (size_t)got;
    return true;
}

/* Sends what it can without waiting. */
static bool send_some(struct tree *tree) {
    const char *bytes = tree->out.bytes + tree->out.sent;
    ssize_t sent = send(tree->socket, bytes, tree->out.used - tree->out.sent, MSG_NOSIGNAL | MSG_DONTWAIT);
    if (sent < 0 && (errno == EAGAIN || errno == EINTR)) return true;
    if (sent < 0) return lose(tree, "landtree has ended"), false;
    tree->out.sent += (size_t)sent;
    return true;
}

/* Waits until something can be sent or has come. Replies are taken while lines are sent, so that neither end waits for
 * the other to read. Once all is sent, the socket's own time limit does. */
static bool proceed(struct tree *tree, long deadline) {
    if (tree->out.sent == tree->out.used) return receive(tree, 0);
    long left = deadline - milliseconds();
    struct pollfd it = {tree->socket, POLLIN | POLLOUT, 0};
    int ready = left > 0 ? poll(&it, 1, (int)left) : 0;
    if (ready == 0) return lose_late(tree), false;
    if (ready < 0) return true; /* a signal came */
    if (it.revents & (POLLIN | POLLHUP | POLLERR) && !receive(tree, MSG_DONTWAIT)) return false;
    return !(it.revents & POLLOUT) || send_some(tree);
}

static char *next_reply(struct tree *tree, long deadline) {
    for (;;) {
        char *start = tree->in.bytes + tree->in.from, *end = memchr(start, '\n', tree->in.to - tree->in.from);
        if (end != NULL) {
            *end = 0;
            tree->in.from = (size_t)(end - tree->in.bytes) + 1;
            return start;
        }
        if (!proceed(tree, deadline)) return NULL;
    }
}

/* Takes the replies that nobody awaited. A full history may have come in their place. */
static void take_owed(struct tree *tree, long deadline) {
    while (!tree->is_lost && tree->owed.count != 0) {
        const char *reply = next_reply(tree, deadline), *want = tree->owed.replies[tree->owed.from];
        if (reply == NULL) return;
        if (strcmp(reply, want) != 0 && strcmp(reply, full) != 0) lose_wrong(tree, reply, want);
        tree->owed.from = (tree->owed.from + 1) % OWED_MOST;
        tree->owed.count--;
    }
}

const char *tree_hear(struct tree *tree, const char **call) {
    long deadline = milliseconds() + 1000L * tree->wait;
    *call = "";
    if (!tree->is_lost) send_some(tree);
    take_owed(tree, deadline);
    char *reply = tree->is_lost ? NULL : next_reply(tree, deadline);
    if (reply == NULL) {
        tree->out.used = tree->out.sent = tree->out.heard = 0;
        return NULL;
    }
    char *line = tree->out.bytes + tree->out.heard, *end = memchr(line, '\n', tree->out.used - tree->out.heard);
    *end = 0;
    tree->out.heard = (size_t)(end - tree->out.bytes) + 1;
    *call = line;
    return reply;
}

void tree_leave(struct tree *tree, const char *reply) {
    if (tree->owed.count == OWED_MOST) take_owed(tree, milliseconds() + 1000L * tree->wait);
    tree->out.heard = tree->out.used;
    if (tree->is_lost) return;
    snprintf(tree->owed.replies[(tree->owed.from + tree->owed.count++) % OWED_MOST], REPLY_ROOM, "%s", reply);
}

bool tree_has_unsent(const struct tree *tree) { return !tree->is_lost && tree->out.sent < tree->out.used; }

void tree_send(struct tree *tree) {
    long deadline = milliseconds() + 1000L * tree->wait;
    if (tree_has_unsent(tree)) send_some(tree);
    while (tree_has_unsent(tree)) proceed(tree, deadline);
}

/* Waits for the end of its output. */
static bool is_through(struct tree *tree, long deadline) {
    char rest[4096];
    for (;;) {
        struct pollfd it = {tree->socket, POLLIN, 0};
        long left = deadline - milliseconds();
        if (left <= 0) return false;
        if (poll(&it, 1, (int)left) <= 0) continue;
        ssize_t got = recv(tree->socket, rest, sizeof rest, 0);
        if (got == 0 || (got < 0 && errno != EINTR)) return true;
    }
}

static bool has_ended(struct tree *tree, long deadline, int *status) {
    do {
        if (waitpid(tree->child, status, WNOHANG) == tree->child) return true;
        poll(NULL, 0, 5);
    } while (milliseconds() < deadline);
    return false;
}

bool tree_end(struct tree *tree, int seconds) {
    int status = 0;
    long deadline = milliseconds() + 1000L * (tree->is_lost ? LOST_SECONDS : seconds);
    tree_send(tree);
    shutdown(tree->socket, SHUT_WR);
    bool ended = (tree->is_lost || is_through(tree, deadline)) && has_ended(tree, deadline, &status);
    if (!ended) {
        kill(tree->child, SIGKILL);
        waitpid(tree->child, &status, 0);
        if (!tree->is_lost) report("landtree didn't end in %d s, and was killed", seconds);
    }
    close(tree->socket);
    free(tree->in.bytes);
    free(tree->out.bytes);
    return ended && !tree->is_lost && status == 0;
}

void tree_abandon(struct tree *tree) {
    kill(tree->child, SIGKILL);
    waitpid(tree->child, NULL, 0);
}

const char *tree_message(struct tree *tree, int policy, const char *name) {
    char place[64], text[8192];
    snprintf(place, sizeof place, "/proc/self/fd/%d", policy);
    ssize_t length = pread(tree->messages, text, sizeof text - 1, tree->shown);
    if (length <= 0) return NULL;
    tree->shown += length;
    text[length] = 0;
    char *line = calloc(1, (size_t)length * (strlen(name) + 3) + 1), *rest = text;
    for (char *part; line != NULL && (part = strsep(&rest, "\n")) != NULL;) {
        part += strspn(part, " ");
        if (*part == 0) continue;
        char *at = strstr(part, place), *end = line + strlen(line);
        if (end != line) end += sprintf(end, ": ");
        if (at != NULL) sprintf(end, "%.*s%s%s", (int)(at - part), part, name, at + strlen(place));
        else strcpy(end, part);
    }
    return line;
}
