/* The life of a mount: its namespace, CMD, signals, requests, and its end. */
#include "life.h"
#include "calls.h"
#include "faults.h"
#include "notices.h"
#include "processes.h"
#include <dirent.h>
#include <errno.h>
#include <fcntl.h>
#include <limits.h>
#include <poll.h>
#include <sched.h>
#include <signal.h>
#include <stdlib.h>
#include <string.h>
#include <sys/mount.h>
#include <sys/prctl.h>
#include <sys/signalfd.h>
#include <sys/wait.h>
#include <unistd.h>

/* How an unmounting process ends. */
enum { UNMOUNTED = 0, DETACHED = 1, STILL_MOUNTED = 2 };

/* A user may still have open what CMD has left; it is asked so often before the mount is detached. */
#define TRIES 10
#define TRY_MILLISECONDS 20

/* Once it is unmounted, the kernel says so within this time, or others still have the mount in their namespaces. */
#define LAST_MILLISECONDS 500

struct life {
    struct session *session;
    int signals;
    pid_t command, unmounter;
    int status;                      /* of CMD, as waitpid says it */
    bool is_unmounted, is_detached; /* detached: nobody is answered any more */
};

/* ---- The namespace ---- */

static void write_map(const char *file, const char *text) {
    int map = open(file, O_WRONLY | O_CLOEXEC);
    if (map < 0 || write(map, text, strlen(text)) < 0) give_up("no mount namespace: %s: %s", file, strerror(errno));
    close(map);
}

/* Without the right to mount, a user namespace gives it; this user stays the same there. */
static void enter_user_namespace(void) {
    char user[64], group[64];
    snprintf(user, sizeof user, "%u %u 1", getuid(), getuid());
    snprintf(group, sizeof group, "%u %u 1", getgid(), getgid());
    if (unshare(CLONE_NEWUSER | CLONE_NEWNS) != 0) give_up("no mount namespace: %s", strerror(errno));
    write_map("/proc/self/setgroups", "deny");
    write_map("/proc/self/uid_map", user);
    write_map("/proc/self/gid_map", group);
}

void enter_own_namespace(void) {
    if (unshare(CLONE_NEWNS) != 0) enter_user_namespace();
    if (mount("none", "/", NULL, MS_REC | MS_PRIVATE, NULL) != 0) give_up("no mount namespace: %s", strerror(errno));
}

/* ---- The mount ---- */

static void begin_connection(void *session, struct fuse_conn_info *connection) {
    (void)session;
    /* The kernel clears setuid bits by a call of its own; and a write is answered when it is made. */
    connection->want &= ~(unsigned)(FUSE_CAP_HANDLE_KILLPRIV | FUSE_CAP_WRITEBACK_CACHE | FUSE_CAP_READDIRPLUS |
                                    FUSE_CAP_READDIRPLUS_AUTO);
    connection->max_write = FILE_MOST;
}

/* They are read, where requests are. */
static void watched_signals(sigset_t *them) {
    sigemptyset(them);
    sigaddset(them, SIGCHLD);
    sigaddset(them, SIGTERM);
    sigaddset(them, SIGINT);
    sigaddset(them, SIGHUP);
    sigaddset(them, SIGQUIT);
}

void mount_tree(struct session *session) {
    sigset_t watched;
    char *words[] = {"landtree-mount", "-odefault_permissions,fsname=landtree,subtype=landtree", NULL};
    struct fuse_args args = FUSE_ARGS_INIT(2, words);
    struct fuse_lowlevel_ops calls = {.init = begin_connection};
    add_calls_on_names(&calls);
    add_calls_on_files(&calls);
    session->fuse = fuse_session_new(&args, &calls, sizeof calls, session);
    fuse_opt_free_args(&args);
    if (session->fuse == NULL || fuse_session_mount(session->fuse, session->root) != 0) {
        tree_abandon(&session->tree);
        give_up("DIR %s can't be mounted at", session->options.directory);
    }
    int device = fuse_session_fd(session->fuse);
    if (fcntl(device, F_SETFL, fcntl(device, F_GETFL) | O_NONBLOCK) != 0) give_up("/dev/fuse: %s", strerror(errno));
    /* Before there is a thread, so that no thread gets them. */
    watched_signals(&watched);
    sigprocmask(SIG_BLOCK, &watched, NULL);
    signal(SIGPIPE, SIG_IGN);
    session->notices = start_notices(session->fuse);
    session->tree.is_mounted = true;
}

/* ---- CMD ---- */

static void become_command(struct session *session) {
    sigset_t none;
    char *const *words = session->options.command;
    sigemptyset(&none);
    sigprocmask(SIG_SETMASK, &none, NULL);
    signal(SIGPIPE, SIG_DFL);
    prctl(PR_SET_PDEATHSIG, SIGTERM);
    close(fuse_session_fd(session->fuse));
    if (chdir(session->root) != 0) {
        report("%s: %s", session->root, strerror(errno));
        _exit(OWN_FAULT);
    }
    setenv("PWD", session->root, 1);
    execvp(words[0], words);
    int why = errno;
    report("%s: %s", words[0], strerror(why));
    _exit(why == ENOENT ? 127 : 126);
}

static void start_command(struct life *life) {
    life->command = fork();
    if (life->command < 0) give_up("no process: %s", strerror(errno));
    if (life->command == 0) become_command(life->session);
}

/* ---- Unmounting, by a process of its own: what the kernel still writes has to be answered meanwhile ---- */

static bool leads_below(const char *link, const char *root) {
    char target[PATH_MAX];
    size_t length = strlen(root);
    ssize_t got = readlink(link, target, sizeof target - 1);
    if (got < 0) return false;
    target[got] = 0;
    return strncmp(target, root, length) == 0 && (target[length] == '/' || target[length] == 0);
}

static bool uses(const char *process, const char *root) {
    char link[PATH_MAX], folder[64];
    struct dirent *entry;
    bool found = false;
    static const char *const places[] = {"cwd", "root", "exe"};
    for (size_t i = 0; i < sizeof places / sizeof *places && !found; i++) {
        snprintf(link, sizeof link, "/proc/%.20s/%s", process, places[i]);
        found = leads_below(link, root);
    }
    snprintf(folder, sizeof folder, "/proc/%.20s/fd", process);
    DIR *descriptors = found ? NULL : opendir(folder);
    while (descriptors != NULL && !found && (entry = readdir(descriptors)) != NULL) {
        snprintf(link, sizeof link, "%s/%.20s", folder, entry->d_name);
        found = leads_below(link, root);
    }
    if (descriptors != NULL) closedir(descriptors);
    return found;
}

/* Names a process that uses the mount, if one is found. */
static void name_user(const char *root, char user[128]) {
    struct dirent *entry;
    DIR *processes = opendir("/proc");
    snprintf(user, 128, "a process");
    while (processes != NULL && (entry = readdir(processes)) != NULL) {
        char name[PROCESS_ROOM];
        if (strspn(entry->d_name, "0123456789") != strlen(entry->d_name) || !uses(entry->d_name, root)) continue;
        name_of_process(atoi(entry->d_name), name);
        snprintf(user, 128, "%s[%.20s]", name, entry->d_name);
        break;
    }
    if (processes != NULL) closedir(processes);
}

static void unmount(const char *root) __attribute__((noreturn));
static void unmount(const char *root) {
    char user[128];
    for (int tries = 0; tries < TRIES; tries++) {
        if (umount2(root, UMOUNT_NOFOLLOW) == 0) _exit(UNMOUNTED);
        if (errno == EINVAL) _exit(UNMOUNTED); /* somebody else has done it */
        if (errno != EBUSY) break;
        usleep(TRY_MILLISECONDS * 1000);
    }
    if (errno == EPERM) {
        execlp("fusermount3", "fusermount3", "-q", "-u", "-z", root, NULL);
        report("%s isn't unmounted: fusermount3: %s", root, strerror(errno));
        _exit(STILL_MOUNTED);
    }
    name_user(root, user);
    if (umount2(root, UMOUNT_NOFOLLOW | MNT_DETACH) != 0) {
        report("%s isn't unmounted: %s", root, strerror(errno));
        _exit(STILL_MOUNTED);
    }
    report("%s is still in use by %s: detached, and nothing is answered there any more", root, user);
    _exit(DETACHED);
}

static void start_unmounting(struct life *life) {
    if (life->unmounter != 0) return;
    life->unmounter = fork();
    if (life->unmounter < 0) {
        report("no process to unmount: %s", strerror(errno));
        life->is_detached = true;
    }
    if (life->unmounter != 0) return;
    close(fuse_session_fd(life->session->fuse));
    unmount(life->session->root);
}

/* ---- Signals and requests ---- */

static void children_have_ended(struct life *life) {
    int status;
    if (life->command != 0 && waitpid(life->command, &status, WNOHANG) == life->command) {
        life->command = 0;
        life->status = status;
        start_unmounting(life);
    }
    if (life->unmounter > 0 && waitpid(life->unmounter, &status, WNOHANG) == life->unmounter) {
        life->is_unmounted = true;
        life->is_detached = !(WIFEXITED(status) && WEXITSTATUS(status) == UNMOUNTED);
    }
}

/* A signal is for CMD. Those of the terminal's keys have come to it already. Without CMD it ends the mount. */
static void take_signal(struct life *life) {
    struct signalfd_siginfo signal;
    while (read(life->signals, &signal, sizeof signal) == sizeof signal) {
        if (signal.ssi_signo == SIGCHLD) children_have_ended(life);
        else if (life->command == 0) start_unmounting(life);
        else if (signal.ssi_code <= 0) kill(life->command, (int)signal.ssi_signo);
    }
}

static void answer(struct session *session, struct fuse_buf *buffer) {
    int got = fuse_session_receive_buf(session->fuse, buffer);
    if (got > 0) fuse_session_process_buf(session->fuse, buffer);
    else if (got != -EAGAIN && got != -EINTR) fuse_session_exit(session->fuse);
}

/* Before it ends, the thread that gives notices may need answers. */
static bool is_over(const struct life *life) {
    return fuse_session_exited(life->session->fuse) || (life->is_detached && are_given(life->session->notices));
}

static void answer_requests(struct life *life) {
    struct fuse_buf buffer = {.mem = NULL};
    struct session *session = life->session;
    while (!is_over(life)) {
        struct pollfd ready[] = {{fuse_session_fd(session->fuse), POLLIN, 0}, {life->signals, POLLIN, 0}};
        bool is_idle = !tree_has_unsent(&session->tree);
        int count = poll(ready, 2, life->is_detached || !is_idle ? 1 : life->is_unmounted ? LAST_MILLISECONDS : -1);
        if (count == 0 && is_idle) life->is_detached = life->is_unmounted;
        if (count == 0) tree_send(&session->tree);
        if (count <= 0) continue;
        if (ready[1].revents != 0) take_signal(life);
        if (ready[0].revents != 0) answer(session, &buffer);
    }
    free(buffer.mem);
}

/* Somebody else has unmounted it while CMD runs, or the connection was aborted. */
static void await_command(struct life *life) {
    if (life->command == 0) return;
    report("%s was unmounted while the command runs", life->session->root);
    while (life->command != 0) {
        struct pollfd ready = {life->signals, POLLIN, 0};
        if (poll(&ready, 1, -1) > 0) take_signal(life);
    }
}

int live(struct session *session) {
    struct life life = {.session = session};
    sigset_t watched;
    watched_signals(&watched);
    life.signals = signalfd(-1, &watched, SFD_CLOEXEC | SFD_NONBLOCK);
    if (life.signals < 0) give_up("no signals: %s", strerror(errno));
    if (session->options.command != NULL) start_command(&life);
    answer_requests(&life);
    await_command(&life);
    close(life.signals);
    if (life.unmounter > 0) waitpid(life.unmounter, NULL, 0);
    return WIFSIGNALED(life.status) ? 128 + WTERMSIG(life.status) : WEXITSTATUS(life.status);
}
