/* Refuses the program that it is loaded into (LD_PRELOAD) one call, that of the number REFUSE, counted from 1 over all
   threads, of those that REFUSE_WHAT names:

   memory            malloc and realloc; so also where REFUSE_WHAT isn't told
   read, write       reads and writes, of whatever file
   recv, send        receptions from a socket and sendings to one, also by read and write
   accept            connections that come: the one that is refused is closed
   socket, option, bind, listen, thread
                     what makes a socket, sets an option of one, binds one, listens at one, or starts a thread
   open, sync, rename, remove
                     what opens or makes a file, has the disk take it, renames it, or removes it

   A read or a reception then gives, and a write or a sending takes, 40 bytes at most. The file REFUSE_TOLD has the
   number of these calls so far, as an unsigned long; it stays right however the program ends.
   REFUSE_ERROR is the error's number, if it isn't to be the usual one, or -1 for a transfer of nothing; REFUSE_BY is a
   signal that ends the program in place of an error. */
#define _GNU_SOURCE
#include <dlfcn.h>
#include <errno.h>
#include <fcntl.h>
#include <pthread.h>
#include <signal.h>
#include <stdarg.h>
#include <stdatomic.h>
#include <stdio.h>
#include <stdlib.h>
#include <string.h>
#include <sys/mman.h>
#include <sys/socket.h>
#include <sys/stat.h>
#include <unistd.h>

#define PIECE 40

static atomic_ulong alone;
static atomic_ulong *asked = &alone;
static unsigned long which;
static int instead, by;
/* Nothing is counted before the program itself begins. */
static const char *meant = "";

static int told_number(const char *name) {
    const char *number = getenv(name);
    return number ? atoi(number) : 0;
}

__attribute__((constructor)) static void begin(void) {
    const char *number = getenv("REFUSE"), *path = getenv("REFUSE_TOLD"), *what = getenv("REFUSE_WHAT");
    int file = path ? open(path, O_RDWR | O_CREAT | O_TRUNC, 0600) : -1;
    if (file >= 0 && ftruncate(file, sizeof *asked) == 0) {
        void *shared = mmap(NULL, sizeof *asked, PROT_READ | PROT_WRITE, MAP_SHARED, file, 0);
        if (shared != MAP_FAILED) asked = shared;
    }
    if (file >= 0) close(file);
    which = number ? strtoul(number, NULL, 10) : 0;
    instead = told_number("REFUSE_ERROR");
    by = told_number("REFUSE_BY");
    meant = what ? what : "memory";
}

static int is_meant(const char *what) { return strcmp(meant, what) == 0; }

static int is_refused(void) { return atomic_fetch_add(asked, 1) + 1 == which; }

/* Refuses this call by the error, or by what is wanted in its stead. */
static int refuse(int error) {
    if (by) kill(getpid(), by), pause();
    if (instead < 0) return 0;
    errno = instead ? instead : error;
    return -1;
}

/* Whether this call is the one; then errno is set so. */
static int fails(const char *what, int error) {
    if (!is_meant(what) || !is_refused()) return 0;
    refuse(error);
    return 1;
}

static int is_socket(int file) {
    struct stat it;
    return fstat(file, &it) == 0 && S_ISSOCK(it.st_mode);
}

/* Whether a transfer of the file is counted: one of this kind, or where the file is a socket, one of that. */
static int is_transfer(int file, const char *of_any, const char *of_socket) {
    return is_meant(of_any) || (is_meant(of_socket) && is_socket(file));
}

static size_t piece(size_t count) { return count < PIECE ? count : PIECE; }

#define NEXT(name) \
    static __typeof__(name) *next; \
    if (!next) next = (__typeof__(name) *)dlsym(RTLD_NEXT, #name)

void *malloc(size_t size) {
    NEXT(malloc);
    return fails("memory", ENOMEM) ? NULL : next(size);
}

void *realloc(void *old, size_t size) {
    NEXT(realloc);
    return fails("memory", ENOMEM) ? NULL : next(old, size);
}

ssize_t read(int file, void *bytes, size_t count) {
    NEXT(read);
    if (!is_transfer(file, "read", "recv")) return next(file, bytes, count);
    if (!is_refused()) return next(file, bytes, piece(count));
    return refuse(is_meant("read") ? EIO : ECONNRESET);
}

ssize_t write(int file, const void *bytes, size_t count) {
    NEXT(write);
    if (!is_transfer(file, "write", "send")) return next(file, bytes, count);
    if (!is_refused()) return next(file, bytes, piece(count));
    return refuse(is_meant("write") ? EIO : EPIPE);
}

ssize_t recv(int file, void *bytes, size_t count, int flags) {
    NEXT(recv);
    if (!is_meant("recv")) return next(file, bytes, count, flags);
    return fails("recv", ECONNRESET) ? -1 : next(file, bytes, piece(count), flags);
}

ssize_t send(int file, const void *bytes, size_t count, int flags) {
    NEXT(send);
    if (!is_meant("send")) return next(file, bytes, count, flags);
    return fails("send", EPIPE) ? -1 : next(file, bytes, piece(count), flags);
}

int accept4(int file, struct sockaddr *from, socklen_t *length, int flags) {
    NEXT(accept4);
    int came = next(file, from, length, flags);
    if (came < 0 || !fails("accept", ECONNABORTED)) return came;
    close(came);
    errno = ECONNABORTED;
    return -1;
}

int accept(int file, struct sockaddr *from, socklen_t *length) { return accept4(file, from, length, 0); }

int socket(int domain, int type, int protocol) {
    NEXT(socket);
    return fails("socket", EMFILE) ? -1 : next(domain, type, protocol);
}

int setsockopt(int file, int level, int name, const void *value, socklen_t length) {
    NEXT(setsockopt);
    return fails("option", EINVAL) ? -1 : next(file, level, name, value, length);
}

int bind(int file, const struct sockaddr *to, socklen_t length) {
    NEXT(bind);
    return fails("bind", EADDRINUSE) ? -1 : next(file, to, length);
}

int listen(int file, int most) {
    NEXT(listen);
    return fails("listen", EADDRINUSE) ? -1 : next(file, most);
}

int pthread_create(pthread_t *thread, const pthread_attr_t *how, void *(*run)(void *), void *with) {
    NEXT(pthread_create);
    return fails("thread", EAGAIN) ? EAGAIN : next(thread, how, run, with);
}

int open(const char *path, int flags, ...) {
    NEXT(open);
    va_list more;
    va_start(more, flags);
    mode_t mode = flags & (O_CREAT | O_TMPFILE) ? va_arg(more, mode_t) : 0;
    va_end(more);
    return fails("open", EACCES) ? -1 : next(path, flags, mode);
}

int fsync(int file) {
    NEXT(fsync);
    return fails("sync", EIO) ? -1 : next(file);
}

int rename(const char *from, const char *to) {
    NEXT(rename);
    return fails("rename", EACCES) ? -1 : next(from, to);
}

int unlink(const char *path) {
    NEXT(unlink);
    return fails("remove", EACCES) ? -1 : next(path);
}
