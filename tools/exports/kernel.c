/* The system calls of an exported program, as an older kernel answers them. An exported program is compiled with
 * -Dsyscall=older_syscall and linked with this. $LEVEL is the level of the older kernel's Landlock; with $NO_OPENAT2 it
 * has no openat2(2). */
#undef syscall
#define _GNU_SOURCE
#include <errno.h>
#include <stdarg.h>
#include <stdint.h>
#include <stdlib.h>
#include <string.h>
#include <sys/syscall.h>
#include <unistd.h>

enum { OPENAT2 = 437, CREATE_RULESET = 444, VERSION = 1 };

/* What the ruleset handles that this level doesn't know. */
static int is_newer(const uint64_t *handled, long level)
{
    uint64_t known = level < 2 ? 0x1fff : level < 3 ? 0x3fff : level < 5 ? 0x7fff : 0xffff;

    return (handled[0] & ~known) || (level < 4 && handled[1]) || (level < 6 && handled[2]);
}

long older_syscall(long number, ...)
{
    const char *told = getenv("LEVEL");
    long level = told ? atol(told) : 0;
    long args[4];
    va_list given;

    va_start(given, number);
    for (int at = 0; at < 4; at++)
        args[at] = va_arg(given, long);
    va_end(given);
    if (number == OPENAT2 && getenv("NO_OPENAT2")) {
        errno = ENOSYS;
        return -1;
    }
    if (number == CREATE_RULESET && told && (int)args[2] == VERSION && !args[0])
        return level;
    if (number == CREATE_RULESET && told && is_newer((const uint64_t *)args[0], level)) {
        errno = EINVAL;
        return -1;
    }
    return syscall(number, args[0], args[1], args[2], args[3]);
}
