/* Lines on standard error. */
#include "faults.h"
#include <stdarg.h>
#include <stdio.h>
#include <stdlib.h>

/* One call of write, so that lines of several processes don't mix. */
static void write_line(const char *format, va_list words) {
    char line[8192];
    vsnprintf(line, sizeof line, format, words);
    fprintf(stderr, "landtree-mount: %s\n", line);
}

void report(const char *format, ...) {
    va_list words;
    va_start(words, format);
    write_line(format, words);
    va_end(words);
}

void give_up(const char *format, ...) {
    va_list words;
    va_start(words, format);
    write_line(format, words);
    va_end(words);
    exit(OWN_FAULT);
}

void *wanted(void *memory) {
    if (memory == NULL) give_up("no memory");
    return memory;
}
