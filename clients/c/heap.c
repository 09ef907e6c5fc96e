/* The library's memory is that of malloc. */
#include "landtree.h"
#include <stdlib.h>

static char nothing[1];

static struct rattle_tried tried(void *bytes) {
    struct rattle_tried it = {bytes != NULL, bytes != NULL ? bytes : nothing};
    return it;
}

struct rattle_tried rattle_alloc(size_t size, size_t align) {
    return tried(malloc(size != 0 ? size : align));
}

struct rattle_tried rattle_realloc(void *bytes, size_t kept, size_t size, size_t align) {
    (void)kept;
    return tried(realloc(bytes, size != 0 ? size : align));
}

void rattle_dealloc(void *bytes) { free(bytes); }
