/* Memory whose blocks each end where the next page may neither be read nor written, so that whatever passes a block's end
 * ends the program, and so does whatever uses a block that was given back. Bytes just before a block mustn't change; that
 * is found when it is given back. tools/try-library has the allocators of clients/c take this for malloc. */
#define _GNU_SOURCE
#include <stdint.h>
#include <stdio.h>
#include <stdlib.h>
#include <string.h>
#include <sys/mman.h>

enum { PAGE = 4096, GUARD = 0xa5 };

/* Is at the start of a block's pages. */
struct head {
    size_t pages, size;
};

void *guard_malloc(size_t size);
void *guard_realloc(void *bytes, size_t size);
void guard_free(void *bytes);

static void fail(const char *what) {
    fprintf(stderr, "guard: %s\n", what);
    abort();
}

static struct head *head_of(void *bytes) {
    size_t before = ((size_t)bytes - sizeof(struct head)) % PAGE + sizeof(struct head);
    return (struct head *)((uint8_t *)bytes - before);
}

static uint8_t *block_of(struct head *head) { return (uint8_t *)head + head->pages * PAGE - head->size; }

/* Has nothing at so many bytes any longer, so that their addresses aren't used again. */
static void forbid(void *at, size_t size) {
    int how = MAP_PRIVATE | MAP_ANONYMOUS | MAP_NORESERVE | MAP_FIXED;
    if (mmap(at, size, PROT_NONE, how, -1, 0) == MAP_FAILED) fail("a page can't be guarded");
}

void *guard_malloc(size_t size) {
    size_t pages = (sizeof(struct head) + size + PAGE - 1) / PAGE;
    uint8_t *at = mmap(NULL, (pages + 1) * PAGE, PROT_READ | PROT_WRITE, MAP_PRIVATE | MAP_ANONYMOUS, -1, 0);
    if (at == MAP_FAILED) return NULL;
    forbid(at + pages * PAGE, PAGE);
    struct head *head = (struct head *)at;
    head->pages = pages;
    head->size = size;
    memset(head + 1, GUARD, pages * PAGE - sizeof(struct head));
    return block_of(head);
}

void guard_free(void *bytes) {
    if (bytes == NULL) return;
    struct head *head = head_of(bytes);
    if (block_of(head) != bytes) fail("what is given back isn't a block");
    for (uint8_t *it = (uint8_t *)(head + 1); it < block_of(head); it++)
        if (*it != GUARD) fail("a byte before a block was written to");
    forbid(head, head->pages * PAGE);
}

void *guard_realloc(void *bytes, size_t size) {
    uint8_t *moved = guard_malloc(size);
    if (bytes == NULL || moved == NULL) return moved;
    size_t had = head_of(bytes)->size;
    memcpy(moved, bytes, had < size ? had : size);
    guard_free(bytes);
    return moved;
}
