/* The nodes and names of the tree, as the mount knows them. */
#include "nodes.h"
#include <errno.h>
#include <stdlib.h>
#include <string.h>
#include <unistd.h>

#define BLOCK 512

struct timespec now(void) {
    struct timespec it;
    clock_gettime(CLOCK_REALTIME, &it);
    return it;
}

static const struct {
    const char *word;
    mode_t kind;
} kinds[] = {{"reg", S_IFREG},   {"dir", S_IFDIR},  {"sym", S_IFLNK},  {"fifo", S_IFIFO},
             {"sock", S_IFSOCK}, {"char", S_IFCHR}, {"block", S_IFBLK}};

#define KINDS (sizeof kinds / sizeof *kinds)

mode_t kind_of(const char *word) {
    for (size_t i = 0; i < KINDS; i++)
        if (strcmp(kinds[i].word, word) == 0) return kinds[i].kind;
    return 0;
}

const char *word_of(mode_t kind) {
    for (size_t i = 0; i < KINDS; i++)
        if (kinds[i].kind == (kind & S_IFMT)) return kinds[i].word;
    return NULL;
}

struct node *node_of(const struct nodes *nodes, unsigned long number) {
    struct node *it = nodes->chains[number % CHAINS];
    while (it != NULL && it->number != number) it = it->beside;
    return it;
}

struct node *add_node(struct nodes *nodes, unsigned long number, mode_t mode) {
    struct node *node = calloc(1, sizeof *node);
    if (node == NULL) return NULL;
    node->number = number, node->mode = mode, node->links = 1;
    node->owner = getuid(), node->group = getgid();
    node->read = node->written = node->changed = now();
    node->beside = nodes->chains[number % CHAINS];
    nodes->chains[number % CHAINS] = node;
    return node;
}

/* Where in its chain the name is, or would be. */
static struct name **place_of(const struct nodes *nodes, unsigned long parent, const char *spelled) {
    unsigned long hash = parent * 31;
    for (const char *sign = spelled; *sign != 0; sign++) hash = hash * 33 + (unsigned char)*sign;
    struct name **place = (struct name **)&nodes->names[hash % CHAINS];
    while (*place != NULL && ((*place)->parent != parent || strcmp((*place)->text, spelled) != 0))
        place = &(*place)->beside;
    return place;
}

struct node *node_named(const struct nodes *nodes, unsigned long parent, const char *spelled) {
    const struct name *it = *place_of(nodes, parent, spelled);
    return it != NULL ? it->node : NULL;
}

bool add_name(struct nodes *nodes, struct node *node, unsigned long parent, const char *spelled) {
    struct name *name = calloc(1, sizeof *name + strlen(spelled) + 1);
    if (name == NULL) return false;
    name->parent = parent, name->node = node, name->next = node->names;
    strcpy(name->text, spelled);
    node->names = name;
    *place_of(nodes, parent, spelled) = name;
    return true;
}

void drop_name(struct nodes *nodes, unsigned long parent, const char *spelled) {
    struct name **place = place_of(nodes, parent, spelled), *gone = *place;
    if (gone == NULL) return;
    *place = gone->beside;
    for (place = &gone->node->names; *place != gone; place = &(*place)->next) {}
    *place = gone->next;
    free(gone);
}

static void drop_bytes(struct nodes *nodes, struct node *node) {
    nodes->kept -= (long)node->room;
    free(node->bytes);
    node->bytes = NULL, node->room = 0;
}

void free_if_gone(struct nodes *nodes, struct node *node) {
    if (node->names != NULL || node->openings != 0 || node->lookups != 0 || node->number == ROOT) return;
    struct node **place = &nodes->chains[node->number % CHAINS];
    while (*place != node) place = &(*place)->beside;
    *place = node->beside;
    drop_bytes(nodes, node);
    free(node->text);
    free(node);
}

int path_below(const struct nodes *nodes, unsigned long parent, const char *spelled, char path[PATH_ROOM]) {
    char *start = path + PATH_ROOM - 1;
    *start = 0;
    for (;;) {
        if (spelled != NULL) {
            size_t length = strlen(spelled);
            if (length + 1 > (size_t)(start - path)) return -ENAMETOOLONG;
            start -= length + 1;
            *start = '/';
            memcpy(start + 1, spelled, length);
        }
        if (parent == ROOT) break;
        const struct node *node = node_of(nodes, parent);
        if (node == NULL || node->names == NULL) return -ENOENT;
        parent = node->names->parent, spelled = node->names->text;
    }
    if (*start == 0) *--start = '/';
    memmove(path, start, (size_t)(path + PATH_ROOM - start));
    return 0;
}

void has_changed(struct nodes *nodes, unsigned long number) {
    struct node *node = node_of(nodes, number);
    if (node != NULL) node->written = node->changed = now();
}

void attributes_of(const struct node *node, struct stat *attributes) {
    memset(attributes, 0, sizeof *attributes);
    attributes->st_ino = node->number, attributes->st_mode = node->mode, attributes->st_nlink = node->links;
    attributes->st_uid = node->owner, attributes->st_gid = node->group, attributes->st_rdev = node->device;
    attributes->st_size = node->size, attributes->st_blocks = (node->size + BLOCK - 1) / BLOCK;
    attributes->st_blksize = PIECE_MOST;
    attributes->st_atim = node->read, attributes->st_mtim = node->written, attributes->st_ctim = node->changed;
}

unsigned long nodes_alive(const struct nodes *nodes, unsigned long *blocks) {
    unsigned long alive = 0;
    for (int chain = 0; chain < CHAINS; chain++)
        for (const struct node *it = nodes->chains[chain]; it != NULL; it = it->beside) {
            if (it->names == NULL && it->openings == 0 && it->number != ROOT) continue;
            alive++;
            *blocks += (unsigned long)(it->size + PIECE_MOST - 1) / PIECE_MOST;
        }
    return alive;
}

int keep_length(struct nodes *nodes, struct node *node, off_t length) {
    if (length > KEPT_MOST) return -EFBIG;
    if ((size_t)length > node->room) {
        size_t room = (size_t)(length + length / 2 + PIECE_MOST);
        if (nodes->kept + (long)(room - node->room) > KEPT_MOST) return -ENOSPC;
        char *bytes = realloc(node->bytes, room);
        if (bytes == NULL) return -ENOSPC;
        nodes->kept += (long)(room - node->room);
        node->bytes = bytes, node->room = room;
    }
    if (length > node->size) memset(node->bytes + node->size, 0, (size_t)(length - node->size));
    if (length == 0) drop_bytes(nodes, node);
    node->size = length;
    return 0;
}

int keep_bytes(struct nodes *nodes, struct node *node, const char *bytes, size_t count, off_t from) {
    off_t end = from + (off_t)count;
    int fault = end > node->size ? keep_length(nodes, node, end) : 0;
    if (fault == 0 && count != 0) memcpy(node->bytes + from, bytes, count);
    return fault;
}
