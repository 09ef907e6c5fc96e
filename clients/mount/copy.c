/* The copy of the tree that --out asks for. Its bytes are those that the mount has kept, so that no layer is asked and
 * the history has no call for it. */
#include "copy.h"
#include "faults.h"
#include "spelling.h"
#include <dirent.h>
#include <errno.h>
#include <fcntl.h>
#include <stdlib.h>
#include <string.h>
#include <unistd.h>

struct copy {
    const struct session *session;
    const char *failed;         /* what failed first, with the errno `why` */
    int why, special;           /* special: devices that this user may not make */
    const struct name **linked; /* a name that is copied of each file with several */
    size_t linked_count;
};

static void draft_of(const char *out, char draft[PATH_ROOM]) { snprintf(draft, PATH_ROOM, "%s.part", out); }

static bool is_empty(const char *path) {
    int count = 0;
    DIR *directory = opendir(path);
    if (directory == NULL) return false;
    while (readdir(directory) != NULL) count++;
    closedir(directory);
    return count == 2;
}

void check_copy(const char *out) {
    char draft[PATH_ROOM];
    struct stat it;
    draft_of(out, draft);
    if (lstat(out, &it) == 0 && !(S_ISDIR(it.st_mode) && is_empty(out))) give_up("--out %s is there already", out);
    if (lstat(draft, &it) == 0) give_up("--out: %s is there already", draft);
}

static bool write_all(int file, const char *bytes, off_t count) {
    while (count > 0) {
        ssize_t done = write(file, bytes, (size_t)count);
        if (done < 0 && errno == EINTR) continue;
        if (done < 0) return false;
        bytes += done, count -= done;
    }
    return true;
}

static bool copy_bytes(int directory, const char *text, const struct node *node) {
    int file = openat(directory, text, O_WRONLY | O_CREAT | O_EXCL | O_NOFOLLOW | O_CLOEXEC, 0600);
    if (file < 0) return false;
    bool written = write_all(file, node->bytes, node->size);
    return close(file) == 0 && written;
}

/* Owner, mode and times, where this user may set them. */
static void copy_attributes(int directory, const char *text, const struct node *node) {
    struct timespec times[2] = {node->read, node->written};
    int owner = fchownat(directory, text, node->owner, node->group, AT_SYMLINK_NOFOLLOW);
    if (!S_ISLNK(node->mode) && fchmodat(directory, text, node->mode & (owner == 0 ? 07777 : 01777), 0) != 0) return;
    utimensat(directory, text, times, AT_SYMLINK_NOFOLLOW);
}

static void copy_names(struct copy *copy, int directory, unsigned long number);

static bool copy_directory(struct copy *copy, int directory, const char *text, const struct node *node) {
    if (mkdirat(directory, text, 0700) != 0) return false;
    int inner = openat(directory, text, O_RDONLY | O_DIRECTORY | O_NOFOLLOW | O_CLOEXEC);
    if (inner < 0) return false;
    copy_names(copy, inner, node->number);
    close(inner);
    return true;
}

static bool copy_node(struct copy *copy, int directory, const char *text, const struct node *node) {
    if (S_ISREG(node->mode)) return copy_bytes(directory, text, node);
    if (S_ISDIR(node->mode)) return copy_directory(copy, directory, text, node);
    if (S_ISLNK(node->mode)) return symlinkat(node->text != NULL ? node->text : "?", directory, text) == 0;
    bool made = mknodat(directory, text, node->mode & (S_IFMT | 0700), node->device) == 0;
    if (!made && errno == EPERM) copy->special++;
    return made || errno == EPERM;
}

/* The place in the copy of a name. */
static bool place_of(const struct copy *copy, const struct name *name, char place[2 * PATH_ROOM]) {
    char path[PATH_ROOM], draft[PATH_ROOM], *rest = path + 1, *part;
    if (path_below(&copy->session->nodes, name->parent, name->text, path) != 0) return false;
    draft_of(copy->session->options.out, draft);
    size_t length = (size_t)snprintf(place, 2 * PATH_ROOM, "%s", draft);
    while ((part = strsep(&rest, "/")) != NULL) {
        unspell(part);
        length += (size_t)snprintf(place + length, 2 * PATH_ROOM - length, "/%s", part);
    }
    return true;
}

/* Another name of the same file, where that is copied already. */
static const struct name *earlier(struct copy *copy, const struct name *name) {
    if (S_ISDIR(name->node->mode) || name->node->names->next == NULL) return NULL;
    for (size_t i = 0; i < copy->linked_count; i++)
        if (copy->linked[i]->node == name->node) return copy->linked[i];
    copy->linked = wanted(realloc(copy->linked, (copy->linked_count + 1) * sizeof *copy->linked));
    copy->linked[copy->linked_count++] = name;
    return NULL;
}

static void copy_name(struct copy *copy, int directory, const struct name *name) {
    char text[SPELLED_ROOM], place[2 * PATH_ROOM];
    snprintf(text, sizeof text, "%s", name->text);
    unspell(text);
    const struct name *first = earlier(copy, name);
    bool done = first == NULL ? copy_node(copy, directory, text, name->node)
                              : place_of(copy, first, place) && linkat(AT_FDCWD, place, directory, text, 0) == 0;
    if (!done && copy->failed == NULL) copy->failed = name->text, copy->why = errno;
    if (done && first == NULL) copy_attributes(directory, text, name->node);
}

static void copy_names(struct copy *copy, int directory, unsigned long number) {
    for (int chain = 0; chain < CHAINS; chain++)
        for (const struct name *it = copy->session->nodes.names[chain]; it != NULL; it = it->beside)
            if (it->parent == number) copy_name(copy, directory, it);
}

bool copy_tree(const struct session *session) {
    struct copy copy = {.session = session};
    const char *out = session->options.out;
    char draft[PATH_ROOM];
    draft_of(out, draft);
    if (!copy_directory(&copy, AT_FDCWD, draft, node_of(&session->nodes, ROOT))) {
        report("--out: %s: %s", draft, strerror(errno));
        return false;
    }
    free(copy.linked);
    copy_attributes(AT_FDCWD, draft, node_of(&session->nodes, ROOT));
    if (copy.special != 0) report("--out: %d devices are left out: only root may make them", copy.special);
    if (copy.failed == NULL && rename(draft, out) == 0) return true;
    if (copy.failed == NULL) report("--out: %s can't become %s: %s", draft, out, strerror(errno));
    else report("--out: %s: %s; what could be copied is in %s", copy.failed, strerror(copy.why), draft);
    return false;
}
