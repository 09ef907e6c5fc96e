/* What the kernel asks of open files and directories. */
#include "answers.h"
#include "calls.h"
#include "faults.h"
#include "spelling.h"
#include <errno.h>
#include <fcntl.h>
#include <stdlib.h>
#include <string.h>

/* The kernel's __FMODE_EXEC, which it sets in the flags of an open for execve(2). */
#define FOR_EXECUTION 0x20

/* An opening: of a file, a client of the tree and its descriptor; of a directory, what it held. */
struct opening {
    unsigned opener, descriptor;
    struct node *node;
    char *names;
    bool is_read; /* the directory was read from its start */
};

static struct opening *opening_of(const struct fuse_file_info *file) { return (struct opening *)(uintptr_t)file->fh; }

static unsigned client(unsigned opener) { return FIRST_OPENER + opener; }

/* ---- Which client opens: the first with a free descriptor ---- */

static int opener_for(struct session *session, unsigned *opener) {
    const char *reply;
    unsigned number;
    for (*opener = 0; *opener < session->openers; ++*opener)
        if (session->openings[*opener] < DESCRIPTORS_MOST) return 0;
    int fault = ask(session, &reply, "spawn");
    if (fault != 0) return fault;
    if (sscanf(reply, "client %u", &number) != 1 || number != client(*opener)) return -EIO;
    session->openers++;
    return 0;
}

static void leave_descriptor(struct session *session, unsigned opener, unsigned descriptor) {
    tree_say(&session->tree, "@%u close %u", client(opener), descriptor);
    tree_leave(&session->tree, "ok");
    session->openings[opener]--;
}

/* The mode of an `open` line. */
static void mode_of(int flags, bool creates, char mode[8]) {
    int access = flags & O_ACCMODE;
    const char *ways = access == O_RDONLY ? "r" : access == O_WRONLY ? "w" : "rw";
    snprintf(mode, 8, "%s%s%s%s", ways, flags & O_TRUNC ? "t" : "", creates ? "c" : "",
             creates && flags & O_EXCL ? "x" : "");
}

/* Opens a path, after `exec` if the kernel opens it for execution. */
static int open_path(struct session *session, const char *path, int flags, bool creates, struct opening *opening) {
    char mode[8];
    const char *reply;
    int fault = opener_for(session, &opening->opener);
    if (fault == 0 && flags & FOR_EXECUTION) fault = ask(session, NULL, "@%u exec %s", client(opening->opener), path);
    mode_of(flags, creates, mode);
    if (fault == 0) fault = ask(session, &reply, "@%u open %s %s", client(opening->opener), mode, path);
    if (fault != 0) return fault;
    if (sscanf(reply, "fd %u", &opening->descriptor) != 1) return -EIO;
    session->openings[opening->opener]++;
    return 0;
}

/* A node that may be meant by several names is opened by each, so that the strictest decides; one descriptor stays. */
static int open_node(struct session *session, const struct node *node, int flags, struct opening *opening) {
    char(*paths)[PATH_ROOM];
    size_t count;
    int fault = paths_of(session, node, &paths, &count);
    if (fault != 0) return fault;
    for (size_t i = 0; i < count && fault == 0; i++) {
        struct opening earlier = *opening;
        fault = open_path(session, paths[i], flags, false, opening);
        if (i != 0) leave_descriptor(session, earlier.opener, earlier.descriptor);
    }
    free(paths);
    return fault;
}

static void has_opened(struct session *session, struct node *node, struct opening *opening,
                       struct fuse_file_info *file) {
    if (file->flags & O_TRUNC) {
        if (keeps(session)) keep_length(&session->nodes, node, 0);
        node->size = node->in_tree = 0;
        node->written = node->changed = now();
    }
    opening->node = node;
    node->openings++;
    file->fh = (uintptr_t)opening;
    file->keep_cache = 1;
}

static void open_file(fuse_req_t request, fuse_ino_t number, struct fuse_file_info *file) {
    struct session *session = session_of(request);
    struct node *node = node_of(&session->nodes, number);
    struct opening *opening = calloc(1, sizeof *opening);
    int fault = opening == NULL ? -ENOMEM : node == NULL ? -ESTALE : open_node(session, node, file->flags, opening);
    if (fault != 0) return free(opening), refuse(request, fault);
    has_opened(session, node, opening, file);
    fuse_reply_open(request, file);
}

static void create_file(fuse_req_t request, fuse_ino_t parent, const char *name, mode_t mode,
                        struct fuse_file_info *file) {
    struct session *session = session_of(request);
    char path[PATH_ROOM], spelled[SPELLED_ROOM], way[8];
    const char *reply = NULL;
    struct node *node = NULL;
    struct fuse_entry_param entry;
    struct opening *opening = calloc(1, sizeof *opening);
    mode_of(file->flags, true, way);
    int fault = opening == NULL ? -ENOMEM : path_of(session, parent, name, spelled, path);
    if (fault == 0) fault = opener_for(session, &opening->opener);
    if (fault == 0) {
        tree_say(&session->tree, "@%u open %s %s", client(opening->opener), way, path);
        tree_say(&session->tree, "stat %s", path);
        fault = hear(session, &reply);
        if (fault == 0 && sscanf(reply, "fd %u", &opening->descriptor) != 1) fault = -EIO;
        int looked = hear(session, &reply);
        if (fault == 0) session->openings[opening->opener]++;
        if (fault == 0) fault = looked;
    }
    if (fault == 0) {
        node = created(request, reply, parent, spelled, S_IFREG | (mode & ~(mode_t)S_IFMT));
        if (node == NULL) fault = -EIO, leave_descriptor(session, opening->opener, opening->descriptor);
    }
    if (fault != 0) return free(opening), refuse(request, fault);
    has_opened(session, node, opening, file);
    fill_entry(node, &entry);
    fuse_reply_create(request, &entry, file);
}

int cut_opening(struct session *session, const struct fuse_file_info *file, off_t length) {
    const struct opening *it = opening_of(file);
    return ask(session, NULL, "@%u ftruncate %u %ld", client(it->opener), it->descriptor, (long)length);
}

static void close_file(fuse_req_t request, fuse_ino_t number, struct fuse_file_info *file) {
    struct session *session = session_of(request);
    struct opening *opening = opening_of(file);
    (void)number;
    leave_descriptor(session, opening->opener, opening->descriptor);
    opening->node->openings--;
    free_if_gone(&session->nodes, opening->node);
    free(opening);
    refuse(request, 0);
}

/* ---- Bytes ---- */

/* Reads in pieces; all are sent before the first reply is awaited. */
static int read_pieces(struct session *session, const struct opening *it, off_t from, size_t most, char *bytes,
                       size_t *got) {
    static const char data[] = "data ";
    size_t pieces = 0;
    int fault = 0;
    for (size_t at = 0; at < most; at += PIECE_MOST, pieces++)
        tree_say(&session->tree, "@%u read %u %ld %zu", client(it->opener), it->descriptor, (long)from + (long)at,
                 most - at < PIECE_MOST ? most - at : (size_t)PIECE_MOST);
    for (*got = 0; pieces > 0; pieces--) {
        const char *reply;
        int heard = hear(session, &reply);
        if (fault == 0) fault = heard;
        if (fault == 0 && strncmp(reply, data, strlen(data)) == 0)
            *got += unspell_bytes(bytes + *got, most - *got, reply + strlen(data));
    }
    return fault;
}

static void read_file(fuse_req_t request, fuse_ino_t number, size_t count, off_t from, struct fuse_file_info *file) {
    struct session *session = session_of(request);
    const struct opening *opening = opening_of(file);
    struct node *node = opening->node;
    char bytes[FILE_MOST];
    (void)number;
    size_t left = from < node->size ? (size_t)(node->size - from) : 0, most = count < left ? count : left;
    node->read = now();
    if (session->options.keeps_bytes)
        return (void)fuse_reply_buf(request, most != 0 ? node->bytes + from : NULL, most);
    if (most > sizeof bytes) most = sizeof bytes;
    int fault = read_pieces(session, opening, from, most, bytes, &most);
    if (fault != 0) return refuse(request, fault);
    fuse_reply_buf(request, bytes, most);
}

/* Writes in pieces. Across the longest length a part is written, as by write(2). */
static int write_pieces(struct session *session, const struct opening *it, const char *bytes, size_t count, off_t from,
                        size_t *done) {
    size_t pieces = 0, length;
    int fault = 0;
    for (size_t at = 0; at < count; at += length, pieces++) {
        off_t start = from + (off_t)at;
        length = count - at < PIECE_MOST ? count - at : PIECE_MOST;
        if (start < FILE_MOST && start + (off_t)length > FILE_MOST) length = (size_t)(FILE_MOST - start);
        tree_say(&session->tree, "@%u write %u %ld ", client(it->opener), it->descriptor, (long)start);
        tree_say_bytes(&session->tree, bytes + at, length);
    }
    for (*done = 0; pieces > 0; pieces--) {
        const char *reply;
        size_t written;
        int heard = hear(session, &reply);
        if (fault == 0) fault = heard;
        if (fault == 0 && sscanf(reply, "wrote %zu", &written) == 1) *done += written;
    }
    return *done != 0 ? 0 : fault;
}

static void write_file(fuse_req_t request, fuse_ino_t number, const char *bytes, size_t count, off_t from,
                       struct fuse_file_info *file) {
    struct session *session = session_of(request);
    const struct opening *opening = opening_of(file);
    struct node *node = opening->node;
    size_t done = count;
    int fault = 0;
    (void)number;
    if (!session->options.keeps_bytes) fault = write_pieces(session, opening, bytes, count, from, &done);
    if (fault == 0 && keeps(session)) fault = keep_bytes(&session->nodes, node, bytes, done, from);
    if (fault != 0) return refuse(request, fault);
    if (from + (off_t)done > node->size) node->size = from + (off_t)done;
    if (!session->options.keeps_bytes) node->in_tree = node->size;
    node->written = node->changed = now();
    fuse_reply_write(request, done);
}

/* ---- Directories ---- */

static int names_of(struct session *session, const struct node *node, char **names) {
    char path[PATH_ROOM];
    const char *reply;
    int fault = path_below(&session->nodes, node->number, NULL, path);
    if (fault == 0) fault = ask(session, &reply, "list %s", path);
    if (fault != 0) return fault;
    char *copy = strdup(reply);
    if (copy == NULL) return -ENOMEM;
    free(*names);
    *names = copy;
    return 0;
}

static void open_directory(fuse_req_t request, fuse_ino_t number, struct fuse_file_info *file) {
    struct session *session = session_of(request);
    struct node *node = node_of(&session->nodes, number);
    struct opening *opening = calloc(1, sizeof *opening);
    int fault = opening == NULL ? -ENOMEM : node == NULL ? -ESTALE : names_of(session, node, &opening->names);
    if (fault != 0) return free(opening), refuse(request, fault);
    opening->node = node;
    file->fh = (uintptr_t)opening;
    fuse_reply_open(request, file);
}

/* Adds a name to what a directory is answered; whether there was room. */
static bool add_entry(fuse_req_t request, struct session *session, const struct node *directory, const char *spelled,
                      off_t place, char *buffer, size_t room, size_t *used) {
    char name[SPELLED_ROOM];
    struct stat attributes = {.st_ino = directory->number, .st_mode = S_IFDIR};
    const struct node *node = node_named(&session->nodes, directory->number, spelled);
    if (node != NULL) attributes_of(node, &attributes);
    snprintf(name, sizeof name, "%s", spelled);
    unspell(name);
    size_t length = fuse_add_direntry(request, buffer + *used, room - *used, name, &attributes, place);
    if (length > room - *used) return false;
    *used += length;
    return true;
}

static void read_directory(fuse_req_t request, fuse_ino_t number, size_t room, off_t from,
                           struct fuse_file_info *file) {
    struct session *session = session_of(request);
    struct opening *opening = opening_of(file);
    (void)number;
    /* Read once more from its start, it is listed anew, or stays as it was if that is denied. */
    if (from == 0 && opening->is_read) names_of(session, opening->node, &opening->names);
    opening->is_read = true;
    char *buffer = malloc(room), *copy = strdup(opening->names), *rest = copy;
    if (buffer == NULL || copy == NULL) return free(buffer), free(copy), refuse(request, -ENOMEM);
    size_t used = 0;
    strsep(&rest, " "); /* "names" */
    for (off_t place = 1;; place++) {
        const char *name = place == 1 ? "." : place == 2 ? ".." : strsep(&rest, " ");
        if (name == NULL) break;
        if (place > from && !add_entry(request, session, opening->node, name, place, buffer, room, &used)) break;
    }
    fuse_reply_buf(request, buffer, used);
    free(buffer);
    free(copy);
}

static void close_directory(fuse_req_t request, fuse_ino_t number, struct fuse_file_info *file) {
    struct opening *opening = opening_of(file);
    (void)number;
    free(opening->names);
    free(opening);
    refuse(request, 0);
}

void add_calls_on_files(struct fuse_lowlevel_ops *calls) {
    calls->open = open_file, calls->create = create_file, calls->read = read_file, calls->write = write_file;
    calls->release = close_file, calls->opendir = open_directory, calls->readdir = read_directory;
    calls->releasedir = close_directory;
}
