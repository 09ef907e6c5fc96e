/* What the kernel asks of names and nodes. */
#include "answers.h"
#include "calls.h"
#include "faults.h"
#include "notices.h"
#include "spelling.h"
#include <errno.h>
#include <stdlib.h>
#include <string.h>
#include <sys/statvfs.h>
#include <unistd.h>

struct session *session_of(fuse_req_t request) {
    struct session *session = fuse_req_userdata(request);
    session->asker = fuse_req_ctx(request)->pid;
    return session;
}

void refuse(fuse_req_t request, int fault) { fuse_reply_err(request, -fault); }

int path_of(const struct session *session, fuse_ino_t parent, const char *name, char spelled[SPELLED_ROOM],
            char path[PATH_ROOM]) {
    return spell(spelled, name) ? path_below(&session->nodes, parent, spelled, path) : -ENAMETOOLONG;
}

/* A node of several names is looked up anew each time, since a policy may grant more on one path than on another. */
void fill_entry(struct node *node, struct fuse_entry_param *entry) {
    bool has_one = node->names == NULL || node->names->next == NULL;
    memset(entry, 0, sizeof *entry);
    entry->ino = node->number;
    entry->attr_timeout = KEPT_SECONDS;
    entry->entry_timeout = has_one || S_ISDIR(node->mode) ? KEPT_SECONDS : 0;
    attributes_of(node, &entry->attr);
    node->lookups++;
}

static void reply_entry(fuse_req_t request, struct node *node) {
    struct fuse_entry_param entry;
    fill_entry(node, &entry);
    fuse_reply_entry(request, &entry);
}

/* ---- By which name a process means a node that has several ---- */

static void leave_trail(struct session *session, const struct node *node, unsigned long parent, const char *spelled) {
    if (node->names == NULL || node->names->next == NULL) return;
    size_t place = session->next_trail++ % TRAILS;
    session->trails[place].asker = session->asker;
    session->trails[place].number = node->number, session->trails[place].parent = parent;
    strcpy(session->trails[place].name, spelled);
}

static const struct name *name_looked_up(const struct session *session, const struct node *node) {
    for (size_t back = 1; back <= TRAILS && back <= session->next_trail; back++) {
        size_t place = (session->next_trail - back) % TRAILS;
        if (session->trails[place].asker != session->asker || session->trails[place].number != node->number) continue;
        const char *text = session->trails[place].name;
        for (const struct name *it = node->names; it != NULL; it = it->next)
            if (it->parent == session->trails[place].parent && strcmp(it->text, text) == 0) return it;
    }
    return NULL;
}

int paths_of(struct session *session, const struct node *node, char (**paths)[PATH_ROOM], size_t *count) {
    size_t names = 0;
    for (const struct name *it = node->names; it != NULL; it = it->next) names++;
    if (names == 0) return -ENOENT;
    const struct name *only = names == 1 ? node->names : name_looked_up(session, node);
    *paths = calloc(names, sizeof **paths);
    if (*paths == NULL) return -ENOMEM;
    int fault = 0;
    *count = 0;
    for (const struct name *it = node->names; it != NULL && fault == 0; it = it->next)
        if (only == NULL || it == only) fault = path_below(&session->nodes, it->parent, it->text, (*paths)[(*count)++]);
    if (fault != 0) free(*paths);
    return fault;
}

/* ---- Looking up ---- */

/* Nobody but this mount changes the tree, so it knows what the tree will answer, and needn't wait for it. */
static void say_stat(struct session *session, const struct node *node, const char *path) {
    char reply[REPLY_ROOM] = "refused 3 ENOENT";
    if (node != NULL)
        snprintf(reply, sizeof reply, "stat %lu %s %ld %lu", node->number, word_of(node->mode), (long)node->in_tree,
                 node->links);
    char call[PATH_ROOM + sizeof "stat "];
    snprintf(call, sizeof call, "stat %s", path);
    tree_say(&session->tree, "%s", call);
    tree_leave(&session->tree, reply);
    log_line(session, call, reply);
}

static void reply_missing(fuse_req_t request) {
    struct fuse_entry_param none = {.entry_timeout = KEPT_SECONDS};
    fuse_reply_entry(request, &none);
}

/* Whether the tree can have a name at this path. */
static bool may_be_named(const char *spelled, const char *path) {
    int depth = 0;
    for (const char *sign = path; *sign != 0; sign++) depth += *sign == '/';
    return strlen(spelled) <= NAME_MOST && depth <= DEPTH_MOST;
}

static void look_up(fuse_req_t request, fuse_ino_t parent, const char *name) {
    struct session *session = session_of(request);
    char path[PATH_ROOM], spelled[SPELLED_ROOM];
    int fault = path_of(session, parent, name, spelled, path);
    if (fault == 0 && !may_be_named(spelled, path)) fault = ask(session, NULL, "stat %s", path);
    if (fault == 0 && session->tree.is_lost) fault = -EIO;
    if (fault != 0) return refuse(request, fault);
    struct node *node = node_named(&session->nodes, parent, spelled);
    say_stat(session, node, path);
    if (node == NULL) return reply_missing(request);
    leave_trail(session, node, parent, spelled);
    reply_entry(request, node);
}

static void forget_node(struct session *session, fuse_ino_t number, uint64_t times) {
    struct node *node = node_of(&session->nodes, number);
    if (node == NULL) return;
    node->lookups -= node->lookups < times ? node->lookups : times;
    free_if_gone(&session->nodes, node);
}

static void forget(fuse_req_t request, fuse_ino_t number, uint64_t times) {
    forget_node(fuse_req_userdata(request), number, times);
    fuse_reply_none(request);
}

static void forget_all(fuse_req_t request, size_t count, struct fuse_forget_data *them) {
    for (size_t i = 0; i < count; i++) forget_node(fuse_req_userdata(request), them[i].ino, them[i].nlookup);
    fuse_reply_none(request);
}

/* ---- Attributes ---- */

static void reply_attributes(fuse_req_t request, const struct node *node) {
    struct stat attributes;
    attributes_of(node, &attributes);
    fuse_reply_attr(request, &attributes, KEPT_SECONDS);
}

static void get_attributes(fuse_req_t request, fuse_ino_t number, struct fuse_file_info *file) {
    (void)file;
    const struct node *node = node_of(&session_of(request)->nodes, number);
    if (node == NULL) return refuse(request, -ESTALE);
    reply_attributes(request, node);
}

/* By path, as truncate(2): it asks for truncate there. */
static int cut_by_path(struct session *session, const struct node *node, off_t length) {
    char(*paths)[PATH_ROOM];
    size_t count;
    int fault = paths_of(session, node, &paths, &count);
    if (fault != 0) return fault;
    for (size_t i = 0; i < count && fault == 0; i++)
        fault = ask(session, NULL, "truncate %s %ld", paths[i], (long)length);
    free(paths);
    return fault;
}

static int cut(struct session *session, struct node *node, off_t length, const struct fuse_file_info *file) {
    off_t asked = session->options.keeps_bytes && length > FILE_MOST ? FILE_MOST : length;
    int fault = file != NULL ? cut_opening(session, file, asked) : cut_by_path(session, node, asked);
    if (fault == 0 && keeps(session)) fault = keep_length(&session->nodes, node, length);
    if (fault != 0) return fault;
    node->size = length;
    node->in_tree = asked;
    node->written = now();
    return 0;
}

static void set_attributes(fuse_req_t request, fuse_ino_t number, struct stat *to, int set,
                           struct fuse_file_info *file) {
    struct session *session = session_of(request);
    struct node *node = node_of(&session->nodes, number);
    int fault = node == NULL ? -ESTALE : set & FUSE_SET_ATTR_SIZE ? cut(session, node, to->st_size, file) : 0;
    if (fault != 0) return refuse(request, fault);
    if (set & FUSE_SET_ATTR_MODE) node->mode = (node->mode & S_IFMT) | (to->st_mode & ~(mode_t)S_IFMT);
    if (set & FUSE_SET_ATTR_UID) node->owner = to->st_uid;
    if (set & FUSE_SET_ATTR_GID) node->group = to->st_gid;
    if (set & FUSE_SET_ATTR_ATIME) node->read = set & FUSE_SET_ATTR_ATIME_NOW ? now() : to->st_atim;
    if (set & FUSE_SET_ATTR_MTIME) node->written = set & FUSE_SET_ATTR_MTIME_NOW ? now() : to->st_mtim;
    node->changed = now();
    reply_attributes(request, node);
}

static void read_link(fuse_req_t request, fuse_ino_t number) {
    const struct node *node = node_of(&session_of(request)->nodes, number);
    if (node != NULL && node->text != NULL) fuse_reply_readlink(request, node->text);
    else refuse(request, -EINVAL); /* a link of the policy has no text */
}

static void get_statistics(fuse_req_t request, fuse_ino_t number) {
    struct session *session = session_of(request);
    unsigned long blocks = 0, alive = nodes_alive(&session->nodes, &blocks);
    (void)number;
    unsigned long most = session->options.keeps_bytes ? KEPT_MOST / PIECE_MOST : NODES_MOST * (FILE_MOST / PIECE_MOST);
    struct statvfs statistics = {.f_bsize = PIECE_MOST, .f_frsize = PIECE_MOST, .f_namemax = NAME_MOST};
    statistics.f_files = NODES_MOST;
    statistics.f_ffree = statistics.f_favail = NODES_MOST - alive;
    statistics.f_blocks = most;
    statistics.f_bfree = statistics.f_bavail = blocks < most ? most - blocks : 0;
    fuse_reply_statfs(request, &statistics);
}

/* ---- Creating ---- */

struct node *created(fuse_req_t request, const char *reply, unsigned long parent, const char *spelled, mode_t mode) {
    struct session *session = fuse_req_userdata(request);
    const struct node *directory = node_of(&session->nodes, parent);
    unsigned long number = 0;
    if (sscanf(reply, "stat %lu", &number) != 1 || node_of(&session->nodes, number) != NULL) {
        report("the tree answers %s of the new %s", reply, spelled);
        return NULL;
    }
    struct node *node = add_node(&session->nodes, number, mode);
    if (node == NULL || !add_name(&session->nodes, node, parent, spelled)) return NULL;
    node->owner = fuse_req_ctx(request)->uid, node->group = fuse_req_ctx(request)->gid;
    if (directory != NULL && directory->mode & S_ISGID) {
        node->group = directory->group;
        if (S_ISDIR(mode)) node->mode |= S_ISGID;
    }
    has_changed(&session->nodes, parent);
    return node;
}

static void make(fuse_req_t request, const char *kind, fuse_ino_t parent, const char *name, mode_t mode, dev_t device,
                 const char *text) {
    struct session *session = session_of(request);
    char path[PATH_ROOM], spelled[SPELLED_ROOM];
    const char *reply = NULL;
    int fault = path_of(session, parent, name, spelled, path);
    if (fault == 0) {
        tree_say(&session->tree, "make %s %s", kind, path);
        tree_say(&session->tree, "stat %s", path);
        fault = hear(session, NULL);
        int looked = hear(session, &reply);
        if (fault == 0) fault = looked;
    }
    struct node *node = fault == 0 ? created(request, reply, parent, spelled, mode) : NULL;
    if (node == NULL) return refuse(request, fault != 0 ? fault : -EIO);
    node->device = device;
    if (text != NULL && (node->text = strdup(text)) != NULL) node->size = (off_t)strlen(text);
    reply_entry(request, node);
}

static void make_node(fuse_req_t request, fuse_ino_t parent, const char *name, mode_t mode, dev_t device) {
    if (word_of(mode) == NULL) return refuse(request, -EINVAL);
    make(request, word_of(mode), parent, name, mode, device, NULL);
}

static void make_directory(fuse_req_t request, fuse_ino_t parent, const char *name, mode_t mode) {
    make(request, "dir", parent, name, S_IFDIR | (mode & ~(mode_t)S_IFMT), 0, NULL);
}

static void make_link(fuse_req_t request, const char *text, fuse_ino_t parent, const char *name) {
    make(request, "sym", parent, name, S_IFLNK | 0777, 0, text);
}

/* ---- Removing, moving, linking ---- */

/* A node has lost a name. */
static void has_left(struct session *session, struct node *node) {
    node->changed = now();
    node->links -= node->links != 0;
    free_if_gone(&session->nodes, node);
}

static void remove_name(fuse_req_t request, const char *call, fuse_ino_t parent, const char *name) {
    struct session *session = session_of(request);
    char path[PATH_ROOM], spelled[SPELLED_ROOM];
    int fault = path_of(session, parent, name, spelled, path);
    if (fault == 0) fault = ask(session, NULL, "%s %s", call, path);
    if (fault != 0) return refuse(request, fault);
    struct node *node = node_named(&session->nodes, parent, spelled);
    drop_name(&session->nodes, parent, spelled);
    if (node != NULL) has_left(session, node);
    has_changed(&session->nodes, parent);
    refuse(request, 0);
}

static void unlink_name(fuse_req_t request, fuse_ino_t parent, const char *name) {
    remove_name(request, "unlink", parent, name);
}

static void remove_directory(fuse_req_t request, fuse_ino_t parent, const char *name) {
    remove_name(request, "rmdir", parent, name);
}

/* What a move has done to the names. */
static void move_names(struct session *session, unsigned long parent, const char *name, unsigned long new_parent,
                       const char *new_name, bool is_exchange) {
    struct node *moved = node_named(&session->nodes, parent, name);
    struct node *other = node_named(&session->nodes, new_parent, new_name);
    if (moved == NULL || moved == other) return;
    drop_name(&session->nodes, parent, name);
    drop_name(&session->nodes, new_parent, new_name);
    bool named = add_name(&session->nodes, moved, new_parent, new_name);
    moved->changed = now();
    if (other != NULL && is_exchange) {
        named = add_name(&session->nodes, other, parent, name) && named;
        other->changed = now();
    } else if (other != NULL) {
        has_left(session, other);
    }
    if (!named) report("no memory for the name %s", new_name);
    has_changed(&session->nodes, parent);
    has_changed(&session->nodes, new_parent);
}

static void move(fuse_req_t request, fuse_ino_t parent, const char *name, fuse_ino_t new_parent, const char *new_name,
                 unsigned flags) {
    struct session *session = session_of(request);
    char old[PATH_ROOM], new[PATH_ROOM], spelled[SPELLED_ROOM], new_spelled[SPELLED_ROOM];
    const char *call = flags == 0 ? "rename" : flags == RENAME_NOREPLACE ? "rename_noreplace"
                     : flags == RENAME_EXCHANGE ? "exchange" : NULL;
    int fault = call == NULL ? -EINVAL : path_of(session, parent, name, spelled, old);
    if (fault == 0) fault = path_of(session, new_parent, new_name, new_spelled, new);
    if (fault == 0) fault = ask(session, NULL, "%s %s %s", call, old, new);
    if (fault == 0) move_names(session, parent, spelled, new_parent, new_spelled, flags == RENAME_EXCHANGE);
    refuse(request, fault);
}

static void link_node(fuse_req_t request, fuse_ino_t number, fuse_ino_t parent, const char *name) {
    struct session *session = session_of(request);
    struct node *node = node_of(&session->nodes, number);
    char path[PATH_ROOM], spelled[SPELLED_ROOM], (*paths)[PATH_ROOM] = NULL;
    size_t count;
    int fault = node == NULL ? -ESTALE : path_of(session, parent, name, spelled, path);
    if (fault == 0) fault = paths_of(session, node, &paths, &count);
    if (fault == 0) {
        fault = ask(session, NULL, "link %s %s", paths[0], path);
        free(paths);
    }
    if (fault != 0) return refuse(request, fault);
    /* While it had one name only, the kernel has kept that. */
    const struct name *only = node->names != NULL && node->names->next == NULL ? node->names : NULL;
    if (!add_name(&session->nodes, node, parent, spelled)) return refuse(request, -ENOMEM);
    node->links++;
    node->changed = now();
    has_changed(&session->nodes, parent);
    reply_entry(request, node);
    if (only != NULL) add_notice(session->notices, only->parent, only->text);
}

void add_calls_on_names(struct fuse_lowlevel_ops *calls) {
    calls->lookup = look_up, calls->forget = forget, calls->forget_multi = forget_all;
    calls->getattr = get_attributes, calls->setattr = set_attributes, calls->readlink = read_link;
    calls->statfs = get_statistics, calls->mknod = make_node, calls->mkdir = make_directory, calls->symlink = make_link;
    calls->unlink = unlink_name, calls->rmdir = remove_directory, calls->rename = move, calls->link = link_node;
}
