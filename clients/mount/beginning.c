/* What the tree begins with. The nodes of --in are put into the policy, so that the loader creates them before there is
 * a layer, and the history has no call for them of the client that is confined. */
#include "beginning.h"
#include "faults.h"
#include "spelling.h"
#include <dirent.h>
#include <errno.h>
#include <fcntl.h>
#include <stdlib.h>
#include <string.h>
#include <sys/mman.h>
#include <unistd.h>

/* One reading of a directory. */
struct beginning {
    struct session *session;
    FILE *text;
    unsigned long next; /* the number of the next node */
    unsigned links;     /* further names of files */
};

/* ---- The policy's own nodes: they are read in a tree of their own, so that the history has nothing of it. ---- */

static const char *must_hear(struct tree *tree, int policy, const char *name) {
    const char *call, *reply = tree_hear(tree, &call);
    if (reply != NULL && strncmp(reply, "refused ", strlen("refused ")) != 0) return reply;
    const char *message = tree_message(tree, policy, name);
    give_up("--policy %s: %s", name, message != NULL ? message : reply != NULL ? reply : "landtree has ended");
}

static void read_bytes(struct session *session, struct tree *tree, struct node *node, const char *path) {
    off_t size = node->size;
    node->size = 0;
    tree_say(tree, "open r %s", path);
    must_hear(tree, session->policy, session->options.policy);
    for (off_t from = 0; from < size; from += PIECE_MOST) {
        char piece[PIECE_MOST];
        tree_say(tree, "read 0 %ld %d", (long)from, PIECE_MOST);
        const char *digits = must_hear(tree, session->policy, session->options.policy) + strlen("data ");
        size_t count = unspell_bytes(piece, sizeof piece, digits);
        if (keep_bytes(&session->nodes, node, piece, count, from) != 0) give_up("no memory");
    }
    tree_say(tree, "close 0");
    must_hear(tree, session->policy, session->options.policy);
}

static mode_t first_mode(mode_t kind) { return kind | (kind == S_IFLNK ? 0777 : 0755); }

static void read_node(struct session *session, struct tree *tree, unsigned long parent, const char *name,
                      unsigned long *last);

static void read_names(struct session *session, struct tree *tree, unsigned long directory, unsigned long *last) {
    char path[PATH_ROOM], *rest;
    if (path_below(&session->nodes, directory, NULL, path) != 0) give_up("the policy has a path that is too long");
    tree_say(tree, "list %s", path);
    char *names = wanted(strdup(must_hear(tree, session->policy, session->options.policy)));
    rest = names;
    strsep(&rest, " ");
    for (char *name; (name = strsep(&rest, " ")) != NULL;) read_node(session, tree, directory, name, last);
    free(names);
}

static void read_node(struct session *session, struct tree *tree, unsigned long parent, const char *name,
                      unsigned long *last) {
    char path[PATH_ROOM], word[16];
    unsigned long number, size, links;
    if (path_below(&session->nodes, parent, name, path) != 0) give_up("the policy has a path that is too long");
    tree_say(tree, "stat %s", path);
    const char *reply = must_hear(tree, session->policy, session->options.policy);
    if (sscanf(reply, "stat %lu %15s %lu %lu", &number, word, &size, &links) != 4) give_up("stat %s = %s", path, reply);
    mode_t kind = kind_of(word);
    struct node *node = wanted(add_node(&session->nodes, number, first_mode(kind)));
    if (!add_name(&session->nodes, node, parent, name)) give_up("no memory");
    node->size = node->in_tree = (off_t)size;
    if (number > *last) *last = number;
    if (kind == S_IFREG && size != 0 && keeps(session)) read_bytes(session, tree, node, path);
    if (kind == S_IFDIR) read_names(session, tree, number, last);
}

static unsigned long read_policy_nodes(struct session *session, const char *program) {
    char place[64];
    struct tree tree;
    unsigned long last = ROOT;
    snprintf(place, sizeof place, "/proc/self/fd/%d", session->policy);
    char *words[] = {"landtree", "run", "-", "--nodes", NODES_WORD, "--history", ENTRIES_WORD, "--policy", place,
                     "--explain", NULL};
    tree_start(&tree, program, words, session->policy, BEGINNING_SECONDS);
    read_names(session, &tree, ROOT, &last);
    tree_end(&tree, BEGINNING_SECONDS);
    close(tree.messages);
    return last;
}

static void copy_policy(struct session *session, FILE *text) {
    char piece[65536];
    size_t got;
    FILE *file = fopen(session->options.policy, "re");
    if (file == NULL) give_up("--policy %s: %s", session->options.policy, strerror(errno));
    while ((got = fread(piece, 1, sizeof piece, file)) > 0) fwrite(piece, 1, got, text);
    if (ferror(file)) give_up("--policy %s: %s", session->options.policy, strerror(errno));
    fclose(file);
}

/* ---- What is in the directory of --in ---- */

static void misfit(const char *path, const char *why) __attribute__((noreturn));
static void misfit(const char *path, const char *why) { give_up("--in: %s %s", path, why); }

static void write_path(FILE *text, const char *path) {
    fputs("\n[[node]]\npath = \"", text);
    for (; *path != 0; path++) {
        if (*path == '"' || *path == '\\') fputc('\\', text);
        fputc(*path, text);
    }
    fputs("\"\n", text);
}

static void write_data(FILE *text, const char *bytes, size_t count) {
    char digits[2 * PIECE_MOST];
    fputs("data = \"", text);
    for (size_t at = 0, length; at < count; at += length) {
        length = count - at < PIECE_MOST ? count - at : PIECE_MOST;
        spell_bytes(digits, bytes + at, length);
        fwrite(digits, 2, length, text);
    }
    fputs("\"\n", text);
}

/* All bytes of the file, however many it has by now. */
static char *bytes_of(int directory, const char *name, const char *path, size_t most, size_t *count) {
    char *bytes = NULL;
    struct stat real;
    int file = openat(directory, name, O_RDONLY | O_NOFOLLOW | O_NONBLOCK | O_CLOEXEC);
    if (file < 0 || fstat(file, &real) != 0) misfit(path, strerror(errno));
    size_t piece = (size_t)real.st_size + 1;
    for (*count = 0;;) {
        bytes = wanted(realloc(bytes, *count + piece));
        ssize_t got = read(file, bytes + *count, piece);
        if (got < 0) misfit(path, strerror(errno));
        if (got == 0) break;
        *count += (size_t)got;
        if (*count > most && most == FILE_MOST) misfit(path, "has over 65,536 bytes: --bytes mount takes larger files");
        if (*count > most) misfit(path, "is too large");
    }
    close(file);
    return bytes;
}

static void take_bytes(struct beginning *it, int directory, const char *name, const char *path, struct node *node) {
    size_t count;
    bool in_tree = !it->session->options.keeps_bytes;
    char *bytes = bytes_of(directory, name, path, in_tree ? FILE_MOST : KEPT_MOST, &count);
    if (in_tree) write_data(it->text, bytes, count), node->in_tree = (off_t)count;
    if (!keeps(it->session)) node->size = (off_t)count;
    else if (keep_bytes(&it->session->nodes, node, bytes, count, 0) != 0) misfit(path, "is too large");
    free(bytes);
}

static void take_text(int directory, const char *name, const char *path, struct node *node) {
    char text[PATH_ROOM + 1];
    ssize_t length = readlinkat(directory, name, text, sizeof text);
    if (length < 0) misfit(path, strerror(errno));
    if ((size_t)length > PATH_MOST) misfit(path, "is too long a link");
    text[length] = 0;
    node->text = wanted(strdup(text));
    node->size = length;
}

static void take_attributes(struct node *node, const struct stat *real) {
    node->mode = real->st_mode;
    node->owner = real->st_uid, node->group = real->st_gid, node->device = real->st_rdev;
    node->read = real->st_atim, node->written = real->st_mtim, node->changed = real->st_ctim;
}

static void take_directory(struct beginning *it, int directory, unsigned long number, const char *path, int depth);

/* What is there already is the policy's, which may be a directory here and there. */
static struct node *node_at(struct beginning *it, unsigned long parent, const char *spelled, const char *path,
                            const struct stat *real) {
    struct node *node = node_named(&it->session->nodes, parent, spelled);
    if (node != NULL) {
        if (!S_ISDIR(real->st_mode) || !S_ISDIR(node->mode)) misfit(path, "is a node of the policy too");
        return node;
    }
    if (it->next > NODES_MOST) misfit(path, "is one node more than the 4,096 of a tree");
    node = wanted(add_node(&it->session->nodes, it->next++, real->st_mode));
    if (!add_name(&it->session->nodes, node, parent, spelled)) give_up("no memory");
    return node;
}

static void take_node(struct beginning *it, int directory, unsigned long parent, const char *name, int depth) {
    char spelled[SPELLED_ROOM], path[PATH_ROOM];
    struct stat real;
    if (!spell(spelled, name)) misfit(name, "has too long a name");
    if (path_below(&it->session->nodes, parent, spelled, path) != 0) misfit(spelled, "has too long a path");
    if (strlen(spelled) > NAME_MOST) misfit(path, "has too long a name: bytes beyond printed ASCII count three");
    if (depth > DEPTH_MOST) misfit(path, "is more than 64 names deep");
    if (fstatat(directory, name, &real, AT_SYMLINK_NOFOLLOW) != 0) misfit(path, strerror(errno));
    bool is_new = node_named(&it->session->nodes, parent, spelled) == NULL;
    struct node *node = node_at(it, parent, spelled, path, &real);
    take_attributes(node, &real);
    if (is_new) {
        write_path(it->text, path);
        fprintf(it->text, "kind = \"%s\"\n", word_of(real.st_mode));
    }
    if (!S_ISDIR(real.st_mode) && real.st_nlink > 1) it->links++;
    if (S_ISREG(real.st_mode)) take_bytes(it, directory, name, path, node);
    if (S_ISLNK(real.st_mode)) take_text(directory, name, path, node);
    if (!S_ISDIR(real.st_mode)) return;
    int inner = openat(directory, name, O_RDONLY | O_DIRECTORY | O_NOFOLLOW | O_CLOEXEC);
    if (inner < 0) misfit(path, strerror(errno));
    take_directory(it, inner, node->number, path, depth + 1);
}

static int by_bytes(const void *left, const void *right) { return strcmp(*(char *const *)left, *(char *const *)right); }

/* The names of a directory in order, so that the same directory gives the same tree. */
static char **sorted_names(DIR *directory, const char *path, size_t *count) {
    char **names = NULL;
    *count = 0;
    for (struct dirent *entry; (errno = 0, entry = readdir(directory)) != NULL;) {
        if (strcmp(entry->d_name, ".") == 0 || strcmp(entry->d_name, "..") == 0) continue;
        if (*count == DIRECTORY_MOST) misfit(path, "has more than 1,024 names");
        names = wanted(realloc(names, (*count + 1) * sizeof *names));
        names[(*count)++] = wanted(strdup(entry->d_name));
    }
    if (errno != 0) misfit(path, strerror(errno));
    if (*count != 0) qsort(names, *count, sizeof *names, by_bytes);
    return names;
}

static void take_directory(struct beginning *it, int directory, unsigned long number, const char *path, int depth) {
    size_t count;
    DIR *stream = fdopendir(directory);
    if (stream == NULL) misfit(path, strerror(errno));
    char **names = sorted_names(stream, path, &count);
    for (size_t i = 0; i < count; i++) {
        take_node(it, directory, number, names[i], depth);
        free(names[i]);
    }
    free(names);
    closedir(stream);
}

static void take_real(struct beginning *it) {
    const char *real = it->session->options.in;
    struct stat attributes;
    int directory = open(real, O_RDONLY | O_DIRECTORY | O_CLOEXEC);
    if (directory < 0 || fstat(directory, &attributes) != 0) give_up("--in %s: %s", real, strerror(errno));
    take_attributes(node_of(&it->session->nodes, ROOT), &attributes);
    take_directory(it, directory, ROOT, "/", 1);
    if (it->links != 0) report("--in: %u names of files with further names are files of their own here", it->links);
}

void prepare(struct session *session, const char *program) {
    struct beginning it = {.session = session, .next = ROOT + 1};
    session->policy = memfd_create("policy", MFD_CLOEXEC);
    int copy = session->policy >= 0 ? fcntl(session->policy, F_DUPFD_CLOEXEC, 0) : -1;
    it.text = copy >= 0 ? fdopen(copy, "w") : NULL;
    if (it.text == NULL) give_up("no file for the policy: %s", strerror(errno));
    wanted(add_node(&session->nodes, ROOT, S_IFDIR | 0755));
    if (session->options.policy != NULL) {
        copy_policy(session, it.text);
        if (fflush(it.text) != 0) give_up("no room for the policy: %s", strerror(errno));
        it.next = read_policy_nodes(session, program) + 1;
    } else {
        fputs("version = 2\nabi = 3\n", it.text);
    }
    if (session->options.in != NULL) take_real(&it);
    if (fclose(it.text) != 0) give_up("no room for the policy: %s", strerror(errno));
}
