/* Mounts a Landtree for a command, or until it is unmounted: see README.md. This file has the order of things. */
#include "answers.h"
#include "beginning.h"
#include "copy.h"
#include "faults.h"
#include "life.h"
#include "notices.h"
#include "places.h"
#include <errno.h>
#include <stdlib.h>
#include <string.h>
#include <unistd.h>

/* A file to write must be elsewhere: the tree would wait for the mount, and the mount for the tree. */
static char *file_elsewhere(const char *option, const char *path, const char *root) {
    char *place = place_of_file(path);
    if (place == NULL) give_up("%s %s: %s", option, path, strerror(errno != 0 ? errno : ENOENT));
    if (is_below(place, root)) give_up("%s %s is below DIR: it has to be elsewhere", option, path);
    return place;
}

static void open_places(struct session *session) {
    struct options *options = &session->options;
    session->root = empty_directory(options->directory);
    if (options->save != NULL) options->save = file_elsewhere("--save", options->save, session->root);
    if (options->log != NULL) options->log = file_elsewhere("--log", options->log, session->root);
    if (options->out != NULL) {
        options->out = file_elsewhere("--out", options->out, session->root);
        check_copy(options->out);
    }
    if (options->log == NULL) return;
    session->log = fopen(options->log, "ae");
    if (session->log == NULL) give_up("--log %s: %s", options->log, strerror(errno));
}

static void start_tree(struct session *session, const char *program) {
    const struct options *options = &session->options;
    char place[64];
    snprintf(place, sizeof place, "/proc/self/fd/%d", session->policy);
    char *words[16] = {"landtree",   "run",      "-",   "--nodes",  NODES_WORD, "--history",
                       ENTRIES_WORD, "--policy", place, "--explain"};
    size_t count = 10;
    if (options->profile != NULL) words[count++] = "--profile", words[count++] = (char *)options->profile;
    if (options->save != NULL) words[count++] = "--save", words[count++] = (char *)options->save;
    tree_start(&session->tree, program, words, session->policy, BEGINNING_SECONDS);
}

static void give_up_at_start(struct session *session, const char *reply) {
    const struct options *options = &session->options;
    tree_end(&session->tree, BEGINNING_SECONDS);
    const char *name = options->policy != NULL ? options->policy : "--in";
    const char *message = tree_message(&session->tree, session->policy, name);
    give_up("%s", message != NULL ? message : reply != NULL ? reply : "landtree hasn't begun");
}

/* The tree answers, under the profile, and numbers its nodes as the mount does. */
static void check_start(struct session *session) {
    const char *reply = NULL, *message, *call;
    struct node *last = node_of(&session->nodes, ROOT);
    char path[PATH_ROOM], want[64];
    for (int chain = 0; chain < CHAINS; chain++)
        for (struct node *it = session->nodes.chains[chain]; it != NULL; it = it->beside)
            if (it->number > last->number) last = it;
    const struct name *name = last->names;
    if (path_below(&session->nodes, name != NULL ? name->parent : ROOT, name != NULL ? name->text : NULL, path) != 0)
        give_up("a path is too long");
    tree_say(&session->tree, "stat %s", path);
    reply = tree_hear(&session->tree, &call);
    snprintf(want, sizeof want, "stat %lu ", last->number);
    if (reply == NULL || strncmp(reply, want, strlen(want)) != 0) give_up_at_start(session, reply);
    message = tree_message(&session->tree, session->policy, "the policy");
    if (message != NULL) report("%s", message);
}

/* Ends the tree, so that the history is saved, and says what was lost. Whether nothing was. */
static bool end_tree(struct session *session) {
    bool was_lost = session->tree.is_lost, ended = tree_end(&session->tree, SAVING_SECONDS);
    const char *message = tree_message(&session->tree, session->policy, "the policy"), *save = session->options.save;
    if (message != NULL) report("%s", message);
    if (!ended && save != NULL) report("%s isn't saved: its record, as %s.part, has what was answered", save, save);
    else if (!ended && !was_lost) report("landtree has ended badly");
    return ended;
}

static bool end_log(struct session *session) {
    if (session->log == NULL) return true;
    bool is_whole = !ferror(session->log);
    if (fclose(session->log) == 0 && is_whole) return true;
    report("--log %s isn't whole: %s", session->options.log, strerror(errno));
    return false;
}

int main(int count, char **words) {
    struct session *session = wanted(calloc(1, sizeof *session));
    read_options(&session->options, count, words);
    char *program = program_place(session->options.program);
    session->shown = wanted(calloc(KINDS_MOST, sizeof *session->shown));
    open_places(session);
    prepare(session, program);
    if (session->options.command != NULL) enter_own_namespace();
    start_tree(session, program);
    check_start(session);
    tree_limit(&session->tree, session->options.wait);
    if (chdir("/") != 0) give_up("/: %s", strerror(errno));
    mount_tree(session);
    int status = live(session);
    end_notices(session->notices);
    fuse_session_destroy(session->fuse);
    bool is_whole = end_tree(session);
    if (session->options.out != NULL && is_whole) is_whole = copy_tree(session);
    is_whole = end_log(session) && is_whole;
    return is_whole ? status : OWN_FAULT;
}
