/* Places in the file system. */
#include "places.h"
#include "faults.h"
#include <dirent.h>
#include <errno.h>
#include <limits.h>
#include <stdio.h>
#include <stdlib.h>
#include <string.h>
#include <sys/stat.h>
#include <unistd.h>

#define LINKS_MOST 40

/* `name` in the directory of `path`, or by itself if it begins at the root. Whether there is room for it. */
static bool beside(const char *path, const char *name, char place[PATH_MAX]) {
    const char *slash = strrchr(path, '/');
    int length = slash != NULL && *name != '/' ? (int)(slash - path) + 1 : 0;
    return snprintf(place, PATH_MAX, "%.*s%s", length, path, name) < PATH_MAX;
}

char *place_of_file(const char *path) {
    char place[PATH_MAX], text[PATH_MAX], next[PATH_MAX], whole[2 * PATH_MAX];
    if (!beside("", path, place)) return NULL;
    for (int links = 0; links < LINKS_MOST; links++) {
        ssize_t length = readlink(place, text, sizeof text - 1);
        if (length < 0) break;
        text[length] = 0;
        if (!beside(place, text, next)) return NULL;
        strcpy(place, next);
    }
    const char *slash = strrchr(place, '/'), *name = slash != NULL ? slash + 1 : place;
    char *directory = beside(place, ".", next) ? realpath(next, NULL) : NULL;
    bool is_name = *name != 0 && strcmp(name, ".") != 0 && strcmp(name, "..") != 0;
    if (directory == NULL || !is_name) return free(directory), NULL;
    snprintf(whole, sizeof whole, "%s/%s", strcmp(directory, "/") != 0 ? directory : "", name);
    free(directory);
    return wanted(strdup(whole));
}

/* Compares directories by device and inode, so that a bind mount counts too. */
bool is_below(const char *path, const char *directory) {
    struct stat above, it;
    char *part = wanted(strdup(path));
    bool found = false;
    if (stat(directory, &above) != 0) return free(part), false;
    while (!found && *part != 0) {
        found = stat(part, &it) == 0 && it.st_dev == above.st_dev && it.st_ino == above.st_ino;
        *strrchr(part, '/') = 0;
    }
    free(part);
    return found;
}

char *empty_directory(const char *path) {
    struct dirent *entry;
    DIR *directory = opendir(path);
    if (directory == NULL) give_up("DIR %s: %s", path, strerror(errno));
    while ((entry = readdir(directory)) != NULL)
        if (strcmp(entry->d_name, ".") != 0 && strcmp(entry->d_name, "..") != 0)
            give_up("DIR %s isn't empty: it would be hidden by the mount", path);
    closedir(directory);
    char *root = realpath(path, NULL);
    if (root == NULL) give_up("DIR %s: %s", path, strerror(errno));
    if (strcmp(root, "/") == 0) give_up("DIR is the root");
    return root;
}

char *program_place(const char *asked) {
    char place[PATH_MAX], own[PATH_MAX];
    if (asked != NULL) {
        char *whole = realpath(asked, NULL);
        if (whole == NULL) give_up("--landtree %s: %s", asked, strerror(errno));
        return whole;
    }
    ssize_t length = readlink("/proc/self/exe", own, sizeof own - 1);
    if (length > 0) {
        own[length] = 0;
        if (beside(own, "landtree", place) && access(place, X_OK) == 0) return wanted(strdup(place));
    }
    return wanted(strdup("landtree"));
}
