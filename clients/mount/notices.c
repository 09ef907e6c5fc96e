/* The thread that has the kernel forget names. */
#include "notices.h"
#include "faults.h"
#define FUSE_USE_VERSION 312
#include "spelling.h"
#include <fuse_lowlevel.h>
#include <pthread.h>
#include <stdlib.h>
#include <string.h>

struct notice {
    unsigned long parent;
    struct notice *next;
    char name[];
};

struct notices {
    struct fuse_session *fuse;
    pthread_t thread;
    pthread_mutex_t lock;
    pthread_cond_t has_more;
    struct notice *first, **last;
    bool is_ended, is_giving;
};

static struct notice *next_notice(struct notices *notices) {
    pthread_mutex_lock(&notices->lock);
    notices->is_giving = false;
    while (notices->first == NULL && !notices->is_ended) pthread_cond_wait(&notices->has_more, &notices->lock);
    struct notice *notice = notices->first;
    if (notice != NULL && (notices->first = notice->next) == NULL) notices->last = &notices->first;
    notices->is_giving = notice != NULL;
    pthread_mutex_unlock(&notices->lock);
    return notice;
}

static void *give_notices(void *them) {
    struct notices *notices = them;
    for (struct notice *notice; (notice = next_notice(notices)) != NULL; free(notice)) {
        unspell(notice->name);
        fuse_lowlevel_notify_inval_entry(notices->fuse, notice->parent, notice->name, strlen(notice->name));
    }
    return NULL;
}

struct notices *start_notices(struct fuse_session *fuse) {
    struct notices *notices = wanted(calloc(1, sizeof *notices));
    notices->fuse = fuse;
    notices->last = &notices->first;
    pthread_mutex_init(&notices->lock, NULL);
    pthread_cond_init(&notices->has_more, NULL);
    if (pthread_create(&notices->thread, NULL, give_notices, notices) != 0) give_up("no thread");
    return notices;
}

void add_notice(struct notices *notices, unsigned long parent, const char *spelled) {
    struct notice *notice = malloc(sizeof *notice + strlen(spelled) + 1);
    if (notice == NULL) return report("no memory to have the kernel look %s up anew", spelled);
    notice->parent = parent, notice->next = NULL;
    strcpy(notice->name, spelled);
    pthread_mutex_lock(&notices->lock);
    if (!notices->is_ended) {
        *notices->last = notice;
        notices->last = &notice->next;
        pthread_cond_signal(&notices->has_more);
    } else {
        free(notice);
    }
    pthread_mutex_unlock(&notices->lock);
}

bool are_given(struct notices *notices) {
    pthread_mutex_lock(&notices->lock);
    notices->is_ended = true;
    bool given = notices->first == NULL && !notices->is_giving;
    pthread_cond_signal(&notices->has_more);
    pthread_mutex_unlock(&notices->lock);
    return given;
}

void end_notices(struct notices *notices) {
    pthread_mutex_lock(&notices->lock);
    notices->is_ended = true;
    pthread_cond_signal(&notices->has_more);
    pthread_mutex_unlock(&notices->lock);
    pthread_join(notices->thread, NULL);
    pthread_cond_destroy(&notices->has_more);
    pthread_mutex_destroy(&notices->lock);
    free(notices);
}
