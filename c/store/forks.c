/*
** Forks: a child has no part in what its parent has opened. Its copies of the
** descriptors are closed at once, since the kernel takes a lock off when nobody
** has the open file any more, and a dead parent would look alive by its children.
*/
#include <pthread.h>
#include <sys/mman.h>

#include "store.h"

static pthread_mutex_t all = PTHREAD_MUTEX_INITIALIZER;
static store *first;
static bool is_registered;

static void before(void) {
    pthread_mutex_lock(&all);
}

static void in_parent(void) {
    pthread_mutex_unlock(&all);
}

/* Another thread may have been in the middle of anything: only what is changed in one step is looked at. */
static void in_child(void) {
    for (store *s = first; s != NULL; s = s->next) {
        s->is_forked = true;
        if (s->page != NULL) munmap(s->page, SHARED_SIZE);
        if (s->beside >= 0) close(s->beside);
        if (s->folder >= 0) close(s->folder);
        for (int k = 0; k < MOST_FILES; k++)
            if (s->files[k] != 0) close(s->files[k]);
    }
    first = NULL;
    pthread_mutex_unlock(&all);
}

bool add_to_forks(store *s) {
    pthread_mutex_lock(&all);
    if (!is_registered) is_registered = pthread_atfork(before, in_parent, in_child) == 0;
    if (is_registered) {
        s->next = first;
        if (first != NULL) first->previous = s;
        first = s;
    }
    pthread_mutex_unlock(&all);
    return is_registered || refuse_for_memory(s);
}

void take_from_forks(store *s) {
    pthread_mutex_lock(&all);
    if (s->next != NULL) s->next->previous = s->previous;
    if (s->previous != NULL) s->previous->next = s->next;
    else if (first == s) first = s->next;
    s->next = s->previous = NULL;
    pthread_mutex_unlock(&all);
}
