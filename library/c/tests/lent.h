/* Memory that is lent to a call and looked at after it. */
#ifndef LENT_H
#define LENT_H
#include <stdlib.h>
#include <string.h>

enum { GUARD = 64, MOST_PLACES = 12 };

/* One lent place: its bytes between two guards, and both as they were before the call. */
struct place {
    unsigned char *whole, *was;
    size_t bytes, guard;
    int changes;
};

static struct place places[MOST_PLACES];
static int lent, exact;

/* So many bytes, of which the call may change some or, as by `const`, none. With `exact` there are no guards: valgrind is the guard then. */
static void *lend(size_t bytes, int changes) {
    struct place *p = &places[lent++];
    p->guard = exact ? 0 : GUARD;
    p->bytes = bytes;
    p->changes = changes;
    p->whole = malloc(bytes + 2 * p->guard);
    p->was = malloc(bytes + 2 * p->guard + 1);
    if (!p->whole || !p->was) exit(2);
    memset(p->whole, 0xA5, p->guard);
    memset(p->whole + p->guard + bytes, 0x5A, p->guard);
    return p->whole + p->guard;
}

static void *lend_copy(const void *from, size_t bytes, int changes) {
    return memcpy(lend(bytes, changes), from, bytes);
}

static void remember(void) {
    for (int i = 0; i < lent; i++) memcpy(places[i].was, places[i].whole, places[i].bytes + 2 * places[i].guard);
}

/* What a call changed that it had to leave: nothing outside what is lent, nothing at all where it was refused. -1 where all is well. */
static int judge(int refused) {
    int wrong = -1;
    for (int i = 0; i < lent; i++) {
        struct place *p = &places[i];
        size_t after = p->guard + p->bytes;
        if (memcmp(p->whole, p->was, p->guard) || memcmp(p->whole + after, p->was + after, p->guard)) wrong = i;
        if ((refused || !p->changes) && memcmp(p->whole, p->was, after)) wrong = i;
    }
    return wrong;
}

static void give_back(void) {
    while (lent) {
        lent--;
        free(places[lent].whole);
        free(places[lent].was);
    }
}
#endif
