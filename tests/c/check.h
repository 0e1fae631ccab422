/* What the tests in C share: checks that are counted, and comparisons by bits. */
#ifndef CHECK_H
#define CHECK_H

#include "hizlaou.h"

#include <stdio.h>
#include <string.h>

static int failed, passed;

#define CHECK(what) check((what), #what, __LINE__)

static inline void check(int holds, const char *what, int line) {
    if (holds) {
        passed++;
    } else {
        failed++;
        printf("%s:%d: %s\n", __BASE_FILE__, line, what);
    }
}

static inline HzVec2 at(float x, float y) {
    HzVec2 p = {x, y};
    return p;
}

/* Field by field, by bits: padding does not count. */
static inline int same_state(const HzBuilder *a, const HzBuilder *b) {
    return a->verbs == b->verbs && a->points == b->points && memcmp(&a->start_x, &b->start_x, 9 * sizeof(float)) == 0 &&
           a->fill_rule == b->fill_rule && a->noted == b->noted && a->started == b->started;
}

/* Whether these bytes are as they were set before the call. */
static inline int untouched(const void *from, size_t bytes) {
    const uint8_t *b = from;
    while (bytes > 0 && b[bytes - 1] == 0xa5) bytes--;
    return bytes == 0;
}

#endif
