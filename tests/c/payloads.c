/* The payloads of NaNs in the C interface: a copied coordinate keeps its bits, those of a quiet or signalling NaN of either sign too. All are put in
 * place and compared by bytes, so that no register of floats stands between. Built with -Wall -Werror; ends with 0 where all holds. */
#include "check.h"

#include <math.h>

static const uint32_t payloads[] = {
    0x7fc00000, 0x7fc00001, 0x7fffffff, 0x7fe54321, 0x7fd55555, /* quiet */
    0x7f800001, 0x7fbfffff, 0x7fa00000, 0x7f954321, 0x7faaaaaa, /* signalling */
};

enum { PAYLOADS = 2 * sizeof payloads / sizeof *payloads, ROOM = 1200 };

/* The payload of a number, the odd ones with the sign. */
static uint32_t payload(unsigned i) {
    i %= PAYLOADS;
    return payloads[i / 2] | (i % 2 == 0 ? 0 : 0x80000000);
}

/* A point of two NaNs, where the number is a multiple of 3, or of one beside an ordinary number. */
static HzVec2 nans(unsigned i) {
    uint32_t bits[2] = {payload(i), payload(i + 7)};
    float one = 1;
    if (i % 3 != 0) memcpy(&bits[i % 3 - 1], &one, sizeof one);
    HzVec2 p;
    memcpy(&p, bits, sizeof p);
    return p;
}

/* Whether these points stand there. */
static int stand(const float *from, const HzVec2 *points, size_t n) {
    return memcmp(from, points, n * sizeof *points) == 0;
}

/* In so many rounds every place of a point has had every payload. */
enum { ROUNDS = 3 * PAYLOADS };

typedef struct {
    HzReply r;
    uint8_t verbs[ROOM];
    float points[2 * ROOM];
} Built;

static void move(Built *b, HzVec2 p) {
    memset(b, 0xa5, sizeof *b);
    b->r = hz_move_to(hz_new(), b->verbs, ROOM, b->points, 2 * ROOM, p);
}

/* Whether the pen, or the latest move's point, has these bits, as the state and as the call says it. */
static int pen_is(const Built *b, HzVec2 p) {
    HzPoint pen = hz_current_point(b->r.state);
    return b->r.refused == HZ_OK && memcmp(&b->r.state.pen_x, &p, sizeof p) == 0 && memcmp(&pen, &p, sizeof p) == 0;
}

static int start_is(const Built *b, HzVec2 p) {
    return memcmp(&b->r.state.start_x, &p, sizeof p) == 0;
}

/* Ends and controls of the calls that lay what they are given. */
static void laid(void) {
    static Built b;
    for (unsigned i = 0; i < ROUNDS; i++) {
        HzVec2 p[] = {nans(i), nans(i + 1), nans(i + 2), nans(i + 3), nans(i + 4), nans(i + 5), nans(i + 6)};
        move(&b, p[0]);
        CHECK(pen_is(&b, p[0]) && start_is(&b, p[0]));
        b.r = hz_line_to(b.r.state, b.verbs, ROOM, b.points, 2 * ROOM, p[1]);
        CHECK(pen_is(&b, p[1]) && start_is(&b, p[0]));
        b.r = hz_quad_to(b.r.state, b.verbs, ROOM, b.points, 2 * ROOM, p[2], p[3]);
        CHECK(pen_is(&b, p[3]) && start_is(&b, p[0]));
        b.r = hz_cubic_to(b.r.state, b.verbs, ROOM, b.points, 2 * ROOM, p[4], p[5], p[6]);
        CHECK(pen_is(&b, p[6]) && start_is(&b, p[0]));
        b.r = hz_close(b.r.state, b.verbs, ROOM, b.points, 2 * ROOM);
        CHECK(pen_is(&b, p[0]) && start_is(&b, p[0]));
        CHECK(b.r.state.points == 7 && stand(b.points, p, 7));
    }
}

/* On an empty builder a move to (0, 0) is laid before the verb. */
static void laid_first(void) {
    static Built b;
    for (unsigned i = 0; i < ROUNDS; i++) {
        HzVec2 p[] = {at(0, 0), nans(i), nans(i + 1), nans(i + 2)};
        b.r = hz_line_to(hz_new(), b.verbs, ROOM, b.points, 2 * ROOM, p[1]);
        CHECK(pen_is(&b, p[1]) && stand(b.points, p, 2));
        b.r = hz_quad_to(hz_new(), b.verbs, ROOM, b.points, 2 * ROOM, p[1], p[2]);
        CHECK(pen_is(&b, p[2]) && stand(b.points, p, 3));
        b.r = hz_cubic_to(hz_new(), b.verbs, ROOM, b.points, 2 * ROOM, p[1], p[2], p[3]);
        CHECK(pen_is(&b, p[3]) && stand(b.points, p, 4));
        b.r = hz_conic_to(hz_new(), b.verbs, ROOM, b.points, 2 * ROOM, at(1, 1), p[1], 0.5f);
        CHECK(pen_is(&b, p[1]) && stand(b.points, p, 2) && b.r.quads == 0);
    }
}

/* A conic whose end, control point or weight is a NaN is laid as a line to its end. */
static void conics(void) {
    static Built b;
    for (unsigned i = 0; i < ROUNDS; i++) {
        HzVec2 p[] = {nans(i), nans(i + 1)}, ctrls[] = {at(1, 1), nans(i + 2)};
        float weights[3] = {0.5f, 0};
        uint32_t bits = payload(i);
        memcpy(&weights[2], &bits, sizeof bits);
        for (unsigned k = 0; k < 6; k++) {
            move(&b, p[0]);
            b.r = hz_conic_to(b.r.state, b.verbs, ROOM, b.points, 2 * ROOM, ctrls[k / 3], p[1], weights[k % 3]);
            CHECK(pen_is(&b, p[1]) && b.r.quads == 0 && b.r.state.verbs == 2 && b.verbs[1] == HZ_LINE && stand(b.points, p, 2));
        }
        /* one that is laid as quads leaves what stands before it, and ends where it is told to */
        HzVec2 end = at(2, 0);
        move(&b, p[0]);
        b.r = hz_conic_to(b.r.state, b.verbs, ROOM, b.points, 2 * ROOM, at(1, 1), end, 100.0f);
        CHECK(pen_is(&b, end) && b.r.quads > 0 && stand(b.points, p, 1) && stand(b.points + 2 * (b.r.state.points - 1), &end, 1));
    }
}

/* A state comes back as it was from a refused call, from a fill rule, and in what a call does not change. */
static void states(void) {
    static Built b;
    for (unsigned i = 0; i < PAYLOADS; i++) {
        move(&b, nans(3 * i));
        HzBuilder s = b.r.state;
        uint32_t bits[9];
        for (unsigned k = 0; k < 9; k++) bits[k] = payload(i + k);
        memcpy(&s.start_x, bits, sizeof bits);
        HzVec2 p = at(1, 2);
        HzReply replies[6] = {
            hz_move_to(s, b.verbs, 1, b.points, 2, p),          hz_line_to(s, b.verbs, 1, b.points, 2, p),
            hz_quad_to(s, b.verbs, 1, b.points, 2, p, p),       hz_conic_to(s, b.verbs, 1, b.points, 2, p, p, 2.0f),
            hz_cubic_to(s, b.verbs, 1, b.points, 2, p, p, p),   hz_close(s, b.verbs, 1, b.points, 2),
        };
        for (int k = 0; k < 6; k++) CHECK(replies[k].refused == HZ_BUILDER_FULL && same_state(&replies[k].state, &s));
        HzBuilder ruled = hz_with_fill_rule(s, HZ_NON_ZERO);
        CHECK(same_state(&ruled, &s));
        HzBuilder after = hz_line_to(s, b.verbs, 2, b.points, 4, p).state;
        CHECK(memcmp(&after.start_x, bits, 2 * sizeof *bits) == 0 && memcmp(&after.min_x, bits + 4, 5 * sizeof *bits) == 0);
    }
}

/* A played list lays what it is given, too. */
static void played(void) {
    static Built b;
    for (unsigned i = 0; i < ROUNDS; i++) {
        const uint8_t kinds[] = {0, 1, 2, 3, 5, 4};
        HzVec2 p[9];
        for (unsigned k = 0; k < 9; k++) p[k] = nans(i + k);
        float numbers[19], weight = 0.5f;
        memcpy(numbers, p, sizeof p);
        memcpy(numbers + 18, &weight, sizeof weight);
        HzReplayed r = hz_replay(kinds, 6, numbers, 19, b.verbs, ROOM, b.points, 2 * ROOM);
        /* the conic's control point, p[7], is not laid */
        CHECK(r.calls == 6 && r.refused == 0 && r.state.points == 8 && stand(b.points, p, 7) && stand(b.points + 14, p + 8, 1));
        CHECK(memcmp(&r.state.start_x, p, sizeof *p) == 0 && memcmp(&r.state.pen_x, p, sizeof *p) == 0);
    }
}

/* Where a flattening and a dashing write. */
typedef struct {
    float points[2 * ROOM];
    size_t ends[2];
    uint8_t marks[2];
} Flat;

/* Flattens a path, once by itself and once for a dashing, and answers how many points it has: 0 where these differ. */
static size_t flatten_both(const uint8_t *verbs, size_t verbs_len, const HzVec2 *p, size_t n, Flat *w) {
    static Flat scratch;
    static uint8_t run_verbs[2 * ROOM];
    static float runs[4 * ROOM];
    float given[32], pattern[] = {3, 1};
    memcpy(given, p, n * sizeof *p);
    HzFlattened f = hz_flatten(verbs, verbs_len, given, 2 * n, 0.25f, w->points, 2 * ROOM, w->ends, 2, w->marks, 2);
    HzDashed d = hz_dash_path(verbs, verbs_len, given, 2 * n, 0, pattern, 2, 0, 0.25f, scratch.points, 2 * ROOM, scratch.ends, 2, scratch.marks, 2,
                              run_verbs, 2 * ROOM, runs, 4 * ROOM);
    int alike = f.refused == HZ_OK && d.refused == HZ_OK && d.kind == HZ_CUT && d.scratch == f.points && d.polylines == f.polylines;
    return alike && memcmp(scratch.points, w->points, f.points * sizeof(HzVec2)) == 0 ? f.points : 0;
}

/* Starts, and the ends of lines and curves. */
static void flattened(void) {
    static Flat w;
    const uint8_t verbs[] = {HZ_MOVE, HZ_LINE, HZ_QUAD, HZ_CUBIC, HZ_CLOSE, HZ_MOVE, HZ_LINE};
    for (unsigned i = 0; i < ROUNDS; i++) {
        /* each curve's control points are NaNs alone, so that it becomes one line */
        HzVec2 p[] = {nans(i), nans(i + 1), nans(3 * i), nans(i + 2), nans(3 * i), nans(3 * i), nans(i + 3), nans(i + 4), nans(i + 5)};
        HzVec2 wanted[] = {p[0], p[1], p[3], p[6], p[7], p[8]};
        CHECK(flatten_both(verbs, 7, p, 9, &w) == 6 && w.ends[0] == 4 && stand(w.points, wanted, 6));
    }
}

/* A cubic with a NaN for its end or its start becomes many lines by its other points, and both are copied all the same. A closing is added only where
 * the path starts at no NaN. */
static void flattened_to_many(void) {
    static Flat w;
    const uint8_t verbs[] = {HZ_MOVE, HZ_CUBIC, HZ_CLOSE, HZ_LINE};
    for (unsigned i = 0; i < ROUNDS; i++) {
        HzVec2 p[] = {at(0, 0), at(40, 40), at(80, 0), nans(i), nans(i + 1)};
        size_t n = flatten_both(verbs, 4, p, 5, &w);
        CHECK(n > 10 && stand(w.points, p, 1) && stand(w.points + 2 * (n - 3), p + 3, 1));
        CHECK(stand(w.points + 2 * (n - 2), p, 1) && stand(w.points + 2 * (n - 1), p + 4, 1));
        HzVec2 q[] = {nans(i), at(40, 40), at(80, 0), at(0, 0), nans(i + 1)};
        n = flatten_both(verbs, 4, q, 5, &w);
        CHECK(n > 10 && stand(w.points, q, 1) && stand(w.points + 2 * (n - 2), q + 3, 2));
    }
}

/* The tolerance itself for a scale that is not above 0 or not finite. */
static void tolerances(void) {
    static const float scales[] = {0, -1, INFINITY, NAN};
    for (unsigned i = 0; i < PAYLOADS; i++) {
        for (int k = 0; k < 4; k++) {
            uint32_t bits = payload(i);
            float tolerance;
            memcpy(&tolerance, &bits, sizeof bits);
            tolerance = hz_tolerance_for_scale(tolerance, scales[k]);
            CHECK(memcmp(&tolerance, &bits, sizeof bits) == 0);
        }
    }
}

int main(void) {
    laid();
    laid_first();
    conics();
    states();
    played();
    flattened();
    flattened_to_many();
    tolerances();
    printf("payloads: %d checks passed, %d failed\n", passed, failed);
    return failed != 0;
}
