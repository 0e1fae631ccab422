/* The C interface's own test: each call, with buffers that are ample, exactly full, one short, empty and odd, and with states and paths of any
 * kind. Built with -Wall -Werror; ends with 0 where all holds. */
#include "check.h"

#include <math.h>

static int same(HzVec2 a, HzVec2 b) {
    return memcmp(&a, &b, sizeof a) == 0;
}

static int counted(HzSegmentCount c, uint32_t count, bool held) {
    return c.count == count && c.held == held;
}

enum { VERBS = 80, FLOATS = 300 };

typedef struct {
    HzBuilder state;
    uint8_t verbs[VERBS];
    float points[FLOATS];
} Built;

static void fresh(Built *b) {
    b->state = hz_new();
    memset(b->verbs, 0xa5, sizeof b->verbs);
    for (int i = 0; i < FLOATS; i++) b->points[i] = -1234.5f;
}

/* Makes every call that takes buffers, with the lengths nv and nf, on the state s; each must be refused with `number` and change nothing. */
static void all_refused(HzBuilder s, size_t nv, size_t nf, uint8_t number) {
    Built b, was;
    fresh(&b);
    was = b;
    HzVec2 p = at(1, 2), q = at(3, 4), r = at(5, 6);
    HzReply replies[6] = {
        hz_move_to(s, b.verbs, nv, b.points, nf, p),           hz_line_to(s, b.verbs, nv, b.points, nf, p),
        hz_quad_to(s, b.verbs, nv, b.points, nf, p, q),        hz_conic_to(s, b.verbs, nv, b.points, nf, p, q, 3.0f),
        hz_cubic_to(s, b.verbs, nv, b.points, nf, p, q, r),    hz_close(s, b.verbs, nv, b.points, nf),
    };
    for (int i = 0; i < 6; i++) {
        /* close on an empty builder needs no room */
        if (i == 5 && number == HZ_BUILDER_FULL && !s.started) continue;
        CHECK(replies[i].refused == number);
        CHECK(replies[i].quads == 0);
        CHECK(same_state(&replies[i].state, &s));
    }
    CHECK(memcmp(&b, &was, sizeof b) == 0);
}

static void building(void) {
    Built b;
    fresh(&b);
    CHECK(b.state.verbs == 0 && b.state.points == 0 && !b.state.started && !b.state.noted && b.state.fill_rule == HZ_NON_ZERO);
    CHECK(hz_current_point(b.state).known == 0);
    CHECK(hz_rounded_rect(b.state).known == 0);

    HzReply r = hz_close(b.state, b.verbs, VERBS, b.points, FLOATS);
    CHECK(r.refused == HZ_OK && r.state.verbs == 0);
    r = hz_line_to(r.state, b.verbs, VERBS, b.points, FLOATS, at(8, 0));
    CHECK(r.refused == HZ_OK && r.state.verbs == 2 && r.state.points == 2 && r.state.started);
    CHECK(b.verbs[0] == HZ_MOVE && b.verbs[1] == HZ_LINE && b.verbs[2] == 0xa5);
    CHECK(b.points[0] == 0 && b.points[1] == 0 && b.points[2] == 8 && b.points[3] == 0 && b.points[4] == -1234.5f);
    r = hz_quad_to(r.state, b.verbs, VERBS, b.points, FLOATS, at(9, 1), at(8, 2));
    r = hz_cubic_to(r.state, b.verbs, VERBS, b.points, FLOATS, at(7, 3), at(6, 4), at(5, 5));
    CHECK(r.refused == HZ_OK && r.state.verbs == 4 && r.state.points == 7 && r.quads == 0);
    HzPoint pen = hz_current_point(r.state);
    CHECK(pen.known == 1 && pen.x == 5 && pen.y == 5);
    r = hz_close(r.state, b.verbs, VERBS, b.points, FLOATS);
    CHECK(r.refused == HZ_OK && b.verbs[4] == HZ_CLOSE);
    pen = hz_current_point(r.state);
    CHECK(pen.known == 1 && pen.x == 0 && pen.y == 0);
    r = hz_move_to(r.state, b.verbs, VERBS, b.points, FLOATS, at(1, 1));
    CHECK(r.refused == HZ_OK && r.state.start_x == 1 && r.state.verbs == 6);

    /* the fill rule and the note */
    HzBuilder s = hz_with_fill_rule(r.state, 200);
    CHECK(s.fill_rule == HZ_EVEN_ODD && hz_with_fill_rule(s, 0).fill_rule == HZ_NON_ZERO);
    HzRect box = {{0, 0}, {16, 8}};
    s = hz_as_rounded_rect(s, box, -2.0f);
    HzNote n = hz_rounded_rect(s);
    CHECK(n.known == 1 && n.radius == 0 && same(n.rect.max, box.max));
    s = hz_as_rounded_rect(s, box, NAN);
    n = hz_rounded_rect(s);
    CHECK(n.known == 0 && n.radius == 0);

    /* conics */
    fresh(&b);
    r = hz_move_to(b.state, b.verbs, VERBS, b.points, FLOATS, at(NAN, 0));
    r = hz_conic_to(r.state, b.verbs, VERBS, b.points, FLOATS, at(1, 1), at(2, 0), 100.0f);
    CHECK(r.refused == HZ_OK && r.quads == HZ_MAX_QUADS && r.state.verbs == 65 && r.state.points == 129);
    s = r.state;
    r = hz_conic_to(s, b.verbs, VERBS, b.points, FLOATS, at(1, 1), at(2, 0), 0.0f);
    CHECK(r.refused == HZ_OK && r.quads == 0 && r.state.verbs == 66 && b.verbs[65] == HZ_LINE);

    /* a NaN keeps its bits */
    fresh(&b);
    uint32_t bits = 0x7fabcdef;
    HzVec2 nan;
    memcpy(&nan.x, &bits, 4);
    memcpy(&nan.y, &bits, 4);
    r = hz_move_to(b.state, b.verbs, VERBS, b.points, FLOATS, nan);
    CHECK(memcmp(b.points, &nan, sizeof nan) == 0);
}

static void builder_refusals(void) {
    Built b;
    fresh(&b);
    all_refused(b.state, 0, 0, HZ_BUILDER_FULL);
    all_refused(b.state, VERBS, 7, HZ_ODD_FLOATS);
    all_refused(b.state, 0, FLOATS, HZ_BUILDER_FULL);
    HzReply r = hz_line_to(b.state, NULL, 0, NULL, 0, at(1, 1));
    CHECK(r.refused == HZ_BUILDER_FULL && same_state(&r.state, &b.state));

    /* exactly full, and one short: a line on an empty builder needs two verbs and two points */
    CHECK(hz_line_to(b.state, b.verbs, 2, b.points, 4, at(1, 1)).refused == HZ_OK);
    CHECK(hz_line_to(b.state, b.verbs, 1, b.points, 4, at(1, 1)).refused == HZ_BUILDER_FULL);
    CHECK(hz_line_to(b.state, b.verbs, 2, b.points, 2, at(1, 1)).refused == HZ_BUILDER_FULL);
    r = hz_line_to(b.state, b.verbs, 2, b.points, 4, at(1, 1));
    all_refused(r.state, 2, FLOATS, HZ_BUILDER_FULL);

    /* states that no calls leave: 7 comes after 1 and before 2 */
    HzBuilder bad[6];
    for (int i = 0; i < 6; i++) bad[i] = r.state;
    bad[0].verbs = VERBS + 1;
    bad[1].points = FLOATS / 2 + 1;
    bad[2].started = 0;
    bad[3].verbs = 0;
    bad[4].points = 0;
    bad[5].verbs = SIZE_MAX;
    for (int i = 0; i < 6; i++) {
        all_refused(bad[i], VERBS, FLOATS, HZ_BAD_STATE);
        all_refused(bad[i], 1, 2, HZ_BAD_STATE);
        all_refused(bad[i], VERBS, 3, HZ_ODD_FLOATS);
    }
    /* any byte but 0 says started, and a refused state comes back as it was */
    HzBuilder odd = r.state;
    odd.started = 7;
    odd.fill_rule = 9;
    CHECK(hz_close(odd, b.verbs, VERBS, b.points, FLOATS).refused == HZ_OK);
    CHECK(hz_close(odd, b.verbs, VERBS, b.points, FLOATS).state.started == 1);
    all_refused(odd, 2, FLOATS, HZ_BUILDER_FULL);
}

static void flattening(void) {
    uint8_t verbs[] = {HZ_MOVE, HZ_QUAD, HZ_LINE, HZ_CLOSE};
    float points[] = {0, 0, 8, 8, 16, 0, 16, 4};
    float out[16];
    size_t ends[2];
    uint8_t marks[2];
    for (int i = 0; i < 16; i++) out[i] = 7;
    marks[1] = 7;
    HzFlattened f = hz_flatten(verbs, 4, points, 8, 0.25f, out, 16, ends, 2, marks, 2);
    CHECK(f.refused == HZ_OK && f.points == 8 && f.polylines == 1 && f.starts == 1 && f.lines == 1 && f.counts == 5 && f.closings == 1);
    CHECK(f.held == 0);
    CHECK(marks[0] == HZ_CLOSED && marks[1] == 7);
    CHECK(ends[0] == 8 && out[10] == 16 && out[12] == 16 && out[13] == 4 && out[14] == 0 && out[15] == 0);

    float kept[16];
    memcpy(kept, out, sizeof out);
    CHECK(hz_flatten(verbs, 4, points, 8, 0.25f, out, 14, ends, 2, marks, 2).refused == HZ_OUTPUT_FULL);
    CHECK(hz_flatten(verbs, 4, points, 8, 0.25f, out, 16, ends, 0, marks, 2).refused == HZ_OUTPUT_FULL);
    CHECK(hz_flatten(verbs, 4, points, 8, 0.25f, out, 15, ends, 2, marks, 2).refused == HZ_ODD_FLOATS);
    CHECK(hz_flatten(verbs, 4, points, 7, 0.25f, out, 16, ends, 2, marks, 2).refused == HZ_ODD_FLOATS);
    CHECK(hz_flatten(verbs, 4, points, 6, 0.25f, out, 16, ends, 2, marks, 2).refused == HZ_BAD_PATH);
    f = hz_flatten(verbs, 4, points, 8, 0.25f, NULL, 0, NULL, 0, NULL, 0);
    CHECK(f.refused == HZ_OUTPUT_FULL && f.points == 0 && f.counts == 0);
    CHECK(memcmp(kept, out, sizeof out) == 0);
    f = hz_flatten(NULL, 0, NULL, 0, 0.25f, NULL, 0, NULL, 0, NULL, 0);
    CHECK(f.refused == HZ_OK && f.points == 0);

    CHECK(hz_carried_count(verbs, 4, points, 8, 0.25f, 1).count == 5);
    CHECK(hz_carried_count(verbs, 4, points, 8, 0.25f, 2).count == 0);
    CHECK(hz_carried_count(verbs, 4, points, 8, 0.25f, 99).count == 0);
    CHECK(hz_carried_count(verbs, 4, points, 6, 0.25f, 1).refused == HZ_BAD_PATH);

    CHECK(hz_check(verbs, 4, points, 8) == HZ_OK);
    CHECK(hz_check(verbs, 4, points, 5) == HZ_ODD_FLOATS);
    CHECK(hz_check(verbs + 1, 3, points, 6) == HZ_BAD_PATH);
    verbs[2] = 5;
    CHECK(hz_check(verbs, 4, points, 8) == HZ_NO_VERB);
    static uint8_t many[HZ_MAX_VERBS + 1];
    CHECK(hz_check(many, HZ_MAX_VERBS + 1, NULL, 0) == HZ_OVER_LIMIT);
    CHECK(hz_check(many, HZ_MAX_VERBS, NULL, 0) == HZ_BAD_PATH);
}

/* What is lent and ordered for a dashing of two curves that are both held back. */
typedef struct {
    uint8_t last_verb;
    size_t floats, intervals, scratch, dashes;
} Lent;

enum { DASH_ROOM = 2001 };

static HzDashed dash_held(Lent lent, size_t *end) {
    uint8_t verbs[] = {HZ_MOVE, HZ_QUAD, lent.last_verb};
    float points[] = {0, 0, 8, 8, 16, 0, 2e6f, 0, 16, 16};
    float pattern[HZ_MAX_INTERVALS + 1] = {1e7f, 1};
    static float scratch[2 * DASH_ROOM], drawn[2 * DASH_ROOM];
    static uint8_t laid[DASH_ROOM];
    uint8_t mark;
    *end = 0;
    return hz_dash_path(verbs, 3, points, lent.floats, 0, pattern, lent.intervals, 0, 1e-7f, scratch, 2 * lent.scratch, end, 1, &mark, 1, laid,
                        lent.dashes, drawn, 2 * lent.dashes);
}

/* Nothing is counted, held curves included. */
static int uncut(HzDashed d, uint8_t kind, uint8_t refused) {
    return d.kind == kind && d.refused == refused && d.verbs == 0 && d.points == 0 && d.scratch == 0 && d.polylines == 0 && d.held == 0;
}

/* A cut says how many curves were held back, all else 0, whatever the path has. */
static void held_back_in_dashes(void) {
    enum { ROOM = DASH_ROOM };
    size_t end;
    HzDashed d = dash_held((Lent){HZ_QUAD, 10, 2, ROOM, ROOM}, &end);
    CHECK(d.refused == HZ_OK && d.kind == HZ_CUT && d.held == 2 && d.scratch == ROOM && end == ROOM);
    CHECK(uncut(dash_held((Lent){HZ_QUAD, 10, 0, ROOM, ROOM}, &end), HZ_WHOLE, HZ_OK));
    CHECK(uncut(dash_held((Lent){HZ_QUAD, 9, 2, ROOM, ROOM}, &end), HZ_REFUSED, HZ_ODD_FLOATS));
    CHECK(uncut(dash_held((Lent){5, 10, 2, ROOM, ROOM}, &end), HZ_REFUSED, HZ_NO_VERB));
    CHECK(uncut(dash_held((Lent){HZ_QUAD, 8, 2, ROOM, ROOM}, &end), HZ_REFUSED, HZ_BAD_PATH));
    CHECK(uncut(dash_held((Lent){HZ_QUAD, 10, HZ_MAX_INTERVALS + 1, ROOM, ROOM}, &end), HZ_REFUSED, HZ_LONG_PATTERN));
    /* the scratch is one point short; then the dash buffers are, and the scratch was written */
    CHECK(uncut(dash_held((Lent){HZ_QUAD, 10, 2, ROOM - 1, ROOM}, &end), HZ_REFUSED, HZ_OUTPUT_FULL) && end == 0);
    CHECK(uncut(dash_held((Lent){HZ_QUAD, 10, 2, ROOM, d.verbs - 1}, &end), HZ_REFUSED, HZ_OUTPUT_FULL) && end == ROOM);
}

/* Two curves that ask for more than they may have, the second an infinite one, and one that does not. */
static void held_back(void) {
    enum { POINTS = 2006 };
    uint8_t verbs[] = {HZ_MOVE, HZ_QUAD, HZ_QUAD, HZ_CUBIC};
    float points[] = {0, 0, 8, 8, 16, 0, 2e6f, 0, 16, 16, INFINITY, 0, 0, 0, 0, 16};
    static float out[2 * POINTS];
    size_t ends[1];
    uint8_t marks[1];
    HzFlattened f = hz_flatten(verbs, 4, points, 16, 0.25f, out, 2 * POINTS, ends, 1, marks, 1);
    CHECK(f.refused == HZ_OK && f.points == POINTS && f.counts == 2005 && f.held == 2);
    f = hz_flatten(verbs, 4, points, 16, 0.25f, out, 2 * POINTS - 2, ends, 1, marks, 1);
    CHECK(f.refused == HZ_OUTPUT_FULL && f.held == 0);
    f = hz_flatten(verbs, 4, points, 15, 0.25f, out, 2 * POINTS, ends, 1, marks, 1);
    CHECK(f.refused == HZ_ODD_FLOATS && f.held == 0);
    /* a NaN counts as the smallest tolerance, at which the first curve is held back too */
    f = hz_flatten(verbs, 2, points, 6, NAN, out, 2 * POINTS, ends, 1, marks, 1);
    CHECK(f.refused == HZ_OK && f.counts == HZ_MAX_SEGMENTS && f.held == 1);

    size_t counts[] = {0, 5, HZ_MAX_SEGMENTS, HZ_MAX_SEGMENTS, 0};
    bool held[] = {false, false, true, true, false};
    for (size_t i = 0; i < 5; i++) {
        HzCarried c = hz_carried_count(verbs, 4, points, 16, 0.25f, i);
        CHECK(c.refused == HZ_OK && c.count == counts[i] && c.held == held[i]);
    }
    HzCarried c = hz_carried_count(verbs, 4, points, 14, 0.25f, 2);
    CHECK(c.refused == HZ_BAD_PATH && c.count == 0 && !c.held);
    held_back_in_dashes();
}

enum { LETTERS = 16, LENT_ENDS = 4, LENT_FLOATS = 64, LENT_VERBS = LENT_FLOATS / 2 };

/* A path. */
typedef struct {
    uint8_t verbs[LETTERS];
    float points[6 * LETTERS];
    size_t len, floats;
} Lettered;

/* The path whose verbs have these letters. Its points lie on a parabola, so that no verb ends where its subpath starts. */
static Lettered lettered(const char *letters) {
    static const char names[] = "MLQCZ";
    static const int uses[] = {1, 1, 2, 3, 0};
    Lettered p = {.len = strlen(letters)};
    for (size_t i = 0; i < p.len; i++) {
        p.verbs[i] = (uint8_t)(strchr(names, letters[i]) - names);
        for (int k = 0; k < uses[p.verbs[i]]; k++) {
            float x = (float)p.floats;
            p.points[p.floats++] = x;
            p.points[p.floats++] = x * x;
        }
    }
    return p;
}

/* All that a flattening and a dashing can write to. */
typedef struct {
    size_t ends[LENT_ENDS];
    float flat[LENT_FLOATS], drawn[LENT_FLOATS];
    uint8_t marks[LENT_ENDS], laid[LENT_VERBS];
} Written;

/* Whether the marks are these, written as digits, and the bytes past the last as they were. */
static int marked(const Written *w, const char *marks) {
    size_t n = strlen(marks);
    for (size_t i = 0; i < n; i++) {
        if (w->marks[i] != marks[i] - '0') return 0;
    }
    return untouched(w->marks + n, LENT_ENDS - n);
}

/* Flattens with room for so many marks. */
static HzFlattened flatten_marked(const Lettered *p, Written *w, size_t marks) {
    memset(w, 0xa5, sizeof *w);
    return hz_flatten(p->verbs, p->len, p->points, p->floats, 0.25f, w->flat, LENT_FLOATS, w->ends, LENT_ENDS, w->marks, marks);
}

/* Dashes by so many intervals, one run for each polyline, with room for so many marks and so many verbs of dashes. */
static HzDashed dash_marked(const Lettered *p, Written *w, size_t intervals, size_t marks, size_t dashes) {
    float pattern[HZ_MAX_INTERVALS + 1] = {1e6f, 1};
    memset(w, 0xa5, sizeof *w);
    return hz_dash_path(p->verbs, p->len, p->points, p->floats, 0, pattern, intervals, 0, 0.25f, w->flat, LENT_FLOATS, w->ends, LENT_ENDS, w->marks,
                        marks, w->laid, dashes, w->drawn, 2 * dashes);
}

/* A mark says whether the last verb of its subpath is a close. A subpath with no drawn verb has none, and the marks behind it keep pace with the
 * ends. As many marks as there are polylines are enough; with one less nothing is written. */
static void marks_of_paths(void) {
    static const char *const cases[][2] = {
        {"", ""},           {"M", ""},      {"MZ", ""},     {"MZZ", ""},          {"ML", "0"},         {"MLZ", "1"},     {"MLZL", "0"},
        {"MLZLZ", "1"},     {"MLZZ", "1"},  {"MZL", "0"},   {"MZLZ", "1"},        {"MQ", "0"},         {"MCZ", "1"},     {"MLZC", "0"},
        {"MQZQZ", "1"},     {"MLM", "0"},   {"MLZM", "1"},  {"MLZMMLMLZ", "101"}, {"MLMZMLZ", "01"},   {"MZMLZMZ", "1"}, {"MLZMLMLZML", "1010"},
    };
    for (size_t i = 0; i < sizeof cases / sizeof *cases; i++) {
        const char *letters = cases[i][0], *marks = cases[i][1];
        size_t n = strlen(marks);
        Lettered p = lettered(letters);
        Written w;
        HzFlattened f = flatten_marked(&p, &w, LENT_ENDS);
        check(f.refused == HZ_OK && f.polylines == n && marked(&w, marks), letters, __LINE__);
        check((n == 0 || w.ends[n - 1] == f.points) && untouched(w.ends + n, (LENT_ENDS - n) * sizeof *w.ends), letters, __LINE__);
        check(flatten_marked(&p, &w, n).refused == HZ_OK && marked(&w, marks), letters, __LINE__);
        check(n == 0 || (flatten_marked(&p, &w, n - 1).refused == HZ_OUTPUT_FULL && untouched(&w, sizeof w)), letters, __LINE__);
        HzDashed d = dash_marked(&p, &w, 2, n, LENT_VERBS);
        check(d.kind == HZ_CUT && d.polylines == n && d.scratch == f.points && marked(&w, marks), letters, __LINE__);
    }
}

/* The mark does not depend on whether the close added a point. None is added where the last point equals the first already, by value, or where the
 * first is a NaN, which equals nothing. */
static void marks_of_closings(void) {
    static const struct {
        float first, last;
        size_t closings;
    } cases[] = {{0, 0, 0}, {0, -0.0f, 0}, {-0.0f, 0, 0}, {NAN, 0, 0}, {NAN, NAN, 0}, {0, 1, 1}, {0, NAN, 1}};
    for (size_t i = 0; i < sizeof cases / sizeof *cases; i++) {
        Lettered p = lettered("MLLZL");
        p.points[0] = cases[i].first;
        p.points[4] = cases[i].last;
        p.points[5] = 0;
        Written w;
        CHECK(flatten_marked(&p, &w, 1).closings == cases[i].closings && marked(&w, "0"));
        /* up to the close, and up to the verb before it */
        p.len = 4;
        p.floats = 6;
        CHECK(flatten_marked(&p, &w, 1).closings == cases[i].closings && marked(&w, "1"));
        p.len = 3;
        CHECK(flatten_marked(&p, &w, 1).closings == 0 && marked(&w, "0"));
    }
}

/* The marks' room is the scratch's. */
static void marks_in_dashes(void) {
    Lettered p = lettered("MLZMMLMLZ");
    Written w;
    HzDashed d = dash_marked(&p, &w, 2, 3, LENT_VERBS);
    CHECK(d.refused == HZ_OK && d.kind == HZ_CUT && d.polylines == 3 && d.scratch == 8 && marked(&w, "101"));
    CHECK(uncut(dash_marked(&p, &w, 2, 2, LENT_VERBS), HZ_REFUSED, HZ_OUTPUT_FULL) && untouched(&w, sizeof w));
    CHECK(uncut(dash_marked(&p, &w, 2, 0, LENT_VERBS), HZ_REFUSED, HZ_OUTPUT_FULL) && untouched(&w, sizeof w));
    /* the dash buffers are one verb short as well, or alone: then the scratch was written, with its marks */
    CHECK(uncut(dash_marked(&p, &w, 2, 2, d.verbs - 1), HZ_REFUSED, HZ_OUTPUT_FULL) && untouched(&w, sizeof w));
    CHECK(uncut(dash_marked(&p, &w, 2, 3, d.verbs - 1), HZ_REFUSED, HZ_OUTPUT_FULL) && marked(&w, "101") && w.ends[2] == 8);
    CHECK(untouched(w.laid, sizeof w.laid) && untouched(w.drawn, sizeof w.drawn));
    /* whole touches none and needs none */
    CHECK(uncut(dash_marked(&p, &w, 0, LENT_ENDS, LENT_VERBS), HZ_WHOLE, HZ_OK) && untouched(&w, sizeof w));
    CHECK(uncut(dash_marked(&p, &w, 0, 0, 0), HZ_WHOLE, HZ_OK) && untouched(&w, sizeof w));
    /* other refusals come first, and touch none */
    CHECK(uncut(dash_marked(&p, &w, HZ_MAX_INTERVALS + 1, 0, LENT_VERBS), HZ_REFUSED, HZ_LONG_PATTERN) && untouched(&w, sizeof w));
    p.floats -= 2;
    CHECK(uncut(dash_marked(&p, &w, 2, 0, LENT_VERBS), HZ_REFUSED, HZ_BAD_PATH) && untouched(&w, sizeof w));
    CHECK(flatten_marked(&p, &w, 0).refused == HZ_BAD_PATH && untouched(&w, sizeof w));
}

static void questions(void) {
    uint8_t verbs[] = {HZ_MOVE, HZ_LINE, HZ_LINE, HZ_LINE};
    float points[] = {0, 0, 4, 0, 1, 1, 0, 4};
    HzBounds b = hz_bounds(verbs, 4, points, 8);
    CHECK(b.refused == HZ_OK && hz_width(b.rect) == 4 && hz_height(b.rect) == 4);
    CHECK(!hz_is_empty(b.rect) && hz_contains(b.rect, at(4, 4)) && !hz_contains(b.rect, at(5, 4)));
    b = hz_bounds(verbs, 4, points, 7);
    CHECK(b.refused == HZ_ODD_FLOATS && hz_is_empty(b.rect) && b.rect.min.x == INFINITY && hz_width(b.rect) == 0);
    b = hz_bounds(NULL, 0, NULL, 0);
    CHECK(b.refused == HZ_OK && hz_is_empty(b.rect));

    HzAnswer a = hz_is_finite(verbs, 4, points, 8);
    CHECK(a.refused == HZ_OK && a.holds);
    a = hz_is_within_tessellation_range(verbs, 4, points, 8);
    CHECK(a.refused == HZ_OK && a.holds);
    points[4] = 16777218.0f;
    CHECK(!hz_is_within_tessellation_range(verbs, 4, points, 8).holds && hz_is_finite(verbs, 4, points, 8).holds);
    points[4] = INFINITY;
    CHECK(!hz_is_finite(verbs, 4, points, 8).holds);
    a = hz_is_finite(verbs, 4, points, 6);
    CHECK(a.refused == HZ_BAD_PATH && !a.holds);
    points[4] = 1;

    HzVerdict v = hz_convexity(verbs, 4, points, 8);
    CHECK(v.refused == HZ_OK && v.convexity == HZ_CONCAVE);
    v = hz_convexity(verbs, 3, points, 6);
    CHECK(v.refused == HZ_OK && v.convexity == HZ_CONVEX);
    CHECK(hz_convexity(verbs, 3, points, 8).refused == HZ_BAD_PATH);
    v = hz_polygon_convexity(points, 8);
    CHECK(v.refused == HZ_OK && v.convexity == HZ_CONCAVE);
    v = hz_polygon_convexity(points, 7);
    CHECK(v.refused == HZ_ODD_FLOATS && v.convexity == HZ_CONCAVE);
    CHECK(hz_polygon_convexity(NULL, 0).convexity == HZ_CONVEX);
}

/* A cubic with the second differences `from` and `to` - (3, 0). */
static HzSegmentCount cubic(HzVec2 from, HzVec2 to) {
    return hz_cubic_segment_count(from, at(1, 0), at(2, 0), to, HZ_DEFAULT_TOLERANCE);
}

static float from_bits(uint32_t bits) {
    float x;
    memcpy(&x, &bits, sizeof x);
    return x;
}

static uint32_t root_bits(uint32_t operand) {
    float root = hz_sqrt(from_bits(operand));
    uint32_t bits;
    memcpy(&bits, &root, sizeof bits);
    return bits;
}

/* Roots by the exact root that they are rounded from, a whole number of 24 bits and a remainder, and those of operands that have none. */
static void roots(void) {
    static const uint32_t whole[][2] = {
        {0x3f800000, 0x3f800000}, /* 1: 2^23, nothing remains */
        {0x41c80000, 0x40a00000}, /* 25 */
        {0x4b7ffffe, 0x457fffff}, /* 2^24 - 2: root 2^24 - 2, and the remainder is twice that, so up */
        {0x3f800001, 0x3f800000}, /* 1 + 2^-23: the remainder is the root, so not up */
        {0x407fffff, 0x3fffffff}, /* 4 - 2^-22: likewise, at the largest root */
        {0x3f800002, 0x3f800001}, /* 1 + 2^-22: the remainder is twice the root, so up */
        {0x40000000, 0x3fb504f3}, /* 2: root 11863283, remainder 4817239 */
        {0x40400000, 0x3fddb3d7}, /* 3: root 14529495, remainder 7577967 */
        {0x40a00000, 0x400f1bbd}, /* 5: root 9378748, remainder 16174576, so up */
        {0x7f7fffff, 0x5f7fffff}, /* the largest */
        {0x00800000, 0x20000000}, /* the smallest normal one, 2^-126 */
        {0x007fffff, 0x1fffffff}, /* the largest subnormal one */
        {0x00000001, 0x1a3504f3}, /* the smallest, 2^-149 */
        {0x00000002, 0x1a800000}, /* 2^-148 */
        {0x00000000, 0x00000000}, {0x80000000, 0x80000000}, {0x7f800000, 0x7f800000},
    };
    static const uint32_t none[] = {0x80000001, 0x80800000, 0xbf800000, 0xff7fffff, 0xff800000, 0x7f800001, 0x7fc00000, 0xffc00000};
    for (size_t i = 0; i < sizeof whole / sizeof *whole; i++) CHECK(root_bits(whole[i][0]) == whole[i][1]);
    for (size_t i = 0; i < sizeof none / sizeof *none; i++) CHECK(isnan(hz_sqrt(from_bits(none[i]))));
}

static void values(void) {
    HzVec2 a = at(0, 0), b = at(8, 8), c = at(16, 0);
    CHECK(hz_sqrt(2.0f) == sqrtf(2.0f) && isnan(hz_sqrt(-1.0f)));
    CHECK(counted(hz_segment_count(998001.0f), 999, false) && counted(hz_segment_count(NAN), 1, false) && counted(hz_segment_count(-INFINITY), 1, false));
    CHECK(counted(hz_segment_count(1e6f), HZ_MAX_SEGMENTS, false));
    CHECK(counted(hz_segment_count(nextafterf(1e6f, INFINITY)), HZ_MAX_SEGMENTS, true));
    CHECK(counted(hz_segment_count(INFINITY), HZ_MAX_SEGMENTS, true));
    CHECK(counted(hz_quad_segment_count(a, b, c, HZ_DEFAULT_TOLERANCE), 5, false));
    CHECK(counted(hz_quad_segment_count(a, b, c, 0), HZ_MAX_SEGMENTS, true));
    CHECK(counted(hz_cubic_segment_count(a, at(0, 8), at(16, 8), c, HZ_DEFAULT_TOLERANCE), 9, false));
    /* a NaN counts as a tolerance of 2^-126 */
    CHECK(counted(hz_quad_segment_count(a, b, c, NAN), HZ_MAX_SEGMENTS, true));
    CHECK(counted(hz_quad_segment_count(a, at(8, 0x1p-121f), c, NAN), 5, false));
    CHECK(counted(hz_quad_segment_count(a, at(8, 0), c, NAN), 1, false));
    /* either of a cubic's differences alone asks for more than it may have */
    HzVec2 to = at(3, 0), far = at(1e6f, 0), nan = at(NAN, 0);
    CHECK(counted(cubic(a, to), 1, false));
    CHECK(counted(cubic(far, to), HZ_MAX_SEGMENTS, true) && counted(cubic(a, far), HZ_MAX_SEGMENTS, true));
    /* one that has a NaN is passed over, and the other decides */
    CHECK(counted(cubic(nan, far), HZ_MAX_SEGMENTS, true) && counted(cubic(far, nan), HZ_MAX_SEGMENTS, true));
    CHECK(counted(cubic(nan, to), 1, false) && counted(cubic(at(1e6f, NAN), to), 1, false) && counted(cubic(nan, nan), 1, false));
    CHECK(same(hz_eval_quad(a, b, c, 0.5f), at(8, 4)));
    CHECK(same(hz_eval_cubic(a, at(0, 8), at(16, 8), c, 0.5f), at(8, 6)));
    CHECK(hz_tolerance_for_scale(0.25f, 2.0f) == 0.125f && hz_tolerance_for_scale(0.25f, 0.0f) == 0.25f);
}

static void dashing(void) {
    uint8_t verbs[] = {HZ_MOVE, HZ_LINE};
    float points[] = {0, 0, 8, 0};
    float pattern[65] = {2, 1};
    float scratch[4], drawn[12];
    size_t ends[1];
    uint8_t marks[1], laid[6];
    memset(laid, 0xa5, sizeof laid);
    HzDashed d = hz_dash_path(verbs, 2, points, 4, 9, pattern, 2, 0, 0.25f, scratch, 4, ends, 1, marks, 1, laid, 6, drawn, 12);
    CHECK(d.refused == HZ_OK && d.kind == HZ_CUT && d.verbs == 6 && d.points == 6 && d.scratch == 2 && d.polylines == 1 && d.fill_rule == HZ_EVEN_ODD);
    float want[] = {0, 0, 2, 0, 3, 0, 5, 0, 6, 0, 8, 0};
    CHECK(memcmp(drawn, want, sizeof want) == 0 && memcmp(scratch, points, sizeof points) == 0 && ends[0] == 2);
    CHECK(memcmp(laid, "\0\1\0\1\0\1", 6) == 0);
    HzOutline o = hz_drawn_outline(points, 4, 2, drawn, 12, d);
    CHECK(o.from_dash == 1 && o.floats == 12);
    d.points = 7;
    CHECK(hz_drawn_outline(points, 4, 2, drawn, 12, d).floats == 0);

    /* outputs one short: first the scratch, then the dashes */
    memset(laid, 0xa5, sizeof laid);
    memset(scratch, 0, sizeof scratch);
    d = hz_dash_path(verbs, 2, points, 4, 0, pattern, 2, 0, 0.25f, scratch, 2, ends, 1, marks, 1, laid, 6, drawn, 12);
    CHECK(d.refused == HZ_OUTPUT_FULL && d.kind == HZ_REFUSED && scratch[2] == 0);
    d = hz_dash_path(verbs, 2, points, 4, 0, pattern, 2, 0, 0.25f, scratch, 4, ends, 1, marks, 1, laid, 5, drawn, 12);
    CHECK(d.refused == HZ_OUTPUT_FULL && scratch[2] == 8 && laid[0] == 0xa5);
    d = hz_dash_path(verbs, 2, points, 4, 0, pattern, 2, 0, 0.25f, scratch, 4, ends, 1, marks, 1, laid, 6, drawn, 10);
    CHECK(d.refused == HZ_OUTPUT_FULL && d.verbs == 0);
    CHECK(hz_drawn_outline(points, 4, 2, drawn, 12, d).floats == 0);
    CHECK(hz_dash_path(verbs, 2, points, 4, 0, pattern, 2, 0, 0.25f, scratch, 3, ends, 1, marks, 1, laid, 6, drawn, 12).refused == HZ_ODD_FLOATS);
    CHECK(hz_dash_path(verbs, 2, points, 4, 0, pattern, 65, 0, 0.25f, scratch, 4, ends, 1, marks, 1, laid, 6, drawn, 12).refused == HZ_LONG_PATTERN);
    CHECK(hz_dash_path(verbs, 2, points, 2, 0, pattern, 65, 0, 0.25f, scratch, 4, ends, 1, marks, 1, laid, 6, drawn, 12).refused == HZ_BAD_PATH);

    /* whole: no output is needed */
    float fine[] = {0.125f, 0.125f};
    d = hz_dash_path(verbs, 2, points, 4, 1, fine, 2, 0, 0.25f, NULL, 0, NULL, 0, NULL, 0, NULL, 0, NULL, 0);
    CHECK(d.refused == HZ_OK && d.kind == HZ_WHOLE && d.fill_rule == 0);
    o = hz_drawn_outline(points, 4, 2, NULL, 0, d);
    CHECK(o.from_dash == 0 && o.floats == 4);
    d = hz_dash_path(verbs, 2, points, 4, 1, NULL, 0, 0, 0.25f, NULL, 0, NULL, 0, NULL, 0, NULL, 0, NULL, 0);
    CHECK(d.refused == HZ_OK && d.kind == HZ_WHOLE);
    d = hz_dash_path(verbs, 2, points, 4, 1, pattern, 2, 0, 0.25f, NULL, 0, NULL, 0, NULL, 0, NULL, 0, NULL, 0);
    CHECK(d.refused == HZ_OUTPUT_FULL);

    CHECK(hz_is_usable(pattern, 2, 0) && !hz_is_usable(pattern, 2, INFINITY) && !hz_is_usable(NULL, 0, 0));
    HzLineStyle s = hz_line_style(4);
    CHECK(s.refused == HZ_OK && s.len == 4 && s.values[0] == 12 && s.values[3] == 4 && s.values[4] == 0);
    CHECK(hz_line_style(0).len == 0 && hz_line_style(0).refused == HZ_OK);
    CHECK(hz_line_style(9).refused == HZ_NO_STYLE && hz_line_style(SIZE_MAX).refused == HZ_NO_STYLE);
}

enum { ZERO_POINTS = 5, ZERO_VERBS = 6 };

/* A polyline, a pattern, and what is drawn: each verb as a letter, with its point. */
typedef struct {
    const char *name;
    size_t points, intervals;
    float at[2 * ZERO_POINTS], pattern[6], phase;
    const char *letters;
    float drawn[2 * ZERO_VERBS];
} ZeroCase;

/* All that a dashing of one polyline can write to. */
typedef struct {
    size_t end;
    float scratch[2 * ZERO_POINTS], drawn[2 * ZERO_VERBS];
    uint8_t mark, laid[ZERO_VERBS];
} ZeroRoom;

static const uint8_t polyline[ZERO_POINTS] = {HZ_MOVE, HZ_LINE, HZ_LINE, HZ_LINE, HZ_LINE};

/* Dashes with room for all points but so many, and for so many verbs and points of dashes. */
static HzDashed dash_zeros(const ZeroCase *c, ZeroRoom *r, float tolerance, size_t less, size_t verbs, size_t points) {
    memset(r, 0xa5, sizeof *r);
    return hz_dash_path(polyline, c->points, c->at, 2 * c->points, 0, c->pattern, c->intervals, c->phase, tolerance, r->scratch,
                        2 * (c->points - less), &r->end, 1, &r->mark, 1, r->laid, verbs, r->drawn, 2 * points);
}

/* Whether the scratch has the polyline, and the dash buffers so many of the verbs and points that are wanted, by their bits, and no more. */
static int holds(const ZeroCase *c, const ZeroRoom *r, size_t verbs) {
    for (size_t i = 0; i < verbs; i++) {
        if (r->laid[i] != (c->letters[i] == 'M' ? HZ_MOVE : HZ_LINE)) return 0;
    }
    return memcmp(r->scratch, c->at, 2 * c->points * sizeof(float)) == 0 && r->end == c->points && r->mark == HZ_OPEN &&
           memcmp(r->drawn, c->drawn, 2 * verbs * sizeof(float)) == 0 && untouched(r->laid + verbs, ZERO_VERBS - verbs) &&
           untouched(r->drawn + 2 * verbs, (ZERO_VERBS - verbs) * 2 * sizeof(float));
}

/* Buffers that are exactly full, and one verb, one point or one point of scratch too short. */
static void zero_case(const ZeroCase *c) {
    size_t n = strlen(c->letters);
    ZeroRoom r;
    HzDashed d = dash_zeros(c, &r, 0.25f, 0, n, n);
    check(d.refused == HZ_OK && d.kind == HZ_CUT && d.verbs == n && d.points == n, c->name, __LINE__);
    check(d.scratch == c->points && d.polylines == 1 && holds(c, &r, n), c->name, __LINE__);
    check(uncut(dash_zeros(c, &r, 0.25f, 1, n, n), HZ_REFUSED, HZ_OUTPUT_FULL) && untouched(&r, sizeof r), c->name, __LINE__);
    if (n == 0) return;
    check(uncut(dash_zeros(c, &r, 0.25f, 0, n - 1, n), HZ_REFUSED, HZ_OUTPUT_FULL) && holds(c, &r, 0), c->name, __LINE__);
    check(uncut(dash_zeros(c, &r, 0.25f, 0, n, n - 1), HZ_REFUSED, HZ_OUTPUT_FULL) && holds(c, &r, 0), c->name, __LINE__);
}

/* Zeros are passed over, and what is used up exactly at a corner ends there. The next interval begins at the next walked segment's first point,
 * copied: -0 stays. */
static void zeros_and_corners(void) {
    static const ZeroCase cases[] = {
        {"no dash above 0", 2, 2, {0, 0, 8, 0}, {0, 5}, 0, "", {0}},
        {"no dash above -0", 2, 2, {0, 0, 8, 0}, {-0.0f, 5}, 1, "", {0}},
        {"a dash ends at a corner", 3, 2, {0, 0, 2, 0, 2, 4}, {2, 1}, 0, "MLML", {0, 0, 2, 0, 2, 1, 2, 3}},
        {"a gap ends at a corner", 3, 2, {0, 0, 2, 0, 2, 4}, {1, 1}, 0, "MLMLML", {0, 0, 1, 0, 2, 0, 2, 1, 2, 2, 2, 3}},
        {"three zeros in a row", 2, 6, {0, 0, 8, 0}, {3, 0, 0, 0, 4, 1}, 0, "MLML", {0, 0, 3, 0, 3, 0, 7, 0}},
        {"a phase at zeros", 2, 6, {0, 0, 8, 0}, {3, -0.0f, 0, -0.0f, 4, 1}, 3, "MLML", {0, 0, 4, 0, 5, 0, 8, 0}},
        {"a phase behind zeros", 2, 6, {0, 0, 8, 0}, {3, 0, 0, 0, 4, 1}, 4, "MLMLML", {0, 0, 3, 0, 4, 0, 7, 0, 7, 0, 8, 0}},
        {"a dash of 0 between gaps", 2, 4, {0, 0, 8, 0}, {3, 1, 0, 1}, 0, "MLML", {0, 0, 3, 0, 5, 0, 8, 0}},
        {"an odd pattern", 2, 3, {0, 0, 8, 0}, {0, 5, 0}, 0, "ML", {5, 0, 8, 0}},
        {"a gap of 0 at a corner", 3, 2, {0, 0, 2, 0, 2, 4}, {2, 0}, 0, "MLMLML", {0, 0, 2, 0, 2, 0, 2, 2, 2, 2, 2, 4}},
        {"a dash of 0 at a corner", 3, 4, {0, 0, 2, 0, 2, 4}, {1, 1, 0, 1}, 0, "MLML", {0, 0, 1, 0, 2, 1, 2, 2}},
        {"-0 at a corner", 3, 2, {3, 0, -0.0f, 0, 0, 2}, {2, 1}, 0, "MLML", {3, 0, 1, 0, -0.0f, 0, 0, 2}},
        {"segments not walked", 5, 2, {0, 0, 2, 0, INFINITY, 0, 5, 0, 5, 2}, {2, 0}, 0, "MLML", {0, 0, 2, 0, 5, 0, 5, 2}},
        {"the last corner", 3, 2, {0, 0, 2, 0, 2, 0}, {2, 0}, 0, "ML", {0, 0, 2, 0}},
        /* 5e7 - 1 is 5e7, so that the phase is placed no further, and nothing is left of the 1 */
        {"nothing left at the start", 2, 4, {-0.0f, 0, 8, 0}, {1e8f, 1, 1e8f, 1}, 1.5e8f, "ML", {-0.0f, 0, 8, 0}},
        /* the first point is computed there */
        {"zeros at the start copy no point", 2, 4, {-0.0f, 0, 8, 0}, {0, 0, 9, 1}, 0, "ML", {0, 0, 8, 0}},
        {"zeros at a phase copy no point", 2, 4, {-0.0f, 0, 8, 0}, {3, 0, 9, 1}, 3, "ML", {0, 0, 8, 0}},
        /* a dash too short to move on leaves less than nothing at the corner, which is not exactly nothing */
        {"less than nothing left", 3, 4, {0, 0, 8, 0, 8, 8}, {2, 1, 1e-9f, 1}, 0, "MLMLL", {0, 0, 2, 0, 3, 0, 8, 0, 8, 8}},
    };
    for (size_t i = 0; i < sizeof cases / sizeof *cases; i++) zero_case(&cases[i]);
}

/* With gaps alone nothing is drawn, at once however long the way is, and no dash buffer is needed. Zeros alone are whole at every tolerance. */
static void gaps_or_zeros_alone(void) {
    ZeroCase c = {"gaps or zeros alone", 3, 2, {0, 0, 1e6f, 0, 1e6f, 1e6f}, {0, 0.001f}, 0, "", {0}};
    ZeroRoom r;
    for (size_t room = 0; room <= 2; room++) {
        HzDashed d = dash_zeros(&c, &r, -1, 0, room, room);
        CHECK(d.refused == HZ_OK && d.kind == HZ_CUT && d.verbs == 0 && d.points == 0 && d.scratch == 3 && d.polylines == 1 && holds(&c, &r, 0));
        HzOutline o = hz_drawn_outline(c.at, 6, 3, r.drawn, 2 * room, d);
        CHECK(o.from_dash == 1 && o.floats == 0);
    }
    CHECK(uncut(dash_zeros(&c, &r, -1, 1, 2, 2), HZ_REFUSED, HZ_OUTPUT_FULL) && untouched(&r, sizeof r));
    /* the tolerance is asked first */
    CHECK(uncut(dash_zeros(&c, &r, 0.25f, 0, 0, 0), HZ_WHOLE, HZ_OK) && untouched(&r, sizeof r));
    static const float tolerances[] = {0.25f, 0, -1, -INFINITY, INFINITY, NAN};
    c.pattern[1] = -0.0f;
    for (c.intervals = 1; c.intervals <= 6; c.intervals++) {
        CHECK(!hz_is_usable(c.pattern, c.intervals, 0));
        for (size_t i = 0; i < sizeof tolerances / sizeof *tolerances; i++) {
            CHECK(uncut(dash_zeros(&c, &r, tolerances[i], 3, 0, 0), HZ_WHOLE, HZ_OK) && untouched(&r, sizeof r));
        }
    }
}

/* A played list leaves what its calls leave one by one; a refused call counts as not made; the list ends early at a byte that is no kind. */
static void replayed(void) {
    Built b, c;
    fresh(&b);
    fresh(&c);
    const uint8_t kinds[] = {7, 0, 1, 5, 4, 9, 1};
    const float numbers[] = {1, 2, 3, 4, 5, 6, 7, 8, 0.5f, 9, 9};
    HzReplayed r = hz_replay(kinds, 7, numbers, 11, b.verbs, VERBS, b.points, FLOATS);
    HzReply q = hz_move_to(hz_with_fill_rule(hz_new(), HZ_EVEN_ODD), c.verbs, VERBS, c.points, FLOATS, at(1, 2));
    q = hz_line_to(q.state, c.verbs, VERBS, c.points, FLOATS, at(3, 4));
    q = hz_conic_to(q.state, c.verbs, VERBS, c.points, FLOATS, at(5, 6), at(7, 8), 0.5f);
    q = hz_close(q.state, c.verbs, VERBS, c.points, FLOATS);
    CHECK(r.calls == 5 && r.refused == 0);
    CHECK(same_state(&r.state, &q.state));
    CHECK(memcmp(b.verbs, c.verbs, sizeof b.verbs) == 0 && memcmp(b.points, c.points, sizeof b.points) == 0);
    fresh(&b);
    r = hz_replay(kinds, 3, numbers, 4, b.verbs, 1, b.points, FLOATS);
    CHECK(r.calls == 3 && r.refused == 1 && r.state.verbs == 1 && r.state.pen_x == 1.0f);
    r = hz_replay(NULL, 0, NULL, 0, NULL, 0, NULL, 0);
    CHECK(r.calls == 0 && r.refused == 0 && r.state.started == 0);
}

int main(void) {
    roots();
    values();
    building();
    builder_refusals();
    replayed();
    flattening();
    held_back();
    marks_of_paths();
    marks_of_closings();
    marks_in_dashes();
    questions();
    dashing();
    zeros_and_corners();
    gaps_or_zeros_alone();
    printf("C interface: %d checks passed, %d failed\n", passed, failed);
    return failed != 0;
}
