/* The C interface in every floating-point environment: each call that writes to a buffer, under the four ways to round and with subnormals flushed or
 * not. In none of them may a call touch anything outside what it was lent, count more than that, or change anything when it is refused; and each ends.
 * A buffer ends where a page that traps begins, and the bytes before it are watched. Rounding to nearest with subnormals kept is the environment that
 * answers are promised in: there each answer is also compared with that of a plain call. Ends with 0 where all holds. */
#define _DEFAULT_SOURCE
#include "check.h"

#include <fenv.h>
#include <math.h>
#include <setjmp.h>
#include <signal.h>
#include <stdlib.h>
#include <sys/mman.h>
#include <unistd.h>
#include <xmmintrin.h>

/* ---- environments */

static const struct {
    const char *name;
    int rounding;
} roundings[] = {{"to nearest", FE_TONEAREST}, {"down", FE_DOWNWARD}, {"up", FE_UPWARD}, {"to zero", FE_TOWARDZERO}};

/* The two bits of MXCSR: flush-to-zero for results, denormals-are-zero for operands. */
static const struct {
    const char *name;
    unsigned bits;
} flushes[] = {{"kept", 0}, {"flushed in results", 0x8000}, {"flushed in operands", 0x0040}, {"flushed", 0x8040}};

enum { FLUSHES = 4, ENVIRONMENTS = 16, PROMISED = 0 };

static void enter(int environment) {
    fesetround(roundings[environment / FLUSHES].rounding);
    _mm_setcsr(_mm_getcsr() | flushes[environment % FLUSHES].bits);
}

static void leave(unsigned outside) {
    fesetround(FE_TONEAREST);
    _mm_setcsr(outside);
}

/* ---- buffers */

/* What is written to: VERBS and POINTS by a builder; POINTS, ENDS and MARKS by a flattening; all of them by a dashing, which lays its runs in VERBS and
 * RUNS. What is only read: bytes of verbs or of kinds, floats, and a pattern's intervals. */
enum { VERBS, POINTS, ENDS, MARKS, RUNS, WRITTEN, BYTES = WRITTEN, FLOATS, INTERVALS, BUFFERS };

static const size_t unit[BUFFERS] = {1, 2 * sizeof(float), sizeof(size_t), 1, 2 * sizeof(float), 1, sizeof(float), sizeof(float)};

/* At most so much is lent: 8 curves of 1,000 points fit. */
static const size_t most[BUFFERS] = {8192, 8192, 16, 16, 8192, 16, 64, HZ_MAX_INTERVALS};

enum { WATCHED = 256, LARGEST = 65536 };

/* Where each buffer's trap begins. */
static uint8_t *wall[BUFFERS];

/* The buffers of plain calls, and what stood in the lent ones before a call. */
static uint8_t plain[BUFFERS][LARGEST], before[BUFFERS][LARGEST];

static void build_walls(void) {
    size_t page = (size_t)sysconf(_SC_PAGESIZE);
    for (int i = 0; i < BUFFERS; i++) {
        size_t inner = (unit[i] * most[i] + WATCHED + page - 1) / page * page;
        uint8_t *from = mmap(NULL, inner + 2 * page, PROT_NONE, MAP_PRIVATE | MAP_ANONYMOUS, -1, 0);
        if (from == MAP_FAILED || mprotect(from + page, inner, PROT_READ | PROT_WRITE) != 0) {
            perror("environment.c: no memory");
            exit(2);
        }
        wall[i] = from + page + inner;
    }
}

/* ---- cases */

/* The first six have the numbers that hz_replay knows them by. */
enum { MOVE, LINE, QUAD, CUBIC, CLOSE, CONIC, REPLAY, FLATTEN, DASH };

static const char *const names[] = {"hz_move_to", "hz_line_to", "hz_quad_to", "hz_cubic_to", "hz_close",
                                    "hz_conic_to", "hz_replay", "hz_flatten", "hz_dash_path"};

/* A call. `bytes` and `floats` are what a builder has laid before it, the list that is played, or the path. */
typedef struct {
    int call;
    size_t bytes_len, floats_len, intervals_len;
    HzBuilder state;
    HzVec2 p[3];
    float weight, tolerance, phase;
    uint8_t bytes[16];
    float floats[64], intervals[HZ_MAX_INTERVALS];
} Case;

/* What a call answered: its reply's numbers, and how much of each buffer is filled by them. */
typedef struct {
    int trapped;
    uint8_t kind, refused;
    size_t said[6], used[WRITTEN];
    HzBuilder state;
} Outcome;

static void of_reply(Outcome *o, HzReply r) {
    o->state = r.state;
    o->refused = r.refused;
    o->said[0] = r.quads;
}

static void of_replayed(Outcome *o, HzReplayed r) {
    o->state = r.state;
    o->said[0] = r.calls;
    o->said[1] = r.refused;
}

static void of_flattened(Outcome *o, HzFlattened f) {
    size_t said[6] = {f.starts, f.lines, f.counts, f.closings, f.held, f.polylines};
    memcpy(o->said, said, sizeof said);
    o->refused = f.refused;
    o->used[POINTS] = f.points;
    o->used[ENDS] = o->used[MARKS] = f.polylines;
}

static void of_dashed(Outcome *o, HzDashed d) {
    o->kind = d.kind;
    o->refused = d.refused;
    o->said[0] = d.held;
    o->said[1] = d.fill_rule;
    o->used[POINTS] = d.scratch;
    o->used[ENDS] = o->used[MARKS] = d.polylines;
    o->used[VERBS] = d.verbs;
    o->used[RUNS] = d.points;
}

/* Makes the call with these buffers, each of so many elements. */
static Outcome make(const Case *c, void *const b[BUFFERS], const size_t n[BUFFERS]) {
    Outcome o;
    memset(&o, 0, sizeof o);
    uint8_t *verbs = b[VERBS], *marks = b[MARKS], *bytes = b[BYTES];
    float *points = b[POINTS], *runs = b[RUNS], *floats = b[FLOATS], *intervals = b[INTERVALS];
    size_t *ends = b[ENDS], nv = n[VERBS], np = 2 * n[POINTS];
    switch (c->call) {
    case MOVE: of_reply(&o, hz_move_to(c->state, verbs, nv, points, np, c->p[0])); break;
    case LINE: of_reply(&o, hz_line_to(c->state, verbs, nv, points, np, c->p[0])); break;
    case QUAD: of_reply(&o, hz_quad_to(c->state, verbs, nv, points, np, c->p[0], c->p[1])); break;
    case CUBIC: of_reply(&o, hz_cubic_to(c->state, verbs, nv, points, np, c->p[0], c->p[1], c->p[2])); break;
    case CLOSE: of_reply(&o, hz_close(c->state, verbs, nv, points, np)); break;
    case CONIC: of_reply(&o, hz_conic_to(c->state, verbs, nv, points, np, c->p[0], c->p[1], c->weight)); break;
    case REPLAY: of_replayed(&o, hz_replay(bytes, n[BYTES], floats, n[FLOATS], verbs, nv, points, np)); break;
    case FLATTEN:
        of_flattened(&o, hz_flatten(bytes, n[BYTES], floats, n[FLOATS], c->tolerance, points, np, ends, n[ENDS], marks, n[MARKS]));
        break;
    default:
        of_dashed(&o, hz_dash_path(bytes, n[BYTES], floats, n[FLOATS], 1, intervals, n[INTERVALS], c->phase, c->tolerance, points, np, ends,
                                   n[ENDS], marks, n[MARKS], verbs, nv, runs, 2 * n[RUNS]));
    }
    if (c->call <= REPLAY) {
        o.used[VERBS] = o.state.verbs;
        o.used[POINTS] = o.state.points;
    }
    return o;
}

/* ---- what is reported: the running call, its environment and the room that it was lent */

static const Case *running;
static int running_in;
static size_t lent[BUFFERS];

static void describe(void) {
    const Case *c = running;
    printf("    %s, rounding %s, subnormals %s; lent:", names[c->call], roundings[running_in / FLUSHES].name, flushes[running_in % FLUSHES].name);
    for (int i = 0; i < WRITTEN; i++) printf(" %zu", lent[i]);
    printf(" (verbs, points, ends, marks, points of runs)\n    bytes:");
    for (size_t i = 0; i < c->bytes_len; i++) printf(" %d", c->bytes[i]);
    printf("; floats:");
    for (size_t i = 0; i < c->floats_len; i++) printf(" %a", c->floats[i]);
    if (c->call <= CONIC) {
        printf("; arguments:");
        for (int i = 0; i < 3; i++) printf(" (%a, %a)", c->p[i].x, c->p[i].y);
        printf(", weight %a", c->weight);
    } else if (c->call >= FLATTEN) {
        printf("; tolerance %a, phase %a, intervals:", c->tolerance, c->phase);
        for (size_t i = 0; i < c->intervals_len; i++) printf(" %a", c->intervals[i]);
    }
    printf("\n");
}

enum { REPORTED = 10 };

/* As CHECK, but the call is described with the first few that fail. */
#define HOLDS(what) holds((what), #what, __LINE__)

static void holds(int does, const char *what, int line) {
    if (does || failed < REPORTED) {
        check(does, what, line);
        if (!does) describe();
    } else {
        failed++;
    }
}

/* ---- traps and calls that do not end */

static sigjmp_buf way_out;
static volatile sig_atomic_t inside;

static void trapped(int signal) {
    if (!inside) _exit(128 + signal);
    siglongjmp(way_out, 1);
}

enum { SECONDS = 300 };

static void overdue(int signal) {
    (void)signal;
    printf("environment.c: not done after %d seconds; the call that is running:\n", SECONDS);
    describe();
    fflush(stdout);
    _exit(1);
}

static void catch_signals(void) {
    static uint8_t stack[65536];
    stack_t other = {.ss_sp = stack, .ss_size = sizeof stack};
    struct sigaction trap = {.sa_handler = trapped, .sa_flags = SA_ONSTACK}, late = {.sa_handler = overdue, .sa_flags = SA_ONSTACK};
    sigaltstack(&other, NULL);
    sigaction(SIGSEGV, &trap, NULL);
    sigaction(SIGBUS, &trap, NULL);
    sigaction(SIGFPE, &trap, NULL);
    sigaction(SIGILL, &trap, NULL);
    sigaction(SIGALRM, &late, NULL);
    alarm(SECONDS);
}

/* ---- one call in lent buffers */

/* The elements of a buffer that stand there before the call: what a builder has laid, and what is read. */
static const void *given(const Case *c, int buffer, size_t *n) {
    int builds = c->call <= CONIC;
    switch (buffer) {
    case VERBS: *n = builds ? c->bytes_len : 0; return c->bytes;
    case POINTS: *n = builds ? c->floats_len / 2 : 0; return c->floats;
    case BYTES: *n = builds ? 0 : c->bytes_len; return c->bytes;
    case FLOATS: *n = builds ? 0 : c->floats_len; return c->floats;
    case INTERVALS: *n = c->intervals_len; return c->intervals;
    default: *n = 0; return NULL;
    }
}

/* Writes what stands in a buffer of so many elements, and answers how many bytes it has. */
static size_t fill(const Case *c, int buffer, uint8_t *to, size_t elements) {
    size_t n;
    const void *from = given(c, buffer, &n);
    memset(to, 0xa5, unit[buffer] * elements);
    if (n > elements) n = elements;
    if (n > 0) memcpy(to, from, unit[buffer] * n);
    return unit[buffer] * elements;
}

/* Lends each buffer right before its wall, and makes the call in an environment. */
static Outcome make_lent(const Case *c, int environment) {
    void *parts[BUFFERS];
    for (int i = 0; i < BUFFERS; i++) {
        uint8_t *from = wall[i] - unit[i] * lent[i];
        size_t bytes = fill(c, i, from, lent[i]);
        memset(from - WATCHED, 0xa5, WATCHED);
        memcpy(before[i], from, bytes);
        parts[i] = from;
    }
    running_in = environment;
    unsigned outside = _mm_getcsr();
    Outcome o;
    if (sigsetjmp(way_out, 1) == 0) {
        inside = 1;
        enter(environment);
        o = make(c, parts, lent);
    } else {
        memset(&o, 0, sizeof o);
        o.trapped = 1;
    }
    leave(outside);
    inside = 0;
    return o;
}

/* Whether what stands in a lent buffer from an element on is as it was. */
static int kept(int buffer, size_t from) {
    size_t bytes = unit[buffer] * lent[buffer], skipped = unit[buffer] * from;
    return from >= lent[buffer] || memcmp(wall[buffer] - bytes + skipped, before[buffer] + skipped, bytes - skipped) == 0;
}

/* Whether these buffers have room for so much. */
static int is_enough(const size_t need[WRITTEN], int first, int last) {
    for (int i = first; i <= last; i++) {
        if (lent[i] < need[i]) return 0;
    }
    return 1;
}

/* What holds in every environment, of a call that needs so much there, where that is known. */
static void hold_anywhere(const Case *c, const Outcome *o, const size_t *need) {
    HOLDS(!o->trapped && "nothing outside the buffers is read or written");
    for (int i = 0; i < BUFFERS; i++) HOLDS(untouched(wall[i] - unit[i] * lent[i] - WATCHED, WATCHED));
    for (int i = WRITTEN; i < BUFFERS; i++) HOLDS(kept(i, 0));
    if (o->trapped) return;
    if (c->call == REPLAY) HOLDS(o->said[0] <= c->bytes_len && o->said[1] <= o->said[0]);
    if (o->refused == HZ_OK || c->call > CONIC) HOLDS(is_enough(o->used, VERBS, RUNS));
    if (o->refused == HZ_OK && o->kind == HZ_CUT) return;
    if (o->refused == HZ_OK && c->call != DASH) return;
    /* refused, or drawn whole: nothing has changed but, where the runs do not fit, the scratch */
    int scratch_fits = c->call == DASH && o->refused == HZ_OUTPUT_FULL && (need == NULL || is_enough(need, POINTS, MARKS));
    for (int i = 0; i < WRITTEN; i++) HOLDS((scratch_fits && i >= POINTS && i <= MARKS) || kept(i, 0));
    if (c->call <= CONIC) HOLDS(same_state(&o->state, &c->state) && o->said[0] == 0);
}

static int same_outcome(const Outcome *a, const Outcome *b) {
    return a->kind == b->kind && a->refused == b->refused && memcmp(a->said, b->said, sizeof a->said) == 0 &&
           memcmp(a->used, b->used, sizeof a->used) == 0 && same_state(&a->state, &b->state);
}

/* The refusal where too little is lent: of the state where not even what is laid already fits. */
static uint8_t lack(const Case *c) {
    if (c->call > CONIC) return HZ_OUTPUT_FULL;
    return lent[VERBS] < c->state.verbs || lent[POINTS] < c->state.points ? HZ_BAD_STATE : HZ_BUILDER_FULL;
}

/* What is promised where numbers are rounded to nearest and subnormals kept: the plain call's answer, or a refusal where it does not fit. */
static void hold_promised(const Case *c, const Outcome *o, const Outcome *wanted) {
    if (o->trapped) return;
    if (wanted->refused != HZ_OK || is_enough(wanted->used, VERBS, RUNS)) {
        HOLDS(same_outcome(o, wanted));
        for (int i = 0; i < WRITTEN && wanted->refused == HZ_OK; i++) {
            HOLDS(memcmp(wall[i] - unit[i] * lent[i], plain[i], unit[i] * o->used[i]) == 0 && kept(i, o->used[i]));
        }
    } else if (c->call != REPLAY) {
        HOLDS(o->refused == lack(c));
    }
}

static Outcome try_lent(const Case *c, int environment, const size_t *need, const Outcome *wanted) {
    Outcome o = make_lent(c, environment);
    hold_anywhere(c, &o, need);
    if (environment == PROMISED) hold_promised(c, &o, wanted);
    return o;
}

/* ---- one case: in every environment with room to spare, with exactly what is needed, and with one less and one more of each buffer */

/* The first and the last of the buffers that the call writes to. */
static void span(const Case *c, int *first, int *last) {
    *first = c->call == FLATTEN ? POINTS : VERBS;
    *last = c->call == DASH ? RUNS : c->call == FLATTEN ? MARKS : POINTS;
}

static void lend(const size_t room[WRITTEN], int less, int more) {
    for (int i = 0; i < WRITTEN; i++) {
        lent[i] = room[i];
        if ((less & 1 << i) && lent[i] > 0) lent[i]--;
        if (more & 1 << i) lent[i]++;
    }
}

static void try_around(const Case *c, int environment, const size_t room[WRITTEN], const size_t *need, const Outcome *wanted) {
    int first, last, all = 0;
    span(c, &first, &last);
    for (int i = first; i <= last; i++) all |= 1 << i;
    lend(room, 0, 0);
    try_lent(c, environment, need, wanted);
    lend(room, all, 0);
    try_lent(c, environment, need, wanted);
    lend(room, 0, all);
    try_lent(c, environment, need, wanted);
    for (int i = first; i <= last; i++) {
        lend(room, 1 << i, 0);
        try_lent(c, environment, need, wanted);
        lend(room, 1 << i, all & ~(1 << i));
        try_lent(c, environment, need, wanted);
    }
}

static void lend_inputs(const Case *c) {
    for (int i = WRITTEN; i < BUFFERS; i++) given(c, i, &lent[i]);
}

static void lend_ample(const Case *c) {
    int first, last;
    span(c, &first, &last);
    memset(lent, 0, sizeof lent);
    for (int i = first; i <= last; i++) lent[i] = most[i];
    /* a builder call lays 65 verbs and 129 points at most, and a list here has 8 calls at most */
    if (c->call <= REPLAY) lent[VERBS] = lent[POINTS] = c->call == REPLAY ? 1100 : 200;
    lend_inputs(c);
}

static Outcome make_plain(const Case *c) {
    void *parts[BUFFERS];
    lend_ample(c);
    for (int i = 0; i < BUFFERS; i++) {
        fill(c, i, plain[i], lent[i]);
        parts[i] = plain[i];
    }
    return make(c, parts, lent);
}

static void try_case(const Case *c) {
    running = c;
    Outcome wanted = make_plain(c);
    for (int e = 0; e < ENVIRONMENTS; e++) {
        lend_ample(c);
        Outcome here = try_lent(c, e, NULL, &wanted);
        const size_t *need = here.trapped || here.refused != HZ_OK ? NULL : here.used;
        try_around(c, e, wanted.used, need, &wanted);
        if (!here.trapped && memcmp(here.used, wanted.used, sizeof here.used) != 0) try_around(c, e, here.used, need, &wanted);
    }
}

/* ---- numbers of all kinds, the same at every run */

static uint64_t drawn = 0x9e3779b97f4a7c15;

static uint32_t draw(void) {
    drawn ^= drawn >> 12;
    drawn ^= drawn << 25;
    drawn ^= drawn >> 27;
    return (uint32_t)((drawn * 0x2545f4914f6cdd1d) >> 32);
}

static uint32_t below(uint32_t n) {
    return draw() % n;
}

static float of_bits(uint32_t bits) {
    float x;
    memcpy(&x, &bits, sizeof x);
    return x;
}

#define ANY_OF(list) (list)[below(sizeof(list) / sizeof *(list))]

static float special(void) {
    static const float list[] = {0, -0.0f, INFINITY, -INFINITY, NAN, 0x1p-126f, -0x1p-149f, 3.4e38f, -3.4e38f, 1e30f, -1e-30f, 0x1p24f};
    switch (below(4)) {
    case 0: return of_bits(draw());
    case 1: return of_bits(draw() & 0x807fffff); /* subnormal, or 0 */
    default: return ANY_OF(list);
    }
}

/* A coordinate: a case has numbers of one kind, or of all. */
static float coordinate(uint32_t kind) {
    float unit_wide = (float)(int32_t)draw() * 0x1p-31f;
    switch (kind) {
    case 0: case 1: return unit_wide;
    case 2: return 500 * unit_wide;
    case 3: return (float)below(33) / 8 - 2;
    case 4: return of_bits(draw() & 0x80ffffff); /* subnormal, or next to it */
    case 5: return 3e38f * unit_wide;
    default: return below(3) == 0 ? special() : 20 * unit_wide;
    }
}

static HzVec2 point(uint32_t kind) {
    float x = coordinate(kind);
    return at(x, coordinate(kind));
}

enum { KINDS = 7, QUARTER = 0x3f3504f3 };

static float weight(void) {
    static const float list[] = {1, 0.5f, 2, 0.999f, 1.001f, 1.0005f, 0.99f, 3, 100, 1e10f, 1e-10f, 3.4e38f, 0, -1};
    switch (below(8)) {
    case 0: case 1: return of_bits(QUARTER);
    case 2: return of_bits(QUARTER - 2 + below(5));
    case 3: case 4: return (float)draw() * 0x1p-32f;
    case 5: return special();
    default: return ANY_OF(list);
    }
}

/* ---- cases of each call */

/* A call of a builder that has laid nothing, a move, or a move and a line. */
static Case builder_case(int call, uint32_t kind, uint32_t laid) {
    Case c = {.call = call, .state = hz_new()};
    HzReply r = {.state = c.state};
    if (laid > 0) r = hz_move_to(r.state, c.bytes, 2, c.floats, 4, point(kind));
    if (laid > 1) r = hz_line_to(r.state, c.bytes, 2, c.floats, 4, point(kind));
    c.state = r.state;
    c.bytes_len = r.state.verbs;
    c.floats_len = 2 * r.state.points;
    for (int i = 0; i < 3; i++) c.p[i] = point(kind);
    c.weight = weight();
    return c;
}

/* The weight of a quarter of a circle. Rounding down, this conic was once laid as more quads than were counted. */
static Case known_case(void) {
    Case c = {.call = CONIC, .bytes_len = 1, .floats_len = 2};
    HzReply r = hz_move_to(hz_new(), c.bytes, 1, c.floats, 2, at(0x1.1374bcp-2f, 0x1.dc28f6p-2f));
    c.state = r.state;
    c.p[0] = at(0x1.14fdf4p-1f, -0x1.581062p-6f);
    c.p[1] = at(0x1.0b4396p-2f, 0x1.872b02p-2f);
    c.weight = of_bits(QUARTER);
    return c;
}

static Case replay_case(uint32_t kind) {
    static const uint8_t numbers[] = {2, 2, 4, 6, 0, 5, 0, 0, 5};
    Case c = {.call = REPLAY, .bytes_len = 1 + below(8), .state = hz_new()};
    for (size_t i = 0; i < c.bytes_len; i++) {
        uint8_t k = c.bytes[i] = (uint8_t)(below(3) == 0 ? 5 : below(9));
        for (int j = 0; j < numbers[k]; j++) c.floats[c.floats_len++] = k == 5 && j == 4 ? weight() : coordinate(kind);
    }
    return c;
}

static void give_path(Case *c, uint32_t kind) {
    static const uint8_t uses[] = {1, 1, 2, 3, 0};
    c->bytes_len = 2 + below(5);
    for (size_t i = 0; i < c->bytes_len; i++) {
        uint8_t verb = c->bytes[i] = (uint8_t)(i == 0 ? HZ_MOVE : below(5));
        for (int j = 0; j < 2 * uses[verb]; j++) c->floats[c->floats_len++] = coordinate(kind);
    }
}

static float tolerance(void) {
    static const float list[] = {0.25f, 0.25f, 0.01f, 1e-3f, 1, -1, 0, 0x1p-126f, 0x1p-130f, 1e30f, NAN};
    return below(6) == 0 ? special() : ANY_OF(list);
}

static Case flatten_case(uint32_t kind) {
    Case c = {.call = FLATTEN, .tolerance = tolerance()};
    give_path(&c, kind);
    return c;
}

static float interval(void) {
    static const float list[] = {0, 0, 1, 2, 0.5f, 0.125f, 3, 1e8f, 1e-9f, 0x1p-126f, 0x1p-140f, 1e30f};
    return below(2) == 0 ? ANY_OF(list) : below(20) == 0 ? special() : (float)draw() * 0x1p-31f;
}

/* Mostly with a tolerance that does not draw the path whole. */
static Case dash_case(uint32_t kind) {
    static const float phases[] = {0, 0, 1, 0.5f, -3, 1e30f, -0x1p-140f, 1.5e8f, 0x1p-126f, 7.25f};
    Case c = {.call = DASH, .tolerance = below(2) == 0 ? -0.25f : tolerance(), .phase = below(8) == 0 ? special() : ANY_OF(phases)};
    give_path(&c, kind);
    c.intervals_len = below(40) == 0 ? HZ_MAX_INTERVALS : 1 + below(6);
    for (size_t i = 0; i < c.intervals_len; i++) c.intervals[i] = interval();
    return c;
}

static size_t needed(const Case *c) {
    Outcome o = make_plain(c);
    return o.used[VERBS] + o.used[POINTS];
}

/* Moves one of a case's numbers towards another one, to where the least change alters what is needed: there another rounding may, too. */
static void to_brink(Case *c, float *number, float far) {
    float near = *number;
    size_t need = needed(c);
    for (int i = 0; i < 40; i++) {
        *number = near + (far - near) / 2;
        if (needed(c) == need) {
            near = *number;
        } else {
            far = *number;
        }
    }
}

static Case random_case(int call, uint32_t i) {
    uint32_t kind = i % KINDS;
    Case c;
    switch (call) {
    case REPLAY: c = replay_case(kind); break;
    case FLATTEN: c = flatten_case(kind); break;
    case DASH: c = dash_case(kind); break;
    default: c = builder_case(call, kind, i % 3);
    }
    if (call < CONIC || below(2) == 0) return c;
    float *number = &c.floats[below((uint32_t)c.floats_len + 1)];
    if (call == CONIC) number = &c.p[0].x;
    if (call == DASH && below(2) == 0) number = &c.phase;
    to_brink(&c, number, coordinate(kind));
    return c;
}

static void try_many(int call, uint32_t cases) {
    for (uint32_t i = 0; i < cases; i++) {
        Case c = random_case(call, i);
        try_case(&c);
    }
}

int main(void) {
    build_walls();
    catch_signals();
    Case known = known_case();
    try_case(&known);
    try_many(CONIC, 2000);
    for (int call = MOVE; call <= CLOSE; call++) try_many(call, 70);
    try_many(REPLAY, 300);
    try_many(FLATTEN, 250);
    try_many(DASH, 250);
    printf("environments: %d checks passed, %d failed\n", passed, failed);
    return failed != 0;
}
