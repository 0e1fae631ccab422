/* Hizlaou: outlines, polylines and dashes. The C interface of the proved library.
 *
 *   tools/library                         proves the library and writes target/staticlib/libcapi.a
 *   cc prog.c target/staticlib/libcapi.a -lm
 *
 * Every call ends on every input, NaN and infinities included, keeps no memory and no state of its own, and may be called from any thread.
 * What each call answers, and what it leaves in each buffer, is proved against one definition (crates/capi/src/lib.rt names it).
 *
 * Floating-point environment. Answers are promised where numbers are rounded to nearest, ties to even, subnormals are kept (neither flush-to-zero nor
 * denormals-are-zero is set) and no exception traps, as a program finds it at its start. A thread that has changed this, as graphics threads do, sets it
 * back for the call. Under any other rounding, or with subnormals flushed, an answer may be wrong; but no call writes outside the buffers that it is
 * lent, and each ends (tested: tests/c/environment.c).
 *
 * Buffers. A buffer goes as a pointer and a length. The length is in elements: bytes for verbs and marks, floats (not points) for coordinates. With
 * length 0 the pointer may be NULL. A buffer that is written to must not overlap another
 * buffer of the same call. Only what a call is said to write changes.
 *
 * Coordinates. A point is two successive floats, x and y. Copied coordinates keep their bits, NaNs too (tested; a NaN's bits are
 * open in what is proved).
 *
 * Paths. Verbs are bytes: see HZ_MOVE to HZ_CLOSE; they use 1, 1, 2, 3, 0 points, end to end in the coordinate buffer. A path that is handed in
 * begins with a move, unless it is empty. A subpath is a move with all that follows up to the next move, what is drawn behind a close included. One
 * with a drawn verb (a line, a quad or a cubic) becomes one polyline, with one end and one mark; any other writes nothing. Limits: HZ_MAX_VERBS,
 * HZ_MAX_POINTS.
 */
#ifndef HIZLAOU_H
#define HIZLAOU_H

#include <stdbool.h>
#include <stddef.h>
#include <stdint.h>

#ifdef __cplusplus
extern "C" {
#endif

/* ---- numbers */

/* Verbs. */
enum { HZ_MOVE = 0, HZ_LINE = 1, HZ_QUAD = 2, HZ_CUBIC = 3, HZ_CLOSE = 4 };

/* Fill rules. Any byte but 0 is taken for even-odd. */
enum { HZ_NON_ZERO = 0, HZ_EVEN_ODD = 1 };

/* Marks of polylines: a byte for each, by which a stroker puts caps on open lines and a join on closed ones. A polyline is closed exactly where the last
 * verb of its subpath is a close, even where no closing point was added: its last point may equal its first already, and to a NaN start none is ever
 * added. A drawn verb behind its last close leaves it open. */
enum { HZ_OPEN = 0, HZ_CLOSED = 1 };

/* Limits. */
enum { HZ_MAX_VERBS = 65536, HZ_MAX_POINTS = 131072, HZ_MAX_INTERVALS = 64, HZ_MAX_SEGMENTS = 1000, HZ_MAX_QUADS = 64, HZ_MAX_STYLE = 8 };

/* Default flattening tolerance, in device pixels. */
#define HZ_DEFAULT_TOLERANCE 0.25f

/* Refusals: the field `refused` of an answer, 0 for none. A refused call touches no buffer and returns the state that it was given, but after a
 * dashing's HZ_OUTPUT_FULL for the dash buffers the scratch holds the flattened polylines, with their ends and marks. */
enum {
    HZ_OK = 0,
    /* who lends memory */
    HZ_ODD_FLOATS = 1,   /* a coordinate buffer has an odd number of floats: lend two floats for each point */
    HZ_BUILDER_FULL = 2, /* a builder call needs more verbs or points than its buffers or the limits have left: lend more, or start another path */
    HZ_OUTPUT_FULL = 3,  /* flattening or dashing yields more than an output can take (points, ends, marks; dashes up to the limits): lend more */
    /* who hands in a path */
    HZ_OVER_LIMIT = 4,   /* over HZ_MAX_VERBS verbs or HZ_MAX_POINTS points: split the path */
    HZ_NO_VERB = 5,      /* a verb byte over 4 */
    HZ_BAD_PATH = 6,     /* not empty and first verb not a move, or the verbs use another number of points than given */
    /* who hands in a builder state */
    HZ_BAD_STATE = 7,    /* counts over the buffers or limits, `started` not equal to having a verb, or started without a point */
    /* who orders a line */
    HZ_LONG_PATTERN = 8, /* over HZ_MAX_INTERVALS intervals */
    HZ_NO_STYLE = 9      /* a style over HZ_MAX_STYLE */
};

/* ---- structs */

typedef struct {
    float x, y;
} HzVec2;

/* An axis-aligned box. */
typedef struct {
    HzVec2 min, max;
} HzRect;

/* A builder's state: made by hz_new, handed to each call and returned by it. The verbs and points that it counts stand first in the two buffers
 * that are lent to every call of the same path. */
typedef struct {
    size_t verbs;             /* verbs laid so far */
    size_t points;            /* points laid so far: 2 * points floats */
    float start_x, start_y;   /* the latest move's point */
    float pen_x, pen_y;       /* the pen */
    float min_x, min_y;       /* the noted rounded rectangle */
    float max_x, max_y;
    float radius;
    uint8_t fill_rule;        /* HZ_NON_ZERO, else even-odd */
    uint8_t noted;            /* whether a rounded rectangle is noted: 0 is no */
    uint8_t started;          /* whether a move has been laid: 0 is no */
} HzBuilder;

/* What a builder call that takes the buffers answers. */
typedef struct {
    HzBuilder state;
    size_t quads;             /* the quads that a conic was laid as; 0 where it was laid as a line, and for other calls */
    uint8_t refused;          /* 1, 7 or 2, in this order */
} HzReply;

/* What a played list of calls left. */
typedef struct {
    HzBuilder state;
    size_t calls;             /* the calls that were played: fewer than the kinds where the list ends early */
    size_t refused;           /* how many of them were refused */
} HzReplayed;

/* The pen, if anything is laid (known is 1); else zeros. */
typedef struct {
    float x, y;
    uint8_t known;
} HzPoint;

/* The rounded rectangle that the path is noted as, if it is (known is 1); else zeros. */
typedef struct {
    HzRect rect;
    float radius;
    uint8_t known;
} HzNote;

/* N, the number of straight segments that a curve becomes, and whether it was held back at HZ_MAX_SEGMENTS. Wang's formula says how many segments
 * are enough for none to lie further off the curve than the tolerance; s is the square of that number, as a float. An infinite coordinate, or an
 * overflow on the way, can make s +inf. A curve for which it asks for more than HZ_MAX_SEGMENTS gets just so many: it is held back, and may look
 * faceted. A count of HZ_MAX_SEGMENTS alone does not say so: it is also the right one for a curve for which it asks for just so many. */
typedef struct {
    uint32_t count;           /* N, 1 to HZ_MAX_SEGMENTS */
    bool held;                /* held back: s is +inf or its rounded root is over HZ_MAX_SEGMENTS, which is so exactly where s > 1,000,000 */
} HzSegmentCount;

/* A flattening's totals: points is starts + lines + counts + closings, and polylines equals starts. All 0 in a refusal. */
typedef struct {
    size_t points;            /* points written, in all polylines together */
    size_t polylines;         /* polylines written: so many numbers in `ends`, and so many bytes in `marks` */
    size_t starts;            /* kept starts: moves whose subpath has a drawn verb */
    size_t lines;
    size_t counts;            /* the sum of all curves' N */
    size_t closings;          /* closing points that were added */
    size_t held;              /* curves (quads and cubics; a conic counts as its quads) that were held back at HZ_MAX_SEGMENTS: hz_carried_count at
                                 the same tolerance tells which */
    uint8_t refused;          /* 1, 4, 5, 6 or 3, in this order */
} HzFlattened;

typedef struct {
    size_t count;             /* the curve's N; 0 for a verb that is no curve, past the end, and in a refusal */
    bool held;                /* whether the curve was held back; false where count is 0 */
    uint8_t refused;          /* 1, 4, 5 or 6 */
} HzCarried;

typedef struct {
    HzRect rect;              /* from (+inf, +inf) to (-inf, -inf) for no point, and in a refusal */
    uint8_t refused;          /* 1, 4, 5 or 6 */
} HzBounds;

typedef struct {
    bool holds;               /* false in a refusal */
    uint8_t refused;          /* 1, 4, 5 or 6 */
} HzAnswer;

enum { HZ_CONVEX = 0, HZ_CONCAVE = 1 };

typedef struct {
    uint8_t convexity;        /* HZ_CONVEX or HZ_CONCAVE; HZ_CONCAVE in a refusal */
    uint8_t refused;          /* 1 or 4; for a path also 5 or 6 */
} HzVerdict;

/* A line style: its intervals are the first `len` of `values`, the others 0. */
typedef struct {
    float values[HZ_MAX_INTERVALS];
    size_t len;
    uint8_t refused;          /* 9 */
} HzLineStyle;

enum { HZ_WHOLE = 0, HZ_CUT = 1, HZ_REFUSED = 2 };

/* What a dashing answers. Whole: draw the path itself; no buffer was touched. Cut: the counts below; with 0 verbs nothing is drawn. All counts are 0
 * unless cut. */
typedef struct {
    size_t verbs;             /* verbs in the dash buffer */
    size_t points;            /* points in the dash buffer */
    size_t scratch;           /* points in the scratch */
    size_t polylines;         /* polylines in the scratch: so many numbers in `ends`, and so many bytes in `marks` */
    size_t held;              /* curves of the path that were held back at HZ_MAX_SEGMENTS; the 0 of an answer that is not cut says nothing of the
                                 path: hz_flatten at the same tolerance does */
    uint8_t kind;             /* HZ_WHOLE, HZ_CUT or HZ_REFUSED */
    uint8_t fill_rule;        /* the path's, where cut */
    uint8_t refused;          /* 1, 4, 5, 6, 8, 3 for the scratch, 3 for the dash buffers, in this order */
} HzDashed;

/* A part of one of two coordinate buffers: its first `floats` floats. */
typedef struct {
    size_t floats;
    uint8_t from_dash;        /* 0: of the path's buffer, 1: of the dash buffer */
} HzOutline;

/* ---- floats and curves */

/* IEEE 754 squareRoot, nearest, ties to even. */
float hz_sqrt(float x);

/* The segment count of s (see HzSegmentCount): 1 for NaN or s <= 0, HZ_MAX_SEGMENTS for +inf, else the rounded root rounded up, at most
 * HZ_MAX_SEGMENTS; and whether it was held back. */
HzSegmentCount hz_segment_count(float squared);

/* A curve's segment count at a tolerance, and whether it was held back. */
HzSegmentCount hz_quad_segment_count(HzVec2 p0, HzVec2 p1, HzVec2 p2, float tolerance);
HzSegmentCount hz_cubic_segment_count(HzVec2 p0, HzVec2 p1, HzVec2 p2, HzVec2 p3, float tolerance);

/* A curve's point at t. */
HzVec2 hz_eval_quad(HzVec2 p0, HzVec2 p1, HzVec2 p2, float t);
HzVec2 hz_eval_cubic(HzVec2 p0, HzVec2 p1, HzVec2 p2, HzVec2 p3, float t);

/* tolerance / max_scale; the tolerance itself for a scale <= 0 or not finite. */
float hz_tolerance_for_scale(float tolerance, float max_scale);

/* ---- building. Every list of calls begins with hz_new; each later call gets the state that the call before it returned, refused or not. */

HzBuilder hz_new(void);

/* The fill rule and the note take no buffer and refuse nothing. A rounded rectangle with a number that isn't finite notes nothing and clears an
 * earlier note; the radius is at least 0. */
HzBuilder hz_with_fill_rule(HzBuilder state, uint8_t rule);
HzBuilder hz_as_rounded_rect(HzBuilder state, HzRect rect, float radius);

HzPoint hz_current_point(HzBuilder state);
HzNote hz_rounded_rect(HzBuilder state);

/* Each lays its verb behind those that stand. A drawn verb on an empty builder first lays a move to (0, 0); close on an empty one does nothing. */
HzReply hz_move_to(HzBuilder state, uint8_t *verbs, size_t verbs_len, float *points, size_t points_len, HzVec2 p);
HzReply hz_line_to(HzBuilder state, uint8_t *verbs, size_t verbs_len, float *points, size_t points_len, HzVec2 p);
HzReply hz_quad_to(HzBuilder state, uint8_t *verbs, size_t verbs_len, float *points, size_t points_len, HzVec2 ctrl, HzVec2 to);
/* A conic is laid as at most HZ_MAX_QUADS quads, all or none; as one line where weight, control point or end describe no curve. */
HzReply hz_conic_to(HzBuilder state, uint8_t *verbs, size_t verbs_len, float *points, size_t points_len, HzVec2 ctrl, HzVec2 to, float weight);
HzReply hz_cubic_to(HzBuilder state, uint8_t *verbs, size_t verbs_len, float *points, size_t points_len, HzVec2 c0, HzVec2 c1, HzVec2 to);
HzReply hz_close(HzBuilder state, uint8_t *verbs, size_t verbs_len, float *points, size_t points_len);

/* Plays a whole encoded list of calls on a fresh builder: one crossing for all of them. A byte for each call's kind, and the calls' numbers end to
 * end: 0 move (2 numbers), 1 line (2), 2 quad (4), 3 cubic (6), 4 close (0), 5 conic (control, end, weight: 5), 6 and 7 the fill rules non-zero and
 * even-odd (0), 8 the note of a rounded rectangle (min, max, radius: 5). The list ends at its last byte, at a byte over 8, or where fewer numbers are
 * left than the call takes. A refused call counts as not made, and the next goes on from the unchanged state. */
HzReplayed hz_replay(const uint8_t *kinds, size_t kinds_len, const float *numbers, size_t numbers_len, uint8_t *verbs, size_t verbs_len,
                     float *points, size_t points_len);

/* ---- flattening */

/* 1, 4, 5 or 6 for a path that is refused, in this order, else 0. */
uint8_t hz_check(const uint8_t *verbs, size_t verbs_len, const float *points, size_t points_len);

/* Writes the polylines' points end to end into `out`, for each polyline the number of points at which it ends into `ends`, and its mark, HZ_OPEN or
 * HZ_CLOSED, into `marks`. Measured first: where one of the three is too short nothing is written. A curve writes at most HZ_MAX_SEGMENTS points, any
 * other verb at most one. There are as many marks as ends, and at most as many of each as the path has moves. A tolerance that is a NaN or below
 * 2^-126 counts as 2^-126, at which nearly every curve that bends is held back. */
HzFlattened hz_flatten(const uint8_t *verbs, size_t verbs_len, const float *points, size_t points_len, float tolerance, float *out, size_t out_len,
                       size_t *ends, size_t ends_len, uint8_t *marks, size_t marks_len);

/* The N that the curve at verb `index` is flattened with, and whether it was held back. */
HzCarried hz_carried_count(const uint8_t *verbs, size_t verbs_len, const float *points, size_t points_len, float tolerance, size_t index);

/* ---- questions */

/* The box round all points, control points included. */
HzBounds hz_bounds(const uint8_t *verbs, size_t verbs_len, const float *points, size_t points_len);
bool hz_is_empty(HzRect rect);
bool hz_contains(HzRect rect, HzVec2 p);
float hz_width(HzRect rect);
float hz_height(HzRect rect);

/* Whether every coordinate is finite; whether each is at most 16,777,216 in magnitude. */
HzAnswer hz_is_finite(const uint8_t *verbs, size_t verbs_len, const float *points, size_t points_len);
HzAnswer hz_is_within_tessellation_range(const uint8_t *verbs, size_t verbs_len, const float *points, size_t points_len);

/* A path is concave for any curve or a second move. A polygon is a bare list of points. */
HzVerdict hz_convexity(const uint8_t *verbs, size_t verbs_len, const float *points, size_t points_len);
HzVerdict hz_polygon_convexity(const float *points, size_t points_len);

/* ---- dashing */

/* Whether a pattern can be walked: at least one interval, each finite and >= 0, with a sum > 0, and a finite phase. Zeros alone cannot, so that a path
 * is drawn whole with them at every tolerance. */
bool hz_is_usable(const float *intervals, size_t intervals_len, float phase);

/* The intervals of a line style, 0 to HZ_MAX_STYLE. Style 0 has none: a path is drawn whole with it. */
HzLineStyle hz_line_style(size_t number);

/* Cuts a path into the drawn runs of a pattern, whose intervals are a dash, a gap, a dash and so on, an odd number of them laid twice. The path is
 * flattened into `scratch`, `ends` and `marks`, as by hz_flatten, and the runs, moves and lines, go to the dash buffers. Runs have no marks: none is
 * closed. `rule` is the path's fill rule.
 *
 * An interval of 0 (-0 too) is passed over: a dash of 0 draws nothing, a gap of 0 still begins a new run. Where no dash is above 0, as in 0 5, a cut
 * has 0 verbs; the scratch holds the polylines all the same. An interval of which exactly nothing is left at a corner, or at a polyline's start, ends
 * there, and the next one begins at the next walked segment's first point, copied; the segments that are walked are those with a finite length > 0. */
HzDashed hz_dash_path(const uint8_t *verbs, size_t verbs_len, const float *points, size_t points_len, uint8_t rule, const float *intervals,
                      size_t intervals_len, float phase, float tolerance, float *scratch, size_t scratch_len, size_t *ends, size_t ends_len,
                      uint8_t *marks, size_t marks_len, uint8_t *dash_verbs, size_t dash_verbs_len, float *dash_points, size_t dash_points_len);

/* The outline to draw by a dashing's answer: the first `points` points of the path's own buffer where it is Whole, else the filled part of the
 * dash buffer. Nothing where the numbers do not fit. */
HzOutline hz_drawn_outline(const float *path, size_t path_len, size_t points, const float *dash, size_t dash_len, HzDashed answer);

#ifdef __cplusplus
}
#endif

#endif
