//! What `--help` says.

/// The command line in one line, for mistakes in it.
pub const USAGE: &str = "usage: hizlaou flatten|dash|convexity|bounds|preview [OPTIONS] [FILE]; hizlaou --help teaches by example";

pub const HELP: &str = r##"hizlaou: see what a unit will put to air, before it does

Draw a lane of two legs, dashed 12 on and 6 off, and look at it in a browser:

  hizlaou preview --style 1 -o lane.svg -d "M 20 80 L 140 20 L 260 80"

What will be drawn, as numbers:

  hizlaou dash --style 1 -d "M 20 80 L 140 20 L 260 80"
  hizlaou dash --pattern "12 6" --phase 3 --json course.path > runs.json

A curve as the points that stand for it; more of them if it is shown four times as large:

  hizlaou flatten -d "M0 0 Q8 8 16 0"
  hizlaou flatten --scale 4 -d "M0 0 Q8 8 16 0"

Shown so large that its curves look faceted, a course says which, here and on the picture:

  hizlaou preview --style 1 --scale 1e6 -o large.svg course.path

Questions about an outline; path data can come from a file, from --data or from standard input:

  hizlaou bounds course.path
  echo "M0 0 L4 0 L1 1 L0 4 Z" | hizlaou convexity

Let a script stop where a lane would go to air without gaps:

  hizlaou preview --pattern "0.1 0.1" --refuse-whole -o lane.svg course.path || echo "not this one"

COMMANDS
  flatten    curves to polylines, each closed (ending in Z) or open, with the totals
  dash       the drawn runs of the pattern, or the outline itself where it is drawn whole
  convexity  Convex or Concave (a path with a curve or a second move is always Concave)
  bounds     the box round all points, control points included; finite? in range?
  preview    an SVG picture: outline, flattened points, corners (buoys), runs, legend

OPTIONS
  FILE             path data; - or nothing: standard input
  -d, --data DATA  path data as an argument
  --tolerance T    how far a flattened curve may be off (default 0.25)
  --scale S        shown S times as large: the tolerance used is T / S
  --style N        a line style. 0: none; 1: 12 6; 2: 6 6; 3: 2 4; 4: 12 4 2 4;
                   5: 12 4 2 4 2 4; 6: 8; 7: 4 2 1; 8: 24 8 (default 0)
  --pattern "A B"  lengths drawn, skipped, drawn, ...: at most 64; an odd list is laid twice;
                   0 is passed over: drawn it draws nothing, skipped it begins a new run
  --phase P        how far into the pattern each polyline starts (default 0)
  --rule R         fill rule, nonzero (default) or evenodd
  --json           JSON instead of text
  -o, --output F   write to file F; - or nothing: standard output
  --refuse-whole   with dash and preview: exit status 1 where the outline is drawn whole
                   or a dash runs on to the end (the answer is written all the same)
  -h, --help       this text
  --version        the version

PATH DATA
  SVG's: M L H V Q T C S Z, small letters relative to the pen. Beside SVG's there is a
  conic with a weight (under 1 an ellipse's arc, 1 a parabola, over 1 a hyperbola's arc):

    K cx cy x y w   from the pen to (x, y), control point (cx, cy), weight w
    k dx dy x y w   the same from the pen on; w is no coordinate and stays as it is

  A quarter circle: M 10 0 K 10 10 0 10 0.70710678. SVG's arcs (A) are left out.
  # starts a comment up to the end of its line. Numbers are read to the nearest f32.

LOUD WARNINGS, on standard error and on the picture
  DRAWN WHOLE     the pattern doesn't cut (no intervals, or the period is not over the
                  tolerance, ...): the lane goes to air as one unbroken line
  NOTHING DRAWN   no dash of the pattern is above 0, as in 0 5 (--refuse-whole lets it pass)
  A DASH RUNS ON  an interval too short to move the position along its segment never ends:
                  the rest of that polyline is one dash. A longer interval, or 0, avoids it
  A GAP RUNS ON   the same in a gap: nothing more of that polyline is drawn
                  (--refuse-whole lets it pass)
  FACETED         curves that want more than 1000 pieces are held back there, and look
                  faceted; the first ten are named by verb, from 0 on, and end, the rest
                  counted (--refuse-whole lets it pass; JSON has their number, held in
                  totals, and lists all, held_curves)

NUMBERS IN ANSWERS
  The fewest digits that read back, as f32, to the very same float. Minus zero is -0.0.
  NaN, Infinity and -Infinity are words, in JSON strings.

EXIT STATUS
  0  done
  1  refused: the number of the refusal, what it means and what to change are printed;
     or --refuse-whole met a whole outline or a dash that runs on
  2  malformed path data (with line and column), a wrong command line, a file that can't
     be read or written
"##;
