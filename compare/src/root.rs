//! The root of a float in IEEE's order, written from the request: first the exact result, then the rounding. A positive finite float, times a power of
//! four, is a whole number that gives its 24-bit whole root and the remainder; the float is rounded last, from these two alone.
//!
//! The machine's root isn't used here, and nothing is worked out in floats, so nothing is rounded twice; only the check that the number is the operand's
//! uses f64, where that is exact. At the end are operands whose rounding is close, or whose power of four is at an edge.
use crate::case::Rng;

/// The exact result for a positive finite float.
pub struct Exact {
    /// The float times four to the power of `fours`.
    number: u64,
    fours: i32,
    root: u64,
    remainder: u64,
}

/// A positive finite float as a whole number of 24 bits times two to a power, which is given second.
fn parts(x: f32) -> (u64, i32) {
    let (field, fraction) = (x.to_bits() >> 23, x.to_bits() & 0x7f_ffff);
    // A subnormal has no bit above its fraction, and the power of the least normal float.
    let (bits, power) = if field == 0 { (fraction, -149) } else { (fraction | 0x80_0000, field as i32 - 150) };
    let missing = bits.leading_zeros() - 8;
    (u64::from(bits) << missing, power - missing as i32)
}

/// The largest whole number whose square isn't over `number`, of at most 24 bits: tried bit by bit, from the first on.
fn whole_root(number: u64) -> u64 {
    let mut root = 0;
    for bit in (0..24).rev() {
        let tried = root | 1 << bit;
        if tried * tried <= number {
            root = tried;
        }
    }
    root
}

/// The first step; None where the operand isn't a positive finite float.
pub fn exact(x: f32) -> Option<Exact> {
    if !(x > 0.0 && x < f32::INFINITY) {
        return None;
    }
    let (bits, power) = parts(x);
    // A number of 47 or 48 bits has a root of 24. Which of the two it gets leaves an even power of two: a power of four.
    let more = if power % 2 == 0 { 24 } else { 23 };
    let number = bits << more;
    let root = whole_root(number);
    Some(Exact { number, fours: (more - power) / 2, root, remainder: number - root * root })
}

/// Two to a power that f64 has.
fn two_to(power: i32) -> f64 {
    f64::from_bits(((1023 + power) as u64) << 52)
}

impl Exact {
    /// The first of the request's sentences about the first step that doesn't hold for `x`, if there is one.
    pub fn wrong(&self, x: f32) -> Option<&'static str> {
        let [number, root, remainder] = [self.number, self.root, self.remainder].map(u128::from);
        // By the sentences before it the number is below 2⁴⁸: f64 holds it, and the product, without rounding.
        let back = self.number as f64 * two_to(-2 * self.fours);
        let sentences = [
            ((1 << 23..1 << 24).contains(&root), "the whole root hasn't 24 bits"),
            (root * root + remainder == number, "root squared plus remainder isn't the number"),
            (remainder <= 2 * root, "the remainder is over twice the root"),
            (back == f64::from(x), "the number isn't the operand times the power of four"),
        ];
        sentences.into_iter().find(|(holds, _)| !holds).map(|(_, wrong)| wrong)
    }

    /// Whether rounding goes up: exactly when the remainder is over the root. The square of root + 1/2 is root² + root + 1/4, so this is when the exact
    /// result is over the middle of two floats; it is never there.
    pub fn up(&self) -> bool {
        self.remainder > self.root
    }

    /// Whether the operand is a whole square times a power of four, so that nothing is rounded.
    pub fn is_square(&self) -> bool {
        self.remainder == 0
    }

    /// How far the remainder is over the root, or below it where this is below zero.
    pub fn over(&self) -> i64 {
        self.remainder as i64 - self.root as i64
    }

    /// The rounded root, divided by two to the power of `fours`. 24 bits are 2²³ and a fraction of 23, so the exponent is 23 − `fours`: from −75 to 63,
    /// always a normal float's. The fraction is added, so that 2²⁴ would become the next exponent.
    fn float(&self) -> f32 {
        let rounded = self.root + u64::from(self.up());
        let field = (127 + 23 - self.fours) as u32;
        f32::from_bits((field << 23) + (rounded - (1 << 23)) as u32)
    }
}

/// The root of any float. A zero, with its sign, and infinity are their own; a NaN and what is below zero have none.
pub fn sqrt(x: f32) -> f32 {
    match exact(x) {
        Some(exact) => exact.float(),
        None if x == 0.0 || x == f32::INFINITY => x,
        None => f32::NAN,
    }
}

// ---- operands

/// A whole number below 2⁵³, above 0, times a power of four that keeps it among the positive finite floats, rounded once where it has over 24 bits.
fn times_four(r: &mut Rng, whole: u64) -> f32 {
    let bits = 64 - u64::from(whole.leading_zeros());
    // 4⁻⁷⁴ is twice the least float: whatever has 24 bits is exact from there on.
    let fours = r.below(75 + (128 - bits) / 2) as i32 - 74;
    (whole as f64 * two_to(2 * fours)) as f32
}

/// A float and its two neighbours.
fn with_neighbours(x: f32) -> [f32; 3] {
    [x.to_bits() - 1, x.to_bits(), x.to_bits() + 1].map(f32::from_bits)
}

/// The square of the middle of two floats: of an odd whole number of 25 bits.
fn middle_squared(r: &mut Rng) -> u64 {
    let odd = (1 << 24) + 2 * r.below(1 << 23) + 1;
    odd * odd
}

/// A number whose remainder is `over`, which is even, over its root or below it: by far nearer to the middle than random ones are. It is
/// root² + root + `over`, four times it is odd² − `square` with odd = 2·root + 1; if the last 26 bits of that are zero, a float holds the number. The
/// odd one is found from its last bit on: each step takes one more bit of the difference away.
fn near_middle(over: i64) -> u64 {
    let square = 1 - 4 * over;
    let mut odd: i64 = 1;
    for bit in 3..26 {
        odd += ((odd * odd - square) >> bit & 1) << (bit - 1);
    }
    // 2²⁵ less it does the same, and one of the two has 25 bits.
    let odd = odd.max((1 << 25) - odd);
    ((odd * odd - square) / 4) as u64
}

/// Even, from −2¹⁶ to 2¹⁶; the nearer to 0 the more often.
fn little(r: &mut Rng) -> i64 {
    let sign = if r.one_in(2) { 1 } else { -1 };
    let most = 1 << r.below(16);
    sign * 2 * r.below(most + 1) as i64
}

/// Operands: around the square of the middle of two floats, around a whole square, around a power of four, where the remainder may be the root itself,
/// nearest to the middle, subnormal, of any bits that are positive, and any.
pub fn operands(r: &mut Rng) -> Vec<f32> {
    let whole = 1 + r.below(1 << 12);
    let around = [middle_squared(r), whole * whole, 1].map(|number| with_neighbours(times_four(r, number)));
    let over = little(r);
    let near = times_four(r, near_middle(over));
    let longest = 1 << r.below(24);
    let bits = [r.below(longest).max(1), 1 + r.below(0x7f7f_ffff)].map(|bits| f32::from_bits(bits as u32));
    [&around.concat()[..], &[near], &bits, &[r.any()]].concat()
}
