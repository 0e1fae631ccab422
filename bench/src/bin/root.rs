//! The root beside the machine's instruction: first equal on every `step`-th pattern and on all near the edges, then timed, both called through a
//! pointer in one run. Whole squares are timed apart, since nothing proved guards the first guess.
//!
//! `tools/library && cargo run --release --manifest-path bench/Cargo.toml --bin root [step]`
use hizlaou::ffi::hz_sqrt;
use std::hint::black_box;
use std::time::Instant;

#[inline(never)]
extern "C" fn instruction(x: f32) -> f32 {
    x.sqrt()
}

extern "C" fn own(x: f32) -> f32 {
    // SAFETY: hz_sqrt takes and returns a float and touches nothing else.
    unsafe { hz_sqrt(x) }
}

/// The least time of many runs, in nanoseconds for each of `n` turns.
fn best(n: usize, mut run: impl FnMut()) -> f64 {
    (0..2000).fold(f64::MAX, |least, _| {
        let start = Instant::now();
        run();
        least.min(start.elapsed().as_nanos() as f64 / n as f64)
    })
}

fn differs(b: u32) -> bool {
    let x = f32::from_bits(b);
    let (got, want) = (own(x), x.sqrt());
    if want.is_nan() {
        !got.is_nan()
    } else {
        got.to_bits() != want.to_bits()
    }
}

fn main() {
    let step = std::env::args().nth(1).map_or(97, |s| s.parse().expect("a step"));
    let spread = (0..=u32::MAX).step_by(step);
    let edges = (0..0x100_0000).chain(0x7f00_0000..0x8000_0100);
    let (mut tried, mut wrong) = (0u64, 0u64);
    for b in spread.chain(edges) {
        tried += 1;
        wrong += u64::from(differs(b));
    }
    println!("{tried} patterns tried, {wrong} differ");

    const N: usize = 4096;
    let mut seed = 12345u32;
    let mut random = || {
        seed = seed.wrapping_mul(1664525).wrapping_add(1013904223);
        seed
    };
    let any: Vec<f32> = (0..N).map(|_| f32::from_bits(0x3a00_0000 + random() % 0x0c00_0000)).collect();
    let squares: Vec<f32> = (0..N).map(|_| ((random() % 4096) as f32 + 1.0).powi(2)).collect();
    let roots: [extern "C" fn(f32) -> f32; 2] = black_box([instruction, own]);
    let mut out = vec![0f32; N];
    for (what, xs) in [("random", &any), ("whole squares", &squares)] {
        let [a, b] = roots.map(|f| {
            best(N, || {
                for i in 0..N {
                    out[i] = f(xs[i]);
                }
                black_box(&mut out);
            })
        });
        let [c, d] = roots.map(|f| {
            best(N, || {
                black_box(xs.iter().fold(2.0f32, |x, y| f(x + y)));
            })
        });
        println!("{what}: throughput {b:.2} ns, the instruction {a:.2} ({:.2} times); latency {d:.2} and {c:.2}", b / a);
    }
}
