//! Compares the library with the Rust source, and where it says nothing with the requests, bit for bit, over random cases: see `compare/run`.
//!
//!     compare SEED CASES [THREADS] [FIRST] [MOST]
//!
//! Prints the first differences with their cases, made smaller while they differ in the same question, stops where MOST, or 20, cases differ, and
//! says at the end in which questions; ends with 1 where there is one.
mod case;
mod check;
mod examples;
mod held;
mod marks;
mod meeting;
mod numbers;
mod reference;
mod root;
mod zeros;

use case::{at_edge, random, strewn, text, Case, Rng};
use std::collections::BTreeMap;
use std::sync::atomic::{AtomicU64, Ordering};
use std::sync::Mutex;
use std::time::Instant;

/// One case in so many flattens at the edge where a curve is held back. A curve has 1,000 lines there: more of these cases would cost time.
const EDGES: u64 = 8;

/// One case in so many has closes and moves strewn in.
const STREWN: u64 = 6;

fn drawn(r: &mut Rng, number: u64) -> Case {
    let mut c = random(r, if number % 256 == 0 { 400 } else { 60 });
    match r.below(16) {
        0 | 1 => c = meeting::with_zeros(r, c),
        2 | 3 => return meeting::on_corners(r, c),
        4 => return meeting::nothing_left(r, c),
        _ => (),
    }
    if r.one_in(STREWN) {
        c = strewn(r, c);
    }
    if r.one_in(EDGES) {
        c = at_edge(r, c);
    }
    c
}

/// The case without calls, intervals and numbers that it does not need to differ in the same question.
fn smallest(mut c: Case, question: &str) -> Case {
    let differs = |c: &Case| check::case(c).is_err_and(|e| e.0 == question);
    loop {
        let mut tries: Vec<Case> = Vec::new();
        for i in 0..c.calls.len() {
            let mut t = c.clone();
            t.calls.remove(i);
            tries.push(t);
        }
        for i in 0..c.intervals.len() {
            let mut t = c.clone();
            t.intervals.remove(i);
            tries.push(t);
        }
        for change in [|t: &mut Case| t.phase = 0.0, |t: &mut Case| t.tolerance = 0.25, |t: &mut Case| t.scale = 1.0] {
            let mut t = c.clone();
            change(&mut t);
            if text(&t) != text(&c) {
                tries.push(t);
            }
        }
        match tries.into_iter().find(|t| differs(t)) {
            Some(t) => c = t,
            None => return c,
        }
    }
}

/// Differences so far: how many, and in which questions.
#[derive(Default)]
struct Wrong {
    cases: AtomicU64,
    questions: Mutex<BTreeMap<String, u64>>,
}

/// So many differences are printed with their cases.
const PRINTED: u64 = 20;

impl Wrong {
    fn many(&self) -> u64 {
        self.cases.load(Ordering::Relaxed)
    }
    /// Counts a difference of a case, and prints it with a smaller case.
    fn found(&self, seed: u64, number: u64, c: Case, (question, what): check::Differs) {
        *self.questions.lock().unwrap().entry(question.clone()).or_default() += 1;
        if self.cases.fetch_add(1, Ordering::Relaxed) < PRINTED {
            let least = smallest(c, &question);
            let what = check::case(&least).err().map_or(what, |e| e.1);
            println!("DIFFERS seed {seed} case {number}, {question}: {what}\n  {}", text(&least));
        }
    }
    /// How many differ, and in which questions.
    fn told(self) -> String {
        let questions = self.questions.into_inner().unwrap();
        let each: Vec<String> = questions.iter().map(|(question, many)| format!("{many} in {question}")).collect();
        let cases = self.cases.into_inner();
        if each.is_empty() {
            return format!("{cases} differ");
        }
        format!("{cases} differ ({})", each.join("; "))
    }
}

/// The examples through both sides, each with forty choices of buffers. What they come to isn't counted.
fn examples(seed: u64, wrong: &Wrong) {
    for (number, c) in (0..).zip(examples::cases()) {
        for i in 0..40 {
            let c = Case { seed: Rng::new(seed, i).next(), ..c.clone() };
            if let Err((question, what)) = check::case(&c) {
                wrong.found(seed, number, c, (format!("an example's {question}"), what));
                break;
            }
        }
    }
    check::forget();
}

/// Case `number` of a seed through both sides.
fn compared(seed: u64, number: u64, wrong: &Wrong) {
    let mut r = Rng::new(seed, number);
    let c = drawn(&mut r, number);
    let mut result = check::case(&c);
    if number % 20_000 == 0 {
        result = result.and_then(|()| check::limits(&mut r));
    }
    if let Err(differs) = result {
        wrong.found(seed, number, c, differs);
    }
}

fn main() {
    let args: Vec<u64> = std::env::args().skip(1).map(|w| w.parse().expect("a number")).collect();
    let [seed, cases, ref rest @ ..] = args[..] else {
        eprintln!("compare SEED CASES [THREADS] [FIRST] [MOST]");
        std::process::exit(2);
    };
    let or = |i: usize, other: u64| rest.get(i).copied().unwrap_or(other);
    let (threads, first, most) = (or(0, 1).max(1), or(1, 0), or(2, PRINTED));
    if !source::keeps_first() {
        eprintln!("compare: this build's f32::max does not keep the first of two equals; build the source unoptimised");
        std::process::exit(2);
    }
    let started = Instant::now();
    let (next, wrong) = (AtomicU64::new(first), Wrong::default());
    examples(seed, &wrong);
    std::thread::scope(|s| {
        for _ in 0..threads {
            s.spawn(|| loop {
                let from = next.fetch_add(1000, Ordering::Relaxed);
                if from >= first + cases || wrong.many() >= most {
                    break;
                }
                (from..(from + 1000).min(first + cases)).for_each(|number| compared(seed, number, &wrong));
            });
        }
    });
    let (many, told, time) = (wrong.many(), wrong.told(), started.elapsed().as_secs_f64());
    println!("seed {seed}: {cases} cases from number {first}, {told}, {time:.0} s in {threads} threads; {}", check::counted());
    std::process::exit(i32::from(many > 0));
}
