//! Progress on standard error, once a second, for work that takes longer than a second.
use crate::tell::tell;
use std::sync::atomic::{AtomicUsize, Ordering};
use std::sync::{Arc, Condvar, Mutex, PoisonError};
use std::thread::{self, JoinHandle};
use std::time::{Duration, Instant};

/// What is being done, and how far it is.
#[derive(Default)]
struct Work {
    stage: Mutex<&'static str>,
    done: AtomicUsize,
    total: AtomicUsize,
    is_over: Mutex<bool>,
    over: Condvar,
}

/// Tells of the work until it is dropped. The words come from a thread of their own, so that a long call into the library is told of too.
pub struct Progress {
    work: Arc<Work>,
    teller: Option<JoinHandle<()>>,
}

impl Progress {
    pub fn start() -> Progress {
        let work = Arc::new(Work::default());
        let told = Arc::clone(&work);
        let teller = thread::Builder::new().spawn(move || keep_telling(&told)).ok();
        Progress { work, teller }
    }

    /// Begins a stage of so many steps; 0 where the steps can't be counted.
    pub fn stage(&self, name: &'static str, total: usize) {
        self.work.done.store(0, Ordering::Relaxed);
        self.work.total.store(total, Ordering::Relaxed);
        *self.work.stage.lock().unwrap_or_else(PoisonError::into_inner) = name;
    }

    /// So many steps of the stage are done.
    pub fn done(&self, steps: usize) {
        self.work.done.store(steps, Ordering::Relaxed);
    }
}

impl Drop for Progress {
    fn drop(&mut self) {
        *self.work.is_over.lock().unwrap_or_else(PoisonError::into_inner) = true;
        self.work.over.notify_all();
        if let Some(teller) = self.teller.take() {
            let _ = teller.join();
        }
    }
}

fn keep_telling(work: &Work) {
    let begun = Instant::now();
    let mut is_over = work.is_over.lock().unwrap_or_else(PoisonError::into_inner);
    while !*is_over {
        let (guard, wait) = work.over.wait_timeout(is_over, Duration::from_secs(1)).unwrap_or_else(PoisonError::into_inner);
        is_over = guard;
        if !*is_over && wait.timed_out() {
            tell(words(work, begun.elapsed().as_secs()));
        }
    }
}

fn words(work: &Work, seconds: u64) -> String {
    let stage = *work.stage.lock().unwrap_or_else(PoisonError::into_inner);
    let (done, total) = (work.done.load(Ordering::Relaxed), work.total.load(Ordering::Relaxed));
    match done.min(total).checked_mul(100).and_then(|part| part.checked_div(total)) {
        Some(percent) => format!("{stage}, {percent} % after {seconds} s"),
        None => format!("{stage} for {seconds} s"),
    }
}

#[cfg(test)]
mod tests {
    use super::*;

    #[test]
    fn words_say_stage_and_part() {
        let work = Work::default();
        *work.stage.lock().unwrap() = "flattening";
        assert_eq!(words(&work, 2), "flattening for 2 s");
        work.total.store(8, Ordering::Relaxed);
        work.done.store(2, Ordering::Relaxed);
        assert_eq!(words(&work, 3), "flattening, 25 % after 3 s");
    }
}
