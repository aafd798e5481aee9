//! A line on standard error that says how far long work is. It appears only on a terminal and only after half a second, and it is
//! erased before anything else is printed.

use std::io::{self, IsTerminal, Read, Write};
use std::sync::atomic::{AtomicU64, Ordering};
use std::sync::{Arc, Condvar, Mutex, MutexGuard, PoisonError};
use std::thread::{self, JoinHandle};
use std::time::{Duration, Instant};

use crate::bar::bar;
use crate::terminal;

const PATIENCE: Duration = Duration::from_millis(500);
const REDRAW: Duration = Duration::from_millis(100);
const BAR_WIDTH: usize = 30;
const ERASE_LINE: &str = "\r\x1b[K";

/// The work of one command, in phases. Dropping it erases the line.
pub struct Progress {
    shared: Arc<Shared>,
    drawer: Option<JoinHandle<()>>,
}

#[derive(Default)]
struct Shared {
    work: Mutex<Work>,
    /// How much of the phase is done, in the unit of its total, or in bytes.
    done: AtomicU64,
    finished: Condvar,
}

#[derive(Default)]
struct Work {
    phase: &'static str,
    total: Option<u64>,
    is_finished: bool,
}

impl Shared {
    /// The drawer only formats numbers, so what the lock guards is whole even where a thread ended while it held it.
    fn work(&self) -> MutexGuard<'_, Work> {
        self.work.lock().unwrap_or_else(PoisonError::into_inner)
    }
}

impl Progress {
    pub fn start() -> Progress {
        let shared = Arc::new(Shared::default());
        let is_shown = io::stderr().is_terminal() && terminal::understands_escapes();
        let drawer = is_shown.then(|| {
            let shared = Arc::clone(&shared);
            // Without a thread to draw it there is no line, and the work goes on.
            thread::Builder::new().spawn(move || draw_until_finished(&shared)).ok()
        });
        Progress { shared, drawer: drawer.flatten() }
    }

    /// Begins a phase. Its total is a number of bytes or of keys, or none where it is not known or is that of a single call.
    pub fn phase(&self, name: &'static str, total: Option<u64>) {
        let mut work = self.shared.work();
        work.phase = name;
        work.total = total;
        self.shared.done.store(0, Ordering::Relaxed);
    }

    pub fn advance(&self, count: usize) {
        self.shared.done.fetch_add(count as u64, Ordering::Relaxed);
    }

    /// Erases the line and ends the drawing.
    pub fn finish(&mut self) {
        self.shared.work().is_finished = true;
        self.shared.finished.notify_all();
        if let Some(drawer) = self.drawer.take() {
            // A drawer that ended otherwise has nothing left to erase.
            let _ = drawer.join();
        }
    }
}

impl Drop for Progress {
    fn drop(&mut self) {
        self.finish();
    }
}

/// Draws until the work is finished. Where standard error cannot be written there is nobody to tell.
fn draw_until_finished(shared: &Shared) {
    let start = Instant::now();
    let mut wait = PATIENCE;
    let mut is_drawn = false;
    let mut work = shared.work();
    while !work.is_finished {
        let (guard, timeout) = shared.finished.wait_timeout(work, wait).unwrap_or_else(PoisonError::into_inner);
        work = guard;
        if timeout.timed_out() && !work.is_finished {
            let line = line(&work, shared.done.load(Ordering::Relaxed), start.elapsed(), terminal::is_utf8_locale());
            let _ = write!(io::stderr(), "{ERASE_LINE}{line}");
            is_drawn = true;
            wait = REDRAW;
        }
    }
    if is_drawn {
        let _ = write!(io::stderr(), "{ERASE_LINE}");
    }
}

fn line(work: &Work, done: u64, elapsed: Duration, unicode: bool) -> String {
    let seconds = elapsed.as_secs_f64();
    match work.total {
        Some(total) if total > 0 => {
            let fraction = (done as f64 / total as f64).min(1.0);
            let bar = bar(fraction, BAR_WIDTH, unicode);
            format!("{:<9} [{bar:<BAR_WIDTH$}] {:3.0}%  {seconds:.1} s", work.phase, fraction * 100.0)
        }
        _ if done > 0 => format!("{:<9} {:.1} MB  {seconds:.1} s", work.phase, done as f64 / 1e6),
        _ => format!("{:<9} {seconds:.1} s", work.phase),
    }
}

/// Reads and counts what is read.
pub struct Counted<'a, T> {
    pub inner: T,
    pub progress: &'a Progress,
}

impl<T: Read> Read for Counted<'_, T> {
    fn read(&mut self, buffer: &mut [u8]) -> io::Result<usize> {
        let count = self.inner.read(buffer)?;
        self.progress.advance(count);
        Ok(count)
    }
}

#[cfg(test)]
mod tests {
    use super::*;

    fn shown(total: Option<u64>, done: u64) -> String {
        line(&Work { phase: "reading", total, is_finished: false }, done, Duration::from_millis(1500), false)
    }

    #[test]
    fn a_phase_with_a_total_has_a_bar() {
        assert_eq!(shown(Some(200), 100), format!("reading   [{:<30}]  50%  1.5 s", "#".repeat(15)));
        assert_eq!(shown(Some(200), 300), format!("reading   [{}] 100%  1.5 s", "#".repeat(30)));
    }

    #[test]
    fn a_phase_without_a_total_says_how_much_it_has_read_if_it_knows() {
        assert_eq!(shown(None, 2_500_000), "reading   2.5 MB  1.5 s");
        assert_eq!(shown(None, 0), "reading   1.5 s");
        assert_eq!(shown(Some(0), 0), "reading   1.5 s");
    }
}
