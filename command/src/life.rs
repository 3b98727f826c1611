//! On a terminal, after two seconds: a sign of life on standard error, with how many lines are worked on and for how long.

use border::streams::while_signals_wait;
use std::io::{IsTerminal, Write};
use std::sync::atomic::{AtomicUsize, Ordering};
use std::sync::mpsc::{channel, Receiver, RecvTimeoutError};
use std::time::Duration;

/// How many lines the input has.
pub static LINES: AtomicUsize = AtomicUsize::new(0);

/// Whether what moves or has colours may not be shown, not on a terminal either.
pub fn is_plain() -> bool {
    std::env::var_os("NO_COLOR").is_some_and(|set| !set.is_empty()) || std::env::var_os("TERM").is_none_or(|term| term == "dumb")
}

/// The thread that shows it holds the signals that end the process, or one would end it while files are replaced.
pub fn during<T>(work: impl FnOnce() -> T) -> T {
    if is_plain() || !std::io::stderr().is_terminal() {
        return work();
    }
    let (end, ended) = channel::<()>();
    let shower = while_signals_wait(|| std::thread::spawn(move || show(&ended)));
    let made = work();
    drop(end);
    let _ = shower.join();
    made
}

fn show(ended: &Receiver<()>) {
    let mut seconds = 2;
    let mut wait = Duration::from_secs(2);
    let mut shown = false;
    while ended.recv_timeout(wait) == Err(RecvTimeoutError::Timeout) {
        // while the input is waited for there is nothing to say
        let lines = LINES.load(Ordering::Relaxed);
        if lines > 0 {
            let _ = write!(std::io::stderr(), "\rmortarbee: at work on {lines} lines, {seconds} s ");
            shown = true;
        }
        seconds += 1;
        wait = Duration::from_secs(1);
    }
    if shown {
        let _ = write!(std::io::stderr(), "\r\x1b[K");
    }
}
