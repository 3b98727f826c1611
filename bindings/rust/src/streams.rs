//! Which of the standard streams were open when the process began. Rust's own start opens /dev/null in the place of those that were not,
//! and an answer written there would be lost without a word; so this is looked at before it, among the constructors.

use std::sync::atomic::{AtomicU8, Ordering};

static OPEN: AtomicU8 = AtomicU8::new(7);

const F_GETFD: i32 = 1;
const SIGXFSZ: i32 = 25;
const SIG_IGN: usize = 1;

extern "C" {
    fn fcntl(descriptor: i32, command: i32, ...) -> i32;
    fn signal(number: i32, handler: usize) -> usize;
}

/// `F_GETFD` fails for a descriptor that is closed, and changes nothing.
extern "C" fn look() {
    let mut open = 0;
    for descriptor in 0..3 {
        if unsafe { fcntl(descriptor, F_GETFD) } >= 0 {
            open |= 1 << descriptor;
        }
    }
    OPEN.store(open, Ordering::Relaxed);
}

/// The loader calls what stands in this section before `main`, and so before Rust's start.
#[used]
#[link_section = ".init_array"]
static LOOK: extern "C" fn() = look;

/// Whether standard input (0), output (1) or error (2) was open.
pub fn was_open(descriptor: u8) -> bool {
    OPEN.load(Ordering::Relaxed) >> descriptor & 1 == 1
}

/// A write beyond the limit of a file's size becomes a write that fails; it ends the process no more.
pub fn ignore_size_signal() {
    // No handler runs: the signal is ignored, as `trap '' XFSZ` of a shell does it.
    unsafe { signal(SIGXFSZ, SIG_IGN) };
}

const SIG_BLOCK: i32 = 0;
const SIG_SETMASK: i32 = 2;
/// Hangup, interrupt and termination: bit n - 1 is signal n.
const ENDING: u64 = 1 | 1 << 1 | 1 << 14;

/// The C library's set of signals: 1,024 bits, of which the first 64 are used.
#[repr(C)]
struct Signals([u64; 16]);

extern "C" {
    fn pthread_sigmask(how: i32, set: *const Signals, old: *mut Signals) -> i32;
}

/// Does the work while hangup, interrupt and termination wait; one that came ends the process then. Other threads are not held: those
/// that there are should have been started within such work, for a thread holds what its maker held, to its end.
pub fn while_signals_wait<T>(work: impl FnOnce() -> T) -> T {
    let (mut set, mut old) = (Signals([0; 16]), Signals([0; 16]));
    set.0[0] = ENDING;
    // Both point to sets of the size that the C library has, and live through the calls.
    let is_held = unsafe { pthread_sigmask(SIG_BLOCK, &set, &mut old) } == 0;
    let made = work();
    if is_held {
        unsafe { pthread_sigmask(SIG_SETMASK, &old, std::ptr::null_mut()) };
    }
    made
}
