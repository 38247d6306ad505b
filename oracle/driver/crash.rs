//! Names the call in which a side crashes. A crash ends the run: it is no answer, and what a side left behind is not to be built on.

use std::fmt::Debug;
use std::io::Write;
use std::ptr::null_mut;
use std::sync::atomic::{AtomicPtr, Ordering};

/// The exit status of a run that a crash ended.
const CRASHED: i32 = 3;

/// A call, its number, and the side that is asked it.
struct Asked<'a> {
    number: u64,
    side: &'static str,
    call: &'a dyn Debug,
}

/// The call that is being asked, or null.
static ASKED: AtomicPtr<Asked<'static>> = AtomicPtr::new(null_mut());

/// Asks a side a call, which is named if that crashes.
pub fn named<T>(number: u64, side: &'static str, call: &dyn Debug, ask: impl FnOnce() -> T) -> T {
    let asked = Asked { number, side, call };
    ASKED.store(&asked as *const Asked as *mut Asked<'static>, Ordering::SeqCst);
    let left = ask();
    ASKED.store(null_mut(), Ordering::SeqCst);
    left
}

/// What C's library has for signals, as Linux lays it out.
#[repr(C)]
struct Action {
    handler: extern "C" fn(i32),
    mask: [u64; 16],
    flags: i32,
    restorer: usize,
}

#[repr(C)]
struct Stack {
    base: *mut u8,
    flags: i32,
    size: usize,
}

extern "C" {
    fn sigaction(signal: i32, action: *const Action, old: *mut Action) -> i32;
    fn sigaltstack(stack: *const Stack, old: *mut Stack) -> i32;
    fn write(file: i32, bytes: *const u8, length: usize) -> isize;
    fn _exit(status: i32) -> !;
}

/// SA_ONSTACK and SA_RESETHAND: a stack of its own, and a crash in the handler ends the program.
const FLAGS: i32 = 0x0800_0000 | 0x8000_0000_u32 as i32;

/// SIGILL, SIGTRAP, SIGABRT, SIGBUS, SIGFPE, SIGSEGV.
const SIGNALS: [i32; 6] = [4, 5, 6, 7, 8, 11];

/// So many bytes of a call are shown.
const SHOWN: usize = 4_000;

/// Writes a line, cut where it is longer than what is shown, from a buffer on the stack: after a crash the heap may be damaged.
fn say(line: std::fmt::Arguments) {
    let mut bytes = [0; SHOWN];
    let mut rest = &mut bytes[..];
    let _ = rest.write_fmt(line);
    let length = SHOWN - rest.len();
    unsafe {
        write(1, bytes.as_ptr(), length);
        write(1, b"\n".as_ptr(), 1);
    }
}

/// Names the call and ends the run.
fn crashed(how: std::fmt::Arguments) -> ! {
    match unsafe { ASKED.load(Ordering::SeqCst).as_ref() } {
        None => say(format_args!("oracle: a crash outside every call, {}", how)),
        Some(asked) => {
            say(format_args!("crash, call {}: {}, {} (numbers are hexadecimal)", asked.number, asked.side, how));
            say(format_args!("  call  {:x?}", asked.call));
            say(format_args!("oracle: {} crashed in call {}, {}", asked.side, asked.number, how));
        }
    }
    unsafe { _exit(CRASHED) }
}

extern "C" fn signaled(signal: i32) {
    crashed(format_args!("signal {}", signal))
}

/// From here on a crash is named, also one at the stack's end, and a panic.
pub fn watch() {
    const SIZE: usize = 1 << 20;
    let stack = Stack { base: Box::leak(vec![0; SIZE].into_boxed_slice()).as_mut_ptr(), flags: 0, size: SIZE };
    let action = Action { handler: signaled, mask: [0; 16], flags: FLAGS, restorer: 0 };
    let held = unsafe {
        sigaltstack(&stack, null_mut()) == 0 && SIGNALS.iter().all(|&signal| sigaction(signal, &action, null_mut()) == 0)
    };
    assert!(held, "signals are not held");
    std::panic::set_hook(Box::new(|panic| {
        eprintln!("{}", panic);
        crashed(format_args!("a panic"))
    }));
}
