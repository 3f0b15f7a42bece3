//! Runs the comparison in a child process, so that a crash or an endless loop
//! of the other side is a difference like any other. Linux only.

use std::ffi::c_void;
use std::process::exit;

extern "C" {
    fn fork() -> i32;
    fn waitpid(pid: i32, status: *mut i32, options: i32) -> i32;
    fn _exit(code: i32) -> !;
    fn alarm(seconds: u32) -> u32;
    fn mmap(
        address: *mut c_void,
        length: usize,
        protection: i32,
        flags: i32,
        file: i32,
        offset: i64,
    ) -> *mut c_void;
}

pub enum End {
    Code(i32),
    Signal(i32),
}

/// Where the child is, readable by the parent after the child's death.
pub struct Progress(*mut u64);

impl Progress {
    pub fn new() -> Progress {
        // Readable and writable; shared and anonymous.
        let page = unsafe { mmap(std::ptr::null_mut(), 4096, 1 | 2, 1 | 0x20, -1, 0) };
        assert!(page as isize != -1, "mmap");
        Progress(page as *mut u64)
    }

    /// `what`: 0 the session or call, 1 the event or part in it, 2 the events
    /// or calls so far, 3 the differences so far.
    pub fn set(&self, what: usize, number: u64) {
        unsafe { self.0.add(what).write_volatile(number) }
    }

    pub fn get(&self, what: usize) -> u64 {
        unsafe { self.0.add(what).read_volatile() }
    }
}

/// A child that runs for longer is ended by signal 14.
pub fn time_limit(seconds: u32) {
    unsafe { alarm(seconds) };
}

/// Runs a comparison in a child process, and ends with its exit status, or with
/// what `died` makes of the signal that ended it.
pub fn watched(run: impl FnOnce(&Progress) -> i32, died: impl FnOnce(&Progress, i32) -> i32) -> ! {
    let progress = Progress::new();
    exit(match in_child(|| run(&progress)) {
        End::Code(code) => code,
        End::Signal(signal) => died(&progress, signal),
    })
}

/// Runs `work` in a child process; its number is the exit code.
pub fn in_child(work: impl FnOnce() -> i32) -> End {
    use std::io::Write;
    std::io::stdout().flush().ok();
    let child = unsafe { fork() };
    assert!(child >= 0, "fork");
    if child == 0 {
        let code = std::panic::catch_unwind(std::panic::AssertUnwindSafe(work)).unwrap_or(101);
        std::io::stdout().flush().ok();
        unsafe { _exit(code) };
    }
    let mut status = 0;
    while unsafe { waitpid(child, &mut status, 0) } != child {}
    if status & 0x7F == 0 {
        End::Code(status >> 8 & 0xFF)
    } else {
        End::Signal(status & 0x7F)
    }
}
