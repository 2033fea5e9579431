//! The signal of a file that grows above the user's limit. The standard library has no call for it, so this one module
//! has unsafe code: `signal` of the C library, with a number and a disposition that POSIX has.

/// A write above the limit for the size of files. The default is to end the process with no word.
#[cfg(not(any(target_arch = "mips", target_arch = "mips64")))]
const SIGXFSZ: i32 = 25;
#[cfg(any(target_arch = "mips", target_arch = "mips64"))]
const SIGXFSZ: i32 = 31;

/// The disposition by which a signal is ignored.
const SIG_IGN: usize = 1;

extern "C" {
    fn signal(number: i32, disposition: usize) -> usize;
}

/// Makes such a write an error that is told like any other. (The standard library does so for a closed pipe.)
pub fn ignore_file_size_limit() {
    // SAFETY: no handler is installed, and no other thread runs yet.
    unsafe { signal(SIGXFSZ, SIG_IGN) };
}
