//! A scratch whose words from a limit on lie on closed pages, so that the first touch of one of them is seen (x86-64 Linux).
//!
//! A lowering clears its whole scratch at the end, and that is no use of a word: at the first touch every word in front of the limit must be 0 already,
//! as it is behind a clearing that goes upward. The scratch has noise in it before a call, and code of other kinds than 0 during it.

use std::sync::atomic::{AtomicU32, AtomicUsize, Ordering::SeqCst};

extern "C" {
    fn mmap(at: usize, length: usize, access: i32, flags: i32, file: i32, from: i64) -> usize;
    fn mprotect(at: usize, length: usize, access: i32) -> i32;
    fn sigaction(signal: i32, action: *const Action, old: *mut Action) -> i32;
}

const PAGE: usize = 4_096;
const OPEN: i32 = 3;
const CLOSED: i32 = 0;
/// Private memory without a file.
const ANONYMOUS: i32 = 0x22;
const SEGV: i32 = 11;
const WITH_INFO: i32 = 4;
/// Bytes before the limit, and from it on: more than the longest scratch of a sheet, each.
const SIDE: usize = 1 << 25;

/// `struct sigaction` of the C library.
#[repr(C)]
struct Action {
    handler: usize,
    mask: [u64; 16],
    flags: i32,
    restorer: usize,
}

/// The front of `siginfo_t`.
#[repr(C)]
struct Info {
    numbers: [i32; 4],
    address: usize,
}

/// Addresses: the scratch's first word, the first closed page, the end of the closed ones (0 while none is closed).
static FIRST: AtomicUsize = AtomicUsize::new(0);
static LIMIT: AtomicUsize = AtomicUsize::new(0);
static END: AtomicUsize = AtomicUsize::new(0);
/// The address that was touched first, and whether all words in front were 0 then.
static TOUCHED: AtomicUsize = AtomicUsize::new(0);
static CLEARED: AtomicU32 = AtomicU32::new(0);

/// What became of the closed words in a call.
#[derive(Clone, Copy, PartialEq, Eq)]
pub enum Touch {
    Untouched,
    /// The first touch came when all words in front of the limit were 0.
    Cleared,
    /// This word of the scratch was touched before.
    Used(usize),
}

extern "C" fn touched(_signal: i32, info: *const Info, _context: *const u8) {
    // The system passes an Info; the words in front of the limit are open.
    unsafe {
        let at = (*info).address;
        let (first, limit, end) = (FIRST.load(SeqCst), LIMIT.load(SeqCst), END.load(SeqCst));
        if at < limit || at >= end {
            // No closed word: the fault comes again and ends the process.
            act(0, 0);
            return;
        }
        let front = std::slice::from_raw_parts(first as *const u32, (limit - first) / 4);
        CLEARED.store(u32::from(front.iter().all(|word| *word == 0)), SeqCst);
        TOUCHED.store(at, SeqCst);
        open();
    }
}

/// What happens at a fault from now on.
fn act(handler: usize, flags: i32) {
    let action = Action {
        handler,
        mask: [0; 16],
        flags,
        restorer: 0,
    };
    // The C library copies the action and fills in how a handler returns.
    let status = unsafe { sigaction(SEGV, &action, std::ptr::null_mut()) };
    assert_eq!(status, 0, "no handler");
}

/// Opens the closed words, if any are.
fn open() {
    let (limit, end) = (LIMIT.load(SeqCst), END.swap(0, SeqCst));
    if end > 0 {
        // Pages of the one mapping, which stays.
        let status = unsafe { mprotect(limit, end - limit, OPEN) };
        assert_eq!(status, 0, "pages stay closed");
    }
}

/// The memory that scratches are laid into.
pub struct Guarded {
    limit: usize,
}

impl Guarded {
    pub fn new() -> Self {
        // New memory of the process's own.
        let at = unsafe { mmap(0, 2 * SIDE, OPEN, ANONYMOUS, -1, 0) };
        assert!(at % PAGE == 0, "no memory");
        act(touched as *const () as usize, WITH_INFO);
        Guarded { limit: at + SIDE }
    }

    /// Runs a call on a copy of a scratch of which so many words are before the limit, with `around` words before and behind it, and copies
    /// back all that it left.
    pub fn run<T>(
        &mut self,
        whole: &mut [u32],
        around: usize,
        before: usize,
        call: impl FnOnce(&mut [u32]) -> T,
    ) -> (T, Touch) {
        let words = whole.len() - 2 * around;
        let first = self.limit - 4 * before.min(words);
        let start = first - 4 * around;
        let end = start + 4 * whole.len();
        assert!(start >= self.limit - SIDE && end <= self.limit + SIDE);
        FIRST.store(first, SeqCst);
        LIMIT.store(self.limit, SeqCst);
        TOUCHED.store(0, SeqCst);
        // All of it lies in the mapping, which nothing else knows of; the closed pages are open again before they are read here.
        unsafe {
            let copy = start as *mut u32;
            copy.copy_from_nonoverlapping(whole.as_ptr(), whole.len());
            let closed = (end - self.limit).next_multiple_of(PAGE);
            END.store(self.limit + closed, SeqCst);
            assert_eq!(mprotect(self.limit, closed, CLOSED), 0, "pages stay open");
            let answer = call(std::slice::from_raw_parts_mut(first as *mut u32, words));
            open();
            whole
                .as_mut_ptr()
                .copy_from_nonoverlapping(copy, whole.len());
            let touch = match TOUCHED.load(SeqCst) {
                0 => Touch::Untouched,
                _ if CLEARED.load(SeqCst) == 1 => Touch::Cleared,
                at => Touch::Used((at - first) / 4),
            };
            (answer, touch)
        }
    }
}

impl Default for Guarded {
    fn default() -> Self {
        Self::new()
    }
}
