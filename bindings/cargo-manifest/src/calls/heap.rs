//! The memory that the library asks for while the tests run, which can refuse a request. It stands in the place of the
//! functions that the archive brings.

use core::ffi::c_void;

extern "C" {
    fn malloc(size: usize) -> *mut c_void;
    fn realloc(block: *mut c_void, size: usize) -> *mut c_void;
    fn free(block: *mut c_void);
}

/// What a request answers: whether there is memory, and where. Where there is none, the pointer must not be null.
#[repr(C)]
struct Tried {
    is_there: bool,
    block: *mut c_void,
}

static NOWHERE: u8 = 0;

fn tried(block: *mut c_void) -> Tried {
    if block.is_null() {
        Tried { is_there: false, block: (&raw const NOWHERE).cast_mut().cast() }
    } else {
        Tried { is_there: true, block }
    }
}

/// The size to ask for: the library may ask for nothing, and `malloc` may then answer null.
fn at_least_one(size: usize, align: usize) -> usize {
    if size == 0 {
        align
    } else {
        size
    }
}

#[no_mangle]
extern "C" fn rattle_alloc(size: usize, align: usize) -> Tried {
    if refusals::next() {
        return tried(core::ptr::null_mut());
    }
    // SAFETY: `malloc` may be called with any size; what it answers is aligned to 16, the most that is asked for.
    let answer = tried(unsafe { malloc(at_least_one(size, align)) });
    refusals::count(answer.is_there.into());
    answer
}

/// # Safety
///
/// `block` is one that `rattle_alloc` or `rattle_realloc` answered and that was not given back.
#[no_mangle]
unsafe extern "C" fn rattle_realloc(block: *mut c_void, _kept: usize, size: usize, align: usize) -> Tried {
    if refusals::next() {
        return tried(core::ptr::null_mut());
    }
    // SAFETY: `block` came from `malloc` or `realloc`, as the library gives back only what it was given.
    tried(unsafe { realloc(block, at_least_one(size, align)) })
}

/// # Safety
///
/// As for `rattle_realloc`.
#[no_mangle]
unsafe extern "C" fn rattle_dealloc(block: *mut c_void) {
    refusals::count(-1);
    // SAFETY: as above.
    unsafe { free(block) }
}

/// Requests of one thread that are refused.
pub(crate) mod refusals {
    use std::cell::Cell;

    thread_local! {
        /// How many requests are granted before one is refused.
        static GRANTED: Cell<Option<usize>> = const { Cell::new(None) };
        static BLOCKS: Cell<isize> = const { Cell::new(0) };
    }

    pub(super) fn next() -> bool {
        match GRANTED.get() {
            None => false,
            Some(0) => {
                GRANTED.set(None);
                true
            }
            Some(granted) => {
                GRANTED.set(Some(granted - 1));
                false
            }
        }
    }

    pub(super) fn count(more: isize) {
        BLOCKS.set(BLOCKS.get() + more);
    }

    /// How many blocks the library holds.
    pub(crate) fn blocks() -> isize {
        BLOCKS.get()
    }

    /// Runs with the request after this many refused, and returns whether there was such a request.
    pub(crate) fn with_refused<T>(granted: usize, run: impl FnOnce() -> T) -> (T, bool) {
        GRANTED.set(Some(granted));
        let answer = run();
        let was_refused = GRANTED.take().is_none();
        (answer, was_refused)
    }
}
