//! Heap functions in the place of those of the archive, which count what a thread has.

use std::alloc::{alloc, dealloc, Layout};
use std::cell::Cell;
use std::ptr;

/// `struct rattle_tried` of `bindings/c/cargo_manifest.h`.
#[repr(C)]
pub struct Tried {
    is_there: u8,
    block: *mut u8,
}

/// What stands before each block: its size.
const BEFORE: usize = 16;

thread_local! {
    /// How many bytes the thread has, and how many it had at most.
    static BYTES: Cell<(usize, usize)> = const { Cell::new((0, 0)) };
}

/// The most bytes that the thread had at once while it did something, before which it has none.
pub fn most_while(run: impl FnOnce()) -> usize {
    BYTES.set((0, 0));
    run();
    let (left, most) = BYTES.get();
    assert_eq!(left, 0, "a call keeps memory");
    most
}

fn layout(size: usize) -> Layout {
    Layout::from_size_align(BEFORE + size, BEFORE).expect("a size that there can be")
}

#[no_mangle]
extern "C" fn rattle_alloc(size: usize, align: usize) -> Tried {
    assert!(align <= BEFORE);
    // SAFETY: the layout has a size that is not 0, and the block has room for its own size.
    let block = unsafe {
        let begin = alloc(layout(size));
        if begin.is_null() {
            return Tried { is_there: 0, block: ptr::NonNull::dangling().as_ptr() };
        }
        begin.cast::<usize>().write(size);
        begin.add(BEFORE)
    };
    let (bytes, most) = BYTES.get();
    BYTES.set((bytes + size, most.max(bytes + size)));
    Tried { is_there: 1, block }
}

#[no_mangle]
unsafe extern "C" fn rattle_dealloc(block: *mut u8) {
    // SAFETY: the block is one of `rattle_alloc`, which wrote its size before it.
    unsafe {
        let begin = block.sub(BEFORE);
        let size = begin.cast::<usize>().read();
        dealloc(begin, layout(size));
        let (bytes, most) = BYTES.get();
        BYTES.set((bytes - size, most));
    }
}

#[no_mangle]
unsafe extern "C" fn rattle_realloc(block: *mut u8, kept: usize, size: usize, align: usize) -> Tried {
    let tried = rattle_alloc(size, align);
    if tried.is_there == 1 {
        // SAFETY: both blocks have as many bytes, and they do not overlap.
        unsafe {
            ptr::copy_nonoverlapping(block, tried.block, kept);
            rattle_dealloc(block);
        }
    }
    tried
}
