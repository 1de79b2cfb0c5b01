//! The system's allocator, which counts while it is told to.

use std::alloc::{GlobalAlloc, Layout, System};
use std::sync::atomic::{AtomicBool, AtomicUsize, Ordering::Relaxed};

struct Counting;

static COUNTED: AtomicBool = AtomicBool::new(false);
static NOW: AtomicUsize = AtomicUsize::new(0);
static PEAK: AtomicUsize = AtomicUsize::new(0);

fn moved(freed: usize, taken: usize) {
    if COUNTED.load(Relaxed) {
        let now = NOW.load(Relaxed) - freed + taken;
        NOW.store(now, Relaxed);
        PEAK.fetch_max(now, Relaxed);
    }
}

unsafe impl GlobalAlloc for Counting {
    unsafe fn alloc(&self, layout: Layout) -> *mut u8 {
        moved(0, layout.size());
        System.alloc(layout)
    }
    unsafe fn alloc_zeroed(&self, layout: Layout) -> *mut u8 {
        moved(0, layout.size());
        System.alloc_zeroed(layout)
    }
    unsafe fn realloc(&self, p: *mut u8, layout: Layout, size: usize) -> *mut u8 {
        moved(layout.size(), size);
        System.realloc(p, layout, size)
    }
    unsafe fn dealloc(&self, p: *mut u8, layout: Layout) {
        moved(layout.size(), 0);
        System.dealloc(p, layout)
    }
}

#[global_allocator]
static ALLOCATOR: Counting = Counting;

/// What `f` answers, and the most bytes that it had allocated at once while it ran. It frees nothing that stood before.
pub fn peak<T>(f: impl FnOnce() -> T) -> (usize, T) {
    NOW.store(0, Relaxed);
    PEAK.store(0, Relaxed);
    COUNTED.store(true, Relaxed);
    let r = f();
    COUNTED.store(false, Relaxed);
    (PEAK.load(Relaxed), r)
}
