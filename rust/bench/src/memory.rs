//! The memory of a job: the size of the plain ones, and what the second implementation allocates.

use std::alloc::{GlobalAlloc, Layout, System};
use std::mem::size_of;
use std::sync::atomic::{AtomicUsize, Ordering};

use crate::inputs;
use crate::proved;
use crate::sides::{Second, Side};
use bench::twin;

/// The system's allocator, with a count of the bytes that are in use.
struct Counting;

static IN_USE: AtomicUsize = AtomicUsize::new(0);

// SAFETY: every call goes to the system's allocator as it came.
unsafe impl GlobalAlloc for Counting {
    unsafe fn alloc(&self, layout: Layout) -> *mut u8 {
        IN_USE.fetch_add(layout.size(), Ordering::Relaxed);
        System.alloc(layout)
    }
    unsafe fn dealloc(&self, place: *mut u8, layout: Layout) {
        IN_USE.fetch_sub(layout.size(), Ordering::Relaxed);
        System.dealloc(place, layout)
    }
}

#[global_allocator]
static ALLOCATOR: Counting = Counting;

/// The bytes of a job of 1,024 tasks, by side.
pub fn per_job() -> [usize; 3] {
    let plan = inputs::plans(1024, 1).remove(0);
    let mut job = Second::blank();
    let before = IN_USE.load(Ordering::Relaxed);
    assert_eq!(job.accept(&plan), 0);
    let allocated = IN_USE.load(Ordering::Relaxed) - before;
    [
        size_of::<proved::Job>(),
        size_of::<twin::Job>(),
        size_of::<Second>() + allocated,
    ]
}
