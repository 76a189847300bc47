//! Where memory runs out as a text is copied, that copy is refused, and the program goes on.

use hongpilas::{Refusal, Session};
use std::alloc::{GlobalAlloc, Layout, System};
use std::sync::atomic::{AtomicUsize, Ordering};

/// The greatest block that Rust's allocator gives; the library has the C library's.
static GREATEST: AtomicUsize = AtomicUsize::new(usize::MAX);

struct Bounded;

// SAFETY: it gives what the system's allocator gives, or nothing.
unsafe impl GlobalAlloc for Bounded {
    unsafe fn alloc(&self, layout: Layout) -> *mut u8 {
        if layout.size() > GREATEST.load(Ordering::Relaxed) {
            return std::ptr::null_mut();
        }
        System.alloc(layout)
    }

    unsafe fn dealloc(&self, block: *mut u8, layout: Layout) {
        System.dealloc(block, layout)
    }
}

#[global_allocator]
static ALLOCATOR: Bounded = Bounded;

#[test]
fn a_copy_without_memory_is_refused() -> Result<(), Refusal> {
    const LONG: usize = 1 << 24;
    let mut session = Session::new()?;
    let view = session.new_view()?;
    session.view_mut(view).append_text("one\n")?;
    session.view_mut(view).append_text(vec![b'x'; LONG])?;
    session.view_mut(view).append_text("\nthree")?;
    let view = session.view(view);
    let mut lines = view.lines()?;
    GREATEST.store(LONG, Ordering::Relaxed);
    let found = (lines.next(), lines.next(), lines.next(), lines.next(), view.get_line(1), view.get_text());
    GREATEST.store(usize::MAX, Ordering::Relaxed);
    let refused = Err(Refusal::OutOfMemory);
    let (first, last) = (Some(Ok(b"one\n".to_vec())), Some(Ok(b"three".to_vec())));
    assert_eq!(found, (first, Some(refused.clone()), last, None, refused.clone(), refused));
    assert_eq!(view.get_line(1)?.len(), LONG + 1);
    Ok(())
}
