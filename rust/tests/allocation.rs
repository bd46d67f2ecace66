//! A step allocates nothing, taken or refused.

use std::alloc::{GlobalAlloc, Layout, System};
use std::cell::Cell;
use tollsalmon::{Machine, Tick};

thread_local! {
    static COUNT: Cell<usize> = const { Cell::new(0) };
}

struct Counting;

// SAFETY: every call is the system's own.
unsafe impl GlobalAlloc for Counting {
    unsafe fn alloc(&self, layout: Layout) -> *mut u8 {
        COUNT.set(COUNT.get() + 1);
        // SAFETY: the caller's own promise.
        unsafe { System.alloc(layout) }
    }

    unsafe fn dealloc(&self, place: *mut u8, layout: Layout) {
        // SAFETY: the caller's own promise.
        unsafe { System.dealloc(place, layout) }
    }
}

#[global_allocator]
static COUNTING: Counting = Counting;

#[test]
fn a_step_allocates_nothing() {
    let ticks = [Tick::arrivals(&[1]), Tick::arrivals(&[1]), Tick::default()];
    let mut machine = Machine::start(&[10, 8, 3, 2]).unwrap();
    let before = COUNT.get();
    let taken = ticks.map(|tick| machine.step(tick).is_ok());
    assert_eq!((taken, COUNT.get()), ([true, false, true], before));
    machine.ticks(&ticks).unwrap();
    assert!(COUNT.get() > before, "the count counts");
}
