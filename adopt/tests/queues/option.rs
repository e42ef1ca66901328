// A ring whose pop answers an Option, in two registers.
use std::cell::UnsafeCell;
use std::sync::atomic::{AtomicUsize, Ordering};

#[repr(align(64))]
pub struct Padded(AtomicUsize);
pub struct Ring {
    head: Padded,
    tail: Padded,
    slots: [UnsafeCell<u64>; 4],
}
unsafe impl Sync for Ring {}
static RING: Ring = Ring { head: Padded(AtomicUsize::new(0)), tail: Padded(AtomicUsize::new(0)), slots: [const { UnsafeCell::new(0) }; 4] };

#[no_mangle]
pub fn push(value: u64) -> bool {
    let tail = RING.tail.0.load(Ordering::Relaxed);
    let next = (tail + 1) % 4;
    if next == RING.head.0.load(Ordering::Acquire) {
        return false;
    }
    unsafe { *RING.slots[tail].get() = value };
    RING.tail.0.store(next, Ordering::SeqCst);
    true
}

#[no_mangle]
pub fn pop() -> Option<u64> {
    let head = RING.head.0.load(Ordering::Relaxed);
    if head == RING.tail.0.load(Ordering::Acquire) {
        return None;
    }
    let value = unsafe { *RING.slots[head].get() };
    RING.head.0.store((head + 1) % 4, Ordering::SeqCst);
    Some(value)
}
