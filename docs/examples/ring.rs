use std::cell::UnsafeCell;
use std::sync::atomic::{AtomicU64, Ordering};

pub struct Ring { head: AtomicU64, tail: AtomicU64, buf: [UnsafeCell<u64>; 2] }
unsafe impl Sync for Ring {}
static RING: Ring = Ring { head: AtomicU64::new(0), tail: AtomicU64::new(0), buf: [UnsafeCell::new(0), UnsafeCell::new(0)] };

#[no_mangle]
pub extern "C" fn push(value: u64) -> bool {
    let tail = RING.tail.load(Ordering::Relaxed);
    if tail.wrapping_sub(RING.head.load(Ordering::Acquire)) == 2 { return false; }
    unsafe { *RING.buf[(tail & 1) as usize].get() = value; }
    RING.tail.store(tail.wrapping_add(1), Ordering::Release);
    true
}
#[no_mangle]
pub fn pop() -> Option<u64> {
    let head = RING.head.load(Ordering::Relaxed);
    if head == RING.tail.load(Ordering::Acquire) { return None; }
    let value = unsafe { *RING.buf[(head & 1) as usize].get() };
    RING.head.store(head.wrapping_add(1), Ordering::Release);
    Some(value)
}
