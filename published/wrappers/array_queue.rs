// Crossbeam's ArrayQueue. It allocates its slots, and gets those that lie here; they have the layout of its own.
use crossbeam_queue::ArrayQueue;
use std::alloc::{GlobalAlloc, Layout};
use std::mem::MaybeUninit;

const ITEMS: usize = 2;

#[repr(C)]
pub struct Slot {
    stamp: u64,
    value: u64,
}

struct Pool;

#[global_allocator]
static POOL: Pool = Pool;

static mut SLOTS: [MaybeUninit<Slot>; ITEMS] = [const { MaybeUninit::uninit() }; ITEMS];
static mut QUEUE: MaybeUninit<ArrayQueue<u64>> = MaybeUninit::uninit();

unsafe impl GlobalAlloc for Pool {
    unsafe fn alloc(&self, _: Layout) -> *mut u8 {
        (&raw mut SLOTS).cast()
    }

    unsafe fn dealloc(&self, _: *mut u8, _: Layout) {}
}

fn queue() -> &'static ArrayQueue<u64> {
    unsafe { &*(&raw const QUEUE).cast() }
}

#[no_mangle]
pub extern "C" fn initial() {
    unsafe { (&raw mut QUEUE).write(MaybeUninit::new(ArrayQueue::new(ITEMS))) }
}

#[no_mangle]
pub extern "C" fn push(value: u64) -> bool {
    queue().push(value).is_ok()
}

#[no_mangle]
pub extern "C" fn pop(value: &mut u64) -> bool {
    queue().pop().map(|it| *value = it).is_some()
}
