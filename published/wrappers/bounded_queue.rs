// The bounded ConcurrentQueue. It allocates its slots and its ring, and gets those that lie here; they have the layout of its own.
use concurrent_queue::ConcurrentQueue;
use std::alloc::{GlobalAlloc, Layout};
use std::mem::MaybeUninit;

const ITEMS: usize = 2;

#[repr(C)]
pub struct Slot {
    stamp: u64,
    value: u64,
}

#[repr(C, align(128))]
pub struct Padded {
    word: u64,
}

#[repr(C)]
pub struct Ring {
    head: Padded,
    tail: Padded,
    one_lap: u64,
    mark_bit: u64,
    slots: *const Slot,
    items: u64,
}

struct Pool;

#[global_allocator]
static POOL: Pool = Pool;

static mut SLOTS: [MaybeUninit<Slot>; ITEMS] = [const { MaybeUninit::uninit() }; ITEMS];
static mut RING: MaybeUninit<Ring> = MaybeUninit::uninit();
static mut QUEUE: MaybeUninit<ConcurrentQueue<u64>> = MaybeUninit::uninit();

unsafe impl GlobalAlloc for Pool {
    unsafe fn alloc(&self, layout: Layout) -> *mut u8 {
        if layout.align() == align_of::<Ring>() {
            (&raw mut RING).cast()
        } else {
            (&raw mut SLOTS).cast()
        }
    }

    unsafe fn dealloc(&self, _: *mut u8, _: Layout) {}
}

fn queue() -> &'static ConcurrentQueue<u64> {
    unsafe { &*(&raw const QUEUE).cast() }
}

#[no_mangle]
pub extern "C" fn initial() {
    unsafe { (&raw mut QUEUE).write(MaybeUninit::new(ConcurrentQueue::bounded(ITEMS))) }
}

#[no_mangle]
pub extern "C" fn push(value: u64) -> bool {
    queue().push(value).is_ok()
}

#[no_mangle]
pub extern "C" fn pop(value: &mut u64) -> bool {
    queue().pop().map(|it| *value = it).is_ok()
}
