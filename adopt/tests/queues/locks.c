/* One lock, taken by an exchange with pauses, and counts by locked arithmetic. The functions are called, and one checks itself. */
#include <assert.h>
#include <sched.h>
#include <stdatomic.h>
#include <stdbool.h>
#include <stdint.h>

struct ring {
    _Atomic int lock;
    uint64_t first, count;
    _Atomic uint64_t calls, marks;
    uint64_t slots[3];
};
static struct ring storage;
static struct ring *const ring = &storage;

__attribute__((noinline)) static void take(struct ring *it)
{
    while (atomic_exchange_explicit(&it->lock, 1, memory_order_acquire)) {
        for (int i = 0; i < 10; i++)
            __builtin_ia32_pause();
        sched_yield();
    }
}

__attribute__((noinline)) static void give(struct ring *it)
{
    atomic_store_explicit(&it->lock, 0, memory_order_release);
}

bool push(const uint64_t *value)
{
    bool is_done = false;
    take(ring);
    atomic_fetch_add(&ring->calls, 1);
    assert(ring->count <= 3);
    if (ring->count < 3) {
        uint64_t at = ring->first + ring->count;
        ring->slots[at < 3 ? at : at - 3] = *value;
        ring->count++;
        is_done = true;
    }
    give(ring);
    return is_done;
}

bool pop(uint64_t *value)
{
    take(ring);
    atomic_fetch_or(&ring->marks, 4);
    if (!ring->count) {
        give(ring);
        return false;
    }
    *value = ring->slots[ring->first];
    ring->first = ring->first == 2 ? 0 : ring->first + 1;
    ring->count--;
    atomic_thread_fence(memory_order_seq_cst);
    give(ring);
    return true;
}
