/* Counters of 32 bits, of which differences are compared with and without a sign, and flags of 8 and 16 bits. */
#include <stdatomic.h>
#include <stdbool.h>
#include <stdint.h>

static struct {
    _Atomic uint32_t head;
    _Atomic uint32_t tail;
    uint16_t pushed;
    _Atomic uint8_t closed;
    uint64_t slots[4];
} ring;

bool push(uint64_t value)
{
    uint32_t tail = atomic_load_explicit(&ring.tail, memory_order_relaxed);
    uint32_t head = atomic_load_explicit(&ring.head, memory_order_acquire);
    if ((int32_t)(tail - head) >= 4 || atomic_load_explicit(&ring.closed, memory_order_relaxed))
        return false;
    ring.slots[tail & 3] = value;
    ring.pushed++;
    atomic_store_explicit(&ring.tail, tail + 1, memory_order_release);
    return true;
}

bool pop(uint64_t *value)
{
    uint32_t head = atomic_load_explicit(&ring.head, memory_order_relaxed);
    uint32_t tail = atomic_load_explicit(&ring.tail, memory_order_acquire);
    if (tail - head == 0)
        return false;
    *value = ring.slots[head & 3];
    atomic_store(&ring.head, head + 1);
    return true;
}
