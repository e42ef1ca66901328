/* Success is 0, as many C libraries have it. The ring's parts are reached by a pointer, and a function sets it up. */
#include <errno.h>
#include <stdatomic.h>
#include <stdint.h>
#include <stdlib.h>

struct ring {
    uint32_t mask;
    _Atomic uint32_t head, tail;
    uint64_t *slots;
};
static struct ring *ring;

void set_up(void)
{
    ring = calloc(1, sizeof *ring);
    ring->mask = 1;
    ring->slots = malloc(2 * sizeof *ring->slots);
}

int push(uint64_t value)
{
    uint32_t tail = atomic_load_explicit(&ring->tail, memory_order_relaxed);
    if (tail - atomic_load_explicit(&ring->head, memory_order_acquire) > ring->mask)
        return -ENOBUFS;
    ring->slots[tail & ring->mask] = value;
    atomic_store_explicit(&ring->tail, tail + 1, memory_order_release);
    return 0;
}

int pop(uint64_t *value)
{
    uint32_t head = atomic_load_explicit(&ring->head, memory_order_relaxed);
    if (head == atomic_load_explicit(&ring->tail, memory_order_acquire))
        return -ENOENT;
    *value = ring->slots[head & ring->mask];
    atomic_store_explicit(&ring->head, head + 1, memory_order_release);
    return 0;
}
