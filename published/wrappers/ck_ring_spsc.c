/* Concurrency Kit's ring for one producer and one consumer. It keeps one slot free, so SLOTS - 1 items fit. */
#include <ck_ring.h>

static ck_ring_t ring = {.size = SLOTS, .mask = SLOTS - 1};
static ck_ring_buffer_t slots[SLOTS];

bool push(uint64_t value)
{
    return ck_ring_enqueue_spsc(&ring, slots, (const void *)value);
}

bool pop(uint64_t *value)
{
    return ck_ring_dequeue_spsc(&ring, slots, value);
}
