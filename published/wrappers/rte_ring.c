/* DPDK's ring, laid out as rte_ring_init lays it out for SLOTS slots, of which one stays free. SYNC says how its two ends are shared. */
#include <rte_ring.h>

static struct {
    struct rte_ring ring;
    void *slots[SLOTS];
} queue = {.ring = {.size = SLOTS,
                    .mask = SLOTS - 1,
                    .capacity = SLOTS - 1,
                    .prod = {.sync_type = SYNC},
                    .cons = {.sync_type = SYNC}}};

int push(uint64_t value)
{
    return ENQUEUE(&queue.ring, (void *)value);
}

int pop(uint64_t *value)
{
    return DEQUEUE(&queue.ring, (void **)value);
}
