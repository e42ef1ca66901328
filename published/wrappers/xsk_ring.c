/* The rings of AF_XDP's library. Of each ring a program has one end and the kernel the other; here the two ends that the library has, that
 * of a fill ring and that of a completion ring, lie on one ring. Its words are set as xsk_umem__create sets them. */
#include <stdbool.h>
#include <xdp/xsk.h>

static __u32 producer, consumer;
static __u64 slots[SLOTS];
static struct xsk_ring_prod filled = {
    .cached_cons = SLOTS, .mask = SLOTS - 1, .size = SLOTS, .producer = &producer, .consumer = &consumer, .ring = slots};
static struct xsk_ring_cons completed = {
    .mask = SLOTS - 1, .size = SLOTS, .producer = &producer, .consumer = &consumer, .ring = slots};

bool push(uint64_t value)
{
    __u32 index;
    if (!xsk_ring_prod__reserve(&filled, 1, &index))
        return false;
    *xsk_ring_prod__fill_addr(&filled, index) = value;
    xsk_ring_prod__submit(&filled, 1);
    return true;
}

bool pop(uint64_t *value)
{
    __u32 index;
    if (!xsk_ring_cons__peek(&completed, 1, &index))
        return false;
    *value = *xsk_ring_cons__comp_addr(&completed, index);
    xsk_ring_cons__release(&completed, 1);
    return true;
}
