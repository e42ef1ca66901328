// Egorushkin's queues of a fixed size. QUEUE says which of them, of how many items, and how it waits.
#include <atomic_queue/atomic_queue.h>

static atomic_queue::QUEUE queue;

extern "C" bool push(uint64_t value)
{
    return queue.try_push(value);
}

extern "C" bool pop(uint64_t *value)
{
    return queue.try_pop(*value);
}
