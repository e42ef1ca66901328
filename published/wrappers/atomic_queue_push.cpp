// Egorushkin's queues of a fixed size, by the functions that wait. QUEUE says which of them, of how many items, and how it waits.
#include <atomic_queue/atomic_queue.h>

static atomic_queue::QUEUE queue;

extern "C" bool push(uint64_t value)
{
    queue.push(value);
    return true;
}

extern "C" bool pop(uint64_t *value)
{
    *value = queue.pop();
    return true;
}
