// Boost.Lockfree's ring for one producer and one consumer. A slot more than ITEMS is its own.
#include <boost/lockfree/spsc_queue.hpp>
#include <cstdint>

static boost::lockfree::spsc_queue<uint64_t, boost::lockfree::capacity<ITEMS>> queue;

extern "C" bool push(uint64_t value)
{
    return queue.push(value);
}

extern "C" bool pop(uint64_t *value)
{
    return queue.pop(*value);
}
