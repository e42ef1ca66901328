// libcds's ring for one producer and one consumer.
#include <cds/container/weak_ringbuffer.h>
#include <cstdint>
#include <new>

struct Traits : cds::container::weak_ringbuffer::traits {
    typedef cds::opt::v::uninitialized_static_buffer<void *, SLOTS> buffer;
};
using Queue = cds::container::WeakRingBuffer<uint64_t, Traits>;

static union Holder {
    Holder() {}
    ~Holder() {}
    Queue queue;
} holder;

extern "C" void initial()
{
    new (&holder.queue) Queue();
}

extern "C" bool push(uint64_t value)
{
    return holder.queue.push(value);
}

extern "C" bool pop(uint64_t *value)
{
    return holder.queue.pop(*value);
}
