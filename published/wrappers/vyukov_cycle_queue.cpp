// libcds's form of Vyukov's ring for many producers and consumers.
#include <cds/container/vyukov_mpmc_cycle_queue.h>
#include <cstdint>
#include <new>

struct Traits : cds::container::vyukov_queue::traits {
    typedef cds::opt::v::uninitialized_static_buffer<void *, SLOTS> buffer;
};
using Queue = cds::container::VyukovMPMCCycleQueue<uint64_t, Traits>;

static union Holder {
    Holder() {}
    ~Holder() {}
    Queue queue;
} holder;

extern "C" void initial()
{
    new (&holder.queue) Queue();
}

extern "C" bool push(uint64_t value)
{
    return holder.queue.push(value);
}

extern "C" bool pop(uint64_t *value)
{
    return holder.queue.pop(*value);
}
