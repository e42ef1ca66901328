// Desrochers's queue for one producer and one consumer, of one block of SLOTS slots, of which it keeps one free. It asks malloc for the
// block, and gets the one that lies here. It is compiled without access control, so that the block has its own type.
#include <cstddef>
#include <cstdint>
#include <new>
#include <readerwriterqueue.h>

using Queue = moodycamel::ReaderWriterQueue<uint64_t>;

struct Memory {
    Queue::Block block;
    uint64_t slots[SLOTS];
};
static union Holder {
    Holder() {}
    ~Holder() {}
    Queue queue;
} holder;
static union MemoryHolder {
    MemoryHolder() {}
    Memory memory;
} memory_holder;

extern "C" void *malloc(std::size_t)
{
    return &memory_holder;
}

extern "C" void free(void *) {}

extern "C" void initial()
{
    new (&holder.queue) Queue(SLOTS - 1);
}

extern "C" bool push(uint64_t value)
{
    return holder.queue.try_enqueue(value);
}

extern "C" bool pop(uint64_t *value)
{
    return holder.queue.try_dequeue(*value);
}
