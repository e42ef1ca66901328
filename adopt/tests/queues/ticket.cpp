// Tickets by fetch_add, turns by halves of a counter, and a cursor that is a pointer.
#include <atomic>
#include <cstdint>

struct Slot {
    std::atomic<uint64_t> turn;
    uint64_t value;
};
static std::atomic<uint64_t> head, tail;
static Slot slots[2];

extern "C" bool push(uint64_t value)
{
    uint64_t at = head.load(std::memory_order_acquire);
    Slot *slot = slots + (at & 1);
    if ((at >> 1) * 2 != slot->turn.load(std::memory_order_acquire))
        return false;
    if (!head.compare_exchange_strong(at, at + 1))
        return false;
    slot->value = value;
    slot->turn.store((at >> 1) * 2 + 1, std::memory_order_release);
    return true;
}

extern "C" bool pop(uint64_t *value)
{
    uint64_t at = tail.load(std::memory_order_acquire);
    Slot *slot = slots + (at & 1);
    if ((at >> 1) * 2 + 1 != slot->turn.load(std::memory_order_acquire))
        return false;
    tail.fetch_add(1);
    *value = slot->value;
    slot->turn.store((at >> 1) * 2 + 2, std::memory_order_release);
    return true;
}
