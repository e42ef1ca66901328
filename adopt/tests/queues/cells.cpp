// A ring for many producers and consumers with a turn for each slot; slots are padded structs.
#include <atomic>
#include <cstddef>
#include <cstdint>

struct alignas(64) Slot {
    std::atomic<uint64_t> turn;
    uint64_t value;
};
static struct {
    alignas(64) std::atomic<uint64_t> head;
    alignas(64) std::atomic<uint64_t> tail;
    Slot slots[2];
} queue = {{0}, {0}, {{{0}, 0}, {{1}, 0}}};

extern "C" bool push(uint64_t value)
{
    uint64_t at = queue.head.load(std::memory_order_relaxed);
    for (;;) {
        Slot &slot = queue.slots[at & 1];
        int64_t ahead = (int64_t)(slot.turn.load(std::memory_order_acquire) - at);
        if (ahead == 0) {
            if (queue.head.compare_exchange_weak(at, at + 1, std::memory_order_relaxed)) {
                slot.value = value;
                slot.turn.store(at + 1, std::memory_order_release);
                return true;
            }
        } else if (ahead < 0) {
            return false;
        } else {
            at = queue.head.load(std::memory_order_relaxed);
        }
    }
}

extern "C" bool pop(uint64_t *value)
{
    uint64_t at = queue.tail.load(std::memory_order_relaxed);
    for (;;) {
        Slot &slot = queue.slots[at & 1];
        int64_t ahead = (int64_t)(slot.turn.load(std::memory_order_acquire) - (at + 1));
        if (ahead == 0) {
            if (queue.tail.compare_exchange_weak(at, at + 1, std::memory_order_relaxed)) {
                *value = slot.value;
                slot.turn.store(at + 2, std::memory_order_release);
                return true;
            }
        } else if (ahead < 0) {
            return false;
        } else {
            at = queue.tail.load(std::memory_order_relaxed);
        }
    }
}
