#include <atomic>
#include <cstdint>

std::atomic<uint64_t> head, tail;
uint64_t buf[2];

extern "C" bool push(uint64_t value) {
    uint64_t t = tail.load(std::memory_order_relaxed);
    if (t - head.load(std::memory_order_acquire) == 2) return false;
    buf[t & 1] = value;
    tail.store(t + 1, std::memory_order_release);
    return true;
}

extern "C" bool pop(uint64_t *value) {
    uint64_t h = head.load(std::memory_order_relaxed);
    if (h == tail.load(std::memory_order_acquire)) return false;
    *value = buf[h & 1];
    head.store(h + 1, std::memory_order_release);
    return true;
}
