// Counts the pops that come out of a producer's order: a value comes out while one that the same producer had pushed before is still inside.
//
//   producer_order PRODUCERS ITEMS PAUSE STALL
//
// PRODUCERS threads push ITEMS values each, and one thread pops them all. A further thread sends the producers signals by turns, one every PAUSE
// microseconds, and the handler sleeps STALL microseconds, as a thread does that the system puts off its core. With a PAUSE of 0 there are
// no signals. QUEUE is the type of the queue, as -DQUEUE='AtomicQueue<uint64_t, 2, 0, false, false>'.
#include <atomic_queue/atomic_queue.h>

#include <pthread.h>
#include <signal.h>
#include <sys/select.h>

#include <atomic>
#include <cerrno>
#include <chrono>
#include <cstdio>
#include <cstdlib>
#include <thread>
#include <vector>

namespace {

constexpr int NUMBER_BITS = 32;

atomic_queue::QUEUE queue;
std::atomic<bool> is_over{false};
timespec stall{};

void sleep_here(int)
{
    int kept = errno;
    pselect(0, nullptr, nullptr, nullptr, &stall, nullptr);
    errno = kept;
}

void produce(uint64_t producer, uint64_t items)
{
    for (uint64_t number = 1; number <= items; ++number)
        while (!queue.try_push(producer << NUMBER_BITS | number))
            atomic_queue::spin_loop_pause();
}

// The values of a producer that have come out.
class Popped {
public:
    explicit Popped(uint64_t items) : has_come(items + 2), next(1) {}

    // Notes a value, and says whether one before it is still inside.
    bool is_early(uint64_t number)
    {
        bool is = number != next;
        has_come[number] = true;
        while (has_come[next])
            ++next;
        return is;
    }

private:
    std::vector<bool> has_come;
    uint64_t next;
};

uint64_t consume(uint64_t producers, uint64_t items)
{
    std::vector<Popped> popped(producers, Popped(items));
    uint64_t early = 0;
    for (uint64_t pops = 0; pops < producers * items;) {
        uint64_t value;
        if (!queue.try_pop(value)) {
            atomic_queue::spin_loop_pause();
            continue;
        }
        early += popped[value >> NUMBER_BITS].is_early(value & ((uint64_t{1} << NUMBER_BITS) - 1));
        ++pops;
    }
    return early;
}

void disturb(std::vector<std::thread> &producers, std::chrono::microseconds pause)
{
    for (size_t turn = 0; !is_over; ++turn) {
        pthread_kill(producers[turn % producers.size()].native_handle(), SIGUSR1);
        std::this_thread::sleep_for(pause);
    }
}

uint64_t number_of(const char *word)
{
    char *end;
    uint64_t number = std::strtoull(word, &end, 10);
    if (*end || number >> NUMBER_BITS) {
        std::fprintf(stderr, "producer_order: %s is no number below 2^32\n", word);
        std::exit(64);
    }
    return number;
}

void handle_signals(uint64_t microseconds)
{
    stall = {static_cast<time_t>(microseconds / 1000000), static_cast<long>(microseconds % 1000000 * 1000)};
    struct sigaction action {};
    action.sa_handler = sleep_here;
    action.sa_flags = SA_RESTART;
    sigaction(SIGUSR1, &action, nullptr);
}

} // namespace

int main(int count, char **words)
{
    if (count != 5) {
        std::fprintf(stderr, "usage: producer_order PRODUCERS ITEMS PAUSE STALL\n");
        return 64;
    }
    uint64_t number = number_of(words[1]), items = number_of(words[2]), pause = number_of(words[3]);
    handle_signals(number_of(words[4]));
    std::vector<std::thread> producers;
    for (uint64_t it = 0; it < number; ++it)
        producers.emplace_back(produce, it, items);
    std::thread disturber;
    if (pause)
        disturber = std::thread(disturb, std::ref(producers), std::chrono::microseconds(pause));
    uint64_t early = consume(number, items);
    is_over = true;
    if (pause)
        disturber.join();
    for (std::thread &it : producers)
        it.join();
    std::printf("%lu pops, %lu out of their producer's order\n", number * items, early);
}
