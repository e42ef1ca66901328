/* Linux's ring of pointers, whose header asks for nothing where __KERNEL__ is not defined. What it wants of the kernel stands here, and
 * means on x86 what it means there. The lock is a word that a compare and exchange takes and a plain store gives back, as the kernel's is
 * while nobody waits; who waits here tries again, and has no place in a row as the kernel's has. */
#include <errno.h>
#include <stdbool.h>
#include <stddef.h>
#include <stdint.h>

#define ____cacheline_aligned_in_smp __attribute__((aligned(64)))
#define SMP_CACHE_BYTES 64
#define likely(is) __builtin_expect(!!(is), 1)
#define unlikely(is) __builtin_expect(!!(is), 0)
#define READ_ONCE(it) (*(const volatile __typeof__(it) *)&(it))
#define WRITE_ONCE(it, value) (*(volatile __typeof__(it) *)&(it) = (value))
#define smp_wmb() __asm__ volatile("" ::: "memory")

typedef unsigned int gfp_t;
typedef struct {
    int taken;
} spinlock_t;

static inline void spin_lock(spinlock_t *lock)
{
    int free = 0;
    while (!__atomic_compare_exchange_n(&lock->taken, &free, 1, false, __ATOMIC_ACQUIRE, __ATOMIC_RELAXED)) {
        __builtin_ia32_pause();
        free = 0;
    }
}

static inline void spin_unlock(spinlock_t *lock)
{
    __atomic_store_n(&lock->taken, 0, __ATOMIC_RELEASE);
}

#define spin_lock_init(lock) ((void)(lock))
#define spin_lock_irq spin_lock
#define spin_unlock_irq spin_unlock
#define spin_lock_bh spin_lock
#define spin_unlock_bh spin_unlock
#define spin_lock_irqsave(lock, flags) ((void)(flags), spin_lock(lock))
#define spin_unlock_irqrestore(lock, flags) ((void)(flags), spin_unlock(lock))
#define __GFP_ZERO 0
#define KMALLOC_MAX_SIZE 4096
#define kvmalloc_array(count, size, flags) NULL
#define kmalloc_array(count, size, flags) NULL
#define kvfree(it) ((void)(it))
#define kfree(it) ((void)(it))

#include <linux/ptr_ring.h>

static void *slots[SLOTS];
static struct ptr_ring ring = {.size = SLOTS, .batch = BATCH, .queue = slots};

bool push(uint64_t value)
{
    return PRODUCE(&ring, (void *)value) == 0;
}

bool pop(uint64_t *value)
{
    void *item = CONSUME(&ring);
    if (!item)
        return false;
    *value = (uint64_t)item;
    return true;
}
