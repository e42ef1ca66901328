/* Linux's fifo for one reader and one writer. The headers that it includes are taken for read, by their guards; what it wants of them
 * stands here, and means on x86 what it means in the kernel. */
#define _LINUX_KERNEL_H
#define __LINUX_SPINLOCK_H
#define _LINUX_STDDEF_H
#define _LINUX_SCATTERLIST_H
#include <stdbool.h>
#include <stddef.h>
#include <stdint.h>

#define __must_check
#define __user
#define ARRAY_SIZE(array) (sizeof(array) / sizeof((array)[0]))
#define smp_wmb() __asm__ volatile("" ::: "memory")

typedef unsigned int gfp_t;
typedef struct {
    int taken;
} spinlock_t;
struct scatterlist;

#include <linux/kfifo.h>

static DEFINE_KFIFO(fifo, uint64_t, SLOTS);

bool push(uint64_t value)
{
    return kfifo_put(&fifo, value);
}

bool pop(uint64_t *value)
{
    return kfifo_get(&fifo, value);
}
