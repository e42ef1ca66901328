/* PipeWire's ring of two indexes. Where an item lies is for its caller to say; here an index counts items, and each has its slot. */
#include <spa/utils/ringbuffer.h>
#include <stdbool.h>
#include <stdint.h>

static struct spa_ringbuffer ring;
static uint64_t slots[SLOTS];

bool push(uint64_t value)
{
    uint32_t index;
    if (spa_ringbuffer_get_write_index(&ring, &index) >= SLOTS)
        return false;
    slots[index & (SLOTS - 1)] = value;
    spa_ringbuffer_write_update(&ring, index + 1);
    return true;
}

bool pop(uint64_t *value)
{
    uint32_t index;
    if (spa_ringbuffer_get_read_index(&ring, &index) <= 0)
        return false;
    *value = slots[index & (SLOTS - 1)];
    spa_ringbuffer_read_update(&ring, index + 1);
    return true;
}
