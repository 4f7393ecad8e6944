/* The window of window.h. */
#include "window.h"

#include <string.h>

/* The registers that are kept (VIRTIO 1.2, 4.2.2). */
enum {
    DRIVER_FEATURES = 0x020, DRIVER_FEATURES_SEL = 0x024, QUEUE_SEL = 0x030, QUEUE_NUM = 0x038, QUEUE_READY = 0x044,
    STATUS = 0x070, QUEUE_DESC = 0x080, QUEUE_AREAS_END = 0x0a8
};

enum { FEATURES_OK = 8, INDIRECT_DESC = 28, RING_PACKED = 34 };

/* Puts a word into the low or the high half of a number. */
static void put_half(uint64_t *number, bool high, uint32_t word)
{
    unsigned shift = high ? 32 : 0;
    *number = (*number & ~((uint64_t)0xffffffff << shift)) | (uint64_t)word << shift;
}

static void keep_queue(const struct window *window, struct queue *queue, uint16_t offset, uint32_t value, bool ready)
{
    bool is_area = offset >= QUEUE_DESC && offset < QUEUE_AREAS_END && offset % 16 <= 4;
    if (offset == QUEUE_READY) {
        if (!queue->ready)
            queue->place = queue->used = queue->pending = queue->ahead = 0;
        queue->ready = ready;
        queue->packed = window->features >> RING_PACKED & 1;
        queue->indirect = window->features >> INDIRECT_DESC & 1;
    } else if (offset == QUEUE_NUM && !queue->ready) {
        queue->size = value;
    } else if (is_area && !queue->ready) {
        put_half(&queue->areas[(offset - QUEUE_DESC) / 16], offset % 16 == 4, value);
    }
}

void window_keep(struct window *window, uint16_t offset, uint32_t value, bool ready)
{
    if (offset == DRIVER_FEATURES_SEL)
        window->features_sel = value;
    else if (offset == QUEUE_SEL)
        window->queue_sel = value;
    else if (offset == STATUS && value == 0)
        memset(window, 0, sizeof *window);
    else if (offset == DRIVER_FEATURES && window->features_sel < 2 && !(window->status & FEATURES_OK))
        put_half(&window->features, window->features_sel == 1, value);
    else if (window->queue_sel < WINDOW_QUEUES)
        keep_queue(window, &window->queues[window->queue_sel], offset, value, ready);
}
