/* window: the registers of the library's block window, used as 3.1.1 and 4.2.3 of the standard have a driver use them. */
#include "window.h"

#include <stdlib.h>
#include <string.h>

/* Registers (4.2.2). */
enum {
    DEVICE_FEATURES = 0x010,
    DEVICE_FEATURES_SEL = 0x014,
    DRIVER_FEATURES = 0x020,
    DRIVER_FEATURES_SEL = 0x024,
    QUEUE_SEL = 0x030,
    QUEUE_NUM_MAX = 0x034,
    QUEUE_NUM = 0x038,
    QUEUE_READY = 0x044,
    QUEUE_NOTIFY = 0x050,
    INTERRUPT_ACK = 0x064,
    STATUS = 0x070,
    QUEUE_DESC = 0x080,
    QUEUE_DRIVER = 0x090,
    QUEUE_DEVICE = 0x0a0,
    CONFIG = 0x100
};
enum { ACKNOWLEDGE = 1, DRIVER = 2, DRIVER_OK = 4, FEATURES_OK = 8 };

/* A notification by an eventfd carries no data. */
#define FEATURE_NOTIFICATION_DATA ((uint64_t)1 << 38)

static uint32_t load(const struct window *window, uint16_t offset, uint8_t width)
{
    uint32_t value = 0;
    (void)kalyubos_guest_read(&window->guest, KALYUBOS_BLOCK, offset, width, &value);
    return value;
}

static uint32_t store(struct window *window, uint16_t offset, uint32_t value)
{
    return kalyubos_guest_write(&window->guest, KALYUBOS_BLOCK, offset, 4, value, &window->pending);
}

static void store_64(struct window *window, uint16_t offset, uint64_t value)
{
    (void)store(window, offset, (uint32_t)value);
    (void)store(window, offset + 4, (uint32_t)(value >> 32));
}

/* The words of each region of a mapping, as the library takes them. */
static void lend(const struct mapping *mapping, struct kalyubos_words words[KALYUBOS_REGIONS])
{
    for (unsigned i = 0; i < mapping->regions_len; i++) {
        words[i].words = (uint64_t *)(mapping->base + mapping->regions[i].base);
        words[i].len = mapping->regions[i].len / sizeof(uint64_t);
    }
}

const char *window_make(struct window *window, const struct disk *disk, const struct mapping *mapping)
{
    struct kalyubos_slot slot = { .size = sizeof slot, .count = disk->sectors, .cols = 80, .rows = 25, .read_only = disk->read_only,
                                  .hosted = true, .runs = true, .depth = disk->depth };
    struct kalyubos_words words[KALYUBOS_REGIONS];
    memset(window, 0, sizeof *window);
    memcpy(slot.identity, disk->identity, sizeof slot.identity);
    memcpy(slot.regions, mapping->regions, mapping->regions_len * sizeof slot.regions[0]);
    lend(mapping, words);
    struct kalyubos_guest_config config = kalyubos_guest_config_of(&slot, words, mapping->regions_len);
    uint32_t answer = kalyubos_guest_create(&window->guest, &config);
    return answer == KALYUBOS_DONE ? NULL : kalyubos_answer(answer);
}

const char *window_change_memory(struct window *window, const struct mapping *mapping)
{
    struct kalyubos_words words[KALYUBOS_REGIONS];
    lend(mapping, words);
    uint32_t answer = kalyubos_guest_set_memory(&window->guest, mapping->regions, mapping->regions_len, words, mapping->regions_len);
    return answer == KALYUBOS_DONE ? NULL : kalyubos_answer(answer);
}

const char *window_keep_pages(struct window *window, const struct mapping *mapping)
{
    uint32_t answer = kalyubos_guest_keep_pages(&window->guest, (struct kalyubos_loan){ (uint8_t *)mapping->pages, mapping->pages_len });
    return answer == KALYUBOS_DONE ? NULL : kalyubos_answer(answer);
}

void window_end(struct window *window)
{
    (void)kalyubos_guest_destroy(&window->guest);
}

static uint64_t offered(struct window *window)
{
    uint64_t features = 0;
    for (unsigned half = 0; half < 2; half++) {
        (void)store(window, DEVICE_FEATURES_SEL, half);
        features |= (uint64_t)load(window, DEVICE_FEATURES, 4) << 32 * half;
    }
    return features & ~FEATURE_NOTIFICATION_DATA;
}

const char *window_shows(const struct disk *disk, uint64_t *features, uint8_t config[CONFIG_LEN], uint32_t *most)
{
    struct window window;
    uint8_t *page = aligned_alloc(PAGE, PAGE);
    struct mapping mapping = { .base = page, .regions_len = 1, .regions = { { 0, PAGE } } };
    if (page == NULL)
        return "there is no memory";
    memset(page, 0, PAGE);
    const char *why = window_make(&window, disk, &mapping);
    if (why == NULL) {
        *features = offered(&window) & (disk->packed ? ~(uint64_t)0 : ~FEATURE_RING_PACKED);
        *most = load(&window, QUEUE_NUM_MAX, 4);
        for (unsigned i = 0; i < CONFIG_LEN; i++)
            config[i] = (uint8_t)load(&window, (uint16_t)(CONFIG + i), 1);
        window_end(&window);
    }
    free(page);
    return why;
}

const char *window_drive(struct window *window, uint64_t features, const struct layout *layout)
{
    features &= offered(window);
    (void)store(window, STATUS, ACKNOWLEDGE);
    (void)store(window, STATUS, ACKNOWLEDGE | DRIVER);
    for (unsigned half = 0; half < 2; half++) {
        (void)store(window, DRIVER_FEATURES_SEL, half);
        (void)store(window, DRIVER_FEATURES, (uint32_t)(features >> 32 * half));
    }
    (void)store(window, STATUS, ACKNOWLEDGE | DRIVER | FEATURES_OK);
    if ((load(window, STATUS, 4) & FEATURES_OK) == 0)
        return "the device refuses the driver's features";
    (void)store(window, QUEUE_SEL, 0);
    (void)store(window, QUEUE_NUM, layout->num);
    store_64(window, QUEUE_DESC, layout->desc);
    store_64(window, QUEUE_DRIVER, layout->driver);
    store_64(window, QUEUE_DEVICE, layout->device);
    (void)store(window, QUEUE_READY, 1);
    if (load(window, QUEUE_READY, 4) != 1)
        return "the device refuses the queue: its size, or where its rings lie";
    (void)store(window, STATUS, ACKNOWLEDGE | DRIVER | FEATURES_OK | DRIVER_OK);
    return NULL;
}

uint32_t window_notify(struct window *window)
{
    return store(window, QUEUE_NOTIFY, 0);
}

uint32_t window_take_interrupt(struct window *window)
{
    uint32_t word = window->pending.block;
    if (word != 0)
        (void)store(window, INTERRUPT_ACK, word);
    return word;
}
