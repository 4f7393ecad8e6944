/* The header from C++: no type needs a `struct` before it, also where a function makes one. */
#include <cstdio>

#include "kalyubos.h"

int main()
{
    static uint64_t memory[0x1000 / 8];
    kalyubos_slot slot = kalyubos_slot();
    slot.size = sizeof slot;
    slot.regions[0].base = 0x80000000;
    slot.regions[0].len = sizeof memory;
    slot.count = 1;
    slot.hosted = true;

    kalyubos board = kalyubos();
    kalyubos_config config = kalyubos_config_of(&slot, 1);
    kalyubos_guest guest = kalyubos_guest();
    kalyubos_words words = { memory, sizeof memory / 8 };
    kalyubos_guest_config running = kalyubos_guest_config_of(&slot, &words, 1);
    uint32_t magic = 0, device = 0;
    bool made = kalyubos_create(&board, &config) == KALYUBOS_DONE && kalyubos_guest_create(&guest, &running) == KALYUBOS_DONE;
    bool read = kalyubos_read(&board, 0, KALYUBOS_BLOCK, 0x000, 4, &magic) == KALYUBOS_DONE &&
                kalyubos_guest_read(&guest, KALYUBOS_CONSOLE, 0x008, 4, &device) == KALYUBOS_DONE;
    bool ended = kalyubos_destroy(&board) == KALYUBOS_DONE && kalyubos_guest_destroy(&guest) == KALYUBOS_DONE;
    if (!made || !read || !ended || magic != 0x74726976 || device != 3)
        return 1;
    std::puts("plain: a board and a guest that runs on, in C++");
    return 0;
}
