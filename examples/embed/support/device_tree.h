/*
 * A flattened device tree (Devicetree Specification 0.4, chapter 5) of a guest's virtio-mmio devices, for the guest to find them by.
 */
#ifndef DEVICE_TREE_H
#define DEVICE_TREE_H

#include <stddef.h>
#include <stdint.h>

/* A device: where its window lies, and the line that it raises. */
struct tree_device {
    uint32_t window, line;
};

/*
 * Writes the tree of these devices, and answers how many bytes it has: 0 where the room is too small. Each device is a node
 * `virtio@..` below the root, compatible with "virtio,mmio", whose `reg` and `interrupts` have cells of 32 bits.
 */
size_t device_tree(uint8_t *room, size_t len, const struct tree_device *devices, size_t devices_len);

#endif
