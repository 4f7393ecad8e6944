#include "device_tree.h"

#include <stdio.h>
#include <string.h>

/* The tokens of the structure (5.4.1), and where the parts lie: the header has 40 bytes, and an empty list of reserved memory 16. */
enum { BEGIN_NODE = 1, END_NODE = 2, PROPERTY = 3, END = 9 };
enum { RESERVED = 40, STRUCTURE = 56, VERSION = 17, OLDEST = 16, PAGE = 0x1000 };

/* The names of properties, one behind another. */
static const char NAMES[] = "#address-cells\0#size-cells\0interrupt-parent\0compatible\0reg\0interrupts\0#interrupt-cells\0"
                            "interrupt-controller\0phandle";

/* The room, and how much of it is written; behind its end nothing is, and the count goes on. */
struct text {
    uint8_t *room;
    size_t len, at;
};

/* Puts bytes, and zeros up to the next token. */
static void put(struct text *text, const void *bytes, size_t len)
{
    size_t padded = (len + 3) / 4 * 4;
    if (text->at + padded <= text->len) {
        memset(text->room + text->at, 0, padded);
        memcpy(text->room + text->at, bytes, len);
    }
    text->at += padded;
}

/* A number of 32 bits stands with its high byte first (5.2). */
static void put_cell(struct text *text, uint32_t value)
{
    const uint8_t bytes[] = { (uint8_t)(value >> 24), (uint8_t)(value >> 16), (uint8_t)(value >> 8), (uint8_t)value };
    put(text, bytes, sizeof bytes);
}

static void begin_node(struct text *text, const char *name)
{
    put_cell(text, BEGIN_NODE);
    put(text, name, strlen(name) + 1);
}

static void put_property(struct text *text, const char *name, const void *value, size_t len)
{
    const char *at = NAMES;
    while (strcmp(at, name) != 0)
        at += strlen(at) + 1;
    put_cell(text, PROPERTY);
    put_cell(text, (uint32_t)len);
    put_cell(text, (uint32_t)(at - NAMES));
    put(text, value, len);
}

static void put_device(struct text *text, const struct tree_device *device)
{
    char name[sizeof "virtio@ffffffff"];
    uint8_t cells[12];
    struct text numbers = { cells, sizeof cells, 0 };
    put_cell(&numbers, device->window);
    put_cell(&numbers, PAGE);
    put_cell(&numbers, device->line);
    snprintf(name, sizeof name, "virtio@%x", (unsigned)device->window);
    begin_node(text, name);
    put_property(text, "compatible", "virtio,mmio", sizeof "virtio,mmio");
    put_property(text, "reg", cells, 8);
    put_property(text, "interrupts", cells + 8, 4);
    put_cell(text, END_NODE);
}

static void put_nodes(struct text *text, const struct tree_device *devices, size_t devices_len)
{
    static const uint8_t none[4], one[] = { 0, 0, 0, 1 }, lines[] = { 0, 0, 0, 1 }; /* the handle of the CPU's lines */
    begin_node(text, "");
    put_property(text, "#address-cells", one, 4);
    put_property(text, "#size-cells", one, 4);
    put_property(text, "interrupt-parent", lines, 4);
    begin_node(text, "interrupt-controller");
    put_property(text, "phandle", lines, 4);
    put_property(text, "#address-cells", none, 4);
    put_property(text, "#interrupt-cells", one, 4);
    put_property(text, "interrupt-controller", none, 0);
    put_cell(text, END_NODE);
    for (size_t i = 0; i < devices_len; i++)
        put_device(text, &devices[i]);
    put_cell(text, END_NODE);
    put_cell(text, END);
}

size_t device_tree(uint8_t *room, size_t len, const struct tree_device *devices, size_t devices_len)
{
    struct text text = { room, len, STRUCTURE }, header = { room, len, 0 };
    put_nodes(&text, devices, devices_len);
    const uint32_t names = (uint32_t)text.at;
    put(&text, NAMES, sizeof NAMES);
    const uint32_t cells[] = { 0xd00dfeed, (uint32_t)text.at, STRUCTURE, names, RESERVED, VERSION, OLDEST, 0 /* the CPU */,
                               sizeof NAMES, names - STRUCTURE };
    for (size_t i = 0; i < sizeof cells / sizeof *cells; i++)
        put_cell(&header, cells[i]);
    put(&header, (const uint8_t[STRUCTURE - RESERVED]){ 0 }, STRUCTURE - RESERVED); /* the list's end */
    return text.at <= len ? text.at : 0;
}
