/*
 * A device that does nothing yet: copy this file, and fill its functions in with your device. device.h says what each
 * of them does. The suite runs over it as it stands, and nearly all scenarios differ.
 */
#include "device.h"

static uint32_t read(unsigned guest, unsigned window, unsigned offset, unsigned width)
{
    (void)guest, (void)window, (void)offset, (void)width;
    return 0;
}

/* What your console puts out while it serves this goes to put_out. */
static void write(unsigned guest, unsigned window, unsigned offset, unsigned width, uint32_t value)
{
    (void)guest, (void)window, (void)offset, (void)width, (void)value;
}

static bool memory(unsigned guest, uint64_t address, uint8_t *bytes, size_t len, bool put)
{
    (void)guest, (void)address, (void)bytes, (void)len, (void)put;
    return false;
}

static size_t input(unsigned guest, const uint8_t *bytes, size_t len)
{
    (void)guest, (void)bytes, (void)len;
    return 0;
}

static void resize(unsigned guest, uint16_t cols, uint16_t rows)
{
    (void)guest, (void)cols, (void)rows;
}

static const char *make(const struct setup *setup)
{
    (void)setup;
    return NULL;
}

static void end(void)
{
}

const struct device device = {
    .read = read, .write = write, .memory = memory, .input = input, .resize = resize, .make = make, .end = end,
};
