/* A mistake as watch.h tells it: the trace's line, the call in words, and what is wrong. */
#include "mistake.h"

enum { CONFIGURATION = 0x100 };

static const char *register_name(uint16_t offset)
{
    static const char *const NAMES[] = {
        [0x00 / 4] = "MagicValue", "Version", "DeviceID", "VendorID", "DeviceFeatures", "DeviceFeaturesSel",
        [0x20 / 4] = "DriverFeatures", "DriverFeaturesSel", [0x30 / 4] = "QueueSel", "QueueNumMax", "QueueNum",
        [0x44 / 4] = "QueueReady", [0x50 / 4] = "QueueNotify", [0x60 / 4] = "InterruptStatus", "InterruptACK",
        [0x70 / 4] = "Status", [0x80 / 4] = "QueueDescLow", "QueueDescHigh", [0x90 / 4] = "QueueDriverLow",
        "QueueDriverHigh", [0xa0 / 4] = "QueueDeviceLow", "QueueDeviceHigh", [0xfc / 4] = "ConfigGeneration",
    };
    if (offset >= CONFIGURATION)
        return "the configuration";
    return offset / 4 < sizeof NAMES / sizeof *NAMES && NAMES[offset / 4] != NULL ? NAMES[offset / 4] : "no register";
}

/* The call as the trace spells it, and in words. */
static void tell_call(FILE *told, const struct watch_call *call)
{
    const char *window = call->window == KALYUBOS_BLOCK ? "block" : "console", *name = register_name(call->offset);
    unsigned digits = 2 * call->width, value = digits < 8 ? call->value & ((1u << 4 * digits) - 1) : call->value;
    if (call->kind == WATCH_INPUT)
        fprintf(told, "in %x: the console of guest %u is typed to", call->slot, call->slot);
    else if (call->kind == WATCH_COMPLETION)
        fprintf(told, "io %x %x %s: the disk of guest %u %s", call->slot, call->tag, call->value != 0 ? "failed" : "done",
                call->slot, call->value != 0 ? "failed" : "is done");
    else if (call->kind == WATCH_READ)
        fprintf(told, "r %x %c %03x %x: guest %u reads %s of its %s window", call->slot, *window, call->offset,
                call->width, call->slot, name, window);
    else
        fprintf(told, "w %x %c %03x %x %0*x: guest %u writes %0*x to %s of its %s window", call->slot, *window,
                call->offset, call->width, digits, value, call->slot, digits, value, name, window);
}

void tell_mistake(FILE *told, size_t line, const struct watch_call *call, const char *what, va_list values)
{
    if (line > 0)
        fprintf(told, "line %zu: ", line);
    tell_call(told, call);
    fputs(": ", told);
    vfprintf(told, what, values);
    fputc('\n', told);
    fflush(told);
}
