/* What a fault is, as a sentence for a person. Made by crates/c_values/api/make. */
#include "kalyubos.h"

const char *kalyubos_fault_text(uint32_t kind)
{
    switch (kind) {
    case KALYUBOS_NO_FAULT:
        return "no fault came";
    case KALYUBOS_FAULT_JUMP:
        return "more chains on offer than descriptors";
    case KALYUBOS_FAULT_INDEX:
        return "a descriptor's index outside its table";
    case KALYUBOS_FAULT_LOOP:
        return "a list of descriptors longer than its table";
    case KALYUBOS_FAULT_TOO_MANY:
        return "a chain of more than 256 buffers";
    case KALYUBOS_FAULT_TABLE:
        return "an indirect table of a bad length";
    case KALYUBOS_FAULT_NESTED:
        return "an indirect table inside an indirect table";
    case KALYUBOS_FAULT_JOINED:
        return "an indirect table joined to other descriptors";
    case KALYUBOS_FAULT_NO_INDIRECT:
        return "an indirect table without its feature";
    case KALYUBOS_FAULT_RANGE:
        return "a buffer or a table outside memory";
    case KALYUBOS_FAULT_TOO_LONG:
        return "a chain of more than 2^32 - 1 bytes";
    default:
        return "a fault that this version of kalyubos.h doesn't know";
    }
}
