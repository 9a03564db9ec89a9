/* The module, as portable.py writes it. */
#ifndef SURF_MODULE_H
#define SURF_MODULE_H

#include "ops.h"

typedef struct {
    u64 top; /* of the stack */
    surf_memory memory;
} surf_module;

/* Whether there is memory for the module; it is given back by the end. */
SURF_OWN int surf_module_begin(surf_module *it);
SURF_OWN void surf_module_end(surf_module *it);
SURF_OWN u64 surf_module_take(surf_module *it, u64 size);
SURF_OWN void surf_module_give(surf_module *it, u64 at);
SURF_OWN void surf_module_call(surf_module *it, u64 said, u64 words, u64 words_size, u64 first, u64 first_size,
                               u64 second, u64 second_size, u64 third, u64 third_size, u64 room, u64 room_size);

#endif
