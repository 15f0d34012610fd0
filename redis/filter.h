/* The filter of commands: names that the drive has get its meaning, names that use no key pass, and all others are refused in words, as
 * Redis would do them with the keys in its own memory, of which there are none. */
#ifndef PINK_FILTER_H
#define PINK_FILTER_H

#include "module_api.h"

int register_filter(Ctx *ctx);

#endif
