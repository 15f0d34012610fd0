/* INFO pink_drive: the numbers of the module, and those of the drive (Report) for each namespace. */
#ifndef PINK_INFO_H
#define PINK_INFO_H

#include "module_api.h"

int register_info(Ctx *ctx);

#endif
