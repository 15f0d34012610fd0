/* The commands of Redis that the drive has, under names of their own, which the filter gives the plain ones (filter.h). */
#ifndef PINK_COMMANDS_H
#define PINK_COMMANDS_H

#include "module_api.h"

/* Registers them; API_ERR if the server refuses one. */
int register_commands(Ctx *ctx);

int reply_arity(Ctx *ctx, const char *name);
int reply_text(Ctx *ctx, const char *text);
/* SET, DEL and GET, for whoever asks. */
Command set_command, del_command, get_command;

/* SCAN and DBSIZE, and the slots of a cluster (scan.c, slots.c). */
Command scan_command, dbsize_command, cluster_command, raw_command, take_command, owns_command;

#endif
