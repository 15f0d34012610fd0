/* One round of the server's event loop is one group of the drive.
 *
 * The commands of a round are gathered, and their clients are blocked. Before the loop sleeps, the changes follow the reads, a Flush ends
 * the group, all records are taken, the changes are replicated as one command, and the clients are answered. So no change is under way
 * while the server does anything else: it forks, changes its role, or pauses its clients. Changes of a round that ends in a pause
 * are held until the pause is over. If the server becomes a replica in it they are dropped, not done and not answered; if their slot went
 * to another server in it, as slots are moved in pauses, they are refused (MOVED_AWAY). */
#ifndef PINK_ROUNDS_H
#define PINK_ROUNDS_H

#include "module_api.h"
#include "pipe.h"

/* A command of the drive that a request needs, and its answer. */
struct Request;
typedef struct {
    struct Request *request;
    String *name, *value; /* the name as the client said it, and the value of a Store */
    char *data;           /* what was read, of `length` bytes; the value begins after `front` of them */
    uint32_t length, front, result, size;
    int status;
    unsigned char opcode, options, space, key_length;
    char key[KEY_BYTES];
} Part;

/* A request of a client. `say` replies once the last answer has come. All parts of one that changes are done in their order, with no part
 * of another client between them that changes. */
typedef int Say(Ctx *, struct Request *);
typedef struct Request {
    Blocked *blocked;
    Say *say;
    int parts, come, changes;
    Part part[];
} Request;

Request *request_of(Say *say, int parts, int changes);

/* Gathers a part that has its name, opcode, options, size and value. The request owns a reference of the name and the value. */
void gather(Ctx *ctx, Part *part);

/* All parts are gathered: blocks the client until they are answered, or waits where blocking is not allowed (MULTI, scripts). */
int run_request(Ctx *ctx, Request *request);

int is_change(const Part *part);
/* The command of a part; what it points to is valid until the next call. */
Entry entry_of(const Part *part);

/* The end of a round. */
void end_round(Ctx *ctx);
void after_sleep(void);
/* The server has become a replica: what is held is not done. */
void drop_held(void);
/* From now on changes are replicated; before the first copy of this server nobody needs them. */
void replicate_from_now(void);

typedef struct { uint64_t batches, dropped; int replicates; } RoundNumbers;
const RoundNumbers *round_numbers(void);

#endif
