#include "module_api.h"

#define API_DEFINE(result, name, arguments) result(*name) arguments;
API_FUNCTIONS(API_DEFINE)

const char *api_find(Ctx *ctx) {
    int (*get)(const char *, void *) = *(int (**)(const char *, void *))ctx;
#define API_FIND(result, name, arguments) \
    if (get("RedisModule_" #name, &name) != API_OK) return #name;
    API_FUNCTIONS(API_FIND)
    return NULL;
}
