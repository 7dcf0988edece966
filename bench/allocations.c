/* Counts allocations: the linker puts these in the place of malloc and realloc (--wrap), for all that is linked statically. */
#include "ours.h"

static struct allocated all;

void *__real_malloc(size_t size);
void *__real_realloc(void *block, size_t size);
void *__wrap_malloc(size_t size);
void *__wrap_realloc(void *block, size_t size);

void *__wrap_malloc(size_t size)
{
    all.blocks++;
    all.octets += size;
    return __real_malloc(size);
}

void *__wrap_realloc(void *block, size_t size)
{
    all.blocks++;
    all.octets += size;
    return __real_realloc(block, size);
}

struct allocated allocated(void)
{
    return all;
}

struct allocated since(struct allocated before)
{
    return (struct allocated){all.blocks - before.blocks, all.octets - before.octets};
}
