/* The memory of the library over malloc, realloc and free: link it with libmtpbank_end.a. */
#include "mtpbank.h"

#include <stdlib.h>

/* Stands where there is no block: an address that is never NULL. */
static char nowhere;

static struct mtpbank_block block_of(void *at)
{
	struct mtpbank_block block = { at != NULL, at ? at : &nowhere };
	return block;
}

struct mtpbank_block rattle_alloc(size_t size, size_t align)
{
	return block_of(malloc(size ? size : align));
}

struct mtpbank_block rattle_realloc(void *at, size_t kept, size_t size, size_t align)
{
	(void)kept;
	return block_of(realloc(at, size ? size : align));
}

void rattle_dealloc(void *at)
{
	free(at);
}
