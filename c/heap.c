/* The heap of liblapd: malloc, realloc and free. This member of the archive is not linked into a
 * program that defines the three functions itself. */
#include "lapd_heap.h"

#include <stdlib.h>

struct lapd_block rattle_alloc(size_t size, size_t align)
{
	struct lapd_block block;

	block.at = malloc(size ? size : align);
	block.found = block.at != NULL;
	return block;
}

/* realloc keeps all octets that fit, so `kept` need not be known. */
struct lapd_block rattle_realloc(void *at, size_t kept, size_t size, size_t align)
{
	struct lapd_block block;

	(void)kept;
	block.at = realloc(at, size ? size : align);
	block.found = block.at != NULL;
	return block;
}

void rattle_dealloc(void *at)
{
	free(at);
}
