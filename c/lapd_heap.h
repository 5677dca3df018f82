/* The heap of liblapd: three functions by which the library allocates and frees memory. Those of
 * the library call malloc, realloc and free. A program that is linked with the archive, liblapd.a,
 * can define all three itself: those of the library are not linked then. The shared library always
 * uses its own. The header compiles as C99 and as C++.
 *
 * If calls of the library run in several threads, so do these functions. They must not call the
 * library. */
#ifndef LAPD_HEAP_H
#define LAPD_HEAP_H

#include <stddef.h>
#ifndef __cplusplus
#include <stdbool.h>
#endif

#ifdef __cplusplus
extern "C" {
#endif

/* A block. If the allocation failed, `found` is false and `at` is not used. */
struct lapd_block {
	bool found;
	void *at;
};

/* Allocates `size` octets, which may be 0, aligned to `align`: 1, 2, 4, 8 or 16. If this fails, the
 * call of the library returns LAPD_NO_MEMORY. */
struct lapd_block rattle_alloc(size_t size, size_t align);

/* Changes the size of a block, which may move, and keeps its first `kept` octets. If this fails,
 * the old block stays valid. */
struct lapd_block rattle_realloc(void *at, size_t kept, size_t size, size_t align);

/* Frees a block. */
void rattle_dealloc(void *at);

#ifdef __cplusplus
}
#endif

#endif
