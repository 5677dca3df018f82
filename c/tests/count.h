/* Shared by count.c and count_libpri.c: many pairs in turn, in one process. */
#ifndef COUNT_H
#define COUNT_H

#include "test.h"

#include <malloc.h>
#include <time.h>
#include <unistd.h>

#define MOST_PAIRS 1000
#define BLOCK 7000 /* messages between two looks at the clock */

/* Makes a pair and establishes its link; sends messages of 20 octets over it, before the first frame
 * is fetched, and fetches all. */
static void make_pair(size_t pair);
static void send_messages(size_t pair, long each);

/* Processor time, in nanoseconds. */
static double nanoseconds(void)
{
	struct timespec time;

	clock_gettime(CLOCK_PROCESS_CPUTIME_ID, &time);
	return (double)time.tv_sec * 1e9 + (double)time.tv_nsec;
}

static size_t octets_allocated(void)
{
	struct mallinfo2 heap = mallinfo2();

	return heap.uordblks + heap.hblkhd;
}

static size_t octets_resident(void)
{
	FILE *sizes = fopen("/proc/self/statm", "r");
	size_t pages;

	WANT(sizes != NULL && fscanf(sizes, "%*u %zu", &pages) == 1);
	fclose(sizes);
	return pages * (size_t)sysconf(_SC_PAGESIZE);
}

/* Sends `each` messages over each pair in turn, until a block of messages is sent. Returns the
 * nanoseconds for each. */
static double send_block(size_t pairs, long each)
{
	double begin = nanoseconds();
	size_t round, pair;

	for (round = 0; round < BLOCK / (pairs * (size_t)each); round++)
		for (pair = 0; pair < pairs; pair++)
			send_messages(pair, each);
	return (nanoseconds() - begin) / BLOCK;
}

/* Makes the pairs and sends the messages. Prints for each side the octets allocated and
 * resident and the nanoseconds to make it, and the nanoseconds for a message in the fastest block. */
static void count_many(size_t pairs, long each, long times)
{
	size_t allocated = octets_allocated(), resident = octets_resident(), at, sides = 2 * pairs;
	double begin = nanoseconds(), made, took, least;

	WANT(pairs >= 1 && pairs <= MOST_PAIRS && each >= 1 && times >= BLOCK);
	WANT(BLOCK % (pairs * (size_t)each) == 0 && times % BLOCK == 0);
	for (at = 0; at < pairs; at++)
		make_pair(at);
	made = nanoseconds() - begin;
	least = send_block(pairs, each);
	allocated = octets_allocated() - allocated;
	resident = octets_resident() - resident;
	while ((times -= BLOCK) > 0) {
		took = send_block(pairs, each);
		least = took < least ? took : least;
	}
	printf("%zu %zu %.0f %.0f\n", allocated / sides, resident / sides, made / (double)sides, least);
}

#endif
