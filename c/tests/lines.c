/* The memory that a message touches: prints the blocks of the library's heap, sends a message over
 * an established pair, and marks in the trace of lines.py where this begins and ends. */
#include "lapd_heap.h"
#include "test.h"

#define MOST_BLOCKS 4096
#define WARM 40

static struct {
	void *at;
	size_t size;
} blocks[MOST_BLOCKS];
static size_t count;
static volatile uint64_t marker;

static void forget(const void *at)
{
	size_t place;

	for (place = 0; place < count; place++)
		if (blocks[place].at == at)
			blocks[place].at = NULL;
}

static struct lapd_block kept(void *at, size_t size)
{
	struct lapd_block block = { at != NULL, at };

	WANT(count < MOST_BLOCKS);
	blocks[count].at = at;
	blocks[count++].size = size;
	return block;
}

struct lapd_block rattle_alloc(size_t size, size_t align)
{
	return kept(malloc(size ? size : align), size);
}

struct lapd_block rattle_realloc(void *at, size_t known, size_t size, size_t align)
{
	(void)known;
	forget(at);
	return kept(realloc(at, size ? size : align), size);
}

void rattle_dealloc(void *at)
{
	forget(at);
	free(at);
}

/* Fetches all that waits, and passes the frames to the other side, until none is sent. */
static void carry(lapd_side *from, lapd_side *to)
{
	uint8_t octets[LAPD_MOST_FRAME];
	lapd_primitive item;
	bool is_any = false;
	size_t left;

	do {
		DONE(lapd_side_next(from, &item, octets, sizeof octets, &left));
		if (item.kind == LAPD_FRAME) {
			DONE(lapd_side_take(to, octets, item.octets, 0));
			is_any = true;
		}
	} while (left > 0);
	if (is_any)
		carry(to, from);
}

static void message(lapd_side *user, lapd_side *network)
{
	static const uint8_t octets[20] = { 0x08, 0x01, 0x01, 0x05 };

	DONE(lapd_side_give(user, 0, 0, octets, sizeof octets, 0));
	carry(user, network);
}

int main(void)
{
	static const uint8_t tei = 0;
	lapd_settings settings = LAPD_PRIMARY;
	lapd_side network = { NULL }, user = { NULL };
	size_t place;
	int at;

	DONE(lapd_side_network(&network, &settings, &tei, 1));
	DONE(lapd_side_user(&user, &settings, tei));
	DONE(lapd_side_establish(&user, 0, 0, 0));
	carry(&user, &network);
	for (at = 0; at < WARM; at++)
		message(&user, &network);
	printf("marker %zx\n", (size_t)&marker);
	for (place = 0; place < count; place++)
		if (blocks[place].at != NULL)
			printf("block %zx %zu\n", (size_t)blocks[place].at, blocks[place].size);
	fflush(stdout);
	marker = 1;
	message(&user, &network);
	marker = 2;
	lapd_side_free(&user);
	lapd_side_free(&network);
	return 0;
}
