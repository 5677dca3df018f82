/* Uses a heap of its own, in which one allocation fails: the first, then the second, until a run
 * makes fewer allocations than that. Each run is the whole dialogue. The failed call must return
 * LAPD_NO_MEMORY, the same call must succeed when it is repeated, every message must arrive, and no
 * memory may be left when the sides are freed. */
#include "lapd_heap.h"
#include "test.h"

#define MESSAGES 20

static long asked, refused_at, refused, live;

static bool refuses(void)
{
	return ++asked == refused_at;
}

struct lapd_block rattle_alloc(size_t size, size_t align)
{
	struct lapd_block block = { false, NULL };

	if (!refuses()) {
		block.at = malloc(size ? size : align);
		block.found = block.at != NULL;
		live++;
	}
	return block;
}

struct lapd_block rattle_realloc(void *at, size_t kept, size_t size, size_t align)
{
	struct lapd_block block = { false, NULL };

	(void)kept;
	if (!refuses()) {
		block.at = realloc(at, size ? size : align);
		block.found = block.at != NULL;
	}
	return block;
}

void rattle_dealloc(void *at)
{
	live--;
	free(at);
}

/* Makes a call, and repeats it if an allocation fails. */
#define TWICE(call)                                                                                  \
	do {                                                                                             \
		uint32_t first_ = (call);                                                                    \
		if (first_ == LAPD_NO_MEMORY) {                                                              \
			refused++;                                                                               \
			first_ = (call);                                                                         \
		}                                                                                            \
		WANT(first_ == LAPD_DONE);                                                                   \
	} while (0)

static int arrived;

/* Passes the frame of a side to the other, and the answer back, until no frame is left. */
static void carry(lapd_side *from, lapd_side *to)
{
	uint8_t frame[LAPD_MOST_FRAME], octets[LAPD_MOST_FRAME];
	lapd_primitive delivered;
	lapd_side *other;
	size_t length, more;

	for (;;) {
		DONE(lapd_side_frame(from, frame, sizeof frame, &length));
		do {
			DONE(lapd_side_primitive(from, &delivered, octets, sizeof octets));
			arrived += delivered.kind == LAPD_DATA_IND;
		} while (delivered.kind != LAPD_NOTHING);
		if (length == 0)
			return;
		DONE(lapd_side_frame(from, octets, sizeof octets, &more));
		WANT(more == 0);
		TWICE(lapd_side_take(to, frame, length, 0));
		other = from;
		from = to;
		to = other;
	}
}

/* Makes several calls before it fetches: their frames wait, and are fetched once and in order. */
static void pile(lapd_side *side)
{
	uint8_t frame[LAPD_MOST_FRAME], octet;
	size_t length;

	for (octet = 0; octet < 50; octet++)
		TWICE(lapd_side_unit(side, 0, LAPD_GROUP_TEI, &octet, 1, 0));
	for (octet = 0; octet < 50; octet++) {
		DONE(lapd_side_frame(side, frame, sizeof frame, &length));
		WANT(length == 4 && frame[3] == octet);
	}
	DONE(lapd_side_frame(side, frame, sizeof frame, &length));
	WANT(length == 0);
}

static void converse(void)
{
	static const uint8_t message[] = "a message of some length";
	lapd_link_counters counters;
	lapd_side network = LAPD_SIDE_INIT, user = LAPD_SIDE_INIT;
	lapd_settings settings = LAPD_BASIC;
	const uint8_t tei = 3;
	int at;

	settings.sapi16 = 1;
	TWICE(lapd_side_network(&network, &settings, &tei, 1));
	TWICE(lapd_side_user(&user, &settings, LAPD_NO_TEI));
	TWICE(lapd_side_count(&user));
	DONE(lapd_side_establish(&user, 0, 0, 0));
	carry(&user, &network);
	for (at = 0; at < MESSAGES; at++) {
		TWICE(lapd_side_give(&user, 0, 0, message, sizeof message, 0));
		carry(&user, &network);
	}
	DONE(lapd_side_counters(&user, 0, 64, &counters));
	WANT(counters.sent == MESSAGES && counters.again == 0 && counters.received == 0);
	TWICE(lapd_side_unit(&network, 0, LAPD_GROUP_TEI, message, sizeof message, 0));
	carry(&network, &user);
	pile(&network);
	TWICE(lapd_side_network(&network, &settings, &tei, 1));
	lapd_side_free(&network);
	lapd_side_free(&user);
}

int main(void)
{
	for (refused_at = 1;; refused_at++) {
		asked = refused = arrived = 0;
		converse();
		WANT(arrived == MESSAGES);
		WANT(live == 0);
		if (refused == 0)
			break;
		WANT(refused == 1);
	}
	printf("no_memory: each of %ld requests was refused in turn\n", refused_at - 1);
	return 0;
}
