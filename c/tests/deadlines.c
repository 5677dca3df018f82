/* Tests parts of many.c with a clock of its own: the heap keeps the earliest deadline first, a side
 * receives what has arrived before its timers expire, and a line whose descriptor is closed and
 * opened again is served. */
#define main many_main
#define clock_now test_clock
#include "../many.c"
#undef main

#include "test.h"

#include <sys/un.h>

#define ENDS 100
#define MOVES 100000
#define LINE "out/deadlines.sock"

static uint64_t moment;

uint64_t test_clock(void)
{
	return moment;
}

/* No end is before its parent, and each knows its place. */
static bool is_heap(void)
{
	size_t at;

	for (at = 0; at < count; at++)
		if (heap[at]->place != at || heap[(at - (at > 0)) / 2]->deadline > heap[at]->deadline)
			return false;
	return true;
}

static void test_heap(void)
{
	uint32_t drawn = 1;
	size_t at;

	for (at = 0; at < MOVES; at++) {
		drawn = drawn * 1664525 + 1013904223;
		set_deadline(&ends[(drawn >> 8) % ENDS], drawn >> 31 != 0 ? LAPD_NEVER : drawn >> 24);
		WANT(is_heap());
	}
	for (at = 0; at < count; at++)
		set_deadline(&ends[at], LAPD_NEVER);
}

/* A UA has arrived in time, and the program is held up until after T200. Then a DISC is lost. */
static void test_order(void)
{
	check(lapd_side_establish(&ends[1].side, 0, 0, moment), "establish");
	settle(&ends[1]);
	WANT(heap[0] == &ends[1] && heap[0]->deadline == 1000 && wait_time(1000, moment) == 1000);
	receive(&ends[0]);
	moment = 1500;
	WANT(wait_time(1000, moment) == 0 && established == 1);
	expire(&ends[1]);
	WANT(established == 2 && expiries == 0 && errors == 0 && frames == 2);

	check(lapd_side_release(&ends[1].side, 0, 0, moment), "release");
	lost = 3; /* the DISC, the third frame */
	settle(&ends[1]);
	releases = true;
	moment = 2600;
	serve();
	WANT(expiries == 1 && frames == 4 && released == 0);
	serve();
	serve();
	WANT(released == 2 && expiries == 1 && heap[0]->deadline == LAPD_NEVER && wait_time(LAPD_NEVER, moment) == -1);
}

/* Connects to the line, and sends a SABME. */
static int connected(void)
{
	static const uint8_t sabme[] = { 0x01, 0x00, 0x00, 0x01, 0x7f };
	struct sockaddr_un address = { .sun_family = AF_UNIX, .sun_path = LINE };
	int peer = socket(AF_UNIX, SOCK_SEQPACKET, 0);

	if (connect(peer, (const struct sockaddr *)&address, sizeof address) != 0)
		fail("connect");
	if (send(peer, sabme, sizeof sabme, 0) != sizeof sabme)
		fail("send");
	return peer;
}

/* A connection is lost and the next one made before the line is served: its descriptor has the same
 * number. The epoll must wait for the new one. */
static void test_line(void)
{
	static const uint8_t ua[] = { 0x01, 0x00, 0x00, 0x01, 0x73 };
	char *words[] = { "net", "unix:" LINE };
	uint8_t octets[LAPD_MOST_FRAME];
	int peer, turn, socket = -1;

	open_lines(words);
	for (turn = 0; turn < 3; turn++) {
		peer = connected();
		serve();
		WANT(socket < 0 || ends[0].wait.fd == socket);
		socket = ends[0].wait.fd;
		WANT(recv(peer, octets, sizeof octets, MSG_DONTWAIT) == sizeof ua && memcmp(octets, ua, sizeof ua) == 0);
		close(peer);
	}
	serve();
	WANT(ends[0].wait.fd != socket && established == 1 && errors == 2);
}

int main(void)
{
	count = ENDS;
	open_all();
	open_pairs();
	test_heap();
	test_order();
	close_all();
	count = 1;
	established = errors = lost = 0;
	open_all();
	test_line();
	close_all();
	(void)many_main;
	printf("deadlines: a heap after each of %d moves, frames before timers, and the descriptors of a line\n", MOVES);
	return 0;
}
