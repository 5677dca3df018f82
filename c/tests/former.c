/* A program that is compiled with the header of a former version, tests/former/lapd.h, and runs with
 * the shared library of this one. Behind each struct that the library writes are octets that no call
 * may change. */
#include "lapd.h"

#include <stdio.h>
#include <stdlib.h>
#include <string.h>

#define WANT(fact)                                                                                   \
	do {                                                                                             \
		if (!(fact)) {                                                                               \
			fprintf(stderr, "%s:%d: not so: %s\n", __FILE__, __LINE__, #fact);                       \
			exit(1);                                                                                 \
		}                                                                                            \
	} while (0)

#define DONE(call) WANT((call) == LAPD_DONE)

enum { BEHIND = 256 };

static struct {
	lapd_primitive item;
	uint8_t behind[BEHIND];
} fetched;

static struct {
	lapd_link_state link;
	uint8_t behind[BEHIND];
} state;

static struct {
	lapd_link_counters of_link;
	uint8_t behind[BEHIND];
} counters;

static struct {
	lapd_settings basic;
	uint8_t behind[BEHIND];
} settings = { LAPD_BASIC, { 0 } };

/* Sets all octets of a place, so that each one which a call writes is seen. */
#define FILL(place) memset(&(place), 0xa5, sizeof(place))

/* The octets after a struct are as they were set. */
static void is_kept(const uint8_t *behind)
{
	size_t at;

	for (at = 0; at < BEHIND; at++)
		WANT(behind[at] == 0xa5);
}

static void next(lapd_side *side, unsigned kind, size_t octets)
{
	uint8_t buffer[LAPD_MOST_FRAME];
	size_t left = 0;

	FILL(fetched);
	DONE(lapd_side_next(side, &fetched.item, buffer, sizeof buffer, &left));
	WANT(fetched.item.kind == kind && fetched.item.octets == octets && fetched.item.reserved == 0);
	is_kept(fetched.behind);
}

/* A terminal's link is established, and receives a message. */
static void a_link(lapd_side *side)
{
	DONE(lapd_side_count(side));
	DONE(lapd_side_take(side, (const uint8_t *)"\x02\x81\x7f", 3, 0));
	DONE(lapd_side_take(side, (const uint8_t *)"\x02\x81\x00\x00\x08\x01", 6, 0));
	next(side, LAPD_FRAME, 3);
	next(side, LAPD_FRAME, 4);
	next(side, LAPD_ESTABLISH_IND, 0);
	FILL(fetched);
	DONE(lapd_side_primitive(side, &fetched.item, (uint8_t[2]){ 0 }, 2));
	WANT(fetched.item.kind == LAPD_DATA_IND && fetched.item.octets == 2 && fetched.item.reserved == 0);
	is_kept(fetched.behind);
	next(side, LAPD_NOTHING, 0);
}

static void queries(lapd_side *side)
{
	uint64_t reserved[8] = { 0 };

	FILL(state);
	DONE(lapd_side_state(side, 0, 64, &state.link));
	WANT(state.link.state == 7 && state.link.vr == 1 && state.link.waiting == 0);
	WANT(memcmp(state.link.reserved, reserved, sizeof state.link.reserved) == 0);
	is_kept(state.behind);
	FILL(counters);
	DONE(lapd_side_counters(side, 0, 64, &counters.of_link));
	WANT(counters.of_link.received == 1 && counters.of_link.sent == 0 && counters.of_link.reports == 0);
	WANT(memcmp(counters.of_link.reserved, reserved, sizeof counters.of_link.reserved) == 0);
	is_kept(counters.behind);
}

int main(void)
{
	lapd_side side = LAPD_SIDE_INIT;

	memset(settings.behind, 0xa5, BEHIND);
	WANT(lapd_version() >= LAPD_VERSION);
	DONE(lapd_side_user(&side, &settings.basic, 64));
	a_link(&side);
	queries(&side);
	is_kept(settings.behind);
	lapd_side_free(&side);
	lapd_side_free(&side);
	printf("former: a program of version %s with the library of version %u.%u.%u\n", LAPD_VERSION_STRING,
	    lapd_version() / 10000, lapd_version() / 100 % 100, lapd_version() % 100);
	return 0;
}
