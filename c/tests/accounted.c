/* Every message that a link accepted is acknowledged, is dropped, or waits: `accounted SEED N` makes
 * N calls of a user side, whose peer sends frames drawn at random, and compares after each call the
 * messages accepted with those reported as acknowledged or dropped and with `waiting`. Prints how
 * many there were of each. */
#include "test.h"

static lapd_side side;
static uint64_t state, now;
static unsigned long accepted, acknowledged, dropped;

static unsigned drawn(unsigned below)
{
	state ^= state << 13;
	state ^= state >> 7;
	state ^= state << 17;
	return (unsigned)(state % below);
}

static void fetch_all(void)
{
	uint8_t buffer[LAPD_MOST_FRAME];
	lapd_primitive item;
	size_t left;

	do {
		DONE(lapd_side_next(&side, &item, buffer, sizeof buffer, &left));
		if (item.kind == LAPD_ACKNOWLEDGED)
			acknowledged += item.count;
		else if (item.kind == LAPD_DROPPED)
			dropped += item.count;
	} while (left > 0);
}

static lapd_link_state link_state(void)
{
	lapd_link_state link;

	DONE(lapd_side_state(&side, 0, 64, &link));
	return link;
}

/* A frame of the network with any control field, or with an N(R) that acknowledges up to all. */
static void receive(void)
{
	static const uint8_t unnumbered[] = { 0x7f, 0x6f, 0x73, 0x63, 0x1f, 0x0f, 0x53, 0x43 };
	lapd_link_state link = link_state();
	unsigned outstanding = (link.vs + 128u - link.va) % 128, kind = drawn(8);
	uint8_t octets[5] = { 0x02, 0x81, 0, 0, 7 };
	size_t length = 4;

	octets[3] = (uint8_t)((link.va + drawn(outstanding + 1)) % 128 * 2 + drawn(2));
	if (kind < 4) { /* RR, RNR or REJ, a command or a response */
		octets[0] = drawn(2) ? 0x02 : 0x00;
		octets[2] = (uint8_t)(kind == 3 ? 1 : drawn(3) * 4 + 1);
	} else if (kind < 6) { /* an I frame, mostly the next one */
		octets[2] = (uint8_t)((link.vr + (drawn(8) ? 0 : drawn(4))) % 128 * 2);
		length = 5;
	} else if (kind < 7) {
		octets[0] = drawn(2) ? 0x02 : 0x00;
		octets[2] = unnumbered[drawn(drawn(4) ? 4 : sizeof unnumbered)];
		length = 3;
	} else { /* the answer that an end in state 5 or 6 awaits */
		octets[0] = 0x00;
		octets[2] = 0x73;
		length = 3;
	}
	if (kind >= 4 && kind < 6)
		octets[0] = 0x02;
	DONE(lapd_side_take(&side, octets, length, now));
}

static void call(void)
{
	static const uint8_t message[] = { 8, 1, 1, 5 };
	uint64_t deadline;
	uint8_t expired;

	switch (drawn(8)) {
	case 0:
		lapd_side_establish(&side, 0, 0, now);
		break;
	case 1:
		if (drawn(20) == 0)
			lapd_side_release(&side, 0, 0, now);
		break;
	case 2:
	case 3:
	case 4:
		if (lapd_side_give(&side, 0, 0, message, sizeof message, now) == LAPD_DONE)
			accepted++;
		break;
	case 5:
		DONE(lapd_side_deadline(&side, &deadline));
		if (deadline != UINT64_MAX && drawn(3) == 0)
			now = deadline;
		DONE(lapd_side_tick(&side, now, &expired));
		break;
	default:
		receive();
	}
	fetch_all();
	WANT(accepted == acknowledged + dropped + link_state().waiting);
}

int main(int count, char **words)
{
	long calls = count == 3 ? atol(words[2]) : 0, at;
	lapd_settings settings = LAPD_BASIC;

	WANT(calls > 0);
	state = (strtoull(words[1], NULL, 10) + 1) * 0x9e3779b97f4a7c15u;
	DONE(lapd_side_user(&side, &settings, 64));
	for (at = 0; at < calls; at++)
		call();
	WANT(acknowledged > 0 && dropped > 0);
	printf("accounted: %lu messages accepted, %lu acknowledged, %lu dropped, %u wait\n", accepted,
			acknowledged, dropped, link_state().waiting);
	lapd_side_free(&side);
	return 0;
}
