/* A side answers each request of layer 3 in time, whatever its peer sends: `answered SEED N` makes N
 * requests of a user side, which receives frames drawn at random, and expires its timers when they
 * are due. With the values of Q.921, DL-ESTABLISH request is answered after 4 s at the latest, and
 * after 8 s if the release was requested too, and so is DL-RELEASE request; 6 s later if the terminal
 * has no TEI. Prints how long the longest of each kind took. */
#include "test.h"

static lapd_side side;
static uint64_t state, now;
static enum { NOTHING, ESTABLISHMENT, WITHDRAWAL, CLEARING, KINDS } asked;
static const char *const names[KINDS] = { "", "establish", "establish and release", "release" };
static uint64_t asked_at, longest[KINDS][2]; /* with a TEI, and without */
static bool had_no_tei;

static unsigned drawn(unsigned below)
{
	state ^= state << 13;
	state ^= state >> 7;
	state ^= state << 17;
	return (unsigned)(state % below);
}

/* The longest time until the answer, in milliseconds. */
static uint64_t most(void)
{
	return (asked == ESTABLISHMENT ? 4000 : 8000) + (had_no_tei ? 6000 : 0);
}

static bool is_answer(uint8_t kind)
{
	switch (kind) {
	case LAPD_ESTABLISH_CONF: return asked == ESTABLISHMENT || asked == WITHDRAWAL;
	case LAPD_RELEASE_IND: return asked == ESTABLISHMENT || asked == WITHDRAWAL;
	case LAPD_RELEASE_CONF: return asked == WITHDRAWAL || asked == CLEARING;
	default: return false;
	}
}

static void fetch_all(void)
{
	uint8_t buffer[LAPD_MOST_FRAME];
	lapd_primitive item;
	size_t left;

	do {
		DONE(lapd_side_next(&side, &item, buffer, sizeof buffer, &left));
		if (item.kind == LAPD_FRAME || !is_answer(item.kind))
			continue;
		WANT(now - asked_at <= most());
		if (now - asked_at > longest[asked][had_no_tei])
			longest[asked][had_no_tei] = now - asked_at;
		asked = NOTHING;
	} while (left > 0);
}

/* Octets that the network might send: frames of the link with any control field, messages of TEI
 * management, and any octets. */
static void receive(void)
{
	static const uint8_t controls[] = { 0x7f, 0x6f, 0x73, 0x63, 0x1f, 0x0f, 0x53, 0x43 };
	uint8_t octets[12] = { 0x02, 0x81, 0, 0 };
	size_t length = 3, at;

	switch (drawn(4)) {
	case 0:
		for (at = 0; at < sizeof octets; at++)
			octets[at] = (uint8_t)drawn(256);
		length = drawn(sizeof octets + 1);
		break;
	case 1:
		octets[2] = (uint8_t)(drawn(3) * 4 + 1 + drawn(2) * 256);
		octets[3] = (uint8_t)drawn(256);
		length = 4;
		octets[0] = drawn(2) ? 0x02 : 0x00;
		break;
	case 2:
		octets[0] = 0xfe;
		octets[1] = 0xff;
		octets[2] = 0x03;
		octets[3] = 0x0f;
		octets[4] = (uint8_t)drawn(256);
		octets[5] = (uint8_t)drawn(256);
		octets[6] = (uint8_t)(1 + drawn(7));
		octets[7] = drawn(2) ? 0x81 : (uint8_t)(drawn(128) * 2 + 1);
		length = 8;
		break;
	default:
		octets[0] = drawn(2) ? 0x02 : 0x00;
		octets[2] = controls[drawn(sizeof controls)];
	}
	DONE(lapd_side_take(&side, octets, length, now));
	fetch_all();
}

static void expire(void)
{
	uint8_t expired;

	do {
		DONE(lapd_side_tick(&side, now, &expired));
		fetch_all();
	} while (expired);
	WANT(asked == NOTHING || now - asked_at < most());
}

/* Receives frames and expires timers for so long. A frame is received once in some `pause` ms. */
static void run(uint64_t ms, unsigned pause)
{
	uint64_t end = now + ms, deadline, frame = now + drawn(pause) + 1;

	while (now < end) {
		DONE(lapd_side_deadline(&side, &deadline));
		now = deadline < frame ? deadline : frame;
		if (now > end)
			now = end;
		if (now == frame) {
			receive();
			frame = now + drawn(pause) + 1;
		}
		expire();
	}
}

static void ask(void)
{
	uint8_t terminal, tei;
	bool release = drawn(3) == 0;

	DONE(lapd_side_tei(&side, &terminal, &tei));
	if (asked == NOTHING) {
		had_no_tei = tei == LAPD_NO_TEI;
		asked_at = now;
	}
	if (release) {
		uint32_t code = lapd_side_release(&side, 0, 0, now);

		if (code == LAPD_DONE && asked == NOTHING)
			asked = CLEARING;
		else if (code == LAPD_DONE && asked == ESTABLISHMENT)
			asked = WITHDRAWAL;
	} else if (asked == NOTHING && lapd_side_establish(&side, 0, 0, now) == LAPD_DONE) {
		asked = ESTABLISHMENT;
	}
	fetch_all();
}

int main(int count, char **words)
{
	static const unsigned pauses[] = { 200, 1500, 30000 };
	long requests = count == 3 ? atol(words[2]) : 0, at;
	lapd_settings settings = LAPD_BASIC;
	int kind;

	WANT(requests > 0);
	state = (strtoull(words[1], NULL, 10) + 1) * 0x9e3779b97f4a7c15u;
	settings.seed = state;
	for (at = 0; at < requests; at++) {
		if (at % 1000 == 0) {
			DONE(lapd_side_user(&side, &settings, drawn(2) ? 64 : LAPD_NO_TEI));
			asked = NOTHING;
		}
		ask();
		run(drawn(3) ? drawn(3000) : drawn(20000), pauses[drawn(3)]);
	}
	lapd_side_free(&side);
	printf("answered: %ld requests", requests);
	for (kind = ESTABLISHMENT; kind < KINDS; kind++)
		printf("; %s in %lu ms at most, without a TEI %lu", names[kind], (unsigned long)longest[kind][0],
				(unsigned long)longest[kind][1]);
	printf("\n");
	return 0;
}
