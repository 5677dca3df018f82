/* A network side and a user side of one interface, in memory. Read this first: the user side
 * requests a TEI, its link is established, a message is sent each way, and the link is released.
 *
 * With two lines, as in `two_sides dahdi:16 dahdi:47`, each frame is sent by a D channel: the network
 * side has the line of the first text, and the user side that of the second. */
#include "example.h"

#include <stdio.h>

struct end {
	lapd_side side;
	const char *name;
	lapd_line *line; /* NULL: frames are carried in memory */
};

/* Prints the primitives that a side reports to its layer 3. */
static void print_primitives(struct end *end)
{
	lapd_primitive primitive;
	uint8_t octets[LAPD_MOST_MESSAGE];

	for (;;) {
		check(lapd_side_primitive(&end->side, &primitive, octets, sizeof octets), "primitive");
		switch (primitive.kind) {
		case LAPD_NOTHING:
			return;
		case LAPD_DATA_IND:
			printf("%s: message \"%.*s\"\n", end->name, (int)primitive.octets, (const char *)octets);
			break;
		case LAPD_ACKNOWLEDGED:
			printf("%s: %u acknowledged\n", end->name, primitive.count);
			break;
		default:
			printf("%s: kind %u of SAPI %u, TEI %u\n", end->name, primitive.kind, primitive.sapi, primitive.tei);
		}
	}
}

/* Carries frames between the two, one at a time, until none is left. Each call here sends at most
 * one frame. No frame is lost, so no timer is needed: the time is always 0. */
static void carry(struct end *from, struct end *to)
{
	uint8_t frame[LAPD_LINE_MOST_FRAME], none[LAPD_MOST_FRAME];
	size_t length, more;

	for (;;) {
		struct end *other = from;

		check(lapd_side_frame(&from->side, frame, sizeof frame, &length), "frame");
		print_primitives(from);
		if (length == 0)
			return;
		check(lapd_side_frame(&from->side, none, sizeof none, &more), "no second frame");
		if (from->line != NULL)
			length = carried(from->line, to->line, frame, length);
		check(lapd_side_take(&to->side, frame, length, 0), "take");
		from = to;
		to = other;
	}
}

int main(int count, char **words)
{
	static const uint8_t no_tei = 0, setup[] = "SETUP", proceeding[] = "CALL PROCEEDING";
	struct end network = { LAPD_SIDE_INIT, "network", NULL }, user = { LAPD_SIDE_INIT, "user", NULL };
	lapd_settings settings = LAPD_BASIC;

	if (count == 3) {
		network.line = opened(words[1]);
		user.line = opened(words[2]);
	}
	settings.seed = 921;
	check(lapd_side_network(&network.side, &settings, &no_tei, 0), "network");
	check(lapd_side_user(&user.side, &settings, LAPD_NO_TEI), "user");

	check(lapd_side_establish(&user.side, 0, 0, 0), "establish");
	carry(&user, &network);
	check(lapd_side_give(&user.side, 0, 0, setup, sizeof setup - 1, 0), "give");
	carry(&user, &network);
	check(lapd_side_give(&network.side, 0, 64, proceeding, sizeof proceeding - 1, 0), "give");
	carry(&network, &user);
	check(lapd_side_release(&user.side, 0, 0, 0), "release");
	carry(&user, &network);

	lapd_side_free(&user.side);
	lapd_side_free(&network.side);
	lapd_line_close(user.line);
	lapd_line_close(network.line);
	return 0;
}
