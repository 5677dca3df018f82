/* One side of an interface on a D channel, with the real clock: `terminal net|user LINE [basic]`. LINE
 * is a text of lapd_line.h, such as dahdi:16, misdn:0:te or tcp:127.0.0.1:4000.
 *
 * When layer 1 is up, the user side establishes the link, sends a message, and releases the link
 * when the message is acknowledged. Each side ends when its link is released, by either side or
 * because the other one does not answer. So the network side ends at most 18 s after layer 1 or the
 * connection was lost, unless it is up again. The status is 0 if the message arrived.
 *
 * The interface is of primary rate, with SAPI 0 and TEI 0. With `basic` it is basic access: the user
 * side requests a TEI from the network. */
#define _DEFAULT_SOURCE /* getrandom */

#include "example.h"

#include <stdbool.h>
#include <stdio.h>
#include <string.h>
#include <sys/random.h>

#define MOST_EVENTS 4096 /* of the line before timers are served: a flood cannot stop timers */

struct terminal {
	lapd_side side;
	lapd_line *line;
	bool is_network, is_requested;
	bool is_sent, has_arrived, is_released; /* the message, the link */
};

/* Sends the message of the user side, if it has not been sent or was dropped. */
static size_t send_message(struct terminal *t, uint8_t tei)
{
	static const uint8_t setup[] = { 0x08, 0x01 };

	if (t->is_network || t->is_sent)
		return 0;
	check(lapd_side_give(&t->side, 0, tei, setup, sizeof setup, clock_now()), "give");
	t->is_sent = true;
	return 1;
}

/* Layer 3: the user side sends a message once the link is established, and then releases the link. If
 * the other side establishes the link again meanwhile, the message is dropped, and sent again.
 * Returns how many calls it has made, whose frames wait too. */
static size_t answer(struct terminal *t, const lapd_primitive *item)
{
	switch (item->kind) {
	case LAPD_ESTABLISH_IND:
	case LAPD_ESTABLISH_CONF:
		return send_message(t, item->tei);
	case LAPD_DROPPED:
		t->is_sent = t->has_arrived;
		return 0;
	case LAPD_ACKNOWLEDGED:
		t->has_arrived = true;
		check(lapd_side_release(&t->side, 0, item->tei, clock_now()), "release");
		return 1;
	case LAPD_DATA_IND:
		t->has_arrived = true;
		return 0;
	case LAPD_RELEASE_IND:
	case LAPD_RELEASE_CONF:
		t->is_released = true;
		return 0;
	default:
		return 0;
	}
}

/* Sends the frames of the calls so far, and passes what they report to layer 3. */
static void send_and_report(struct terminal *t)
{
	uint8_t octets[LAPD_MOST_FRAME];
	lapd_primitive item;
	size_t left;

	do {
		check(lapd_side_next(&t->side, &item, octets, sizeof octets, &left), "next");
		if (item.kind == LAPD_FRAME) {
			lapd_line_send(t->line, octets, item.octets); /* one that is dropped is sent again by T200 */
		} else if (item.kind != LAPD_NOTHING) {
			print_primitive(lapd_line_name(t->line), &item);
			left += answer(t, &item);
		}
	} while (left > 0);
}

/* Layer 1 is up: the user side establishes the link, the first time. If layer 1 was down meanwhile,
 * the link recovers by its timers, or is released. */
static void start(struct terminal *t)
{
	if (t->is_network || t->is_requested)
		return;
	t->is_requested = true;
	check(lapd_side_establish(&t->side, 0, 0, clock_now()), "establish");
}

/* Passes in every frame that has arrived. Returns a moment for which timers may expire: no other
 * frame had arrived by then. */
static uint64_t receive(struct terminal *t)
{
	uint8_t frame[LAPD_LINE_MOST_FRAME];
	uint64_t now = clock_now();
	enum lapd_line_event event;
	size_t length;
	int left;

	for (left = MOST_EVENTS; left > 0 && !t->is_released; left--) {
		event = lapd_line_next(t->line, frame, sizeof frame, &length);
		if (event == LAPD_LINE_NOTHING)
			break;
		if (event == LAPD_LINE_FRAME)
			check(lapd_side_take(&t->side, frame, length, now), "take");
		else
			print_event(t->line, event);
		if (event == LAPD_LINE_UP)
			start(t);
		send_and_report(t);
		now = clock_now();
	}
	return now;
}

/* Waits until something happens on the line, or a timer is due. */
static void wait_for_line(struct terminal *t)
{
	struct pollfd wait;
	uint64_t moment;
	int most = lapd_line_prepare(t->line, &wait);

	check(lapd_side_deadline(&t->side, &moment), "deadline");
	poll(&wait, 1, shorter(most, wait_time(moment, clock_now())));
}

static void open_side(struct terminal *t, bool is_basic)
{
	const lapd_settings basic = LAPD_BASIC, primary = LAPD_PRIMARY;
	lapd_settings settings = is_basic ? basic : primary;
	const uint8_t tei = 0;

	if (getrandom(&settings.seed, sizeof settings.seed, 0) < 0)
		fail("getrandom");
	if (t->is_network)
		check(lapd_side_network(&t->side, &settings, &tei, is_basic ? 0 : 1), "network");
	else
		check(lapd_side_user(&t->side, &settings, is_basic ? LAPD_NO_TEI : tei), "user");
}

int main(int count, char **words)
{
	struct terminal t = { .side = LAPD_SIDE_INIT };
	bool is_basic = count == 4 && strcmp(words[3], "basic") == 0;
	uint8_t expired;

	t.is_network = count > 1 && strcmp(words[1], "net") == 0;
	if (count != 3 + is_basic || (!t.is_network && strcmp(words[1], "user") != 0)) {
		fprintf(stderr, "usage: terminal net|user LINE [basic]\n");
		return 2;
	}
	open_side(&t, is_basic);
	t.line = opened(words[2]);
	while (!t.is_released) {
		check(lapd_side_tick(&t.side, receive(&t), &expired), "tick");
		send_and_report(&t);
		if (!expired && !t.is_released)
			wait_for_line(&t);
	}
	lapd_side_free(&t.side);
	close_line(t.line);
	return t.has_arrived ? 0 : 1;
}
