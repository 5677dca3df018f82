/* The cost of calls: `count WHAT N` repeats WHAT N times with sides in memory, and
 * `count many PAIRS EACH N` sends N messages over PAIRS pairs in turn. count.sh counts the
 * instructions of two runs. */
#define _POSIX_C_SOURCE 200809L

#include "count.h"

#include <string.h>

static struct pair {
	lapd_side network, user;
} pairs[MOST_PAIRS];
static lapd_settings settings = LAPD_BASIC;
static long arrived, acknowledged, frames;

static void fetch_told(lapd_side *side)
{
	uint8_t octets[LAPD_MOST_MESSAGE];
	lapd_primitive delivered;

	for (;;) {
		DONE(lapd_side_primitive(side, &delivered, octets, sizeof octets));
		if (delivered.kind == LAPD_NOTHING)
			return;
		arrived += delivered.kind == LAPD_DATA_IND;
		acknowledged += delivered.kind == LAPD_ACKNOWLEDGED;
	}
}

/* Carries frames from one side to the other and back until none is left, and fetches all
 * primitives. */
static void carry(lapd_side *from, lapd_side *to)
{
	uint8_t frame[LAPD_MOST_FRAME];
	lapd_side *other;
	size_t length;
	bool is_any;

	do {
		is_any = false;
		for (;;) {
			DONE(lapd_side_frame(from, frame, sizeof frame, &length));
			if (length == 0)
				break;
			DONE(lapd_side_take(to, frame, length, 0));
			is_any = true;
			frames++;
		}
		fetch_told(from);
		other = from;
		from = to;
		to = other;
	} while (is_any);
}

static inline void give(struct pair *pair)
{
	static const uint8_t octets[20] = { 0x08, 0x01, 0x01, 0x05 };

	DONE(lapd_side_give(&pair->user, 0, 0, octets, sizeof octets, 0));
}

/* Sends a message of 20 octets, and its RR. */
static void message(void)
{
	give(pairs);
	carry(&pairs->user, &pairs->network);
}

/* The same as `message`, but the first frame is fetched after seven messages. */
static void window_message(void)
{
	static long given;

	give(pairs);
	if (++given % 7 == 0)
		carry(&pairs->user, &pairs->network);
}

/* Fetches all that waits by lapd_side_next, and passes the frames to the other side, until none is
 * sent. */
static void carry_next(lapd_side *from, lapd_side *to)
{
	uint8_t octets[LAPD_MOST_FRAME];
	lapd_primitive item;
	bool is_any = false;
	size_t left;

	do {
		DONE(lapd_side_next(from, &item, octets, sizeof octets, &left));
		if (item.kind == LAPD_FRAME) {
			DONE(lapd_side_take(to, octets, item.octets, 0));
			is_any = true;
			frames++;
		}
		arrived += item.kind == LAPD_DATA_IND;
		acknowledged += item.kind == LAPD_ACKNOWLEDGED;
	} while (left > 0);
	if (is_any)
		carry_next(to, from);
}

/* The same as `message` or `window_message`, by lapd_side_next. */
static void send_messages(size_t pair, long each)
{
	long at;

	for (at = 0; at < each; at++)
		give(&pairs[pair]);
	carry_next(&pairs[pair].user, &pairs[pair].network);
}

/* Passes in an RR with P=1, and fetches the response. */
static void poll(void)
{
	static const uint8_t rr[] = { 0x00, 0x01, 0x01, 0x01 };
	uint8_t answer[4];
	size_t length;

	DONE(lapd_side_take(&pairs->network, rr, sizeof rr, 0));
	DONE(lapd_side_frame(&pairs->network, answer, sizeof answer, &length));
	WANT(length == 4 && answer[3] == 1);
}

/* Passes a frame to the network side, and fetches all results: their number. */
static void pass_in(const uint8_t *frame, size_t length, unsigned results)
{
	uint8_t octets[LAPD_MOST_FRAME];
	lapd_primitive item;
	size_t left;

	DONE(lapd_side_take(&pairs->network, frame, length, 0));
	do {
		DONE(lapd_side_next(&pairs->network, &item, octets, sizeof octets, &left));
		results--;
	} while (left > 0);
	WANT(results == 0);
}

/* Passes in DISC and SABME, and fetches each UA and what layer 3 gets. */
static void release(void)
{
	static const uint8_t disc[] = { 0x00, 0x01, 0x53 }, sabme[] = { 0x00, 0x01, 0x7f };

	pass_in(disc, sizeof disc, 2);
	pass_in(sabme, sizeof sabme, 2);
}

/* Before each eighth action, creates the network side again. */
static void renew_network(long at)
{
	if (at % 8 == 0)
		DONE(lapd_side_network(&pairs->network, &settings, NULL, 0));
}

/* The same. Then requests a TEI by an Identity Request, with another Ri each time. */
static void assign(long at)
{
	uint8_t request[] = { 0xfc, 0xff, 0x03, 0x0f, 0x00, 0x00, 0x01, 0xff };

	renew_network(at);
	request[4] = (uint8_t)(at >> 8);
	request[5] = (uint8_t)at;
	pass_in(request, sizeof request, 2);
}

/* Sends a message whose frame is lost. */
static void lose_message(void)
{
	uint8_t octets[LAPD_MOST_FRAME];
	size_t length;

	give(pairs);
	DONE(lapd_side_frame(&pairs->user, octets, sizeof octets, &length));
	frames++;
}

/* Loses a message. After the next one it is rejected, and both are sent again. */
static void reject(void)
{
	lose_message();
	send_messages(0, 1);
}

/* Loses a message. T200 expires, and the message is sent again after an enquiry. */
static void expire(void)
{
	uint8_t expired;

	lose_message();
	DONE(lapd_side_tick(&pairs->user, settings.t200, &expired));
	carry_next(&pairs->user, &pairs->network);
}

/* Creates a network side with 254 links and establishes each, so that its T203 runs. */
static void establish_all(void)
{
	uint8_t teis[127], sabme[] = { 0, 0, 0x7f }, octets[LAPD_MOST_FRAME];
	size_t length;
	int at;

	for (at = 0; at < 127; at++)
		teis[at] = (uint8_t)at;
	settings.sapi16 = 1;
	DONE(lapd_side_network(&pairs->network, &settings, teis, 127));
	for (at = 0; at < 254; at++) {
		sabme[0] = at % 2 == 0 ? 0 : 16 << 2;
		sabme[1] = (uint8_t)(at / 2 << 1 | 1);
		DONE(lapd_side_take(&pairs->network, sabme, sizeof sabme, 0));
		DONE(lapd_side_frame(&pairs->network, octets, sizeof octets, &length));
		WANT(length == 3 && octets[2] == 0x73);
		fetch_told(&pairs->network);
	}
}

static void make_pair(size_t pair)
{
	static const uint8_t tei = 0;

	DONE(lapd_side_network(&pairs[pair].network, &settings, &tei, 1));
	DONE(lapd_side_user(&pairs[pair].user, &settings, tei));
	DONE(lapd_side_establish(&pairs[pair].user, 0, 0, 0));
	carry(&pairs[pair].user, &pairs[pair].network);
	frames = 0;
}

/* Makes one pair, and repeats an action. */
static void repeat(const char *what, long times)
{
	uint64_t moment;
	uint8_t expired;
	long at;

	make_pair(0);
	if (strcmp(what, "deadline_of_254") == 0)
		establish_all();
	for (at = 0; at < times; at++)
		switch (what[0]) {
		case 'm': message(); break;
		case 'w': window_message(); break;
		case 'n': send_messages(0, 1); break;
		case 'p': poll(); break;
		case 't': DONE(lapd_side_tick(&pairs->network, 1, &expired)); break;
		case 'd': DONE(lapd_side_deadline(&pairs->network, &moment)); break;
		case 'r': release(); break;
		case 'f': renew_network(at); break;
		case 'a': assign(at); break;
		case 'l': reject(); break;
		case 'e': expire(); break;
		}
}

int main(int count, char **words)
{
	long times = count > 2 ? atol(words[count - 1]) : 0;
	bool is_many = count == 5 && strcmp(words[1], "many") == 0;
	size_t at;

	WANT(times > 0 && (is_many || (count == 3 && strchr("mwnptdrfale", words[1][0]) != NULL)));
	if (is_many || words[1][0] == 'w' || words[1][0] == 'l')
		settings = (lapd_settings)LAPD_PRIMARY;
	if (is_many)
		count_many((size_t)atol(words[2]), atol(words[3]), times);
	else
		repeat(words[1], times);
	WANT(arrived == acknowledged && (strchr("mwn", words[1][0]) == NULL || (arrived == times && frames == 2 * times)));
	WANT(words[1][0] != 'l' || (arrived == 2 * times && frames == 7 * times));
	WANT(words[1][0] != 'e' || (arrived == times && frames == 5 * times));
	for (at = 0; at < MOST_PAIRS; at++) {
		lapd_side_free(&pairs[at].user);
		lapd_side_free(&pairs[at].network);
	}
	return 0;
}
