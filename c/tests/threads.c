/* Pairs of sides that the main thread creates and frees, and that other threads use one after
 * another: each pair passes from thread to thread, by start and join, in the middle of its
 * messages. */
#include "test.h"

#include <pthread.h>

#define PAIRS 4
#define TURNS 3
#define MESSAGES 1000

struct pair {
	lapd_side network, user;
	int arrived;
};

static void carry(struct pair *pair)
{
	uint8_t frame[LAPD_MOST_FRAME], octets[LAPD_MOST_FRAME];
	lapd_side *from = &pair->user, *to = &pair->network, *other;
	lapd_primitive delivered;
	size_t length, more;

	for (;;) {
		DONE(lapd_side_frame(from, frame, sizeof frame, &length));
		do {
			DONE(lapd_side_primitive(from, &delivered, octets, sizeof octets));
			pair->arrived += delivered.kind == LAPD_DATA_IND;
		} while (delivered.kind != LAPD_NOTHING);
		if (length == 0)
			return;
		DONE(lapd_side_frame(from, octets, sizeof octets, &more));
		WANT(more == 0);
		DONE(lapd_side_take(to, frame, length, 0));
		other = from;
		from = to;
		to = other;
	}
}

static void *converse(void *argument)
{
	static const uint8_t message[] = { 0x08, 0x01 };
	struct pair *pair = argument;
	int at;

	for (at = 0; at < MESSAGES; at++) {
		DONE(lapd_side_give(&pair->user, 0, 0, message, sizeof message, 0));
		carry(pair);
	}
	return NULL;
}

int main(void)
{
	static struct pair pairs[PAIRS];
	pthread_t threads[PAIRS];
	lapd_settings settings = LAPD_BASIC;
	const uint8_t tei = 64;
	int at, round;

	for (at = 0; at < PAIRS; at++) {
		DONE(lapd_side_network(&pairs[at].network, &settings, &tei, 1));
		DONE(lapd_side_user(&pairs[at].user, &settings, tei));
		DONE(lapd_side_establish(&pairs[at].user, 0, 0, 0));
		carry(&pairs[at]);
	}
	for (round = 0; round < TURNS; round++) {
		for (at = 0; at < PAIRS; at++)
			WANT(pthread_create(&threads[at], NULL, converse, &pairs[at]) == 0);
		for (at = 0; at < PAIRS; at++)
			WANT(pthread_join(threads[at], NULL) == 0);
	}
	for (at = 0; at < PAIRS; at++) {
		WANT(pairs[at].arrived == TURNS * MESSAGES);
		lapd_side_free(&pairs[at].network);
		lapd_side_free(&pairs[at].user);
	}
	printf("threads: %d messages of each of %d pairs, over %d threads each\n", TURNS * MESSAGES, PAIRS, TURNS);
	return 0;
}
