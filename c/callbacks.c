/* A data link with callbacks, as in libpri, over liblapd, which has none: some 60 lines to copy,
 * and a program that uses them. Each call passes something to the side, and then calls back with
 * all frames and primitives that wait. A call from within a callback only passes its argument in:
 * its results are queued after the rest. So callbacks are never nested, and keep the order. */
#include "lapd.h"

#include <stdbool.h>
#include <stdio.h>
#include <string.h>

/* ---- The wrapper. */

struct dl_callbacks {
	void (*write)(void *user, const uint8_t *frame, size_t length);
	void (*deliver)(void *user, const lapd_primitive *primitive, const uint8_t *octets);
};

struct dl {
	lapd_side side;
	struct dl_callbacks callbacks;
	void *user;
	bool calls_back;
};

static void dl_init(struct dl *dl, const struct dl_callbacks *callbacks, void *user)
{
	memset(dl, 0, sizeof *dl);
	dl->callbacks = *callbacks;
	dl->user = user;
}

/* Calls back with the next frame, or else with the next primitive; false if nothing waits. */
static bool dl_call_back(struct dl *dl)
{
	uint8_t octets[LAPD_MOST_FRAME];
	lapd_primitive item;
	size_t left;

	if (lapd_side_next(&dl->side, &item, octets, sizeof octets, &left) != LAPD_DONE || item.kind == LAPD_NOTHING)
		return false;
	if (item.kind == LAPD_FRAME)
		dl->callbacks.write(dl->user, octets, item.octets);
	else
		dl->callbacks.deliver(dl->user, &item, octets);
	return true;
}

/* Calls back with all that waits, unless a callback is running. Returns the call's code. */
static lapd_result dl_done(struct dl *dl, lapd_result code)
{
	if (dl->calls_back)
		return code;
	dl->calls_back = true;
	while (dl_call_back(dl))
		;
	dl->calls_back = false;
	return code;
}

static lapd_result dl_receive(struct dl *dl, const uint8_t *frame, size_t length, uint64_t now)
{
	return dl_done(dl, lapd_side_take(&dl->side, frame, length, now));
}

static lapd_result dl_establish(struct dl *dl, uint8_t sapi, uint8_t tei, uint64_t now)
{
	return dl_done(dl, lapd_side_establish(&dl->side, sapi, tei, now));
}

static lapd_result dl_send(struct dl *dl, uint8_t sapi, uint8_t tei, const uint8_t *message, size_t length, uint64_t now)
{
	return dl_done(dl, lapd_side_give(&dl->side, sapi, tei, message, length, now));
}

/* The moment for the next call of dl_schedule_run; LAPD_NEVER if none is needed. */
static uint64_t dl_schedule_next(struct dl *dl)
{
	uint64_t moment;

	lapd_side_deadline(&dl->side, &moment);
	return moment;
}

/* Expires the timers that are due. Pass every frame that had arrived by `now` to dl_receive first. */
static void dl_schedule_run(struct dl *dl, uint64_t now)
{
	uint8_t expired;

	do
		dl_done(dl, lapd_side_tick(&dl->side, now, &expired));
	while (expired);
}

/* ---- The program: a user side answers within a callback. The line calls the peer's dl_receive. */

struct end {
	struct dl dl;
	const char *name;
	struct end *peer;
	bool is_lost;
};

static void on_write(void *user, const uint8_t *frame, size_t length)
{
	struct end *end = user;
	size_t at;

	printf("%s ->", end->name);
	for (at = 0; at < length; at++)
		printf(" %02x", frame[at]);
	printf("%s\n", end->is_lost ? " (lost)" : "");
	if (!end->is_lost)
		dl_receive(&end->peer->dl, frame, length, 0);
}

static void on_deliver(void *user, const lapd_primitive *delivered, const uint8_t *octets)
{
	struct end *end = user;
	static const uint8_t setup[] = { 0x08, 0x01 };

	(void)octets;
	printf("%s: kind %u, TEI %u\n", end->name, delivered->kind, delivered->tei);
	if (delivered->kind == LAPD_ESTABLISH_CONF)
		dl_send(&end->dl, 0, delivered->tei, setup, sizeof setup, 0);
	if (delivered->kind == LAPD_DATA_IND)
		end->peer->is_lost = true;
}

int main(void)
{
	static const struct dl_callbacks callbacks = { on_write, on_deliver };
	static struct end network, user;
	lapd_settings settings = LAPD_BASIC;
	const uint8_t tei = 64;
	uint64_t next;

	dl_init(&network.dl, &callbacks, &network);
	dl_init(&user.dl, &callbacks, &user);
	network.name = "network";
	network.peer = &user;
	user.name = "user";
	user.peer = &network;
	if (lapd_side_network(&network.dl.side, &settings, &tei, 1) != LAPD_DONE
	    || lapd_side_user(&user.dl.side, &settings, tei) != LAPD_DONE)
		return 1;
	if (dl_establish(&user.dl, 0, tei, 0) != LAPD_DONE)
		return 1;
	while ((next = dl_schedule_next(&user.dl)) != LAPD_NEVER)
		dl_schedule_run(&user.dl, next);
	lapd_side_free(&user.dl.side);
	lapd_side_free(&network.dl.side);
	return 0;
}
