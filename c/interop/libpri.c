/* liblapd and libpri in one process, over a socket pair, in a `poll` loop with the real clock.
 * `libpri basic|primary net|user` runs our network side or our user side of that interface, and
 * libpri as the other side. It takes some 75 seconds and prints rows; its status is 1 if a row says
 * no. */
#include "common.h"
#include "libpri_end.h"

#include <poll.h>
#include <stdio.h>
#include <string.h>
#include <sys/socket.h>

#define OUR_T203 3000
#define LIBPRI_T203 1500
#define LONG_T203 60000
#define POLLING 30000

static bool is_primary, we_are_network;
static struct pri *pri;
static lapd_side side = LAPD_SIDE_INIT;
static struct tcp_line our_line;
static int their_line;
static uint8_t tei; /* of the link: 0, or the assigned TEI */
static bool we_lose, they_lose; /* the next I frame is lost */
static struct {
	int teis, established, reports; /* primitives for our layer 3 */
	int setups, broadcast_setups, clears; /* messages of libpri */
	int up, rings, hangups; /* events of libpri */
	int our_polls, our_answers, their_polls, their_answers, rejects;
} seen;

/* ---- The line. */

static bool is_answer(const uint8_t *frame, size_t length, bool network)
{
	return length == 4 && (frame[2] & 3) == 1 && (frame[3] & 1) == 1 && !is_poll(frame, length, network);
}

static void send_frame(const uint8_t *frame, size_t length)
{
	bool is_lost = we_lose && is_i_frame(frame, length);

	trace(frame, length, we_are_network, is_lost ? " (lost)" : "");
	seen.our_polls += is_poll(frame, length, we_are_network);
	seen.our_answers += is_answer(frame, length, we_are_network);
	if (is_lost)
		we_lose = false;
	else
		write_frame(our_line.socket, frame, length);
}

/* ---- Our layer 3. */

/* The index of the message type: after the protocol discriminator and the call reference. */
static size_t type_at(const uint8_t *message, size_t length)
{
	return length >= 2 && message[0] == 8 && 2 + (size_t)(message[1] & 15) < length ? 2 + (size_t)(message[1] & 15) : 0;
}

/* Sends RELEASE COMPLETE, user busy, for the call of a message: the same call reference with the
 * flag inverted. */
static void refuse_call(const uint8_t *message)
{
	static const uint8_t busy[] = { 0x5a, 0x08, 0x02, 0x80, 0x91 };
	uint8_t answer[32];
	size_t at = type_at(message, 32);

	memcpy(answer, message, at);
	answer[2] ^= 0x80;
	memcpy(answer + at, busy, sizeof busy);
	check(lapd_side_give(&side, 0, tei, answer, at + sizeof busy, clock_now()), "give");
}

static void count_message(const lapd_primitive *delivered, const uint8_t *message)
{
	size_t at = type_at(message, delivered->octets);

	if (at == 0)
		return;
	seen.clears += message[at] == 0x5a || message[at] == 0x4d;
	if (message[at] != 0x05)
		return;
	seen.setups += delivered->kind == LAPD_DATA_IND;
	seen.broadcast_setups += delivered->kind == LAPD_UNIT_DATA_IND && delivered->tei == LAPD_GROUP_TEI;
	refuse_call(message);
}

/* Sends a SETUP with bearer capability speech, a channel and the called number 200. */
static void give_setup(uint8_t reference)
{
	static const uint8_t bearer[] = { 0x05, 0x04, 0x03, 0x80, 0x90, 0xa3 };
	static const uint8_t basic[] = { 0x18, 0x01, 0x8a }, primary[] = { 0x18, 0x03, 0xa9, 0x83, 0x85 };
	static const uint8_t called[] = { 0x70, 0x04, 0x81, 0x32, 0x30, 0x30 };
	uint8_t message[64] = { 0x08 };
	size_t length = 2, at;

	message[1] = is_primary ? 2 : 1;
	if (is_primary)
		message[length++] = 0;
	message[length++] = reference;
	for (at = 0; at < sizeof bearer; at++)
		message[length++] = bearer[at];
	for (at = 0; at < (is_primary ? sizeof primary : sizeof basic); at++)
		message[length++] = is_primary ? primary[at] : basic[at];
	for (at = 0; at < sizeof called; at++)
		message[length++] = called[at];
	check(lapd_side_give(&side, 0, tei, message, length, clock_now()), "give");
}

static void fetch(void)
{
	uint8_t octets[LAPD_MOST_FRAME];
	lapd_primitive delivered;
	size_t length;

	for (;;) {
		check(lapd_side_frame(&side, octets, sizeof octets, &length), "frame");
		if (length > 0) {
			send_frame(octets, length);
			continue;
		}
		check(lapd_side_primitive(&side, &delivered, octets, sizeof octets), "primitive");
		if (delivered.kind == LAPD_NOTHING)
			return;
		if (delivered.kind == LAPD_TEI_GIVEN || delivered.kind == LAPD_TEI_GOT) {
			tei = delivered.tei;
			seen.teis++;
		}
		seen.established += delivered.kind == LAPD_ESTABLISH_IND || delivered.kind == LAPD_ESTABLISH_CONF;
		seen.reports += delivered.kind == LAPD_MDL_ERROR;
		if (delivered.kind == LAPD_DATA_IND || delivered.kind == LAPD_UNIT_DATA_IND)
			count_message(&delivered, octets);
	}
}

static void take_frame(const uint8_t *frame, size_t length, uint64_t now)
{
	bool is_lost = they_lose && is_i_frame(frame, length);

	trace(frame, length, !we_are_network, is_lost ? " (lost)" : "");
	seen.their_polls += is_poll(frame, length, !we_are_network);
	seen.their_answers += is_answer(frame, length, !we_are_network);
	seen.rejects += length == 4 && (frame[2] & 15) == 9;
	if (is_lost)
		they_lose = false;
	else
		check(lapd_side_take(&side, frame, length, now), "take");
	fetch();
}

/* Passes in every frame that has arrived. Returns a moment for which timers may expire: no other
 * frame had arrived by then. */
static uint64_t receive(void)
{
	uint8_t frame[LINE_FRAME];
	uint64_t now = clock_now();
	int length;

	while ((length = next_frame(&our_line, frame)) > 0) {
		take_frame(frame, (size_t)length, now);
		now = clock_now();
	}
	if (length < 0)
		fail("read");
	return now;
}

static void on_event(pri_event *event)
{
	if (event == NULL)
		return;
	seen.up += event->e == PRI_EVENT_DCHAN_UP;
	seen.rings += event->e == PRI_EVENT_RING;
	seen.hangups += event->e == PRI_EVENT_HANGUP;
	libpri_clear(pri, event);
}

/* ---- The loop. */

/* Each end receives what has arrived, and then expires its timers. */
static void step(void)
{
	uint64_t now = receive();
	uint8_t expired;

	do
		check(lapd_side_tick(&side, now, &expired), "tick");
	while (expired);
	fetch();
	while (is_readable(their_line, 0))
		on_event(pri_check_event(pri));
	on_event(libpri_tick(pri));
}

/* Waits until a frame arrives at either end, a timer is due, or this moment is reached. */
static void wait_until(uint64_t moment)
{
	struct pollfd lines[2] = { { our_line.socket, POLLIN, 0 }, { their_line, POLLIN, 0 } };
	uint64_t now = clock_now(), due;

	check(lapd_side_deadline(&side, &due), "deadline");
	due = due < moment ? due : moment;
	poll(lines, 2, libpri_wait(pri, due > now ? (int)(due - now) : 0));
}

/* Runs until a count reaches `wanted`; false if it does not within this many milliseconds. */
static bool reaches(const int *count, int wanted, uint64_t milliseconds)
{
	uint64_t end = clock_now() + milliseconds;

	for (step(); *count < wanted && clock_now() < end; step())
		wait_until(end);
	return *count >= wanted;
}

static void pass(uint64_t milliseconds)
{
	const int never = 0;

	reaches(&never, 1, milliseconds);
}

/* ---- The tests, which run one after another on one line. */

static void begin(void)
{
	lapd_settings basic = LAPD_BASIC, primary = LAPD_PRIMARY, settings = is_primary ? primary : basic;
	int pair[2];

	settings.t203 = OUR_T203;
	settings.seed = 921;
	if (socketpair(AF_UNIX, SOCK_STREAM, 0, pair) != 0)
		fail("socketpair");
	our_line.socket = pair[0];
	their_line = pair[1];
	if (we_are_network)
		check(lapd_side_network(&side, &settings, &tei, is_primary ? 1 : 0), "network");
	else
		check(lapd_side_user(&side, &settings, is_primary ? 0 : LAPD_NO_TEI), "user");
	pri = libpri_end(their_line, is_primary, !we_are_network);
	pri_set_timer(pri, PRI_TIMER_T203, LONG_T203);
}

static void try_establishment(void)
{
	if (!we_are_network)
		check(lapd_side_establish(&side, 0, 0, clock_now()), "establish");
	if (!is_primary) {
		bool has_tei = reaches(&seen.teis, 1, 5000);

		row("a TEI is assigned", has_tei, "TEI %d", tei);
	}
	row("established", reaches(&seen.established, 1, 5000) && (!is_primary || reaches(&seen.up, 1, 1000)), "");
	pass(500);
}

static void try_calls(void)
{
	const int *setups = !is_primary && !we_are_network ? &seen.broadcast_setups : &seen.setups;

	/* As the network of a bus, libpri broadcasts the SETUP, and waits for other terminals until its
	 * T303 has expired twice. */
	libpri_call(pri, is_primary);
	row("SETUP from libpri, refused by us", reaches(setups, 1, 3000) && reaches(&seen.hangups, 1, 12000),
	    setups == &seen.setups ? "" : "as unit data to all");
	give_setup(1);
	row("SETUP from us, refused by libpri", reaches(&seen.rings, 1, 3000) && reaches(&seen.clears, 1, 3000), "");
	pass(1000);
}

static void try_loss(void)
{
	uint64_t began = clock_now();
	int rings = seen.rings, clears = seen.clears;
	bool well;

	we_lose = true;
	give_setup(2);
	well = reaches(&seen.rings, rings + 1, 5000) && reaches(&seen.clears, clears + 1, 3000) && !we_lose;
	row("an I frame of ours is lost", well, "%d ms", (int)(clock_now() - began));
	pass(1000);
	began = clock_now();
	they_lose = true;
	give_setup(3);
	well = reaches(&seen.clears, clears + 2, 5000) && !they_lose;
	row("an I frame of libpri's is lost", well, "%d ms", (int)(clock_now() - began));
	pass(2000);
}

static void try_polls(void)
{
	int polls = seen.our_polls, answers = seen.their_answers;

	pass(POLLING);
	polls = seen.our_polls - polls;
	answers = seen.their_answers - answers;
	row("30 s of polls by our T203", polls >= 9 && answers == polls, "%d polls, %d answers", polls, answers);
	pri_set_timer(pri, PRI_TIMER_T203, LIBPRI_T203);
	polls = seen.their_polls;
	answers = seen.our_answers;
	pass(POLLING);
	polls = seen.their_polls - polls;
	answers = seen.our_answers - answers;
	row("30 s of polls by libpri's T203", polls >= 17 && answers == polls, "%d polls, %d answers", polls, answers);
}

static void look_at_link(void)
{
	lapd_link_state link;

	check(lapd_side_state(&side, 0, tei, &link), "state");
	row("established once, and no MDL-ERROR", link.state == 7 && seen.established == 1 && seen.reports == 0, "");
}

int main(int count, char **words)
{
	if (count != 3) {
		fprintf(stderr, "usage: libpri basic|primary net|user\n");
		return 2;
	}
	is_primary = strcmp(words[1], "primary") == 0;
	we_are_network = strcmp(words[2], "net") == 0;
	begin();
	try_establishment();
	try_calls();
	try_loss();
	try_polls();
	look_at_link();
	lapd_side_free(&side);
	return rows_failed > 0;
}
