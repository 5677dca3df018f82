/* liblapd and another stack in one process: a line in memory, and a simulated clock for both.
 * `osmocom net 7` runs our network side and Osmocom's user side with the window 7, and
 * `osmocom user 7` the other way round; `misdn` does so with mISDN. It prints rows; the status is 1
 * if a row says no. */
#include "common.h"
#include "their_end.h"

#include <stdio.h>
#include <string.h>

#define TEI 64
#define ON_LINE 256
#define MESSAGES 64
#define OURS 0
#define THEIRS 1

static const uint8_t setup[] = { 0x08, 0x01, 0x01, 0x05, 0x04, 0x03, 0x80, 0x90, 0xa3, 0x18, 0x01, 0x89, 0x70, 0x04, 0x80,
	                         0x32, 0x30, 0x30 };

struct frame {
	uint8_t octets[LAPD_MOST_FRAME];
	size_t length;
};

/* An end: the frames that it sent, and the counts of its layer 3. */
struct end {
	struct frame line[ON_LINE]; /* frames sent, not yet delivered */
	int first, count;
	int established, released, reports;
	int received, in_order; /* messages; each is a SETUP, then its number */
	int given;
	int polls, answers, i_frames, rejects;
	enum { NOTHING, I_FRAME, RR, ALL } loses; /* its next frame of this kind is lost, or all are */
};

static bool we_are_network;
static uint8_t window;
static lapd_side ours = LAPD_SIDE_INIT;
static struct end ends[2];
static uint64_t now;

/* ---- Both ends. */

static void sent(int from, const uint8_t *octets, size_t length)
{
	struct end *end = &ends[from];
	bool network = (from == OURS) == we_are_network, is_supervisory = length == 4 && (octets[2] & 3) == 1;
	bool is_lost = end->loses == ALL || (end->loses == I_FRAME && is_i_frame(octets, length))
	    || (end->loses == RR && is_supervisory && octets[2] == 1);

	trace(octets, length, network, is_lost ? " (lost)" : "");
	end->polls += is_poll(octets, length, network);
	end->answers += is_supervisory && (octets[3] & 1) == 1 && !is_poll(octets, length, network);
	end->rejects += is_supervisory && octets[2] == 9;
	end->i_frames += is_i_frame(octets, length);
	if (is_lost) {
		end->loses = end->loses == ALL ? ALL : NOTHING;
		return;
	}
	if (end->count == ON_LINE || length > LAPD_MOST_FRAME)
		fail("the line is full");
	memcpy(end->line[(end->first + end->count) % ON_LINE].octets, octets, length);
	end->line[(end->first + end->count++) % ON_LINE].length = length;
}

static void received(int at, const uint8_t *octets, size_t length)
{
	struct end *end = &ends[at];
	bool is_next = length == sizeof setup + 1 && memcmp(octets, setup, sizeof setup) == 0
	    && octets[sizeof setup] == end->received;

	end->in_order += is_next;
	end->received++;
}

/* The words with the other stack's name in place of %s. */
static const char *named(const char *words)
{
	static char text[128];

	snprintf(text, sizeof text, words, their_name);
	return text;
}

static void on_write(const uint8_t *frame, size_t length)
{
	sent(THEIRS, frame, length);
}

static void on_deliver(enum their_primitive primitive, const uint8_t *octets, size_t length)
{
	ends[THEIRS].established += primitive == THEIR_ESTABLISHED;
	ends[THEIRS].released += primitive == THEIR_RELEASED;
	ends[THEIRS].reports += primitive == THEIR_ERROR;
	if (primitive == THEIR_DATA)
		received(THEIRS, octets, length);
}

static void fetch(void)
{
	uint8_t octets[LAPD_MOST_FRAME];
	lapd_primitive primitive;
	size_t length;

	for (;;) {
		check(lapd_side_frame(&ours, octets, sizeof octets, &length), "frame");
		if (length == 0)
			break;
		sent(OURS, octets, length);
	}
	for (;;) {
		check(lapd_side_primitive(&ours, &primitive, octets, sizeof octets), "primitive");
		if (primitive.kind == LAPD_NOTHING)
			return;
		ends[OURS].established += primitive.kind == LAPD_ESTABLISH_IND || primitive.kind == LAPD_ESTABLISH_CONF;
		ends[OURS].released += primitive.kind == LAPD_RELEASE_IND || primitive.kind == LAPD_RELEASE_CONF;
		ends[OURS].reports += primitive.kind == LAPD_MDL_ERROR;
		if (primitive.kind == LAPD_DATA_IND)
			received(OURS, octets, primitive.octets);
	}
}

static bool delivered(int from)
{
	struct end *end = &ends[from];
	struct frame *frame = &end->line[end->first];

	if (end->count == 0)
		return false;
	end->first = (end->first + 1) % ON_LINE;
	end->count--;
	if (from == OURS) {
		their_take(frame->octets, frame->length);
	} else {
		check(lapd_side_take(&ours, frame->octets, frame->length, now), "take");
		fetch();
	}
	return true;
}

static void settle(void)
{
	fetch();
	while (delivered(OURS) || delivered(THEIRS))
		;
}

/* Runs for this many milliseconds, from one deadline to the next. */
static void pass(uint64_t milliseconds)
{
	uint64_t end = now + milliseconds, next, due;
	uint8_t expired;

	while (now < end) {
		settle();
		check(lapd_side_deadline(&ours, &due), "deadline");
		next = now + (uint64_t)their_wait((int)(end - now));
		next = due < next ? due : next;
		next = next > now ? next : now + 1;
		their_clock(next - now);
		now = next;
		do {
			check(lapd_side_tick(&ours, now, &expired), "tick");
			settle();
		} while (expired);
		their_tick();
	}
	settle();
}

/* ---- The tests. Each begins with two new ends, and the first three without a link. */

static void begin_with(uint32_t our_t203, int their_t203)
{
	static const struct their_calls calls = { on_write, on_deliver };
	lapd_settings settings = LAPD_BASIC;
	const uint8_t tei = TEI;

	memset(ends, 0, sizeof ends);
	settings.k0 = window;
	settings.t203 = our_t203;
	if (we_are_network)
		check(lapd_side_network(&ours, &settings, &tei, 1), "network");
	else
		check(lapd_side_user(&ours, &settings, tei), "user");
	their_end(!we_are_network, TEI, window, their_t203, &calls);
}

static void establish(int from)
{
	if (from == THEIRS)
		their_establish();
	else
		check(lapd_side_establish(&ours, 0, TEI, now), "establish");
	settle();
}

/* Creates both ends with a link that the user side establishes. */
static void begin(uint32_t our_t203, int their_t203)
{
	begin_with(our_t203, their_t203);
	establish(we_are_network ? THEIRS : OURS);
}

static void give(int from)
{
	uint8_t message[sizeof setup + 1];

	memcpy(message, setup, sizeof setup);
	message[sizeof setup] = (uint8_t)ends[from].given++;
	if (from == THEIRS)
		their_give(message, sizeof message);
	else
		check(lapd_side_give(&ours, 0, TEI, message, sizeof message, now), "give");
	fetch();
}

/* Whether all messages that `from` submitted have arrived, once and in order. */
static bool arrived(int from)
{
	const struct end *to = &ends[from == OURS ? THEIRS : OURS];

	return to->received == ends[from].given && to->in_order == ends[from].given;
}

static bool is_up(void)
{
	lapd_link_state link;

	check(lapd_side_state(&ours, 0, TEI, &link), "state");
	return link.state == 7;
}

static void try_establishment(void)
{
	begin(10000, 10000);
	row("established by the user side", is_up() && ends[OURS].established == 1 && ends[THEIRS].established == 1, "");
	check(lapd_side_release(&ours, 0, TEI, now), "release");
	settle();
	row("released by us", ends[OURS].released == 1 && ends[THEIRS].released == 1, "");
	begin_with(10000, 10000);
	establish(we_are_network ? OURS : THEIRS);
	pass(5000);
	row("established by the network side", is_up() && ends[THEIRS].established == 1, "");
	if (!they_can_release)
		return;
	their_release();
	settle();
	row(named("released by %s"), ends[OURS].released == 1 && ends[THEIRS].released == 1, "");
}

static void try_messages(void)
{
	int at;

	begin(10000, 10000);
	give(OURS);
	settle();
	row("SETUP from us", arrived(OURS), "");
	give(THEIRS);
	settle();
	row(named("SETUP from %s"), arrived(THEIRS), "");
	for (at = 1; at < MESSAGES; at++) {
		give(OURS);
		give(THEIRS);
	}
	pass(100);
	row("64 messages each way, given at once", arrived(OURS) && arrived(THEIRS), "%d and %d received", ends[THEIRS].received,
	    ends[OURS].received);
}

static void try_loss(int from, const char *what)
{
	uint64_t began;
	int at;

	begin(10000, 10000);
	ends[from].loses = I_FRAME;
	for (at = 0; at < 3; at++)
		give(from);
	began = now;
	while (!arrived(from) && now < began + 10000)
		pass(10);
	row(named(what), arrived(from) && ends[OURS].reports == 0, "%d REJ, %d polls, %d ms", ends[OURS].rejects + ends[THEIRS].rejects,
	    ends[OURS].polls + ends[THEIRS].polls, (int)(now - began));
}

static void try_enquiries(int from, uint32_t our_t203, int their_t203, const char *what)
{
	struct end *poller = &ends[from], *other = &ends[from == OURS ? THEIRS : OURS];

	begin(our_t203, their_t203);
	pass(30500);
	row(named(what), is_up() && poller->polls >= 9 && other->answers == poller->polls && ends[OURS].reports == 0,
	    "%d polls, %d answers", poller->polls, other->answers);
}

/* The message arrives, but the RR that acknowledges it does not. */
static void try_lost_answer(int from, const char *what)
{
	begin(600000, 600000);
	ends[from == OURS ? THEIRS : OURS].loses = RR;
	give(from);
	pass(5000);
	give(from);
	pass(5000);
	row(named(what), arrived(from) && ends[OURS].reports == 0, "%d polls, %d I frames", ends[from].polls, ends[from].i_frames);
}

/* The line is cut until the end has polled N200 times and sent SABME. The message is lost. */
static void try_cut(int from, const char *what)
{
	begin(600000, 600000);
	ends[OURS].loses = ends[THEIRS].loses = ALL;
	give(from);
	pass(5500);
	ends[OURS].loses = ends[THEIRS].loses = NOTHING;
	pass(1000);
	give(from);
	pass(1000);
	row(named(what), is_up() && ends[from].established == 2 && ends[from == OURS ? THEIRS : OURS].received == 1,
	    "%d polls, %d I frames", ends[from].polls, ends[from].i_frames);
}

static void try_again(int from, const char *what)
{
	begin(10000, 10000);
	give(OURS);
	give(THEIRS);
	settle();
	establish(from);
	give(OURS);
	give(THEIRS);
	settle();
	row(named(what), is_up() && arrived(OURS) && arrived(THEIRS), "");
}

/* Osmocom's end does not clear the busy condition of an RNR when it receives an RR. So the last row
 * only reports what it sends then, without a verdict. */
static void try_busy(void)
{
	int at;

	begin(10000, 10000);
	check(lapd_side_busy(&ours, 0, TEI, 1, now), "busy");
	settle();
	for (at = 0; at < 3; at++)
		give(THEIRS);
	pass(20000);
	row("we are busy for 20 s", is_up() && ends[OURS].received == 0 && ends[OURS].reports == 0, named("%%d I frames of %s's"),
	    ends[THEIRS].i_frames);
	check(lapd_side_busy(&ours, 0, TEI, 0, now), "busy");
	pass(20000);
	observe("and then are busy no more", "%d of the 3 messages arrive", ends[OURS].received);
}

int main(int count, char **words)
{
	if (count != 3) {
		fprintf(stderr, "usage: %s net|user WINDOW\n", words[0]);
		return 2;
	}
	we_are_network = strcmp(words[1], "net") == 0;
	window = words[2][0] == '7' ? 7 : 1;
	their_clock(0);
	try_establishment();
	try_messages();
	try_loss(OURS, "the first of 3 I frames of ours is lost");
	try_loss(THEIRS, "the first of 3 I frames of %s's is lost");
	try_lost_answer(THEIRS, "an RR of ours is lost");
	try_lost_answer(OURS, "an RR of %s's is lost");
	try_enquiries(OURS, 3000, 600000, "30 s of polls by our T203");
	try_enquiries(THEIRS, 600000, 3000, "30 s of polls by %s's T203");
	try_cut(OURS, "the line is cut, and we establish again");
	try_cut(THEIRS, "the line is cut, and %s establishes again");
	try_again(OURS, "established again by us");
	try_again(THEIRS, "established again by %s");
	try_busy();
	lapd_side_free(&ours);
	return rows_failed > 0;
}
