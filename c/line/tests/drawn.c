/* Drawn events of drivers and connections against the line code: `drawn KIND SEED STEPS`, where KIND
 * is misdn, dahdi, tcp or unix. After each step
 *   - the frames that the line delivered are those that the driver delivered, in order, once each;
 *   - the frames that the driver received are those that the line accepted, in order, once each, and
 *     none is missing but after layer 1 was down or the driver refused one;
 *   - each accepted frame is sent, waits, or is counted as dropped or refused;
 *   - LAPD_LINE_UP and LAPD_LINE_DOWN alternate, and the line says what they said.
 * At times the driver is calm: then each frame arrives without a further wait. The sanitizers look at
 * the rest. The first difference ends the program with status 1. */
#define _GNU_SOURCE

#include "fake.h"
#include "lapd_line.h"

#include <arpa/inet.h>
#include <dahdi/user.h>
#include <errno.h>
#include <stdio.h>
#include <stdlib.h>
#include <string.h>
#include <sys/socket.h>
#include <sys/un.h>
#include <unistd.h>

#define SERIAL 4 /* octets at the beginning of each frame: its number */
#define MOST_EXPECTED 4096
#define MOST_MISDN 300  /* octets of a frame that mISDN's drivers take */
#define MOST_DAHDI 1022 /* octets of a frame that DAHDI takes */
#define CALM_EVERY 500  /* steps */
#define CALM_ROUNDS 2000

enum kind { MISDN, DAHDI, TCP, UNIX };

static const char *const kinds[] = { "misdn", "dahdi", "tcp", "unix" };

static enum kind kind;
static uint64_t seed;
static lapd_line *line;
static int peer = -1;     /* the other end of a connection */
static int listener = -1; /* with an even seed the line connects, and this end listens */
static char address[100];

/* The frames that the driver delivered and the line has not: number and length. */
static struct {
	uint32_t number;
	size_t length;
} expected[MOST_EXPECTED];
static size_t expected_first, expected_count;

static uint32_t delivered, accepted, last_received, confirm;
static uint64_t received, refused_at_once;
static bool is_unconfirmed; /* the driver has a frame that it has not confirmed */
static bool is_up;          /* by the events */
static bool may_miss_in;       /* what was in transit to the line may be lost */
static uint32_t may_miss;      /* the frames from the line up to this number may be lost */

static void wrong(const char *what)
{
	printf("%s: %s\n", kinds[kind], what);
	exit(1);
}

static uint32_t draw(uint32_t below)
{
	seed = seed * 6364136223846793005u + 1442695040888963407u;
	return (uint32_t)(seed >> 33) % below;
}

static void fill(uint8_t *octets, uint32_t number, size_t length)
{
	for (size_t at = 0; at < length; at++)
		octets[at] = at < SERIAL ? (uint8_t)(number >> 8 * at) : (uint8_t)(number + at + length);
}

static uint32_t number_of(const uint8_t *octets)
{
	return (uint32_t)octets[0] | (uint32_t)octets[1] << 8 | (uint32_t)octets[2] << 16 | (uint32_t)octets[3] << 24;
}

static bool is_intact(const uint8_t *octets, size_t length)
{
	uint8_t wanted[LAPD_LINE_MOST_FRAME];

	if (length < SERIAL || length > sizeof wanted)
		return false;
	fill(wanted, number_of(octets), length);
	return memcmp(octets, wanted, length) == 0;
}

/* ---- The other end delivers. */

static void expect(uint32_t number, size_t length)
{
	size_t at = (expected_first + expected_count++) % MOST_EXPECTED;

	expected[at].number = number;
	expected[at].length = length;
}

static void close_peer(void)
{
	if (peer >= 0)
		close(peer);
	peer = -1;
	may_miss_in = true;
	may_miss = accepted;
}

/* Sends octets to the line in parts of drawn lengths. */
static bool send_parts(const uint8_t *octets, size_t length)
{
	for (size_t done = 0; done < length;) {
		size_t part = kind == TCP ? 1 + draw((uint32_t)(length - done)) : length;
		ssize_t now = send(peer, octets + done, part, MSG_NOSIGNAL | MSG_DONTWAIT);

		/* A part of a frame would change what follows, so the connection ends. */
		if (now < 0 && done > 0)
			close_peer();
		if (now < 0)
			return false;
		done += (size_t)now;
	}
	return true;
}

/* Delivers a frame in the form of its kind. Returns whether there was room for all. */
static bool deliver(const uint8_t *frame, size_t length)
{
	uint8_t octets[2 + 8192];

	if (kind == MISDN)
		return fake_primitive(0x2002, 0xffff, frame, length);
	if (kind == DAHDI) {
		memcpy(octets, frame, length);
		memset(octets + length, 0xee, 2);
		return fake.event_count == 0 && fake_deliver(octets, length + 2);
	}
	octets[0] = kind == TCP ? (uint8_t)(length >> 8) : 1;
	octets[1] = kind == TCP ? (uint8_t)length : 0;
	memcpy(octets + 2, frame, length);
	return peer >= 0 && send_parts(octets, length + 2);
}

static void deliver_frame(void)
{
	size_t length = SERIAL + draw(draw(4) == 0 ? LAPD_LINE_MOST_FRAME - 2 - SERIAL : 40);
	uint8_t frame[LAPD_LINE_MOST_FRAME];

	if (expected_count == MOST_EXPECTED)
		return;
	fill(frame, ++delivered, length);
	if (deliver(frame, length))
		expect(delivered, length);
}

/* A datagram of mISDN that is no frame: short, empty, or of an unknown primitive. An empty one means
 * that a device was removed. */
static void deliver_datagram(uint8_t *octets, size_t length)
{
	static const uint8_t data[4] = { 0x02, 0x20, 0, 0 };

	if (length < MISDN_HEAD && draw(2) == 0)
		memcpy(octets, data, sizeof data);
	else if (octets[0] < 8)
		octets[0] = 0x42;
	if (length == 0 && draw(8) != 0)
		return;
	may_miss_in = may_miss_in || length == 0;
	fake_deliver(octets, length);
}

static void deliver_noise(void)
{
	uint8_t octets[5000];
	size_t length = draw(draw(3) == 0 ? 5000 : 12);

	for (size_t at = 0; at < sizeof octets; at++)
		octets[at] = (uint8_t)draw(256);
	if (kind == MISDN)
		deliver_datagram(octets, length);
	else if (kind == DAHDI && fake.event_count == 0 && length > 0 && length <= 2)
		fake_deliver(octets, length);
	else if (kind == TCP && length > LAPD_LINE_MOST_FRAME)
		deliver(octets, length);
	else if (kind == UNIX && peer >= 0 && length > 0) {
		octets[0] = 2;
		send(peer, octets, length, MSG_NOSIGNAL | MSG_DONTWAIT);
	}
}

/* ---- The other end receives. */

static void take(const uint8_t *octets, size_t length)
{
	uint32_t number;

	if (!is_intact(octets, length))
		wrong("a frame was changed on its way to the driver");
	number = number_of(octets);
	if (number <= last_received || number > accepted)
		wrong("a frame was sent twice, out of order, or was never accepted");
	if (number != last_received + 1 && number - 1 > may_miss)
		wrong("a frame is missing");
	last_received = number;
	received++;
}

static void take_datagram(const uint8_t *octets, size_t length)
{
	uint32_t primitive;

	memcpy(&primitive, octets, sizeof primitive);
	if (primitive != 0x2001)
		return;
	if (length - MISDN_HEAD > MOST_MISDN)
		wrong("a frame is too long for the driver");
	if (is_unconfirmed)
		wrong("a frame did not wait for the confirmation of the last one");
	take(octets + MISDN_HEAD, length - MISDN_HEAD);
	memcpy(&confirm, octets + sizeof primitive, sizeof confirm);
	/* The driver confirms no frame that was sent before layer 1 was down. */
	is_unconfirmed = last_received > may_miss;
}

static void take_from_driver(void)
{
	uint8_t octets[8192];
	ssize_t got;

	while ((got = fake_written(octets, sizeof octets)) > 0) {
		if (kind == MISDN)
			take_datagram(octets, (size_t)got);
		else if ((size_t)got - 2 > MOST_DAHDI)
			wrong("a frame is too long for the driver");
		else
			take(octets, (size_t)got - 2);
	}
}

static void take_from_peer(void)
{
	static uint8_t octets[1 << 16];
	static size_t have;
	ssize_t got;

	if (peer < 0) {
		have = 0;
		return;
	}
	got = recv(peer, octets + have, kind == TCP ? draw(600) + 1 : sizeof octets, MSG_DONTWAIT);
	if (got > 0 && kind == UNIX)
		take(octets + 2, (size_t)got - 2);
	if (got <= 0 || kind == UNIX)
		return;
	have += (size_t)got;
	while (have >= 2 && have >= 2 + ((size_t)octets[0] << 8 | octets[1])) {
		size_t length = (size_t)octets[0] << 8 | octets[1];

		take(octets + 2, length);
		have -= 2 + length;
		memmove(octets, octets + 2 + length, have);
	}
}

static void take_all(void)
{
	if (kind == MISDN || kind == DAHDI)
		take_from_driver();
	else
		take_from_peer();
}

/* Makes a socket, and connects it to the address, or listens there. Returns -1 if that fails. */
static int at_address(bool listens)
{
	struct sockaddr_un path = { .sun_family = AF_UNIX };
	struct sockaddr_in place = { .sin_family = AF_INET, .sin_addr.s_addr = htonl(INADDR_LOOPBACK) };
	bool is_tcp = kind == TCP;
	int type = is_tcp ? SOCK_STREAM : SOCK_SEQPACKET, end, on = 1;
	const struct sockaddr *name = is_tcp ? (void *)&place : (void *)&path;
	socklen_t size = is_tcp ? sizeof place : sizeof path;

	end = socket(is_tcp ? AF_INET : AF_UNIX, listens ? type | SOCK_NONBLOCK : type, 0);
	place.sin_port = htons((uint16_t)(is_tcp ? atoi(strrchr(address, ':') + 1) : 0));
	memcpy(path.sun_path, address, strlen(address) + 1);
	setsockopt(end, SOL_SOCKET, SO_REUSEADDR, &on, sizeof on);
	if (listens ? bind(end, name, size) == 0 && listen(end, 1) == 0 : connect(end, name, size) == 0)
		return end;
	close(end);
	return -1;
}

static void connect_peer(void)
{
	if (peer < 0)
		peer = listener < 0 ? at_address(false) : accept(listener, NULL, NULL);
}

/* ---- The line. */

static void send_frame(void)
{
	uint8_t frame[LAPD_LINE_MOST_FRAME];
	size_t length = SERIAL + draw(draw(4) == 0 ? LAPD_LINE_MOST_FRAME - SERIAL : 40);

	fill(frame, accepted + 1, length);
	if (lapd_line_send(line, frame, length))
		accepted++;
	else
		refused_at_once++;
	if ((kind == MISDN && length > MOST_MISDN) || (kind == DAHDI && length > MOST_DAHDI))
		may_miss = accepted;
}

static bool is_next(const uint8_t *frame, size_t length)
{
	return expected_count > 0 && expected[expected_first].length == length && is_intact(frame, length)
	       && expected[expected_first].number == number_of(frame);
}

static void forget_first(void)
{
	expected_first = (expected_first + 1) % MOST_EXPECTED;
	expected_count--;
}

static void take_delivered(const uint8_t *frame, size_t length)
{
	while (may_miss_in && expected_count > 0 && !is_next(frame, length))
		forget_first();
	if (!is_next(frame, length))
		wrong("a frame was delivered that the driver did not deliver next");
	forget_first();
}

static void serve(void)
{
	uint8_t frame[LAPD_LINE_MOST_FRAME];
	enum lapd_line_event event;
	struct pollfd wait;
	size_t length;

	lapd_line_prepare(line, &wait);
	while ((event = lapd_line_next(line, frame, sizeof frame, &length)) != LAPD_LINE_NOTHING) {
		if (event == LAPD_LINE_FRAME)
			take_delivered(frame, length);
		else if (length != 0)
			wrong("an event has a length");
		if ((event == LAPD_LINE_UP && is_up) || (event == LAPD_LINE_DOWN && !is_up))
			wrong("the line is twice up, or twice down");
		if (event == LAPD_LINE_UP || event == LAPD_LINE_DOWN)
			is_up = event == LAPD_LINE_UP;
		if (event == LAPD_LINE_DOWN) {
			may_miss = accepted;
			is_unconfirmed = false;
		}
	}
	if (is_up != lapd_line_is_up(line))
		wrong("the line does not say what its events said");
}

static void check_counts(void)
{
	lapd_line_counts counts;

	lapd_line_count(line, &counts);
	if (counts.sent + counts.waiting + counts.dropped + counts.refused != (uint64_t)accepted + refused_at_once)
		wrong("an accepted frame is neither sent, waiting, dropped nor refused");
	if (received + fake.lost > counts.sent)
		wrong("more frames were received than sent");
	if ((kind == MISDN || kind == DAHDI) && received + fake.lost < counts.sent)
		wrong("a frame that counts as sent was not received");
	if (counts.waiting > LAPD_LINE_MOST_WAITING)
		wrong("too many frames wait");
}

/* ---- Steps. */

static void pass_time(void)
{
	fake.now += draw(3000);
	is_unconfirmed = false; /* the line may have waited long enough */
}

static void confirm_frame(void)
{
	bool is_right = draw(8) != 0;

	if (fake_primitive(0x6002, is_right ? confirm : confirm - 1, NULL, 0) && is_right)
		is_unconfirmed = false;
}

static void step_misdn(uint32_t what)
{
	static const uint32_t states[] = { 0x0102, 0x0102, 0x4102, 0x0202, 0x4202, 0x0702 };

	if (what < 3 && is_unconfirmed)
		confirm_frame();
	else if (what == 3 && draw(4) == 0)
		fake_primitive(states[draw(6)], draw(0x30), NULL, 0);
	else if (what == 4 && draw(4) == 0)
		pass_time();
	else if (what == 5 && draw(20) == 0)
		fake.open_error = draw(2) == 0 ? 0 : ENODEV;
}

static void step_dahdi(uint32_t what)
{
	static const int events[] = { DAHDI_EVENT_ALARM, DAHDI_EVENT_NOALARM, DAHDI_EVENT_NOALARM, DAHDI_EVENT_ABORT,
		DAHDI_EVENT_BADFCS, DAHDI_EVENT_OVERRUN, DAHDI_EVENT_WRITE_UNDERRUN, DAHDI_EVENT_RINGBEGIN };
	bool is_removed = what == 0 && draw(30) == 0;

	if (what < 2)
		fake_event(is_removed ? DAHDI_EVENT_REMOVED : events[draw(8)]);
	else if (what == 2)
		fake.is_full = draw(2) == 0;
	else if (what == 3)
		pass_time();
	else if (what == 4)
		fake.alarms = draw(3) == 0 ? DAHDI_ALARM_RED : 0;
	else if (what == 5)
		fake.open_error = draw(3) == 0 ? ENODEV : 0;
	may_miss_in = may_miss_in || is_removed;
}

static void step_connection(uint32_t what)
{
	if (what < 3)
		connect_peer();
	else if (what == 3 && draw(20) == 0)
		close_peer();
	else if (what == 4)
		pass_time();
}

static void step(void)
{
	uint32_t what = draw(10);

	if (what < 3)
		deliver_frame();
	else if (what == 3 && draw(4) == 0)
		deliver_noise();
	else if (what < 7)
		send_frame();
	else if (kind == MISDN)
		step_misdn(draw(6));
	else if (kind == DAHDI)
		step_dahdi(draw(6));
	else
		step_connection(draw(5));
	if (draw(3) != 0)
		serve();
	take_all();
	check_counts();
}

/* Brings the line up, without an alarm. */
static void bring_up(void)
{
	fake.open_error = 0;
	fake.is_full = false;
	fake.alarms = 0;
	fake.event_count = 0;
	for (int turn = 0; turn < 4; turn++) {
		fake.now += LAPD_LINE_RETRY;
		is_unconfirmed = false;
		serve();
		take_all();
	}
	if (kind == MISDN) {
		fake_primitive(0x0202, 0, NULL, 0);
		fake_primitive(0x0102, 0, NULL, 0);
	} else if (kind == DAHDI) {
		fake_event(DAHDI_EVENT_NOALARM);
	} else {
		connect_peer();
	}
	serve();
}

/* No frame waits for nothing: nobody would wake the loop for it. */
static void check_ready(void)
{
	lapd_line_counts counts;

	lapd_line_count(line, &counts);
	if (counts.waiting > 0 && (kind == DAHDI || (kind == MISDN && !is_unconfirmed)))
		wrong("a frame waits, although the driver is ready");
}

/* The driver accepts and confirms each frame: what waits is sent, and what was delivered arrives. */
static void be_calm(void)
{
	lapd_line_counts counts;

	bring_up();
	for (int round = 0; round < CALM_ROUNDS; round++) {
		if (round < 10)
			deliver_frame();
		if (round < 20)
			send_frame();
		serve();
		take_all();
		check_ready();
		if (kind == MISDN && is_unconfirmed && fake_primitive(0x6002, confirm, NULL, 0))
			is_unconfirmed = false;
	}
	lapd_line_count(line, &counts);
	if (!is_up || counts.waiting > 0)
		wrong("a frame still waits, although the driver is ready");
	if (!may_miss_in && expected_count > 0)
		wrong("a frame that the driver delivered has not arrived");
	if (last_received < accepted && may_miss < accepted)
		wrong("the last frame has not arrived");
	expected_count = 0;
	may_miss_in = false;
}

static const char *text_of(void)
{
	static char text[200];

	if (kind == MISDN)
		return fake.is_e1 ? "misdn:3:nt" : "misdn:3:te";
	if (kind == DAHDI)
		return "dahdi:16";
	if (kind == TCP)
		snprintf(address, sizeof address, "127.0.0.1:%d", 20000 + (int)getpid() % 20000);
	else
		snprintf(address, sizeof address, "/tmp/lapd-line-%d", (int)getpid());
	if (seed % 2 == 0)
		listener = at_address(true);
	snprintf(text, sizeof text, "%s:%s%s", kinds[kind], address,
	         kind == TCP && listener < 0 ? ":listen" : kind == UNIX && listener >= 0 ? ":connect" : "");
	return text;
}

static void print_end(const char *seed_word)
{
	lapd_line_counts counts;

	lapd_line_count(line, &counts);
	printf("%s, seed %s: %llu frames delivered, %llu sent, %llu received, %llu dropped, %llu invalid, %llu times down\n",
	       kinds[kind], seed_word, (unsigned long long)counts.received, (unsigned long long)counts.sent,
	       (unsigned long long)received, (unsigned long long)counts.dropped, (unsigned long long)counts.invalid,
	       (unsigned long long)counts.down);
}

int main(int count, char **words)
{
	char error[LAPD_LINE_MOST_TEXT];
	unsigned long steps;

	if (count != 4)
		return 2;
	while (kind < UNIX && strcmp(words[1], kinds[kind]) != 0)
		kind++;
	seed = strtoul(words[2], NULL, 10);
	steps = strtoul(words[3], NULL, 10);
	fake.now = 1000;
	fake.is_dahdi = kind == DAHDI;
	fake.is_e1 = seed % 2 == 1;
	fake.signalling = seed % 2 == 1 ? DAHDI_SIG_HARDHDLC : DAHDI_SIG_HDLCFCS;
	line = lapd_line_open(text_of(), error, sizeof error);
	if (line == NULL)
		wrong(error);
	for (unsigned long at = 1; at <= steps; at++) {
		step();
		if (at % CALM_EVERY == 0)
			be_calm();
	}
	print_end(words[2]);
	lapd_line_close(line);
	close_peer();
	if (listener >= 0 && kind == UNIX)
		unlink(address);
	return 0;
}
