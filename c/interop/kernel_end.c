/* The Linux kernel's own layer 2, of mISDN, as the other end of a D channel: a socket of layer 2 on
 * a device, whose driver sends and receives the frames.
 *
 * usage: kernel_end DEVICE nt|te TEI SECONDS [echo] [send=N] [octets=N] [upper=PORT]
 *        kernel_end DEVICE wake PROTOCOL
 *
 * nt is the network. te is a terminal, which establishes its link, and again a second after a
 * release. TEI 127 is an automatic one. It prints each primitive after the seconds so far, and a
 * last line of counts for each link, after these seconds or at SIGTERM.
 *
 *   echo        sends each message back
 *   send=N      each link sends N numbered messages of some octets, checks those that arrive, and
 *               does not print them
 *   upper=PORT  waits for the upper tester's connection of `lapd conform`, and requests nothing by
 *               itself
 *
 * wake sends one frame of one octet, which no layer 2 takes, by layer 1 of this protocol: 1 and 2 are
 * the terminal and the network of S0, 3 and 4 of E1. l1oip ends its layer 1 65 s after it began,
 * begins it with the next packet, and sends none by itself meanwhile. */
#define _POSIX_C_SOURCE 200809L

#include "tcp_line.h"

#include <errno.h>
#include <poll.h>
#include <signal.h>
#include <stdio.h>
#include <stdlib.h>
#include <string.h>
#include <sys/socket.h>
#include <unistd.h>

/* The kernel's interface, include/linux/mISDNif.h of Linux 6.1, which no package installs. */
#define ISDN_FAMILY 34 /* PF_ISDN, AF_ISDN */
enum { LAPD_TE = 0x10, LAPD_NT = 0x11 };
enum {
	PH_DATA_REQ = 0x2001,
	DL_ESTABLISH_REQ = 0x1004,
	DL_RELEASE_REQ = 0x1104,
	DL_DATA_REQ = 0x3004,
	DL_INFORMATION_IND = 0x0008,
	DL_ESTABLISH_IND = 0x1008,
	DL_ESTABLISH_CNF = 0x5008,
	DL_RELEASE_IND = 0x1108,
	DL_RELEASE_CNF = 0x5108,
	DL_DATA_IND = 0x3008,
	DL_UNITDATA_IND = 0x3108,
	MPH_ACTIVATE_IND = 0x0502,
	MPH_DEACTIVATE_IND = 0x0602,
	PH_ACTIVATE_IND = 0x0102,
	PH_DEACTIVATE_IND = 0x0202
};

struct head {
	uint32_t primitive, number;
};

struct address {
	sa_family_t family;
	uint8_t device, channel, sapi, tei;
};

#define MOST_LINKS 16
#define MOST_MESSAGE 260
#define AHEAD 200 /* messages that a link sends before as many have arrived: its queue has no limit */
#define AGAIN 1000 /* milliseconds from a release until a terminal establishes its link again */

struct link {
	struct address address;
	bool is_used, is_up;
	unsigned sent, received, wrong;
};

static struct {
	bool is_network, is_echo, is_tested;
	unsigned send, octets;
} options = { .octets = 6 };

static struct link links[MOST_LINKS];
static int end;
static uint64_t began, establish_at;
static volatile sig_atomic_t is_stopped;

static void on_stop(int number)
{
	(void)number;
	is_stopped = 1;
}

static const char *name_of(unsigned primitive)
{
	switch (primitive) {
	case DL_ESTABLISH_IND:
		return "established";
	case DL_ESTABLISH_CNF:
		return "confirmed";
	case DL_RELEASE_IND:
		return "released";
	case DL_RELEASE_CNF:
		return "release-confirmed";
	case DL_DATA_IND:
		return "data";
	case DL_UNITDATA_IND:
		return "unit";
	case DL_INFORMATION_IND:
		return "information";
	case MPH_ACTIVATE_IND:
	case PH_ACTIVATE_IND:
		return "active";
	case MPH_DEACTIVATE_IND:
	case PH_DEACTIVATE_IND:
		return "not active";
	default:
		return "primitive";
	}
}

static double seconds(void)
{
	return (double)(clock_now() - began) / 1000;
}

/* A request for a link. A terminal's socket has one link, and takes no address: with one, the
 * kernel would take its channel, 0, for the number of the link. */
static void request(const struct link *link, unsigned primitive, const uint8_t *octets, size_t length)
{
	uint8_t datagram[sizeof(struct head) + MOST_MESSAGE];
	struct head head = { primitive, 0 };
	bool is_named = link != NULL && options.is_network;
	const struct sockaddr *to = is_named ? (const void *)&link->address : NULL;

	memcpy(datagram, &head, sizeof head);
	if (length > 0)
		memcpy(datagram + sizeof head, octets, length);
	if (sendto(end, datagram, sizeof head + length, 0, to, is_named ? sizeof link->address : 0) < 0)
		printf("%.3f request %04x: %s\n", seconds(), primitive, strerror(errno));
}

static struct link *link_of(const struct address *address)
{
	struct link *link = links;

	while (link < links + MOST_LINKS - 1 && link->is_used && link->address.channel != address->channel)
		link++;
	link->address = *address;
	link->is_used = true;
	return link;
}

/* ---- Numbered messages: the call reference 01 of Q.931, then the number. */

/* The network begins after the first message of the terminal. Before that, the terminal may establish
 * the link again, because it has not received the UA, and layer 2 would drop what waits. */
static void send_numbered(struct link *link)
{
	uint8_t message[MOST_MESSAGE] = { 0x08, 0x01 };

	if (options.is_network && link->received == 0)
		return;
	while (link->is_up && link->sent < options.send && link->sent < link->received + AHEAD) {
		for (int place = 0; place < 4; place++)
			message[2 + place] = (uint8_t)(link->sent >> (24 - 8 * place));
		request(link, DL_DATA_REQ, message, options.octets);
		link->sent++;
	}
}

static void check_numbered(struct link *link, const uint8_t *message, size_t length)
{
	unsigned number = 0;

	for (size_t place = 2; place < 6 && place < length; place++)
		number = number << 8 | message[place];
	link->wrong += length != options.octets || number != link->received;
	link->received++;
}

/* ---- Primitives. */

static void say_primitive(unsigned primitive, const struct address *from, const uint8_t *octets, size_t length)
{
	printf("%.3f sapi %u tei %u %s", seconds(), from->sapi, from->tei, name_of(primitive));
	if (strcmp(name_of(primitive), "primitive") == 0)
		printf(" %04x", primitive);
	if (length > 0)
		printf(" ");
	for (size_t place = 0; place < length; place++)
		printf("%02x", octets[place]);
	printf("\n");
}

static void on_data(struct link *link, const uint8_t *octets, size_t length)
{
	if (options.send > 0)
		check_numbered(link, octets, length);
	else
		link->received++;
	if (options.is_echo && length <= MOST_MESSAGE) {
		request(link, DL_DATA_REQ, octets, length);
		link->sent++;
	}
}

static void on_primitive(unsigned primitive, const struct address *from, const uint8_t *octets, size_t length)
{
	struct link *link = link_of(from);

	if (primitive != DL_DATA_IND || options.send == 0)
		say_primitive(primitive, from, octets, length);
	if (primitive == DL_DATA_IND)
		on_data(link, octets, length);
	if (primitive == DL_ESTABLISH_IND || primitive == DL_ESTABLISH_CNF)
		link->is_up = true;
	if (primitive == DL_RELEASE_IND || primitive == DL_RELEASE_CNF)
		link->is_up = false;
	if (primitive == DL_RELEASE_IND && !options.is_network && !options.is_tested)
		establish_at = clock_now() + AGAIN;
	send_numbered(link);
}

/* Takes the primitives that have arrived. */
static void take(void)
{
	uint8_t datagram[512];
	struct address from;
	struct head head;
	socklen_t size = sizeof from;
	ssize_t got;

	while ((got = recvfrom(end, datagram, sizeof datagram, MSG_DONTWAIT, (void *)&from, &size)) >= (ssize_t)sizeof head) {
		memcpy(&head, datagram, sizeof head);
		on_primitive(head.primitive, &from, datagram + sizeof head, (size_t)got - sizeof head);
		size = sizeof from;
	}
}

/* ---- The upper tester. */

static bool execute(const char *line)
{
	static const uint8_t message[] = { 0x01, 0x02 };
	const struct link *link = links[0].is_used ? &links[0] : NULL;

	if (strncmp(line, "establish", 9) == 0)
		request(link, DL_ESTABLISH_REQ, NULL, 0);
	else if (strncmp(line, "release", 7) == 0)
		request(link, DL_RELEASE_REQ, NULL, 0);
	else if (strncmp(line, "give", 4) == 0)
		request(link, DL_DATA_REQ, message, sizeof message);
	else
		return false;
	return true;
}

/* Executes the requests that have arrived. Returns whether the connection is open. */
static bool serve(int upper)
{
	static char line[64];
	static size_t count;
	const char *answer;
	char octet;
	ssize_t got;

	while ((got = recv(upper, &octet, 1, MSG_DONTWAIT)) == 1) {
		if (octet != '\n') {
			line[count] = octet;
			count += count + 1 < sizeof line;
			continue;
		}
		line[count] = '\0';
		count = 0;
		answer = execute(line) ? "done\n" : "unknown\n";
		send(upper, answer, strlen(answer), MSG_NOSIGNAL);
	}
	return got < 0;
}

/* ---- The program. */

static const char *read_options(char **words)
{
	const char *upper = NULL;

	options.is_network = strcmp(words[2], "nt") == 0;
	for (words += 5; *words != NULL; words++) {
		sscanf(*words, "send=%u", &options.send);
		sscanf(*words, "octets=%u", &options.octets);
		options.is_echo = options.is_echo || strcmp(*words, "echo") == 0;
		if (strncmp(*words, "upper=", 6) == 0)
			upper = *words + 6;
	}
	if (options.octets < 6 || options.octets > MOST_MESSAGE)
		options.octets = 6;
	options.is_tested = upper != NULL;
	return upper;
}

static int bound(const char *device, const char *tei)
{
	struct address address = { .family = ISDN_FAMILY, .device = (uint8_t)atoi(device), .tei = (uint8_t)atoi(tei) };
	int it = socket(ISDN_FAMILY, SOCK_DGRAM, options.is_network ? LAPD_NT : LAPD_TE);

	if (it < 0 || bind(it, (const void *)&address, sizeof address) != 0)
		fail("kernel_end: mISDN");
	return it;
}

static int wake(const char *device, const char *protocol)
{
	struct address address = { .family = ISDN_FAMILY, .device = (uint8_t)atoi(device) };
	uint8_t datagram[sizeof(struct head) + 1];
	struct head head = { PH_DATA_REQ, 1 };
	int it = socket(ISDN_FAMILY, SOCK_DGRAM, atoi(protocol));

	memcpy(datagram, &head, sizeof head);
	datagram[sizeof head] = 0;
	if (it < 0 || bind(it, (const void *)&address, sizeof address) != 0
	    || send(it, datagram, sizeof datagram, 0) < 0)
		fail("kernel_end: layer 1");
	/* The kernel sends it by a thread of its own. */
	poll(NULL, 0, 200);
	return 0;
}

static void print_counts(void)
{
	for (const struct link *link = links; link < links + MOST_LINKS && link->is_used; link++)
		printf("%.3f sapi %u tei %u sent %u received %u wrong %u\n", seconds(), link->address.sapi, link->address.tei,
		       link->sent, link->received, link->wrong);
}

int main(int count, char **words)
{
	struct sigaction stop = { .sa_handler = on_stop };
	int upper_port = -1, upper = -1;
	const char *port;

	sigaction(SIGTERM, &stop, NULL);
	if (count == 4 && strcmp(words[2], "wake") == 0)
		return wake(words[1], words[3]);
	if (count < 5) {
		fprintf(stderr, "usage: kernel_end DEVICE nt|te TEI SECONDS [WORD..]\n");
		return 2;
	}
	setvbuf(stdout, NULL, _IOLBF, 0);
	began = clock_now();
	port = read_options(words);
	end = bound(words[1], words[3]);
	if (port != NULL)
		upper_port = listening(port);
	else if (!options.is_network)
		establish_at = began;
	while (!is_stopped && clock_now() < began + 1000u * (uint64_t)atoi(words[4])) {
		struct pollfd open[] = { { end, POLLIN, 0 }, { upper < 0 ? upper_port : upper, POLLIN, 0 } };

		if (establish_at != 0 && clock_now() >= establish_at) {
			establish_at = 0;
			request(NULL, DL_ESTABLISH_REQ, NULL, 0);
		}
		if (poll(open, 2, 200) <= 0)
			continue;
		take();
		if (open[1].revents != 0 && upper < 0)
			upper = accepted(upper_port);
		else if (open[1].revents != 0 && !serve(upper)) {
			close(upper);
			upper = -1;
		}
	}
	print_counts();
	return 0;
}
