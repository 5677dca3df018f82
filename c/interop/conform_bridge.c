/* The end of another stack as `lapd conform` tests it, with SAPI 0 and a fixed TEI, over two TCP
 * connections on this machine: the line, with the framing of `lapd net` and `lapd user`, and an
 * upper tester. A line of the latter is a request, and is answered by `done` (docs/CONFORM.md).
 * `osmocom_conform net|user PORT UPPER_PORT TEI K T203` listens at both ports, and ends when the
 * other side of the line hangs up. K is from 1 to 127, T203 in milliseconds. */
#include "common.h"
#include "their_end.h"

#include <poll.h>
#include <stdio.h>
#include <stdlib.h>
#include <string.h>
#include <sys/socket.h>

#define LONGEST 1000000
#define LONGEST_REQUEST 64

static struct tcp_line line;

static void on_write(const uint8_t *frame, size_t length)
{
	write_frame(line.socket, frame, length);
}

static void on_deliver(enum their_primitive primitive, const uint8_t *octets, size_t length)
{
	(void)primitive;
	(void)octets;
	(void)length;
}

/* Whether the end has this request. */
static bool execute(const char *request)
{
	static const uint8_t message[] = { 0x01, 0x02 };

	if (strncmp(request, "establish", 9) == 0)
		their_establish();
	else if (strncmp(request, "release", 7) == 0 && they_can_release)
		their_release();
	else if (strncmp(request, "give", 4) == 0)
		their_give(message, sizeof message);
	else
		return false;
	return true;
}

/* Executes the requests that have arrived. Returns whether the connection is open. */
static bool serve(int upper)
{
	static char request[LONGEST_REQUEST];
	static size_t count;
	char octet;
	ssize_t got;

	while ((got = recv(upper, &octet, 1, MSG_DONTWAIT)) == 1) {
		if (octet != '\n') {
			request[count] = octet;
			count += count + 1 < sizeof request;
			continue;
		}
		request[count] = '\0';
		count = 0;
		if (execute(request))
			send(upper, "done\n", 5, MSG_NOSIGNAL);
		else
			send(upper, "unknown\n", 8, MSG_NOSIGNAL);
	}
	return got < 0;
}

int main(int count, char **words)
{
	static const struct their_calls calls = { on_write, on_deliver };
	uint8_t frame[LINE_FRAME];
	int upper_port, upper = -1, length;
	uint64_t then, now;

	if (count < 7) {
		fprintf(stderr, "usage: conform net|user PORT UPPER_PORT TEI K T203\n");
		return 2;
	}
	upper_port = listening(words[3]);
	line.socket = accepted(listening(words[2]));
	their_clock(0);
	their_end(strcmp(words[1], "net") == 0, (uint8_t)atoi(words[4]), (uint8_t)atoi(words[5]), atoi(words[6]), &calls);
	then = clock_now();
	for (;;) {
		struct pollfd open[] = { { line.socket, POLLIN, 0 }, { upper < 0 ? upper_port : upper, POLLIN, 0 } };

		poll(open, 2, their_wait(LONGEST));
		now = clock_now();
		their_clock(now - then);
		then = now;
		while ((length = next_frame(&line, frame)) > 0)
			their_take(frame, (size_t)length);
		if (length < 0)
			return 0;
		if ((open[1].revents & POLLIN) != 0 && upper < 0)
			upper = accepted(upper_port);
		else if (open[1].revents != 0 && !serve(upper))
			upper = -1;
		their_tick();
	}
}
