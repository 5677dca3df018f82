/* Osmocom's LAPD as one side of an interface with SAPI 0 and a fixed TEI, over a TCP connection
 * on this machine with the framing of `lapd net` and `lapd user`.
 * `osmocom_bridge net|user listen|connect PORT TEI [establish]` prints the primitives for its layer
 * 3, and sends each message back. It ends when the other side hangs up. */
#include "common.h"
#include "their_end.h"

#include <stdio.h>
#include <stdlib.h>
#include <string.h>

#define LONGEST 1000000

static struct tcp_line line;

static void on_write(const uint8_t *frame, size_t length)
{
	write_frame(line.socket, frame, length);
}

static void on_deliver(enum their_primitive primitive, const uint8_t *octets, size_t length)
{
	static const char *const words[] = { "other", "data", "established", "released", "MDL-ERROR" };

	printf("%s, %zu octets\n", words[primitive], length);
	fflush(stdout);
	if (primitive == THEIR_DATA)
		their_give(octets, length);
}

int main(int count, char **words)
{
	static const struct their_calls calls = { on_write, on_deliver };
	uint8_t frame[LINE_FRAME];
	int length;

	if (count < 5) {
		fprintf(stderr, "usage: osmocom_bridge net|user listen|connect PORT TEI [establish]\n");
		return 2;
	}
	line.socket = connected(strcmp(words[2], "listen") == 0, words[3]);
	their_end(strcmp(words[1], "net") == 0, (uint8_t)atoi(words[4]), 7, 10000, &calls);
	if (count > 5)
		their_establish();
	for (;;) {
		while ((length = next_frame(&line, frame)) > 0)
			their_take(frame, (size_t)length);
		if (length < 0)
			return 0;
		their_tick();
		is_readable(line.socket, their_wait(LONGEST));
	}
}
