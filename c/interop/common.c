#define _POSIX_C_SOURCE 200809L

#include "common.h"

#include <poll.h>
#include <stdarg.h>
#include <stdio.h>
#include <stdlib.h>

int rows_failed;

bool is_readable(int line, int wait)
{
	struct pollfd it = { line, POLLIN, 0 };

	return poll(&it, 1, wait) > 0;
}

/* Adds a frame, as a line of a script of `lapd decode`, to the file that INTEROP_OCTETS names. */
static void record(const uint8_t *frame, size_t length, bool network)
{
	static FILE *script;
	const char *name = getenv("INTEROP_OCTETS");

	if (script == NULL && (name == NULL || (script = fopen(name, "w")) == NULL))
		return;
	fprintf(script, network ? "net " : "user ");
	for (size_t place = 0; place < length; place++)
		fprintf(script, "%02x", frame[place]);
	fprintf(script, "\n");
}

void trace(const uint8_t *frame, size_t length, bool network, const char *note)
{
	uint8_t text[64 + 2 * 1024];
	size_t characters;

	record(frame, length, network);
	if (getenv("INTEROP_TRACE") == NULL || length > 1024)
		return;
	check(lapd_frame_text(frame, length, network, text, sizeof text, &characters), "frame_text");
	fprintf(stderr, "%8.3f %.*s%s\n", (double)clock_now() / 1000, (int)characters, (const char *)text, note);
}

bool is_i_frame(const uint8_t *frame, size_t length)
{
	return length >= 4 && (frame[2] & 1) == 0;
}

bool is_poll(const uint8_t *frame, size_t length, bool network)
{
	bool is_command = ((frame[0] & 2) != 0) == network;

	return length == 4 && (frame[2] & 3) == 1 && (frame[3] & 1) == 1 && is_command;
}

void row(const char *what, bool well, const char *format, ...)
{
	va_list words;

	printf("%s\t%s", what, well ? "yes" : "no");
	if (*format != '\0')
		printf(", ");
	va_start(words, format);
	vprintf(format, words);
	va_end(words);
	printf("\n");
	fflush(stdout);
	rows_failed += !well;
}

void observe(const char *what, const char *format, ...)
{
	va_list words;

	printf("%s\t", what);
	va_start(words, format);
	vprintf(format, words);
	va_end(words);
	printf("\n");
	fflush(stdout);
}
