#define _POSIX_C_SOURCE 200809L

#include "example.h"

#include <limits.h>
#include <stdio.h>
#include <stdlib.h>
#include <string.h>
#include <time.h>

#define CARRY_TIME 5000 /* milliseconds until a frame must have arrived, and layer 1 must be up */
#define LAST_FRAMES 150 /* milliseconds; a frame of 264 octets takes 132 at 16 kbit/s */

uint64_t clock_now(void)
{
	struct timespec time;

	clock_gettime(CLOCK_MONOTONIC, &time);
	return (uint64_t)time.tv_sec * 1000 + (uint64_t)time.tv_nsec / 1000000;
}

void fail(const char *what)
{
	perror(what);
	exit(1);
}

void check(lapd_result code, const char *what)
{
	if (code == LAPD_DONE)
		return;
	fprintf(stderr, "%s: %s\n", what, lapd_code_string(code));
	exit(1);
}

lapd_line *opened(const char *text)
{
	char error[LAPD_LINE_MOST_TEXT];
	lapd_line *line = lapd_line_open(text, error, sizeof error);

	if (line == NULL) {
		fprintf(stderr, "%s: %s\n", text, error);
		exit(1);
	}
	return line;
}

void print_event(const lapd_line *line, enum lapd_line_event event)
{
	const char *what = event == LAPD_LINE_UP ? "up" : event == LAPD_LINE_DOWN ? "down" : "fault";

	fprintf(stderr, "%s: %s: %s\n", lapd_line_name(line), what, lapd_line_said(line));
}

void print_code(const char *where, const char *call, lapd_result code)
{
	uint8_t name[LAPD_MOST_NAME];
	size_t length;

	check(lapd_code_name(code, name, sizeof name, &length), "code_name");
	fprintf(stderr, "%s: %s: %.*s (%u)\n", where, call, (int)length, (const char *)name, (unsigned)code);
}

void print_primitive(const char *where, const lapd_primitive *item)
{
	uint8_t name[LAPD_MOST_NAME];
	size_t length;

	if (item->kind == LAPD_NOTHING)
		return;
	check(lapd_kind_name(item->kind, name, sizeof name, &length), "kind_name");
	printf("%s: %.*s (%u), SAPI %u, TEI %u, %zu octets\n", where, (int)length, (const char *)name, item->kind,
	       item->sapi, item->tei, item->octets);
	fflush(stdout);
}

void print_frame(const char *where, bool is_network, const uint8_t *frame, size_t length)
{
	uint8_t text[64 + 2 * LAPD_MOST_FRAME];
	size_t characters;

	check(lapd_frame_text(frame, length, is_network, text, sizeof text, &characters), "frame_text");
	fprintf(stderr, "%s: %.*s\n", where, (int)characters, (const char *)text);
}

#define NUMBER(number) ((unsigned long long)(number))

static void print_link(const lapd_side *side, uint8_t tei)
{
	lapd_link_counters n;
	lapd_link_state link;

	check(lapd_side_state(side, 0, tei, &link), "state");
	check(lapd_side_counters(side, 0, tei, &n), "counters");
	printf("  TEI %u: state %u, %u waiting%s%s; I frames %llu sent, %llu again, %llu received; REJ %llu sent, %llu"
	       " received; RNR %llu sent, %llu received; %llu reports\n", tei, link.state, link.waiting,
	       link.own_busy ? ", own busy" : "", link.peer_busy ? ", peer busy" : "", NUMBER(n.sent), NUMBER(n.again),
	       NUMBER(n.received), NUMBER(n.rej_sent), NUMBER(n.rej_received), NUMBER(n.rnr_sent), NUMBER(n.rnr_received),
	       NUMBER(n.reports));
}

void print_state(const lapd_line *line, const lapd_side *side)
{
	uint8_t teis[LAPD_GROUP_TEI], state, tei;
	lapd_line_counts counts;
	uint64_t discarded;
	size_t at, count;

	lapd_line_count(line, &counts);
	check(lapd_side_discarded(side, &discarded), "discarded");
	check(lapd_side_tei(side, &state, &tei), "tei");
	check(lapd_side_links(side, 0, teis, sizeof teis, &count), "links");
	printf("%s: %s, frames: %llu received, %llu discarded, %llu sent, %llu dropped; terminal state %u, TEI %u\n",
	       lapd_line_name(line), lapd_line_is_up(line) ? "up" : "down", NUMBER(counts.received), NUMBER(discarded),
	       NUMBER(counts.sent), NUMBER(counts.dropped), state, tei);
	for (at = 0; at < count; at++)
		print_link(side, teis[at]);
	fflush(stdout);
}

/* Takes the events of a line. Returns the length of the first frame, or 0 if none has arrived. */
static size_t next_frame(lapd_line *line, uint8_t *frame)
{
	enum lapd_line_event event;
	size_t length;

	while ((event = lapd_line_next(line, frame, LAPD_LINE_MOST_FRAME, &length)) != LAPD_LINE_NOTHING) {
		if (event == LAPD_LINE_FRAME)
			return length;
		print_event(line, event);
	}
	return 0;
}

size_t carried(lapd_line *from, lapd_line *to, uint8_t *frame, size_t length)
{
	uint64_t now, end = clock_now() + CARRY_TIME;
	uint8_t answer[LAPD_LINE_MOST_FRAME];
	struct pollfd waits[2];
	bool is_sent = false;
	size_t arrived;
	int wait;

	while ((now = clock_now()) < end) {
		next_frame(from, answer); /* none is expected here, but the line has to be served */
		arrived = next_frame(to, answer);
		if (arrived > 0) {
			memcpy(frame, answer, arrived);
			return arrived;
		}
		if (!is_sent && lapd_line_is_up(from) && lapd_line_is_up(to))
			is_sent = lapd_line_send(from, frame, length);
		wait = shorter(lapd_line_prepare(from, &waits[0]), lapd_line_prepare(to, &waits[1]));
		poll(waits, 2, shorter(wait, wait_time(end, now)));
	}
	fprintf(stderr, "%s: no frame arrived within %d ms\n", lapd_line_name(to), CARRY_TIME);
	exit(1);
}

void close_line(lapd_line *line)
{
	uint64_t now, end = clock_now() + LAST_FRAMES;
	uint8_t frame[LAPD_LINE_MOST_FRAME];
	struct pollfd wait;
	int most;

	while (lapd_line_is_up(line) && (now = clock_now()) < end) {
		while (next_frame(line, frame) > 0)
			;
		most = lapd_line_prepare(line, &wait);
		poll(&wait, 1, shorter(most, wait_time(end, now)));
	}
	lapd_line_close(line);
}

int wait_time(uint64_t moment, uint64_t now)
{
	if (moment == LAPD_NEVER)
		return -1;
	return moment <= now ? 0 : moment - now > INT_MAX ? INT_MAX : (int)(moment - now);
}

int shorter(int a, int b)
{
	return a < 0 || (b >= 0 && b < a) ? b : a;
}
