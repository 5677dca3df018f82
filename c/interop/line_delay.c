/* Measures how long a frame is in transit from one D channel of this machine to another: from the
 * call that writes it until it is read. The headline of lapd needs T200 to be longer than two such
 * times (docs/PROVED.md).
 *
 * usage: line_delay LINE LINE ROUNDS
 *
 * The lines are as of lapd-line. It prints the least, the middle and the longest time of a frame of
 * 264 octets, the longest of Q.921, and of the last of seven such frames that are written at once,
 * with octets that are drawn, and with octets of ones, which need the most stuffing. */
#define _GNU_SOURCE

#include "lapd_line.h"

#include <stdbool.h>
#include <stdio.h>
#include <stdlib.h>
#include <string.h>
#include <time.h>

#define OCTETS 264
#define LONGEST 10.0 /* s */
#define SETTLED 0.5  /* s until an HDLC receiver that was just opened is in step */
#define MOST_ROUNDS 1000

static double seconds(void)
{
	struct timespec time;

	clock_gettime(CLOCK_MONOTONIC, &time);
	return (double)time.tv_sec + (double)time.tv_nsec / 1e9;
}

static lapd_line *opened(const char *text)
{
	char error[LAPD_LINE_MOST_TEXT];
	lapd_line *line = lapd_line_open(text, error, sizeof error);

	if (line == NULL) {
		fprintf(stderr, "line_delay: %s: %s\n", text, error);
		exit(1);
	}
	return line;
}

/* Serves a line. Returns whether a frame has arrived. */
static bool has_frame(lapd_line *line, uint8_t *frame, size_t *length)
{
	enum lapd_line_event event;

	do
		event = lapd_line_next(line, frame, LAPD_LINE_MOST_FRAME, length);
	while (event != LAPD_LINE_NOTHING && event != LAPD_LINE_FRAME);
	return event == LAPD_LINE_FRAME;
}

static void wait_for(lapd_line *from, lapd_line *to)
{
	struct pollfd waits[2];
	int wait = lapd_line_prepare(from, &waits[0]), most = lapd_line_prepare(to, &waits[1]);

	wait = wait < 0 || (most >= 0 && most < wait) ? most : wait;
	poll(waits, 2, wait < 0 || wait > 100 ? 100 : wait);
}

static bool are_up(lapd_line *from, lapd_line *to)
{
	uint8_t frame[LAPD_LINE_MOST_FRAME];
	double limit = seconds() + LONGEST, since = seconds();
	size_t length;


	while (seconds() < limit) {
		has_frame(from, frame, &length);
		has_frame(to, frame, &length);
		if (!lapd_line_is_up(from) || !lapd_line_is_up(to))
			since = seconds();
		else if (seconds() > since + SETTLED)
			return true;
		wait_for(from, to);
	}
	return false;
}

/* Sends frames at once. Returns the seconds until the last one has arrived, or a negative number if
 * one is lost or changed. */
static double transit(lapd_line *from, lapd_line *to, const uint8_t *octets, int frames)
{
	uint8_t frame[LAPD_LINE_MOST_FRAME];
	double began = seconds();
	size_t length;

	for (int sent = 0; sent < frames; sent++)
		lapd_line_send(from, octets, OCTETS);
	while (frames > 0 && seconds() < began + LONGEST) {
		has_frame(from, frame, &length);
		while (frames > 0 && has_frame(to, frame, &length)) {
			if (length != OCTETS || memcmp(frame, octets, OCTETS) != 0)
				return -1;
			frames--;
		}
		if (frames > 0)
			wait_for(from, to);
	}
	return frames == 0 ? seconds() - began : -1;
}

static int by_size(const void *a, const void *b)
{
	const double *x = a, *y = b;

	return (*x > *y) - (*x < *y);
}

static void draw(uint8_t *octets, bool is_drawn)
{
	for (int place = 0; place < OCTETS; place++)
		octets[place] = is_drawn ? (uint8_t)random() : 0xff;
}

/* Prints the times of some rounds. Returns whether every frame has arrived. */
static bool measure(lapd_line *from, lapd_line *to, int frames, bool is_drawn, int rounds)
{
	double times[MOST_ROUNDS];
	uint8_t octets[OCTETS];

	for (int round = 0; round < rounds; round++) {
		draw(octets, is_drawn);
		times[round] = transit(from, to, octets, frames);
		if (times[round] < 0) {
			printf("%d frames: one is lost or changed\n", frames);
			return false;
		}
	}
	qsort(times, (size_t)rounds, sizeof *times, by_size);
	printf("%s, %d of %d octets: %.1f %.1f %.1f ms\n", is_drawn ? "drawn" : "ones", frames, OCTETS, times[0] * 1000,
	       times[rounds / 2] * 1000, times[rounds - 1] * 1000);
	return true;
}

int main(int count, char **words)
{
	lapd_line *from, *to;
	bool is_well = true;
	int rounds;

	if (count < 4 || (rounds = atoi(words[3])) < 1 || rounds > MOST_ROUNDS) {
		fprintf(stderr, "usage: line_delay LINE LINE ROUNDS\n");
		return 2;
	}
	from = opened(words[1]);
	to = opened(words[2]);
	if (!are_up(from, to)) {
		fprintf(stderr, "line_delay: a line is not up\n");
		return 1;
	}
	for (int kind = 0; kind < 4; kind++)
		is_well = measure(from, to, kind / 2 == 0 ? 1 : 7, kind % 2 == 0, rounds) && is_well;
	lapd_line_close(from);
	lapd_line_close(to);
	return is_well ? 0 : 1;
}
