#define _POSIX_C_SOURCE 200809L

#include "kind.h"

#include <errno.h>
#include <fcntl.h>
#include <stdarg.h>
#include <stdio.h>
#include <stdlib.h>
#include <string.h>
#include <time.h>
#include <unistd.h>

static const struct line_kind *const kinds[] = { &line_dahdi, &line_misdn, &line_tcp, &line_unix };

#define KINDS (sizeof kinds / sizeof kinds[0])

int64_t line_clock(void)
{
	struct timespec time;

	clock_gettime(CLOCK_MONOTONIC, &time);
	return (int64_t)time.tv_sec * 1000 + time.tv_nsec / 1000000;
}

bool line_say(lapd_line *line, const char *format, ...)
{
	va_list words;

	va_start(words, format);
	vsnprintf(line->said, sizeof line->said, format, words);
	va_end(words);
	return false;
}

void line_later(lapd_line *line, int wait)
{
	line->due = line_clock() + wait;
}

void line_descriptor(int descriptor)
{
	fcntl(descriptor, F_SETFL, fcntl(descriptor, F_GETFL) | O_NONBLOCK);
	fcntl(descriptor, F_SETFD, FD_CLOEXEC);
}

long line_number(const char *text, long most)
{
	char *end;
	long number;

	if (*text < '0' || *text > '9' || strlen(text) > 9)
		return -1;
	number = strtol(text, &end, 10);
	return *end != '\0' || number > most ? -1 : number;
}

bool line_ends(char *text, const char *word)
{
	size_t length = strlen(text), end = strlen(word);

	if (length <= end || text[length - end - 1] != ':' || strcmp(text + length - end, word) != 0)
		return false;
	text[length - end - 1] = '\0';
	return true;
}

/* ---- Events. */

static void drop_waiting(lapd_line *line)
{
	line->counts.dropped += line->counts.waiting;
	line->counts.waiting = 0;
	line->is_full = false;
	line->send_at = 0;
}

enum lapd_line_event line_is_up(lapd_line *line, const char *why)
{
	if (line->is_up)
		return LAPD_LINE_NOTHING;
	line->is_up = true;
	line->counts.up++;
	line_say(line, "%s", why);
	return LAPD_LINE_UP;
}

enum lapd_line_event line_is_down(lapd_line *line, const char *why)
{
	drop_waiting(line);
	if (!line->is_up)
		return LAPD_LINE_NOTHING;
	line->is_up = false;
	line->counts.down++;
	line_say(line, "%s", why);
	return LAPD_LINE_DOWN;
}

enum lapd_line_event line_fault(lapd_line *line, uint64_t *counter, const char *why)
{
	(*counter)++;
	line_say(line, "%s", why);
	return LAPD_LINE_FAULT;
}

enum lapd_line_event line_gone(lapd_line *line, const char *why)
{
	close(line->descriptor);
	line->descriptor = -1;
	line_later(line, LAPD_LINE_RETRY);
	return line_is_down(line, why);
}

void line_keep(lapd_line *line, enum lapd_line_event event)
{
	if (event == LAPD_LINE_DOWN && line->pending == LAPD_LINE_UP)
		line->pending = LAPD_LINE_NOTHING; /* the program has seen neither */
	else if (event != LAPD_LINE_NOTHING && line->pending != LAPD_LINE_DOWN && line->pending != LAPD_LINE_UP)
		line->pending = event;
}

/* ---- Frames that wait. */

static struct waiting_frame *waiting_at(lapd_line *line, uint64_t place)
{
	return &line->waiting[(line->first + place) % LAPD_LINE_MOST_WAITING];
}

static void remove_first(lapd_line *line)
{
	line->first = (line->first + 1) % LAPD_LINE_MOST_WAITING;
	line->counts.waiting--;
}

/* Sends what waits, as far as the driver accepts it. */
static void send_waiting(lapd_line *line)
{
	if (line->send_at != 0 && line_clock() < line->send_at)
		return;
	line->send_at = 0;
	line->is_full = false;
	while (line->counts.waiting > 0 && line->descriptor >= 0) {
		const struct waiting_frame *frame = waiting_at(line, 0);

		switch (line->kind->send(line, frame->octets, frame->length)) {
		case SENT:
			line->counts.sent++;
			remove_first(line);
			break;
		case REFUSED:
			line_keep(line, line_fault(line, &line->counts.refused, strerror(errno)));
			remove_first(line);
			break;
		case FULL:
			line->is_full = true;
			return;
		default:
			return;
		}
	}
}

/* Whether a frame waits that the driver would accept now. */
static bool can_send(const lapd_line *line)
{
	return line->counts.waiting > 0 && line->descriptor >= 0 && !line->is_full && line->send_at == 0;
}

int lapd_line_send(lapd_line *line, const uint8_t *frame, size_t length)
{
	struct waiting_frame *last;

	if (length == 0 || length > LAPD_LINE_MOST_FRAME || !line->is_up
	    || line->counts.waiting == LAPD_LINE_MOST_WAITING) {
		line->counts.dropped++;
		return 0;
	}
	last = waiting_at(line, line->counts.waiting++);
	last->length = length;
	memcpy(last->octets, frame, length);
	if (line->counts.waiting == 1)
		send_waiting(line);
	return 1;
}

/* ---- The loop of a program. */

static int64_t earlier(int64_t a, int64_t b)
{
	return a == 0 || (b != 0 && b < a) ? b : a;
}

int lapd_line_prepare(const lapd_line *line, struct pollfd *wait)
{
	int64_t moment = earlier(line->due, line->send_at), now = line_clock();

	wait->fd = line->descriptor;
	wait->events = (short)(line->events | (line->is_full ? POLLOUT : 0));
	wait->revents = 0;
	if (line->pending != LAPD_LINE_NOTHING)
		return 0;
	return moment == 0 ? -1 : moment <= now ? 0 : (int)(moment - now);
}

static enum lapd_line_event take_pending(lapd_line *line)
{
	enum lapd_line_event event = line->pending;

	line->pending = LAPD_LINE_NOTHING;
	return event;
}

/* A frame that the driver has delivered: one that is too long is a fault. */
static enum lapd_line_event deliver(lapd_line *line, uint8_t *frame, size_t size, const uint8_t *octets, size_t length)
{
	char why[LAPD_LINE_MOST_TEXT];

	if (length <= size) {
		line->counts.received++;
		memcpy(frame, octets, length);
		return LAPD_LINE_FRAME;
	}
	snprintf(why, sizeof why, "a frame of %zu octets is longer than %zu", length, size);
	return line_fault(line, &line->counts.invalid, why);
}

enum lapd_line_event lapd_line_next(lapd_line *line, uint8_t *frame, size_t size, size_t *length)
{
	uint8_t octets[MOST_READ];
	enum lapd_line_event event;
	size_t count = 0;

	*length = 0;
	if (line->pending == LAPD_LINE_NOTHING && line->due != 0 && line_clock() >= line->due) {
		line->due = 0;
		line->kind->again(line);
	}
	/* A confirmation may arrive, for which the next frame waits. */
	do {
		send_waiting(line);
		if (line->pending != LAPD_LINE_NOTHING)
			return take_pending(line);
		event = line->kind->receive(line, octets, &count);
	} while (event == LAPD_LINE_NOTHING && can_send(line));
	if (event == LAPD_LINE_FRAME)
		event = deliver(line, frame, size, octets, count);
	if (event == LAPD_LINE_FRAME)
		*length = count;
	return event;
}

/* ---- Opening and closing. */

static const struct line_kind *kind_of(const char *text, size_t length)
{
	for (size_t at = 0; at < KINDS; at++)
		if (strlen(kinds[at]->name) == length && strncmp(kinds[at]->name, text, length) == 0)
			return kinds[at];
	return NULL;
}

static bool is_opened(lapd_line *line, const char *text)
{
	char words[LAPD_LINE_MOST_TEXT];
	size_t length = strcspn(text, ":");

	line->kind = kind_of(text, length);
	if (line->kind == NULL || text[length] == '\0')
		return line_say(line, "not a line: it is %s, %s, %s or %s", kinds[0]->form, kinds[1]->form, kinds[2]->form,
		                kinds[3]->form);
	snprintf(words, sizeof words, "%s", text + length + 1);
	return line->kind->open(line, words);
}

lapd_line *lapd_line_open(const char *text, char *error, size_t size)
{
	lapd_line *line = calloc(1, sizeof *line);

	if (line == NULL || strlen(text) >= sizeof line->name) {
		snprintf(error, size, line == NULL ? "out of memory" : "the text of the line is too long");
		free(line);
		return NULL;
	}
	line->descriptor = -1;
	line->events = POLLIN;
	memcpy(line->name, text, strlen(text));
	if (is_opened(line, text))
		return line;
	snprintf(error, size, "%s", line->said);
	lapd_line_close(line);
	return NULL;
}

void lapd_line_close(lapd_line *line)
{
	if (line == NULL)
		return;
	if (line->kind != NULL)
		line->kind->close(line);
	if (line->descriptor >= 0)
		close(line->descriptor);
	free(line->own);
	free(line);
}

/* ---- The state of a line. */

int lapd_line_is_up(const lapd_line *line)
{
	return line->is_up;
}

const char *lapd_line_name(const lapd_line *line)
{
	return line->name;
}

const char *lapd_line_said(const lapd_line *line)
{
	return line->said;
}

void lapd_line_count(const lapd_line *line, lapd_line_counts *counts)
{
	*counts = line->counts;
}

size_t lapd_line_list(void (*found)(void *context, const char *text, const char *what), void *context)
{
	size_t count = 0;

	for (size_t at = 0; at < KINDS; at++)
		if (kinds[at]->list != NULL)
			count += kinds[at]->list(found, context);
	return count;
}
