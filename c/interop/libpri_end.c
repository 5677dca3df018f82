#include "libpri_end.h"

#include "common.h"

#include <stdio.h>
#include <stdlib.h>
#include <string.h>
#include <sys/time.h>

#define CHECK_SEQUENCE 2 /* octets that libpri adds to the length of each frame, and ignores */

bool libpri_line_closed;

static struct tcp_line line;

static int on_read(struct pri *end, void *octets, int size)
{
	int length;

	(void)end;
	if (size < LINE_FRAME + CHECK_SEQUENCE)
		fail("libpri's buffer");
	length = next_frame(&line, octets);
	libpri_line_closed = length < 0;
	if (length <= 0)
		return 0;
	memset((uint8_t *)octets + length, 0, CHECK_SEQUENCE);
	return length + CHECK_SEQUENCE;
}

static int on_write(struct pri *end, void *octets, int size)
{
	write_frame(pri_fd(end), octets, (size_t)size - CHECK_SEQUENCE);
	return size;
}

/* Prints libpri's messages on standard error if INTEROP_LOG is set. */
static void on_words(struct pri *end, char *words)
{
	(void)end;
	if (getenv("INTEROP_LOG") != NULL)
		fputs(words, stderr);
}

struct pri *libpri_end(int socket, bool is_primary, bool network)
{
	int type = network ? PRI_NETWORK : PRI_CPE;
	struct pri *end;

	line.socket = socket;
	pri_set_message(on_words);
	pri_set_error(on_words);
	if (is_primary)
		end = pri_new_cb(socket, type, PRI_SWITCH_EUROISDN_E1, on_read, on_write, NULL);
	else
		end = pri_new_bri_cb(socket, 0, type, PRI_SWITCH_EUROISDN_E1, on_read, on_write, NULL);
	if (end == NULL)
		fail("libpri");
	if (getenv("INTEROP_LOG") != NULL)
		pri_set_debug(end, PRI_DEBUG_Q921_STATE | PRI_DEBUG_Q921_DUMP | PRI_DEBUG_Q931_DUMP);
	return end;
}

static long until(const struct timeval *due)
{
	struct timeval time;

	gettimeofday(&time, NULL);
	return (due->tv_sec - time.tv_sec) * 1000L + (due->tv_usec - time.tv_usec + 999) / 1000;
}

int libpri_wait(struct pri *end, int most)
{
	struct timeval *due = pri_schedule_next(end);
	long wait = due == NULL ? most : until(due);

	return wait < 0 ? 0 : wait > most ? most : (int)wait;
}

pri_event *libpri_tick(struct pri *end)
{
	struct timeval *due = pri_schedule_next(end);

	return due != NULL && until(due) <= 0 ? pri_schedule_run(end) : NULL;
}

void libpri_call(struct pri *end, bool is_primary)
{
	q931_call *call = pri_new_call(end);
	struct pri_sr *setup = pri_sr_new();

	pri_sr_set_channel(setup, is_primary ? 2 : 1, 0, 0);
	pri_sr_set_bearer(setup, PRI_TRANS_CAP_SPEECH, PRI_LAYER_1_ALAW);
	pri_sr_set_called(setup, "200", PRI_NATIONAL_ISDN, 1);
	pri_sr_set_caller(setup, "100", NULL, PRI_NATIONAL_ISDN, 0);
	pri_setup(end, call, setup);
	pri_sr_free(setup);
}

void libpri_clear(struct pri *end, pri_event *event)
{
	if (event->e == PRI_EVENT_RING)
		pri_hangup(end, event->ring.call, PRI_CAUSE_UNALLOCATED);
	if (event->e == PRI_EVENT_HANGUP || event->e == PRI_EVENT_HANGUP_REQ)
		pri_hangup(end, event->hangup.call, event->hangup.cause);
}
