/* A D channel of DAHDI, the drivers of Digium's cards and others, as Asterisk uses them.
 *
 * A read is a frame and the two octets of its check sequence, which the driver has verified; a write
 * leaves room for two octets that the driver fills in. This holds for HDLC by software and by the
 * card. Events, such as an alarm or a frame with a wrong check sequence, are read by an ioctl;
 * until then read and write fail. */
#define _POSIX_C_SOURCE 200809L

#include "kind.h"

#include <errno.h>
#include <stdio.h>
#include <stdlib.h>
#include <string.h>

#ifndef WITHOUT_DAHDI

#include <dahdi/user.h>
#include <fcntl.h>
#include <sys/ioctl.h>
#include <unistd.h>

#define CHANNEL "/dev/dahdi/channel"
#define CONTROL "/dev/dahdi/ctl"
#define CHECK_OCTETS 2
#define BUFFERS 32
#define BUFFER_OCTETS 1024 /* 32 of them are all the room that the driver grants */
#define EVENT_WAITS 500 /* ELAST of the driver: an event waits, and is to be read first */
#define ALARMS (~(DAHDI_ALARM_LOOPBACK))

struct dahdi {
	int channel;
};

/* ---- Channels. */

static bool is_d_channel(int signalling)
{
	return (signalling & DAHDI_SIG_HDLCFCS) == DAHDI_SIG_HDLCFCS || (signalling & DAHDI_SIG_HARDHDLC) == DAHDI_SIG_HARDHDLC;
}

static const char *no_device(const char *path)
{
	static char text[LAPD_LINE_MOST_TEXT];

	if (errno == ENOENT || errno == ENXIO || errno == ENODEV)
		return "DAHDI is not loaded: load the module of the card, and run dahdi_cfg";
	if (errno == EACCES || errno == EPERM)
		snprintf(text, sizeof text, "no permission for %s: its group is often dahdi", path);
	else
		snprintf(text, sizeof text, "%s: %s", path, strerror(errno));
	return text;
}

static bool parameters_of(int descriptor, int channel, struct dahdi_params *parameters)
{
	memset(parameters, 0, sizeof *parameters);
	parameters->channo = channel;
	return ioctl(descriptor, DAHDI_GET_PARAMS, parameters) == 0;
}

static size_t list_span(int control, int first, const struct dahdi_spaninfo *span,
	void (*found)(void *, const char *, const char *), void *context)
{
	char text[LAPD_LINE_MOST_TEXT], what[LAPD_LINE_MOST_TEXT];
	struct dahdi_params parameters;
	size_t count = 0;

	for (int channel = first; channel < first + span->totalchans; channel++) {
		if (!parameters_of(control, channel, &parameters) || !is_d_channel(parameters.sigtype))
			continue;
		snprintf(text, sizeof text, "dahdi:%d", channel);
		snprintf(what, sizeof what, "span %d, %.39s%s", span->spanno, span->desc,
		         (span->alarms & ALARMS) != 0 ? ", in alarm" : "");
		found(context, text, what);
		count++;
	}
	return count;
}

static size_t dahdi_list(void (*found)(void *, const char *, const char *), void *context)
{
	int control = open(CONTROL, O_RDWR | O_CLOEXEC), first = 1;
	struct dahdi_spaninfo span;
	size_t count = 0;

	if (control < 0) {
		found(context, NULL, no_device(CONTROL));
		return 0;
	}
	for (int number = 1; number < DAHDI_MAX_SPANS; number++) {
		memset(&span, 0, sizeof span);
		span.spanno = number;
		if (ioctl(control, DAHDI_SPANSTAT, &span) != 0)
			continue;
		count += list_span(control, first, &span, found, context);
		first += span.totalchans;
	}
	close(control);
	return count;
}

/* ---- Opening. */

static const char *alarm_text(unsigned int alarms)
{
	if ((alarms & DAHDI_ALARM_RED) != 0)
		return "red alarm: nothing is received from the line";
	if ((alarms & DAHDI_ALARM_YELLOW) != 0)
		return "yellow alarm: the other end receives nothing";
	if ((alarms & DAHDI_ALARM_BLUE) != 0)
		return "blue alarm: the other end sends no data";
	if ((alarms & DAHDI_ALARM_RECOVER) != 0)
		return "the span recovers from an alarm";
	return "alarm";
}

static unsigned int alarms_of(const lapd_line *line)
{
	struct dahdi_params parameters;

	return parameters_of(line->descriptor, 0, &parameters) ? parameters.chan_alarms & ALARMS : 0;
}

static bool refused(lapd_line *line, int channel)
{
	int error = errno;

	close(line->descriptor);
	line->descriptor = -1;
	if (error == EBUSY)
		return line_say(line, "DAHDI's channel %d is taken by another program, such as Asterisk", channel);
	if (error == ENXIO || error == EINVAL || error == ENODEV)
		return line_say(line, "DAHDI has no channel %d; `lapd-line --list` prints the D channels", channel);
	return line_say(line, "DAHDI's channel %d: %s", channel, strerror(error));
}

static bool no_d_channel(lapd_line *line, int channel)
{
	close(line->descriptor);
	line->descriptor = -1;
	return line_say(line,
	                "DAHDI's channel %d is not a D channel: write dchan=%d into /etc/dahdi/system.conf, and run dahdi_cfg",
	                channel, channel);
}

static bool open_channel(lapd_line *line)
{
	const struct dahdi *dahdi = line->own;
	struct dahdi_bufferinfo buffers = { 0 };
	struct dahdi_params parameters;
	int channel = dahdi->channel;

	line->descriptor = open(CHANNEL, O_RDWR | O_NONBLOCK | O_CLOEXEC);
	if (line->descriptor < 0)
		return line_say(line, "%s", no_device(CHANNEL));
	if (ioctl(line->descriptor, DAHDI_SPECIFY, &channel) != 0)
		return refused(line, channel);
	if (!parameters_of(line->descriptor, 0, &parameters) || !is_d_channel(parameters.sigtype))
		return no_d_channel(line, channel);
	buffers.txbufpolicy = DAHDI_POLICY_IMMEDIATE;
	buffers.rxbufpolicy = DAHDI_POLICY_IMMEDIATE;
	buffers.numbufs = BUFFERS;
	buffers.bufsize = BUFFER_OCTETS;
	if (ioctl(line->descriptor, DAHDI_SET_BUFINFO, &buffers) != 0)
		return refused(line, channel);
	if ((parameters.chan_alarms & ALARMS) == 0)
		line_keep(line, line_is_up(line, "the span has no alarm"));
	else
		line_say(line, "%s", alarm_text(parameters.chan_alarms));
	return true;
}

static bool dahdi_open(lapd_line *line, char *words)
{
	struct dahdi *dahdi = calloc(1, sizeof *dahdi);
	long channel = line_number(words, 100000);

	if (dahdi == NULL)
		return line_say(line, "out of memory");
	line->own = dahdi;
	line->events = POLLIN | POLLPRI;
	if (channel < 1)
		return line_say(line, "not %s: the number of a channel", line->kind->form);
	dahdi->channel = (int)channel;
	return open_channel(line);
}

static void dahdi_close(lapd_line *line)
{
	(void)line;
}

/* A device that was removed is opened again. */
static void dahdi_again(lapd_line *line)
{
	if (line->descriptor < 0 && !open_channel(line))
		line_later(line, LAPD_LINE_RETRY);
}

/* ---- Frames and events. */

/* An alarm. The driver discards the frames that it has not sent yet: they would arrive after it. */
static enum lapd_line_event alarmed(lapd_line *line)
{
	unsigned int alarms = alarms_of(line);
	int what = DAHDI_FLUSH_WRITE;

	line->counts.alarms++;
	ioctl(line->descriptor, DAHDI_FLUSH, &what);
	return line_is_down(line, alarm_text(alarms));
}

static enum lapd_line_event event_of(lapd_line *line, int event)
{
	switch (event) {
	case DAHDI_EVENT_ALARM:
		return alarmed(line);
	case DAHDI_EVENT_NOALARM:
		return line_is_up(line, "the alarm has ended");
	case DAHDI_EVENT_ABORT:
		return line_fault(line, &line->counts.aborted, "a frame was aborted");
	case DAHDI_EVENT_BADFCS:
		return line_fault(line, &line->counts.check, "a frame had a wrong check sequence");
	case DAHDI_EVENT_OVERRUN:
	case DAHDI_EVENT_READ_OVERRUN:
		return line_fault(line, &line->counts.overrun, "a frame was lost: the buffers are full, or it is too long");
	case DAHDI_EVENT_WRITE_UNDERRUN:
		return line_fault(line, &line->counts.aborted, "a frame was aborted while it was sent");
	case DAHDI_EVENT_REMOVED:
		return line_gone(line, "the channel was removed");
	default:
		return LAPD_LINE_NOTHING;
	}
}

/* The next event that has a meaning here. */
static enum lapd_line_event next_event(lapd_line *line)
{
	enum lapd_line_event event = LAPD_LINE_NOTHING;
	int number = DAHDI_EVENT_NONE;

	do {
		if (ioctl(line->descriptor, DAHDI_GETEVENT, &number) != 0)
			return line_gone(line, strerror(errno));
		event = event_of(line, number);
	} while (event == LAPD_LINE_NOTHING && number != DAHDI_EVENT_NONE);
	return event;
}

static enum lapd_line_event dahdi_receive(lapd_line *line, uint8_t *frame, size_t *length)
{
	enum lapd_line_event event;
	ssize_t got;

	while (line->descriptor >= 0) {
		got = read(line->descriptor, frame, MOST_READ);
		if (got > CHECK_OCTETS) {
			*length = (size_t)got - CHECK_OCTETS;
			return LAPD_LINE_FRAME;
		}
		if (got >= 0)
			return line_fault(line, &line->counts.invalid, "an empty frame");
		if (errno == EAGAIN)
			return LAPD_LINE_NOTHING;
		if (errno != EVENT_WAITS && errno != EINTR)
			return line_gone(line, errno == ENODEV ? "the device is gone" : strerror(errno));
		event = errno == EVENT_WAITS ? next_event(line) : LAPD_LINE_NOTHING;
		if (event != LAPD_LINE_NOTHING)
			return event;
	}
	return LAPD_LINE_NOTHING;
}

static enum sent dahdi_send(lapd_line *line, const uint8_t *frame, size_t length)
{
	uint8_t octets[BUFFER_OCTETS];

	/* The driver would cut a longer frame. */
	if (length > BUFFER_OCTETS - CHECK_OCTETS) {
		errno = EMSGSIZE;
		return REFUSED;
	}
	memcpy(octets, frame, length);
	memset(octets + length, 0, CHECK_OCTETS);
	if (write(line->descriptor, octets, length + CHECK_OCTETS) >= 0)
		return SENT;
	if (errno == EAGAIN)
		return FULL;
	if (errno == EVENT_WAITS || errno == EINTR)
		return HELD;
	line_keep(line, line_gone(line, errno == ENODEV ? "the device is gone" : strerror(errno)));
	return GONE;
}

#else

static bool dahdi_open(lapd_line *line, char *words)
{
	(void)words;
	return line_say(line, "this program was built without DAHDI, because its header dahdi/user.h was not found");
}

static void dahdi_close(lapd_line *line)
{
	(void)line;
}

static enum lapd_line_event dahdi_receive(lapd_line *line, uint8_t *frame, size_t *length)
{
	(void)line, (void)frame, (void)length;
	return LAPD_LINE_NOTHING;
}

static enum sent dahdi_send(lapd_line *line, const uint8_t *frame, size_t length)
{
	(void)line, (void)frame, (void)length;
	return GONE;
}

static void dahdi_again(lapd_line *line)
{
	(void)line;
}

static size_t dahdi_list(void (*found)(void *, const char *, const char *), void *context)
{
	found(context, NULL, "DAHDI: this program was built without it, because its header was not found");
	return 0;
}

#endif

const struct line_kind line_dahdi = {
	"dahdi", "dahdi:CHANNEL", dahdi_open, dahdi_close, dahdi_receive, dahdi_send, dahdi_again, dahdi_list,
};
