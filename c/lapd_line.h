/* A D channel, or a connection in its place, for a program that uses lapd.h.
 *
 * A line is opened by a text:
 *
 *   dahdi:16                  the D channel of DAHDI with this number
 *   misdn:0:te, misdn:0:nt    the D channel of an S0 or E1 device of mISDN, by its number or name, as
 *                             the terminal or as the network
 *   tcp:HOST:PORT             a connection to HOST at PORT, with the framing of `lapd net` and
 *                             `lapd user`; tcp:HOST:PORT:listen waits for connections
 *   unix:PATH                 waits at PATH for the driver `unixsocket` of Osmocom's libosmo-abis;
 *                             unix:PATH:connect connects to PATH
 *
 * A loop waits by poll() for the events that lapd_line_prepare sets, and then calls lapd_line_next until it
 * returns LAPD_LINE_NOTHING. This takes what has arrived, sends what waits, and tries again what
 * failed: a lost connection, a device that was unplugged, a layer 1 that is not active. No call
 * blocks, except that lapd_line_open may look up the name of a host.
 *
 * A frame is its address, control and information field, as in lapd.h: the line adds and removes
 * flags, check sequences and headers. Frames are delivered and sent in order, none twice. A frame
 * that a full driver does not accept waits, and the next ones wait after it. While layer 1 is down
 * the line accepts no frame, and drops those that wait: after LAPD_LINE_DOWN a link recovers, or is
 * released, by the timers of its side (Q.921 5.6.7, 5.7.1).
 *
 * This part is C: it is tested, and not proved. A line is used by one thread at a time. */
#ifndef LAPD_LINE_H
#define LAPD_LINE_H

#include <poll.h>
#include <stddef.h>
#include <stdint.h>

#ifdef __cplusplus
extern "C" {
#endif

#define LAPD_LINE_MOST_FRAME 1024 /* octets; a valid frame has LAPD_MOST_FRAME (264) at most */
#define LAPD_LINE_MOST_WAITING 64 /* frames that wait for the driver; more are dropped */
#define LAPD_LINE_MOST_TEXT 256   /* octets of each text, with its final 0 */
#define LAPD_LINE_RETRY 1000      /* milliseconds until a failed connection, device or activation is
                                   * tried again */

typedef struct lapd_line lapd_line;

enum lapd_line_event {
	LAPD_LINE_NOTHING = 0, /* nothing more has arrived */
	LAPD_LINE_FRAME = 1,   /* a frame has arrived */
	LAPD_LINE_UP = 2,      /* layer 1 is active (PH-ACTIVATE indication), or a connection is made */
	LAPD_LINE_DOWN = 3,    /* layer 1 is not active (PH-DEACTIVATE indication), a connection is lost,
	                        * or a device is gone; the frames that waited were dropped */
	LAPD_LINE_FAULT = 4    /* a frame was lost or damaged, or layer 1 reports a fault */
};

/* The counters of a line since it was opened. */
typedef struct lapd_line_counts {
	uint64_t received;    /* frames delivered */
	uint64_t sent;        /* frames that the driver or the connection accepted */
	uint64_t dropped;     /* frames not sent: layer 1 was down, or too many waited */
	uint64_t refused;     /* frames that the driver refused, such as one that is too long for it */
	uint64_t unconfirmed; /* mISDN: frames that the driver did not confirm in time */
	uint64_t aborted;     /* DAHDI: frames that ended by an abort, received or sent */
	uint64_t check;       /* DAHDI: frames with a wrong check sequence */
	uint64_t overrun;     /* DAHDI: frames lost because the buffers were full */
	uint64_t invalid;     /* frames that are empty or too long, and messages of unknown kinds */
	uint64_t alarms;      /* alarms of layer 1 */
	uint64_t up, down;    /* how often LAPD_LINE_UP and LAPD_LINE_DOWN were returned */
	uint64_t waiting;     /* frames that wait now */
} lapd_line_counts;

/* Opens a line by its text. Returns NULL if that fails, and writes the reason and what can be done
 * to `error`, of `size` octets. A connection that cannot be made is no failure: the line is down,
 * and tries again. */
lapd_line *lapd_line_open(const char *text, char *error, size_t size);

/* Closes a line, and drops the frames that wait. NULL is allowed. */
void lapd_line_close(lapd_line *line);

/* Sets the descriptor and the events to wait for; the descriptor is -1, which poll() ignores, if
 * there is none now. Returns the longest time to wait in milliseconds, or -1. */
int lapd_line_prepare(const lapd_line *line, struct pollfd *wait);

/* The next event. A frame is written to `frame`, of `size` octets, and *length is its length; it is 0
 * for other events. A frame longer than `size` is a fault: use LAPD_LINE_MOST_FRAME octets. */
enum lapd_line_event lapd_line_next(lapd_line *line, uint8_t *frame, size_t size, size_t *length);

/* Sends a frame, now or when the driver accepts it. Returns 1, or 0 if the frame is dropped: the
 * line is down, too many frames wait, or the length is not 1 to LAPD_LINE_MOST_FRAME. */
int lapd_line_send(lapd_line *line, const uint8_t *frame, size_t length);

/* Whether layer 1 is active, by the last event. */
int lapd_line_is_up(const lapd_line *line);

/* The text that the line was opened by. */
const char *lapd_line_name(const lapd_line *line);

/* The reason of the last LAPD_LINE_UP, LAPD_LINE_DOWN or LAPD_LINE_FAULT, in words. */
const char *lapd_line_said(const lapd_line *line);

void lapd_line_count(const lapd_line *line, lapd_line_counts *counts);

/* Calls `found` for each D channel of this machine, with the text that opens it and what it is, and
 * for each driver that is missing, with the text NULL and the reason. Returns the number of D
 * channels. */
size_t lapd_line_list(void (*found)(void *context, const char *text, const char *what), void *context);

#ifdef __cplusplus
}
#endif

#endif
