/* A stream with the framing of `lapd net` and `lapd user`: each frame follows its length, two octets,
 * the high one first. A failure ends the program. Programs with a D channel use lapd_line.h. */
#ifndef TCP_LINE_H
#define TCP_LINE_H

#include "example.h"

#define LENGTH_OCTETS 2
#define LINE_FRAME 512 /* the longest frame on the line; a valid one has LAPD_MOST_FRAME octets at most */

/* A connection, and the part of the next frame that has arrived: its length, then octets. */
struct tcp_line {
	int socket;
	size_t count;
	uint8_t octets[LENGTH_OCTETS + LINE_FRAME];
};

/* Listens on this machine at this port, 1 to 65535. Returns the socket. */
int listening(const char *port);

/* Waits for a connection. Returns its socket. */
int accepted(int listener);

/* Waits for a connection on this machine at this port, 1 to 65535, or makes one to it. Returns its
 * socket. */
int connected(bool listens, const char *port);

/* Sends a frame of at most LAPD_MOST_FRAME octets, without waiting: if the line does not accept the
 * frame at once, it has failed. */
void write_frame(int socket, const uint8_t *frame, size_t length);

/* Takes the next complete frame, without waiting, into LINE_FRAME octets. Returns its length,
 * or 0 if no complete frame had arrived, or -1 if the other side has hung up or sent a length that
 * is not from 1 to LINE_FRAME. */
int next_frame(struct tcp_line *line, uint8_t *frame);

#endif
