/* An end of libpri over a stream with the framing of `lapd net` and `lapd user`. */
#ifndef LIBPRI_END_H
#define LIBPRI_END_H

#include <stdbool.h>
#include <stdint.h>

#include <libpri.h>

/* Creates an end of a basic rate interface with assigned TEIs, or of a primary rate interface. A
 * process has only one. */
struct pri *libpri_end(int socket, bool is_primary, bool network);

/* Whether the other side has hung up. */
extern bool libpri_line_closed;

/* The milliseconds until a timer of libpri is due, at most `most`. */
int libpri_wait(struct pri *end, int most);

/* Expires the timers that are due, and returns the resulting event, if any. */
pri_event *libpri_tick(struct pri *end);

/* Makes a call: libpri sends a SETUP. */
void libpri_call(struct pri *end, bool is_primary);

/* Refuses or clears the call of an event. */
void libpri_clear(struct pri *end, pri_event *event);

#endif
