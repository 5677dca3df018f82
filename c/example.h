/* Shared by the examples: a clock, the end of a program after a failure, texts, and lines. */
#ifndef EXAMPLE_H
#define EXAMPLE_H

#include "lapd.h"
#include "lapd_line.h"

#include <stdbool.h>

/* The time of a monotonic clock, in milliseconds. */
uint64_t clock_now(void);

/* Ends the program, because a call of the system or of the library has failed. */
void fail(const char *what);
void check(lapd_result code, const char *what);

/* Opens a line, or ends the program with the reason. */
lapd_line *opened(const char *text);

/* Prints what happened on a line on standard error: LAPD_LINE_UP, LAPD_LINE_DOWN or
 * LAPD_LINE_FAULT. */
void print_event(const lapd_line *line, enum lapd_line_event event);

/* Prints the name of a code or a kind, which may be of a later version than the header: a call that
 * failed, on standard error, or a primitive, unless its kind is LAPD_NOTHING. */
void print_code(const char *where, const char *call, lapd_result code);
void print_primitive(const char *where, const lapd_primitive *item);

/* Prints a frame that a side has sent, as a line of text on standard error. */
void print_frame(const char *where, bool is_network, const uint8_t *frame, size_t length);

/* Prints the states and counters of a line, of a side that counts, and of its links with SAPI 0. */
void print_state(const lapd_line *line, const lapd_side *side);

/* Sends a frame at one end of a D channel when both ends are up, and returns the length of the frame
 * that arrives at the other end, in the same LAPD_LINE_MOST_FRAME octets. If none arrives in time,
 * it ends the program. */
size_t carried(lapd_line *from, lapd_line *to, uint8_t *frame, size_t length);

/* Closes a line, once the last frames have had time to be sent: a driver discards those that it has
 * not sent yet. */
void close_line(lapd_line *line);

/* The milliseconds from `now` to a moment, for poll(): -1, without end, for LAPD_NEVER. */
int wait_time(uint64_t moment, uint64_t now);

/* The shorter of two such waits. */
int shorter(int a, int b);

#endif
