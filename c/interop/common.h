/* Shared by the interop programs, besides the line of tcp_line.h: traces, and rows of a table. */
#ifndef COMMON_H
#define COMMON_H

#include "tcp_line.h"

/* Whether octets can be read or the other side has hung up. Waits at most `wait` milliseconds. */
bool is_readable(int line, int wait);

/* Prints a frame on the line as a trace line on standard error, if INTEROP_TRACE is set, and adds it
   to the script for `lapd decode` that INTEROP_OCTETS names, if it is set. */
void trace(const uint8_t *frame, size_t length, bool network, const char *note);

bool is_i_frame(const uint8_t *frame, size_t length);

/* Whether a frame is an RR, RNR or REJ command with P=1. `network` says which side sent it. */
bool is_poll(const uint8_t *frame, size_t length, bool network);

/* Prints a row of the table: the test, a tab, `yes` or `no`, and the words. */
void row(const char *what, bool well, const char *format, ...);

/* Prints a row with a result but without a verdict. */
void observe(const char *what, const char *format, ...);

/* The number of rows that said `no`. */
extern int rows_failed;

#endif
