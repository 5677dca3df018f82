/* Shared by line.c and the files of the kinds of lines. */
#ifndef KIND_H
#define KIND_H

#include "lapd_line.h"

#include <stdbool.h>

/* The longest that a driver delivers at once, with headers and check sequence. */
#define MOST_READ 4096

enum sent {
	SENT,
	FULL,    /* wait until the descriptor accepts octets */
	HELD,    /* wait for the driver, or until `send_at` */
	REFUSED, /* the driver refuses this frame, and may accept the next one */
	GONE     /* the driver accepts nothing more; line_gone was called */
};

struct line_kind {
	const char *name; /* the first word of the text */
	const char *form; /* the whole text, for messages */
	/* Opens the line by the rest of its text. Returns whether that succeeded; if not, line->said is
	 * the reason. */
	bool (*open)(lapd_line *line, char *words);
	/* Frees what only this kind has. The descriptor is closed afterwards. */
	void (*close)(lapd_line *line);
	/* The next event of the driver. `frame` has room for MOST_READ octets. */
	enum lapd_line_event (*receive)(lapd_line *line, uint8_t *frame, size_t *length);
	enum sent (*send)(lapd_line *line, const uint8_t *frame, size_t length);
	/* Called at line->due: tries a connection, a device or an activation again. */
	void (*again)(lapd_line *line);
	/* Calls `found` as lapd_line_list does, or NULL. */
	size_t (*list)(void (*found)(void *, const char *, const char *), void *context);
};

struct waiting_frame {
	size_t length;
	uint8_t octets[LAPD_LINE_MOST_FRAME];
};

struct lapd_line {
	const struct line_kind *kind;
	void *own;       /* what only this kind has */
	int descriptor;  /* -1: none */
	short events;    /* to wait for, besides POLLOUT */
	bool is_up, is_full;
	int64_t due;     /* when kind->again is called; 0: never */
	int64_t send_at; /* when sending is tried again; 0: not by time */
	enum lapd_line_event pending; /* an event that a call other than lapd_line_next caused */
	lapd_line_counts counts;
	char name[LAPD_LINE_MOST_TEXT], said[LAPD_LINE_MOST_TEXT];
	size_t first; /* the place of the frame that waits longest */
	struct waiting_frame waiting[LAPD_LINE_MOST_WAITING];
};

extern const struct line_kind line_dahdi, line_misdn, line_tcp, line_unix;

/* A monotonic clock, in milliseconds. */
int64_t line_clock(void);

/* Sets what happened. Returns false, for kind->open. */
bool line_say(lapd_line *line, const char *format, ...);

/* These set what happened and return the event, for kind->receive. A line that is up already, or
 * down, has no event: they return LAPD_LINE_NOTHING. */
enum lapd_line_event line_is_up(lapd_line *line, const char *why);
enum lapd_line_event line_is_down(lapd_line *line, const char *why);
enum lapd_line_event line_fault(lapd_line *line, uint64_t *counter, const char *why);

/* Closes the descriptor of a connection or device that is gone, which is tried again later. Returns
 * the event. */
enum lapd_line_event line_gone(lapd_line *line, const char *why);

/* Keeps an event for the next call of lapd_line_next. Another event replaces a fault. */
void line_keep(lapd_line *line, enum lapd_line_event event);

/* Sets the time until kind->again, in milliseconds. */
void line_later(lapd_line *line, int wait);

/* Makes a descriptor non-blocking, and not inherited by other programs. */
void line_descriptor(int descriptor);

/* A number from 0 to `most` that is the whole text, or -1. */
long line_number(const char *text, long most);

/* Removes `word` with a colon before it from the end of a text. Returns whether the text ended so. */
bool line_ends(char *text, const char *word);

/* A listener with at most one connection, as tcp and unix have it. */
enum lapd_line_event line_accept(lapd_line *line, int listener);

#endif
