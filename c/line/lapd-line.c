/* lapd-line: a D channel as a TCP line of lapd. It passes each frame from a D channel to a
 * connection and back. See docs/lapd-line.1, or `lapd-line --help`. */
#define _GNU_SOURCE /* ppoll */

#include "lapd.h"
#include "lapd_line.h"

#include <errno.h>
#include <signal.h>
#include <stdbool.h>
#include <stdio.h>
#include <stdlib.h>
#include <string.h>
#include <time.h>

#define MOST_EVENTS 4096 /* of a line, before the other lines are served */
#define NOTE_EVERY 1000  /* milliseconds between two notes on faults of a line */
#define NOTE_DOWN 2000   /* milliseconds that a line is down until there is a note on why */
#define LAST 500         /* milliseconds at the end for the frames that wait */

static const char usage[] =
	"usage: lapd-line LINE (--connect | --listen) HOST:PORT [LINE ..] [--quiet]\n"
	"       lapd-line --list\n";

static const char help[] =
	"\n"
	"Passes frames between a D channel and a connection, so that `lapd net`, `lapd user` and\n"
	"`lapd conform` run on a card. Several channels may be named, each with its connection.\n"
	"\n"
	"A LINE is one of\n"
	"  dahdi:16                  the D channel of DAHDI with this number\n"
	"  misdn:0:te, misdn:0:nt    the device of mISDN with this number or name, as the terminal or\n"
	"                            as the network\n"
	"  unix:PATH                 waits for Osmocom's driver `unixsocket`; with :connect at the end\n"
	"                            it connects to PATH\n"
	"  tcp:HOST:PORT             another connection; with :listen at the end it waits for one\n"
	"\n"
	"  --connect HOST:PORT  connects to this address, as of `lapd net --listen`, again and again\n"
	"  --listen HOST:PORT   waits for connections, as of `lapd user --connect`, one at a time\n"
	"  --quiet              prints no notes on what happens, only errors and the summary\n"
	"  --list               prints the D channels of this machine, and ends\n"
	"  --help, --version\n"
	"\n"
	"Notes and errors are on standard error. SIGUSR1 prints the frames and faults of each line on\n"
	"standard output. SIGINT and SIGTERM print them and end the program, with status 0. The status\n"
	"is 1 if a line cannot be opened, or --list finds none, and 2 if the words are wrong.\n"
	"\n"
	"  lapd-line dahdi:16 --listen :4000 &\n"
	"  lapd user --pri --clock real --connect :4000\n";

/* A D channel, and the connection in its place. */
struct bridge {
	lapd_line *lines[2];
	unsigned long faults[2]; /* since the last note */
	int64_t noted[2];        /* when that was */
	int64_t down[2];         /* since when a line is down; 0 if it is up, or there was a note */
};

static struct bridge *bridges;
static struct pollfd *waits;
static size_t count;
static bool is_quiet;
static volatile sig_atomic_t wants_end, wants_summary;
static sigset_t served; /* the signals that are served while the program waits */

static void on_end(int number)
{
	(void)number;
	wants_end = 1;
}

static void on_summary(int number)
{
	(void)number;
	wants_summary = 1;
}

static int64_t now(void)
{
	struct timespec time;

	clock_gettime(CLOCK_MONOTONIC, &time);
	return (int64_t)time.tv_sec * 1000 + time.tv_nsec / 1000000;
}

/* ---- The summary. */

static void print_count(const char *name, uint64_t number)
{
	if (number != 0)
		printf(", %llu %s", (unsigned long long)number, name);
}

static void print_line(const lapd_line *line)
{
	lapd_line_counts counts;

	lapd_line_count(line, &counts);
	printf("%s: %s, %llu frames received, %llu sent", lapd_line_name(line), lapd_line_is_up(line) ? "up" : "down",
	       (unsigned long long)counts.received, (unsigned long long)counts.sent);
	print_count("waiting", counts.waiting);
	print_count("dropped", counts.dropped);
	print_count("refused by the driver", counts.refused);
	print_count("not confirmed", counts.unconfirmed);
	print_count("aborted", counts.aborted);
	print_count("with a wrong check sequence", counts.check);
	print_count("lost by overrun", counts.overrun);
	print_count("invalid", counts.invalid);
	print_count("alarms", counts.alarms);
	print_count("times down", counts.down);
	putchar('\n');
}

static void print_summary(void)
{
	for (size_t at = 0; at < count; at++)
		for (int end = 0; end < 2; end++)
			print_line(bridges[at].lines[end]);
	fflush(stdout);
}

/* ---- The loop. */

static void note(const lapd_line *line, const char *what)
{
	if (!is_quiet)
		fprintf(stderr, "%s: %s%s\n", lapd_line_name(line), what, lapd_line_said(line));
}

/* A note on a fault, or on how many there were since the last one. */
static void note_fault(struct bridge *bridge, int end)
{
	bridge->faults[end]++;
	if (now() < bridge->noted[end] + NOTE_EVERY)
		return;
	if (bridge->faults[end] > 1 && !is_quiet)
		fprintf(stderr, "%s: %lu faults, the last: %s\n", lapd_line_name(bridge->lines[end]), bridge->faults[end],
		        lapd_line_said(bridge->lines[end]));
	else
		note(bridge->lines[end], "");
	bridge->faults[end] = 0;
	bridge->noted[end] = now();
}

/* A line that stays down: a note on the reason, once. */
static void note_down(struct bridge *bridge, int end)
{
	if (bridge->down[end] == 0 || now() < bridge->down[end] + NOTE_DOWN)
		return;
	bridge->down[end] = 0;
	note(bridge->lines[end], "still down: ");
}

/* Passes on what has arrived at one end. Returns whether more may have. */
static bool serve(struct bridge *bridge, int end)
{
	uint8_t frame[LAPD_LINE_MOST_FRAME];
	size_t length;

	for (int left = MOST_EVENTS; left > 0; left--) {
		switch (lapd_line_next(bridge->lines[end], frame, sizeof frame, &length)) {
		case LAPD_LINE_NOTHING:
			return false;
		case LAPD_LINE_FRAME:
			lapd_line_send(bridge->lines[1 - end], frame, length);
			break;
		case LAPD_LINE_UP:
			bridge->down[end] = 0;
			note(bridge->lines[end], "up: ");
			break;
		case LAPD_LINE_DOWN:
			bridge->down[end] = now();
			note(bridge->lines[end], "down: ");
			break;
		default:
			note_fault(bridge, end);
		}
	}
	return true;
}

/* Waits at most `wait` milliseconds, or without end if it is negative, and serves signals. */
static void wait_for(int wait)
{
	struct timespec most = { wait / 1000, wait % 1000 * 1000000L };

	ppoll(waits, (nfds_t)(2 * count), wait < 0 ? NULL : &most, &served);
}

/* Serves all lines, and then waits at most `wait` milliseconds, or without end if it is negative. */
static void serve_all(int wait)
{
	bool is_more = false;
	int most;

	for (size_t at = 0; at < count; at++)
		for (int end = 0; end < 2; end++) {
			is_more = serve(&bridges[at], end) || is_more;
			note_down(&bridges[at], end);
		}
	for (size_t at = 0; at < 2 * count; at++) {
		most = lapd_line_prepare(bridges[at / 2].lines[at % 2], &waits[at]);
		if (most >= 0 && (wait < 0 || most < wait))
			wait = most;
	}
	wait_for(is_more ? 0 : wait);
}

/* The signals are blocked but while the program waits, so that none is missed. */
static void catch_signals(void)
{
	struct sigaction action = { .sa_handler = on_end };
	sigset_t caught;

	sigemptyset(&caught);
	sigaddset(&caught, SIGINT);
	sigaddset(&caught, SIGTERM);
	sigaddset(&caught, SIGUSR1);
	sigprocmask(SIG_BLOCK, &caught, &served);

	sigaction(SIGINT, &action, NULL);
	sigaction(SIGTERM, &action, NULL);
	action.sa_handler = on_summary;
	sigaction(SIGUSR1, &action, NULL);
}

/* At the end a further signal changes nothing, and none stays blocked. */
static void ignore_signals(void)
{
	signal(SIGINT, SIG_IGN);
	signal(SIGTERM, SIG_IGN);
	signal(SIGUSR1, SIG_IGN);
	sigprocmask(SIG_SETMASK, &served, NULL);
}

static bool is_any_waiting(void)
{
	lapd_line_counts counts;

	for (size_t at = 0; at < 2 * count; at++) {
		lapd_line_count(bridges[at / 2].lines[at % 2], &counts);
		if (counts.waiting > 0)
			return true;
	}
	return false;
}

/* Sends the frames that have arrived, such as the last DISC, as far as drivers accept them in time. */
static void serve_last(void)
{
	int64_t end = now() + LAST;

	do
		serve_all(10);
	while (is_any_waiting() && now() < end);
}

static void run(void)
{
	catch_signals();
	while (!wants_end) {
		serve_all(is_quiet ? -1 : NOTE_DOWN);
		if (wants_summary) {
			wants_summary = 0;
			print_summary();
		}
	}
	ignore_signals();
	serve_last();
	print_summary();
}

/* ---- The words. */

static int wrong(const char *what, const char *word)
{
	fprintf(stderr, "lapd-line: %s%s\n%s", what, word, usage);
	return 2;
}

static lapd_line *opened(const char *text)
{
	char error[LAPD_LINE_MOST_TEXT];
	lapd_line *line = lapd_line_open(text, error, sizeof error);

	if (line == NULL)
		fprintf(stderr, "lapd-line: %s: %s\n", text, error);
	return line;
}

/* Opens a D channel and its connection. Returns the status, 0 if both are open. */
static int open_bridge(const char *text, const char *option, const char *address)
{
	char connection[LAPD_LINE_MOST_TEXT];
	bool listens = strcmp(option, "--listen") == 0;

	if (strlen(address) > sizeof connection - sizeof "tcp::listen")
		return wrong("the address is too long: ", address);
	snprintf(connection, sizeof connection, "tcp:%s%s", address, listens ? ":listen" : "");
	bridges[count].lines[0] = opened(text);
	if (bridges[count].lines[0] == NULL)
		return 1;
	bridges[count].lines[1] = opened(connection);
	if (bridges[count].lines[1] == NULL) {
		lapd_line_close(bridges[count].lines[0]);
		return 1;
	}
	bridges[count].down[0] = bridges[count].down[1] = now();
	count++;
	return 0;
}

static void close_all(void)
{
	for (size_t at = 0; at < count; at++)
		for (int end = 0; end < 2; end++)
			lapd_line_close(bridges[at].lines[end]);
	free(bridges);
	free(waits);
}

static void found(void *context, const char *text, const char *what)
{
	(void)context;
	if (text != NULL)
		printf("%-16s %s\n", text, what);
	else
		fprintf(stderr, "lapd-line: %s\n", what);
}

static int list(void)
{
	return lapd_line_list(found, NULL) > 0 ? 0 : 1;
}

/* A word that ends the program by itself. Returns its status, or -1. */
static int only_word(const char *word)
{
	if (strcmp(word, "--list") == 0)
		return list();
	if (strcmp(word, "--version") == 0)
		return printf("lapd-line %s\n", LAPD_VERSION_STRING) < 0;
	if (strcmp(word, "--help") == 0 || strcmp(word, "-h") == 0)
		return printf("%s%s", usage, help) < 0;
	return -1;
}

static int open_all(int words_count, char **words)
{
	int at = 1, status = 0;

	while (at < words_count && status == 0) {
		if (strcmp(words[at], "--quiet") == 0) {
			is_quiet = true;
			at++;
		} else if (words[at][0] == '-') {
			return wrong("a line is named first, and then its connection: ", words[at]);
		} else if (at + 2 >= words_count
		           || (strcmp(words[at + 1], "--connect") != 0 && strcmp(words[at + 1], "--listen") != 0)) {
			return wrong("--connect or --listen and HOST:PORT follow a line: ", words[at]);
		} else {
			status = open_bridge(words[at], words[at + 1], words[at + 2]);
			at += 3;
		}
	}
	return status != 0 || count > 0 ? status : wrong("no line is named", "");
}

int main(int words_count, char **words)
{
	int status = words_count == 2 ? only_word(words[1]) : -1;

	if (status >= 0)
		return status;
	bridges = calloc((size_t)words_count, sizeof *bridges);
	waits = calloc(2 * (size_t)words_count, sizeof *waits);
	if (bridges == NULL || waits == NULL) {
		fprintf(stderr, "lapd-line: out of memory\n");
		return 1;
	}
	status = open_all(words_count, words);
	if (status == 0)
		run();
	close_all();
	return status;
}
