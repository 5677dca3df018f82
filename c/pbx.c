/* A private branch exchange (PBX), which makes each call of lapd.h in a place where a PBX needs it:
 * `pbx [SETTING=NUMBER ..] ROLE LINE ROLE LINE ..`, as in `pbx net dahdi:16 user dahdi:47`. ROLE is net
 * or user at primary rate, basic-net or basic-user at basic access, and LINE is a text of
 * lapd_line.h. SETTING is t200, t203 or room of lapd_settings, or trace, which prints each frame that
 * is sent.
 *
 * The first span is joined to the second, the third to the fourth: a message that arrives on one is
 * sent on the other. In a PBX layer 3 (Q.931) makes and routes calls; here it passes on octets. A
 * message for a bus is sent to the terminal that sent one last, or to all as unit data, as a SETUP.
 *
 * SIGUSR1 prints states and counters. SIGTERM and SIGINT release the links and end the program. An
 * operator may type `timers T200 T201 T202 T203`, `check`, or `remove SPAN TEI`. This file has the
 * program and its loop, and pbx_span.c the messages, links and TEIs of a span. */
#define _GNU_SOURCE /* getrandom */

#include "pbx.h"

#include <signal.h>
#include <stdio.h>
#include <stdlib.h>
#include <string.h>
#include <sys/random.h>
#include <sys/signalfd.h>
#include <unistd.h>

#define MOST_SPANS 64
#define EACH(span) (struct span *span = spans; span < spans + count; span++)

static struct span spans[MOST_SPANS];
static struct pollfd waits[MOST_SPANS + 2]; /* the spans, the operator, signals */
static size_t count;
static bool is_ending, is_traced;

/* ---- Signals and the operator. */

/* A descriptor for signals: poll() then misses none. */
static int open_signals(void)
{
	sigset_t caught;
	int signals;

	sigemptyset(&caught);
	sigaddset(&caught, SIGUSR1);
	sigaddset(&caught, SIGTERM);
	sigaddset(&caught, SIGINT);
	sigprocmask(SIG_BLOCK, &caught, NULL);
	signals = signalfd(-1, &caught, SFD_NONBLOCK | SFD_CLOEXEC);
	if (signals < 0)
		fail("signalfd");
	return signals;
}

static void serve_signals(int signals)
{
	struct signalfd_siginfo signal;

	while (read(signals, &signal, sizeof signal) == sizeof signal) {
		for EACH(span) {
			if (signal.ssi_signo == SIGUSR1)
				print_state(span->line, &span->side);
			else if (!is_ending)
				release(span);
		}
		is_ending = is_ending || signal.ssi_signo != SIGUSR1;
	}
}

/* Executes what the operator has typed. */
static void serve_operator(struct pollfd *operator)
{
	unsigned t200, t201, t202, t203, number, tei;
	char words[128];
	ssize_t got = read(operator->fd, words, sizeof words - 1);

	if (got <= 0) {
		operator->fd = -1; /* there is none */
		return;
	}
	words[got] = '\0';
	for EACH(span) {
		if (sscanf(words, "timers %u %u %u %u", &t200, &t201, &t202, &t203) == 4)
			note(span, "timers", lapd_side_set_timers(&span->side, t200, t201, t202, t203));
		if (strncmp(words, "check", 5) == 0)
			note(span, "check", lapd_side_check_all(&span->side, clock_now()));
		if (sscanf(words, "remove %u %u", &number, &tei) == 2 && number == span->number)
			note(span, "remove", lapd_side_remove_tei(&span->side, (uint8_t)tei, clock_now()));
		settle(span);
	}
}

/* ---- The program. */

/* Serves all spans, until all links are released after a signal. */
static void run(void)
{
	struct pollfd *operator = &waits[count], *signals = &waits[count + 1];
	size_t releasing;
	int wait;

	*operator = (struct pollfd){ STDIN_FILENO, POLLIN, 0 };
	*signals = (struct pollfd){ open_signals(), POLLIN, 0 };
	for (;;) {
		for EACH(span)
			serve(span);
		releasing = 0;
		wait = -1;
		for EACH(span) {
			releasing += span->releasing;
			wait = shorter(wait, prepare(span, &waits[span - spans]));
		}
		if (is_ending && releasing == 0)
			return;
		poll(waits, count + 2, wait);
		serve_signals(signals->fd);
		if (operator->revents != 0)
			serve_operator(operator);
	}
}

/* Whether a word is a setting, such as `t200=1500`, for `most` at most. A greater number becomes 0,
 * which is out of range. */
static bool is_setting(const char *word, const char *name, unsigned long most, unsigned long *number)
{
	size_t length = strlen(name);

	if (strncmp(word, name, length) != 0 || word[length] != '=')
		return false;
	*number = strtoul(word + length + 1, NULL, 10);
	*number = *number <= most ? *number : 0;
	return true;
}

static bool set(lapd_settings *settings, const char *word)
{
	unsigned long number;

	if (is_setting(word, "t200", UINT32_MAX, &number))
		settings->t200 = (uint32_t)number;
	else if (is_setting(word, "t203", UINT32_MAX, &number))
		settings->t203 = (uint32_t)number;
	else if (is_setting(word, "room", UINT16_MAX, &number))
		settings->room = (uint16_t)number;
	else if (is_setting(word, "trace", 1, &number))
		is_traced = number != 0;
	else
		return false;
	return true;
}

static int wrong(const char *what, const char *word)
{
	fprintf(stderr, "pbx: %s%s\nusage: pbx [SETTING=NUMBER ..] ROLE LINE ROLE LINE ..\n", what, word);
	return 2;
}

/* Creates the side of a span. A network side of a bus has the TEIs that it had before a restart, and
 * each other side TEI 0 or none. */
static void open_side(struct span *span, const lapd_settings *settings, bool is_basic)
{
	uint8_t teis[MOST_TEIS] = { 0 };

	if (!span->is_network)
		check(lapd_side_user(&span->side, settings, is_basic ? LAPD_NO_TEI : teis[0]), "user");
	else if (is_basic)
		check(lapd_side_network(&span->side, settings, teis, saved_teis(span, teis)), "network");
	else
		check(lapd_side_network(&span->side, settings, teis, 1), "network");
	check(lapd_side_count(&span->side), "count");
}

/* Opens the next span. Returns whether its role and its settings are right. */
static bool open_span(const char *role, const char *text, char **settings_words, int settings_count)
{
	const lapd_settings basic = LAPD_BASIC, primary = LAPD_PRIMARY;
	bool is_basic = strncmp(role, "basic-", 6) == 0;
	lapd_settings settings = is_basic ? basic : primary;
	struct span *span = &spans[count];
	uint8_t setting;
	int at;

	for (at = 0; at < settings_count; at++)
		set(&settings, settings_words[at]);
	if (lapd_settings_check(&settings, &setting) != LAPD_DONE)
		return wrong("out of range: ", lapd_setting_string(setting)) == 0;
	role += is_basic ? 6 : 0;
	if (strcmp(role, "net") != 0 && strcmp(role, "user") != 0)
		return wrong("not a role: ", role) == 0;
	/* Terminals of one bus must draw different references to request TEIs. */
	if (getrandom(&settings.seed, sizeof settings.seed, 0) < 0)
		fail("getrandom");
	span->other = &spans[count ^ 1];
	span->number = (unsigned)++count;
	span->again = LAPD_NEVER;
	span->is_traced = is_traced;
	span->is_network = strcmp(role, "net") == 0;
	span->is_bus = span->is_network && is_basic;
	span->terminal = span->is_bus ? LAPD_GROUP_TEI : 0;
	open_side(span, &settings, is_basic);
	span->line = opened(text);
	return true;
}

int main(int words_count, char **words)
{
	lapd_settings any = LAPD_BASIC;
	int settings = 0, at;

	if (lapd_version() < LAPD_VERSION)
		return wrong("the library is older than the header " LAPD_VERSION_STRING, "");
	while (settings + 1 < words_count && set(&any, words[settings + 1]))
		settings++;
	at = settings + 1;
	if (words_count - at < 4 || (words_count - at) % 4 != 0 || (words_count - at) / 2 > MOST_SPANS)
		return wrong("each span has a role and a line, and spans are joined in pairs", "");
	for (; at < words_count; at += 2)
		if (!open_span(words[at], words[at + 1], words + 1, settings))
			return 2;
	run();
	for EACH(span) {
		lapd_side_free(&span->side);
		close_line(span->line);
	}
	return 0;
}
