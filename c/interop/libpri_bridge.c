/* libpri as one side of an interface, over a TCP connection on this machine with the framing of
 * `lapd net` and `lapd user`. `libpri_bridge basic|primary net|user listen|connect PORT [call]`
 * prints the events of libpri and refuses each call; with `call` it makes one after 2 seconds. It
 * ends when the other side hangs up. */
#include "common.h"
#include "libpri_end.h"

#include <stdio.h>
#include <string.h>

#define CALL_AFTER 2000
#define LONGEST 1000000

static void on_event(struct pri *end, pri_event *event)
{
	if (event == NULL)
		return;
	printf("%s\n", pri_event2str(event->e));
	fflush(stdout);
	libpri_clear(end, event);
}

int main(int count, char **words)
{
	bool is_primary, calls;
	uint64_t began = clock_now();
	struct pri *end;
	int line, wait;

	if (count < 5) {
		fprintf(stderr, "usage: libpri_bridge basic|primary net|user listen|connect PORT [call]\n");
		return 2;
	}
	is_primary = strcmp(words[1], "primary") == 0;
	calls = count > 5;
	line = connected(strcmp(words[3], "listen") == 0, words[4]);
	end = libpri_end(line, is_primary, strcmp(words[2], "net") == 0);
	while (!libpri_line_closed) {
		while (!libpri_line_closed && is_readable(line, 0))
			on_event(end, pri_check_event(end));
		on_event(end, libpri_tick(end));
		if (calls && clock_now() >= began + CALL_AFTER) {
			calls = false;
			libpri_call(end, is_primary);
		}
		wait = libpri_wait(end, calls ? CALL_AFTER : LONGEST);
		is_readable(line, calls && wait > 100 ? 100 : wait);
	}
	return 0;
}
