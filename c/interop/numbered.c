/* Sends numbered messages by `lapd net` or `lapd user`, and checks those that arrive.
 *
 * usage: numbered COUNT OCTETS SECONDS PROGRAM net|user WORD..
 *
 * It runs the program, which has to have the options --clock real and --quiet, and writes its lines.
 * As the user it establishes the link first. When the link is established, it submits messages as
 * fast as the other end sends its own, with some on their way. It ends when COUNT messages were
 * acknowledged and as many have arrived, or after these seconds, and prints one line of counts. The
 * status is 0 if each message has arrived once and in order, and was acknowledged. */
#define _POSIX_C_SOURCE 200809L

#include <fcntl.h>
#include <poll.h>
#include <signal.h>
#include <stdbool.h>
#include <stdio.h>
#include <stdlib.h>
#include <string.h>
#include <sys/wait.h>
#include <time.h>
#include <unistd.h>

#define AHEAD 200 /* messages that are submitted before as many have arrived: the queue has room for 512 */
#define MOST_LINE 1024

static struct {
	unsigned count, octets;
	bool is_network;
} options;

static struct {
	unsigned given, acknowledged, received, wrong, refused, reports, established;
	int tei;
	bool is_up;
} counts;

static double seconds(void)
{
	struct timespec time;

	clock_gettime(CLOCK_MONOTONIC, &time);
	return (double)time.tv_sec + (double)time.tv_nsec / 1e9;
}

/* ---- What the program prints. */

static void on_data(const char *text)
{
	unsigned number;

	if (strlen(text) != 2 * options.octets || sscanf(text, "0801%8x", &number) != 1 || number != counts.received)
		counts.wrong++;
	counts.received++;
}

static void on_line(const char *line)
{
	char word[32], text[MOST_LINE] = "";
	unsigned number;
	int sapi, tei;

	if (strncmp(line, "refused", 7) == 0)
		counts.refused++;
	if (sscanf(line, "%d %d %31s %1023s", &sapi, &tei, word, text) < 3)
		return;
	if (strcmp(word, "established") == 0 || strcmp(word, "confirmed") == 0) {
		counts.is_up = true;
		counts.tei = tei;
		counts.established++;
	} else if (strcmp(word, "released") == 0) {
		counts.is_up = false;
	} else if (strcmp(word, "data") == 0) {
		on_data(text);
	} else if (strcmp(word, "acknowledged") == 0 && sscanf(text, "%u", &number) == 1) {
		counts.acknowledged += number;
	} else if (strcmp(word, "report") == 0) {
		counts.reports++;
		printf("%s\n", line);
	}
}

/* Reads what the program has printed. Returns false at its end. */
static bool read_lines(int from)
{
	static char line[MOST_LINE];
	static size_t length;
	char octets[4096];
	ssize_t got = read(from, octets, sizeof octets);

	for (ssize_t place = 0; place < got; place++) {
		if (octets[place] != '\n') {
			line[length] = octets[place];
			length += length + 1 < sizeof line;
			continue;
		}
		line[length] = '\0';
		length = 0;
		on_line(line);
	}
	return got > 0;
}

/* ---- The lines of the program. */

static int next_line(char *line, size_t size)
{
	int length;

	if (!counts.is_up || counts.given == options.count || counts.given >= counts.received + AHEAD
	    || counts.given >= counts.acknowledged + 2 * AHEAD)
		return 0;
	if (options.is_network)
		length = snprintf(line, size, "give 0 %d 0801%08x", counts.tei, counts.given);
	else
		length = snprintf(line, size, "give 0 0801%08x", counts.given);
	for (unsigned octet = 6; octet < options.octets; octet++)
		length += snprintf(line + length, size - (size_t)length, "%02x", octet & 0xff);
	line[length++] = '\n';
	counts.given++;
	return length;
}

/* Writes lines as far as the program takes them, which may read none while it prints. Returns
 * whether a part of one waits. */
static bool write_lines(int to)
{
	static char line[MOST_LINE];
	static int length, written;
	ssize_t got;

	for (;;) {
		if (written == length) {
			written = 0;
			length = next_line(line, sizeof line);
		}
		if (length == 0)
			return false;
		got = write(to, line + written, (size_t)(length - written));
		if (got < 0)
			return true;
		written += (int)got;
	}
}

static bool is_finished(void)
{
	return counts.received >= options.count && counts.acknowledged >= options.count;
}

/* ---- The program. */

static pid_t started(char **words, int *to, int *from)
{
	int in[2], out[2];
	pid_t child;

	if (pipe(in) != 0 || pipe(out) != 0 || (child = fork()) < 0) {
		perror("numbered");
		exit(2);
	}
	if (child == 0) {
		dup2(in[0], 0);
		dup2(out[1], 1);
		for (int it = 0; it < 2; it++) {
			close(in[it]);
			close(out[it]);
		}
		execvp(words[0], words);
		perror(words[0]);
		_exit(127);
	}
	close(in[0]);
	close(out[1]);
	fcntl(in[1], F_SETFL, O_NONBLOCK);
	*to = in[1];
	*from = out[0];
	return child;
}

static void say(int to, const char *text)
{
	if (write(to, text, strlen(text)) < 0)
		perror("numbered");
}

static void run(int to, int from, double limit)
{
	bool waits = false;

	while (!is_finished() && seconds() < limit) {
		struct pollfd ends[] = { { from, POLLIN, 0 }, { waits ? to : -1, POLLOUT, 0 } };

		poll(ends, 2, 200);
		if (ends[0].revents != 0 && !read_lines(from))
			return;
		waits = write_lines(to);
	}
}

int main(int count, char **words)
{
	double began = seconds(), took;
	int to, from;
	pid_t child;

	if (count < 6) {
		fprintf(stderr, "usage: numbered COUNT OCTETS SECONDS PROGRAM net|user WORD..\n");
		return 2;
	}
	options.count = (unsigned)atoi(words[1]);
	options.octets = (unsigned)atoi(words[2]);
	options.is_network = strcmp(words[5], "net") == 0;
	signal(SIGPIPE, SIG_IGN);
	child = started(words + 4, &to, &from);
	if (!options.is_network)
		say(to, "establish 0\n");
	run(to, from, began + atoi(words[3]));
	took = seconds() - began;
	/* The other end may wait for an answer still. */
	say(to, "run 2000\n");
	close(to);
	while (read_lines(from))
		;
	waitpid(child, NULL, 0);
	printf("%s: %u messages given, %u acknowledged, %u received, %u of them wrong, %u refused, %u reports, "
	       "established %u times, %.1f s\n",
	       words[5], counts.given, counts.acknowledged, counts.received, counts.wrong, counts.refused, counts.reports,
	       counts.established, took);
	return is_finished() && counts.received == options.count && counts.wrong == 0 ? 0 : 1;
}
