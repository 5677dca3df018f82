/* Runs the dialogues of dialogues.txt, whose name is the argument: each call must have the listed
 * results. */
#include "test.h"

#include <string.h>

#define ROOM 8192

static lapd_side side = LAPD_SIDE_INIT;
static char given[ROOM];

/* Reads octets in hexadecimal digits, - for none, and returns their number. */
static size_t octets_of(const char *digits, uint8_t *octets)
{
	size_t count = 0;
	unsigned octet;

	while (*digits != '\0' && *digits != '-' && sscanf(digits, "%2x", &octet) == 1) {
		octets[count++] = (uint8_t)octet;
		digits += 2;
	}
	return count;
}

static void append(const char *text)
{
	WANT(strlen(given) + strlen(text) < ROOM);
	strcat(given, text);
}

static void append_octets(const uint8_t *octets, size_t count)
{
	char digits[3];
	size_t at;

	for (at = 0; at < count; at++) {
		sprintf(digits, "%02x", octets[at]);
		append(digits);
	}
}

static const char *word_of(const lapd_primitive *delivered)
{
	switch (delivered->kind) {
	case LAPD_DATA_IND: return "data";
	case LAPD_UNIT_DATA_IND: return "unit";
	case LAPD_ESTABLISH_IND: return "established";
	case LAPD_ESTABLISH_CONF: return "confirmed";
	case LAPD_RELEASE_IND: return "released";
	case LAPD_RELEASE_CONF: return "release-confirmed";
	case LAPD_ACKNOWLEDGED: return "acknowledged";
	case LAPD_DROPPED: return "dropped";
	case LAPD_MDL_ERROR: return "report";
	case LAPD_TEI_GOT: return "got";
	case LAPD_TEI_GONE: return "gone";
	case LAPD_TEI_FAILED: return "failed";
	case LAPD_TEI_GIVEN: return "given";
	case LAPD_TEI_FREE: return "free";
	case LAPD_TEI_IN_USE: return "in-use";
	case LAPD_TEI_DOUBLED: return "doubled";
	default: return "?";
	}
}

static void append_primitive(const lapd_primitive *delivered, const uint8_t *octets)
{
	char words[64];

	if (delivered->kind == LAPD_TEI_FAILED) {
		WANT(delivered->tei == LAPD_GROUP_TEI && delivered->sapi == 63);
		append("tei failed");
	} else if (delivered->kind >= LAPD_TEI_GOT) {
		WANT(delivered->sapi == 63);
		sprintf(words, "tei %s %u", word_of(delivered), delivered->tei);
		append(words);
	} else {
		sprintf(words, "%u %u %s", delivered->sapi, delivered->tei, word_of(delivered));
		append(words);
	}
	if (delivered->octets > 0) {
		append(" ");
		append_octets(octets, delivered->octets);
	}
	if (delivered->count > 0) {
		sprintf(words, " %u", delivered->count);
		append(words);
	}
	if (delivered->letter > 0) {
		sprintf(words, " %c", delivered->letter);
		append(words);
	}
	append(";");
}

static void fetch(void)
{
	uint8_t octets[LAPD_MOST_FRAME];
	lapd_primitive item;
	size_t left;

	do {
		DONE(lapd_side_next(&side, &item, octets, sizeof octets, &left));
		if (item.kind == LAPD_FRAME) {
			append_octets(octets, item.octets);
			append(";");
		} else if (item.kind != LAPD_NOTHING) {
			append_primitive(&item, octets);
		}
	} while (left > 0);
}

static void append_refusal(uint32_t code)
{
	char words[64];
	uint8_t name[LAPD_MOST_NAME];
	size_t length;

	DONE(lapd_code_name(code, name, sizeof name, &length));
	if (code == LAPD_NO_LINK || code == LAPD_NO_MEMORY)
		sprintf(words, "refused B%u;", (unsigned)code - 10);
	else if (code < LAPD_NO_LINK)
		sprintf(words, "refused %s;", (const char *)name);
	else
		sprintf(words, "refused L%u;", (unsigned)code - 20);
	append(words);
}

/* The counters that are not 0, in words. */
static void append_counters(const lapd_link_counters *counters)
{
	static const char *names[] = { "sent", "again", "received", "rej-sent", "rej-received", "rnr-sent", "rnr-received", "reports" };
	const uint64_t numbers[] = { counters->sent, counters->again, counters->received, counters->rej_sent,
		counters->rej_received, counters->rnr_sent, counters->rnr_received, counters->reports };
	char words[64];
	int at;

	for (at = 0; at < 8; at++) {
		if (numbers[at] > 0) {
			sprintf(words, "%s %llu;", names[at], (unsigned long long)numbers[at]);
			append(words);
		}
	}
}

static void make(const char *kind, const char *tei, const char *sapi16)
{
	lapd_settings settings = LAPD_BASIC;
	uint8_t teis[2];

	settings.seed = 921;
	settings.sapi16 = *sapi16 != '-';
	teis[0] = teis[1] = (uint8_t)atoi(tei);
	if (strcmp(kind, "network") == 0)
		DONE(lapd_side_network(&side, &settings, teis, *tei == '-' ? 0 : 2));
	else
		DONE(lapd_side_user(&side, &settings, *tei == '-' ? LAPD_NO_TEI : teis[0]));
}

/* Makes the call of a line; false if the line is not a call. */
static bool called(const char *line)
{
	char name[32] = "", a[32] = "", b[32] = "", c[ROOM] = "", d[ROOM] = "";
	uint8_t octets[ROOM];
	lapd_link_counters counters;
	uint64_t now, number;
	uint32_t code;
	uint8_t expired = 1;

	sscanf(line, "%31s %31s %31s %8191s %8191s", name, a, b, c, d);
	now = strtoull(a, NULL, 10);
	if (strcmp(name, "take") == 0) {
		code = lapd_side_take(&side, octets, octets_of(b, octets), now);
	} else if (strcmp(name, "tick") == 0) {
		code = lapd_side_tick(&side, now, &expired);
		if (!expired)
			append("none;");
	} else if (strcmp(name, "establish") == 0) {
		code = lapd_side_establish(&side, (uint8_t)atoi(b), (uint8_t)atoi(c), now);
	} else if (strcmp(name, "release") == 0) {
		code = lapd_side_release(&side, (uint8_t)atoi(b), (uint8_t)atoi(c), now);
	} else if (strcmp(name, "give") == 0) {
		code = lapd_side_give(&side, (uint8_t)atoi(b), (uint8_t)atoi(c), octets, octets_of(d, octets), now);
	} else if (strcmp(name, "unit") == 0) {
		code = lapd_side_unit(&side, (uint8_t)atoi(b), (uint8_t)atoi(c), octets, octets_of(d, octets), now);
	} else if (strcmp(name, "busy") == 0) {
		code = lapd_side_busy(&side, (uint8_t)atoi(b), (uint8_t)atoi(c), strcmp(d, "on") == 0, now);
	} else if (strcmp(name, "ask-tei") == 0) {
		code = lapd_side_ask_tei(&side, now);
	} else if (strcmp(name, "check-tei") == 0) {
		code = lapd_side_check_tei(&side, (uint8_t)atoi(b), now);
	} else if (strcmp(name, "remove-tei") == 0) {
		code = lapd_side_remove_tei(&side, (uint8_t)atoi(b), now);
	} else if (strcmp(name, "check-all") == 0) {
		code = lapd_side_check_all(&side, now);
	} else if (strcmp(name, "remove-all") == 0) {
		code = lapd_side_remove_all(&side, now);
	} else if (strcmp(name, "count") == 0) {
		code = lapd_side_count(&side);
	} else if (strcmp(name, "counters") == 0) {
		code = lapd_side_counters(&side, (uint8_t)atoi(a), (uint8_t)atoi(b), &counters);
		if (code == LAPD_DONE)
			append_counters(&counters);
	} else if (strcmp(name, "deadline") == 0) {
		code = lapd_side_deadline(&side, &number);
		sprintf(given, number == LAPD_NEVER ? "never;" : "%llu;", (unsigned long long)number);
	} else if (strcmp(name, "discarded") == 0) {
		code = lapd_side_discarded(&side, &number);
		sprintf(given, "%llu;", (unsigned long long)number);
	} else {
		return false;
	}
	if (code == LAPD_DONE)
		fetch();
	else
		append_refusal(code);
	return true;
}

int main(int count, char **words)
{
	static char line[ROOM], name[ROOM], first[32], tei[32], sapi16[32];
	long number = 0, calls = 0, dialogues = 0;
	FILE *file = count == 2 ? fopen(words[1], "r") : NULL;
	char *wanted;

	WANT(file != NULL);
	while (fgets(line, sizeof line, file) != NULL) {
		number++;
		line[strcspn(line, "\n")] = '\0';
		wanted = strstr(line, " >");
		if (line[0] == '#') {
			strcpy(name, line + 2);
			dialogues++;
		} else if (dialogues > 0 && wanted == NULL && line[0] != '\0') {
			WANT(sscanf(line, "%31s %31s %31s", first, tei, sapi16) == 3);
			make(first, tei, sapi16);
		} else if (dialogues > 0 && line[0] != '\0') {
			*wanted = '\0';
			wanted += wanted[2] == ' ' ? 3 : 2;
			given[0] = '\0';
			WANT(called(line));
			calls++;
			if (strcmp(wanted, "*") != 0 && strcmp(wanted, given) != 0) {
				fprintf(stderr, "line %ld, %s: %s\n  wanted %s\n  given  %s\n", number, name, line, wanted, given);
				return 1;
			}
		}
	}
	fclose(file);
	lapd_side_free(&side);
	printf("dialogues: %ld with %ld calls\n", dialogues, calls);
	return 0;
}
