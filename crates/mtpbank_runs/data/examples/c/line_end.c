/* An end of one link whose line is a TCP connection, or a file that carries octets both ways, as a raw timeslot.
 *
 *   line_end listen PORT OPC DPC           waits for the other end
 *   line_end connect PORT OPC DPC          the other end, on this machine
 *   line_end /dev/.. OPC DPC [reversed]    a timeslot; reversed where it gives the first bit as the highest
 *
 * Octets that are read are turns, and as many are written: so the two ends keep each other's pace, and no clock is read. Each
 * line of the standard input is offered as a message once the link is up, and what comes is printed, a line each. At the end
 * of the input it waits until all is acknowledged, then stops the link. How the link stands is told on standard error. Status
 * 0: all that was offered is acknowledged.
 */
#define _POSIX_C_SOURCE 200809L
#include "mtpbank.h"

#include <arpa/inet.h>
#include <fcntl.h>
#include <poll.h>
#include <signal.h>
#include <stdio.h>
#include <stdlib.h>
#include <string.h>
#include <sys/socket.h>
#include <unistd.h>

/* 20 ms at 64 kbit/s; the octets under way set the line's delay. */
enum { PIECE = 160, LABEL = 5, TURNS_A_CHECKPOINT = 50 };

static mtpbank_end end;
static struct {
	int fd, is_reversed;
} line;
static struct {
	char text[1 << 16];
	size_t length; /* how much stands there */
	int is_over;
} input;
static uint8_t label[LABEL];
static uint64_t last; /* the number of what was offered last */
static int has_offered, is_stopped;

static void fail(const char *what, int32_t code)
{
	fprintf(stderr, "line_end: %s: %d\n", what, (int)code);
	exit(1);
}

static int socket_of(const char *how, const char *port)
{
	struct sockaddr_in at;
	int fd = socket(AF_INET, SOCK_STREAM, 0), one = 1;

	memset(&at, 0, sizeof at);
	at.sin_family = AF_INET;
	at.sin_port = htons((uint16_t)atoi(port));
	at.sin_addr.s_addr = htonl(INADDR_LOOPBACK);
	if (strcmp(how, "connect") == 0)
		return connect(fd, (struct sockaddr *)&at, sizeof at) ? -1 : fd;
	setsockopt(fd, SOL_SOCKET, SO_REUSEADDR, &one, sizeof one);
	return bind(fd, (struct sockaddr *)&at, sizeof at) || listen(fd, 1) ? -1 : accept(fd, NULL, NULL);
}

static void reverse(uint8_t *octets, size_t count)
{
	size_t i;
	int bit;

	for (i = 0; i < count; i++) {
		uint8_t out = 0;
		for (bit = 0; bit < 8; bit++)
			out = (uint8_t)(out << 1 | (octets[i] >> bit & 1));
		octets[i] = out;
	}
}

static int write_all(const uint8_t *octets, size_t count)
{
	while (count) {
		ssize_t gone = write(line.fd, octets, count);
		if (gone <= 0)
			return 0;
		octets += gone;
		count -= (size_t)gone;
	}
	return 1;
}

static struct mtpbank_look look(void)
{
	struct mtpbank_look now;
	int32_t code = mtpbank_look(&end, 0, &now);

	if (code)
		fail("look", code);
	return now;
}

/* Prints what was heard. */
static void take_all(void)
{
	uint8_t room[MTPBANK_LONGEST];
	size_t length;
	int32_t code;

	while ((code = mtpbank_take(&end, 0, room, sizeof room, &length)) == MTPBANK_OK) {
		fwrite(room + LABEL, 1, length - LABEL, stdout);
		fputc('\n', stdout);
	}
	fflush(stdout);
	if (code != MTPBANK_NOTHING)
		fail("take", code);
}

/* Offers the whole lines of what was read, as many as the stream takes. */
static void offer_lines(void)
{
	size_t from = 0;
	char *stop;

	while ((stop = (char *)memchr(input.text + from, '\n', input.length - from)) != NULL) {
		uint8_t message[MTPBANK_LONGEST];
		size_t length = (size_t)(stop - (input.text + from));
		int32_t code;

		if (length > MTPBANK_LONGEST - LABEL)
			length = MTPBANK_LONGEST - LABEL;
		memcpy(message, label, LABEL);
		memcpy(message + LABEL, input.text + from, length);
		code = mtpbank_offer(&end, 0, message, LABEL + length, &last);
		if (code == MTPBANK_STREAM_FULL)
			break;
		if (code)
			fail("offer", code);
		has_offered = 1;
		from = (size_t)(stop - input.text) + 1;
	}
	input.length -= from;
	memmove(input.text, input.text + from, input.length);
}

static void read_input(void)
{
	ssize_t got = read(0, input.text + input.length, sizeof input.text - input.length);

	if (got > 0)
		input.length += (size_t)got;
	else
		input.is_over = 1;
}

/* Whether all that was offered is acknowledged. */
static int is_done(void)
{
	struct mtpbank_found found;
	int32_t code;

	if (!has_offered)
		return 1;
	code = mtpbank_find(&end, 0, last, &found);
	return code == MTPBANK_FINISHED || (code == MTPBANK_OK && found.place == MTPBANK_PLACE_ACKED);
}

/* Octets came, and as many go out; 0 where the line is over. */
static int turn(void)
{
	uint8_t in[PIECE], out[PIECE];
	struct mtpbank_heard heard;
	ssize_t got = read(line.fd, in, sizeof in);
	int32_t code;

	if (got <= 0)
		return 0;
	if (line.is_reversed)
		reverse(in, (size_t)got);
	code = mtpbank_hear(&end, 0, in, (size_t)got, out, sizeof out, &heard);
	if (code)
		fail("hear", code);
	if (heard.messages)
		take_all();
	if (line.is_reversed)
		reverse(out, (size_t)got);
	return write_all(out, (size_t)got);
}

static void set_up(const char *opc_word, const char *dpc_word)
{
	struct mtpbank_set set;
	unsigned opc = (unsigned)atoi(opc_word), dpc = (unsigned)atoi(dpc_word);
	int32_t code;

	memset(&set, 0, sizeof set);
	set.opc = (uint16_t)opc;
	set.dpc = (uint16_t)dpc;
	set.links = 1;
	set.sio = 0x80;
	code = mtpbank_open(&set, &mtpbank_usual_timers, &mtpbank_usual_times, &end);
	if (code)
		fail("open", code);
	label[0] = 0x85; /* ISUP, national network */
	label[1] = (uint8_t)dpc;
	label[2] = (uint8_t)(dpc >> 8 | opc << 6);
	label[3] = (uint8_t)(opc >> 2);
	label[4] = (uint8_t)(opc >> 10);
	code = mtpbank_activate(&end, 0);
	if (code)
		fail("activate", code);
}

int main(int count, char **words)
{
	static const uint8_t idle[PIECE] = { 0 };
	int is_path = count > 1 && words[1][0] == '/', was = -1;
	unsigned long turns;
	int has_all;

	if (count < (is_path ? 4 : 5)) {
		fprintf(stderr, "usage: line_end listen|connect PORT OPC DPC, or line_end /PATH OPC DPC [reversed]\n");
		return 64;
	}
	line.fd = is_path ? open(words[1], O_RDWR) : socket_of(words[1], words[2]);
	line.is_reversed = is_path && count > 4 && strcmp(words[4], "reversed") == 0;
	if (line.fd < 0)
		fail("no line", -1);
	signal(SIGPIPE, SIG_IGN);
	set_up(words[is_path ? 2 : 3], words[is_path ? 3 : 4]);
	if (!is_path && !write_all(idle, sizeof idle))
		fail("no line", -1);
	for (turns = 1;; turns++) {
		int reads = was == MTPBANK_UP && !input.is_over && input.length < sizeof input.text / 2;
		struct pollfd from[2] = { { line.fd, POLLIN, 0 }, { reads ? 0 : -1, POLLIN, 0 } };
		struct mtpbank_look now;

		if (poll(from, 2, -1) < 0)
			fail("poll", -1);
		if (from[1].revents)
			read_input();
		offer_lines();
		if (from[0].revents && !turn())
			break;
		now = look();
		if (now.word != was)
			fprintf(stderr, "%s: word %d, cause %d\n", words[1], was = now.word, now.cause);
		if (turns % TURNS_A_CHECKPOINT == 0 && mtpbank_checkpoint(&end))
			fail("checkpoint", MTPBANK_NO_MEMORY);
		if (input.is_over && input.length == 0 && !is_stopped && turns % TURNS_A_CHECKPOINT == 0 && is_done()) {
			is_stopped = 1;
			mtpbank_deactivate(&end, 0);
		}
		if (is_stopped && now.word == MTPBANK_OUT)
			break;
	}
	has_all = is_done();
	mtpbank_close(end);
	return !has_all;
}
