/* Two ends of two links, joined octet by octet: the links come up, messages go over, link 1 is cut while they do, and all of
 * them come, in order. Ends with status 0 where that is so.
 *
 *   join [MESSAGES]        so many messages, 20 if left out
 */
#include "mtpbank.h"

#include <stdio.h>
#include <stdlib.h>
#include <string.h>

enum { PIECE = 64, LINKS = 2, STREAM = 3, FIRST_LENGTH = 5, LENGTH = FIRST_LENGTH + 4 };

static mtpbank_end a, b;
static uint8_t to_a[LINKS][PIECE], to_b[LINKS][PIECE];
static int is_cut;
static unsigned long offered, taken, wrong;

static void must(int32_t code, const char *what)
{
	if (code == MTPBANK_OK)
		return;
	fprintf(stderr, "join: %s answered %d\n", what, (int)code);
	exit(1);
}

/* The message of this number, of stream 3: SIO, then DPC 1, OPC 2 and SLS 3 (Q.704 2.2), and the number. */
static void write_message(uint8_t message[LENGTH], unsigned long number)
{
	static const uint8_t label[FIRST_LENGTH] = { 0x85, 0x01, 0x80, 0x00, STREAM << 4 };
	int place;

	memcpy(message, label, sizeof label);
	for (place = 0; place < 4; place++)
		message[FIRST_LENGTH + place] = (uint8_t)(number >> (8 * place));
}

/* End b takes what was heard, which is the next message each time. */
static void take_all(void)
{
	uint8_t room[MTPBANK_LONGEST], expected[LENGTH];
	size_t length;
	int32_t code;

	while ((code = mtpbank_take(&b, 0, room, sizeof room, &length)) == MTPBANK_OK) {
		write_message(expected, taken++);
		if (length != LENGTH || memcmp(room, expected, LENGTH) != 0)
			wrong++;
	}
	if (code != MTPBANK_NOTHING)
		must(code, "take");
}

/* A piece of octets goes each way on this link; nothing but ones comes on one that is cut. */
static void exchange(uint8_t link)
{
	uint8_t from_a[PIECE], from_b[PIECE];
	struct mtpbank_heard heard;

	must(mtpbank_hear(&a, link, to_a[link], PIECE, from_a, PIECE, &heard), "hear at a");
	must(mtpbank_hear(&b, link, to_b[link], PIECE, from_b, PIECE, &heard), "hear at b");
	if (heard.messages)
		take_all();
	memcpy(to_b[link], from_a, PIECE);
	memcpy(to_a[link], from_b, PIECE);
	if (is_cut && link == 1) {
		memset(to_a[link], 0xff, PIECE);
		memset(to_b[link], 0xff, PIECE);
	}
}

static void run(unsigned long pieces)
{
	uint8_t link;

	for (; pieces; pieces--)
		for (link = 0; link < LINKS; link++)
			exchange(link);
	must(mtpbank_checkpoint(&a), "checkpoint of a");
	must(mtpbank_checkpoint(&b), "checkpoint of b");
}

/* Offers messages up to this many, and runs on where a stream is full. */
static void offer_to(unsigned long many)
{
	uint8_t message[LENGTH];
	uint64_t number;
	int32_t code;

	while (offered < many) {
		write_message(message, offered);
		code = mtpbank_offer(&a, 0, message, sizeof message, &number);
		if (code == MTPBANK_STREAM_FULL) {
			run(64);
			continue;
		}
		must(code, "offer");
		offered++;
	}
}

static int is_up(mtpbank_end *end, uint8_t link)
{
	struct mtpbank_look look;

	must(mtpbank_look(end, link, &look), "look");
	return look.word == MTPBANK_UP;
}

static void show(const char *when)
{
	uint8_t link;

	for (link = 0; link < LINKS; link++)
		printf("%s: link %d is %s at a, %s at b\n", when, link, is_up(&a, link) ? "up" : "not up",
		       is_up(&b, link) ? "up" : "not up");
}

int main(int count, char **words)
{
	struct mtpbank_set near, far;
	unsigned long messages = count > 1 ? strtoul(words[1], NULL, 10) : 20, round;
	uint8_t link;

	memset(&near, 0, sizeof near);
	near.opc = 2;
	near.dpc = 1;
	near.links = LINKS;
	near.sio = 0x80;
	far = near;
	far.opc = 1;
	far.dpc = 2;
	must(mtpbank_open(&near, &mtpbank_usual_timers, &mtpbank_usual_times, &a), "open of a");
	must(mtpbank_open(&far, &mtpbank_usual_timers, &mtpbank_usual_times, &b), "open of b");
	for (link = 0; link < LINKS; link++) {
		must(mtpbank_activate(&a, link), "activate at a");
		must(mtpbank_activate(&b, link), "activate at b");
	}
	run(200);
	show("started");
	offer_to(messages / 2);
	run(1); /* some are under way */
	is_cut = 1;
	offer_to(messages);
	for (round = 0; taken < messages && round < messages + 1000; round++)
		run(64);
	show("link 1 cut");
	printf("offered %lu, taken %lu, %lu of them wrong\n", offered, taken, wrong);
	mtpbank_close(a);
	mtpbank_close(b);
	return offered != messages || taken != messages || wrong != 0;
}
