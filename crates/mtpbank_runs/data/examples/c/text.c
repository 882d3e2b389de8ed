/* What a subcommand prints of standard input: text SUBCOMMAND, a number of enum mtpbank_subcommand.
 *
 *     text 1 < examples/call.play       the chart of the call
 */
#include "mtpbank.h"

#include <stdio.h>
#include <stdlib.h>

/* An octet string that grows. */
struct octets {
	uint8_t *at;
	size_t length, room;
};

static void reserve(struct octets *octets, size_t room)
{
	if (room <= octets->room)
		return;
	octets->at = (uint8_t *)realloc(octets->at, room);
	octets->room = room;
	if (!octets->at)
		exit(1);
}

static void read_all(FILE *from, struct octets *to)
{
	size_t count;

	do {
		reserve(to, to->length + 65536);
		count = fread(to->at + to->length, 1, to->room - to->length, from);
		to->length += count;
	} while (count);
}

int main(int count, char **words)
{
	struct octets input = { NULL, 0, 0 }, printed = { NULL, 0, 0 }, told = { NULL, 0, 0 };
	struct mtpbank_lengths lengths = { 4096, 256 };
	int32_t code;

	if (count != 2) {
		fprintf(stderr, "text SUBCOMMAND < INPUT\n");
		return 2;
	}
	read_all(stdin, &input);
	do {
		reserve(&printed, lengths.printed);
		reserve(&told, lengths.told);
		code = mtpbank_text((uint8_t)atoi(words[1]), input.at, input.length, printed.at, printed.room, told.at, told.room,
				    &lengths);
	} while (code == MTPBANK_NO_ROOM);
	if (code != MTPBANK_OK) {
		fprintf(stderr, "text: code %d\n", (int)code);
		return 2;
	}
	fwrite(printed.at, 1, lengths.printed, stdout);
	fwrite(told.at, 1, lengths.told, stderr);
	free(input.at);
	free(printed.at);
	free(told.at);
	return lengths.told ? 1 : 0;
}
