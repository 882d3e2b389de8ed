/* A link in service whose line is joined to itself: so many turns, in pieces of so many octets. c_turns PIECE TURNS */
#include "mtpbank.h"

#include <stdio.h>
#include <stdlib.h>
#include <string.h>

enum { MOST = 2040 };

int main(int count, char **words)
{
	static uint8_t comes[MOST], goes[MOST];
	struct mtpbank_set set = { 0, 2, 1, 0, 0, 1, 0x80 };
	struct mtpbank_heard heard;
	struct mtpbank_look look;
	mtpbank_end end;
	size_t piece = count > 2 ? strtoul(words[1], NULL, 10) : 0, turns = count > 2 ? strtoul(words[2], NULL, 10) : 0;

	if (!piece || piece > MOST || mtpbank_open(&set, &mtpbank_usual_timers, &mtpbank_usual_times, &end))
		return 2;
	if (mtpbank_activate(&end, 0))
		return 2;
	memset(comes, 0x7e, sizeof comes);
	for (; turns >= piece; turns -= piece) {
		if (mtpbank_hear(&end, 0, comes, piece, goes, piece, &heard) || heard.octets != piece)
			return 2;
		memcpy(comes, goes, piece);
	}
	if (mtpbank_look(&end, 0, &look))
		return 2;
	printf("turns=%llu word=%d\n", (unsigned long long)look.turns, look.word);
	mtpbank_close(end);
	return look.word != MTPBANK_UP;
}
