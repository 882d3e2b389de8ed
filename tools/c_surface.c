/* Random calls of include/mtpbank.h with hostile arguments, within what it allows of a caller: c_surface SEED CALLS INPUT..
 *
 * Each buffer ends at a page that nothing may touch, and what stands before it is looked at after the call. Memory is refused
 * now and then. What the header says of a call's code and of what it leaves is checked; of an end a small model is kept. Prints
 * a line of counts; a finding is a line on standard error, and status 1. */
#define _GNU_SOURCE
#include "mtpbank.h"

#include <stdio.h>
#include <stdlib.h>
#include <string.h>
#include <sys/mman.h>
#include <unistd.h>

enum { ENDS = 4, LINKS = 16, PAGES = 32, BEFORE = 64, MARK = 0xa5, CODES = 64 };

static uint64_t state, calls, octets, refused, taken, told, histories, audited, blocks, by_code[CODES];
static const char *doing = "nothing";
static uint64_t refuse_at;

#define NEED(fact) ((fact) ? (void)0 : finding(#fact, __LINE__))

static void finding(const char *fact, int line)
{
	fprintf(stderr, "c_surface: call %llu, %s: not so in line %d: %s\n", (unsigned long long)calls, doing, line, fact);
	exit(1);
}

static uint64_t any(void)
{
	state ^= state << 13;
	state ^= state >> 7;
	state ^= state << 17;
	return state * 0x2545f4914f6cdd1dULL >> 16;
}

static uint64_t below(uint64_t most)
{
	return any() % most;
}

/* Mostly a number that is there, and now and then one at an edge or far out. */
static uint64_t near(uint64_t there, uint64_t most)
{
	switch (below(8)) {
	case 0:
		return there;
	case 1:
		return most;
	case 2:
		return below(most + 1);
	default:
		return there ? below(there) : 0;
	}
}

/* Memory, of which a block may be refused. */
struct mtpbank_block rattle_alloc(size_t size, size_t align)
{
	struct mtpbank_block block = { false, (void *)align };
	if (refuse_at && --refuse_at == 0) {
		refused++;
		return block;
	}
	block.at = malloc(size ? size : 1);
	block.ok = block.at != NULL;
	blocks += block.ok;
	return block;
}

struct mtpbank_block rattle_realloc(void *at, size_t kept, size_t size, size_t align)
{
	struct mtpbank_block block = { false, (void *)align };
	(void)kept;
	if (refuse_at && --refuse_at == 0) {
		refused++;
		return block;
	}
	block.at = realloc(at, size ? size : 1);
	block.ok = block.at != NULL;
	return block;
}

void rattle_dealloc(void *at)
{
	blocks--;
	free(at);
}

/* A buffer behind which no page is. */
struct buffer {
	uint8_t *pages, *at, was[PAGES * 4096];
	size_t length;
};

static struct buffer input, output, lines;

static void map(struct buffer *buffer)
{
	buffer->pages = (uint8_t *)mmap(NULL, (PAGES + 1) * 4096, PROT_READ | PROT_WRITE, MAP_PRIVATE | MAP_ANONYMOUS, -1, 0);
	if (buffer->pages == MAP_FAILED || mprotect(buffer->pages + PAGES * 4096, 4096, PROT_NONE))
		exit(2);
}

/* So many octets, at most PAGES pages less what stands before. */
static void lay(struct buffer *buffer, size_t length)
{
	buffer->length = length;
	buffer->at = buffer->pages + PAGES * 4096 - length;
	memset(buffer->at - BEFORE, MARK, BEFORE);
	for (size_t n = 0; n < length; n += 8)
		memcpy(buffer->at + n, &(uint64_t){ any() }, length - n < 8 ? length - n : 8);
	memcpy(buffer->was, buffer->at, length);
}

/* All but the first octets of it are as they were, and so is what stands before. */
static void is_kept(const struct buffer *buffer, size_t but)
{
	for (size_t n = 1; n <= BEFORE; n++)
		NEED(buffer->at[-(ptrdiff_t)n] == MARK);
	NEED(but <= buffer->length);
	NEED(!memcmp(buffer->at + but, buffer->was + but, buffer->length - but));
}

/* An end, and what is known of it. */
struct known {
	mtpbank_end end;
	bool is_open, is_checkpointed, is_broken[LINKS];
	uint8_t links, activated[LINKS];
	uint64_t turns[LINKS], offered;
	uint8_t put[LINKS][512];
	size_t put_length[LINKS];
};

static struct known ends[ENDS], passing;

static int32_t answered(int32_t code)
{
	calls++;
	NEED(code >= 0 && code < CODES);
	by_code[code]++;
	return code;
}

static bool is_want(int32_t code)
{
	return code == MTPBANK_NO_MEMORY || code == MTPBANK_EXHAUSTED;
}

/* The first thing that is wrong with these settings, as the header orders them. */
static int32_t wrong(const struct mtpbank_set *set, const uint32_t *timers, const uint32_t *times)
{
	if (set->links < 1 || set->links > 16)
		return MTPBANK_BAD_LINKS;
	if (set->opc > 16383 || set->dpc > 16383)
		return MTPBANK_BAD_POINT_CODE;
	if (set->sio & 15)
		return MTPBANK_BAD_SIO;
	if (set->n1 && (set->n1 > 127 || set->n2 < 1 || set->n2 > 34671))
		return MTPBANK_BAD_CYCLIC;
	for (int n = 0; n < 6; n++)
		if (!timers[n])
			return MTPBANK_BAD_TIMERS;
	for (int n = 0; n < 7; n++)
		if (!times[n])
			return MTPBANK_BAD_TIMES;
	return MTPBANK_OK;
}

static void open_end(struct known *it)
{
	struct mtpbank_set set = { (uint16_t)any(), (uint16_t)near(16384, 65535), (uint16_t)near(16384, 65535), 0, 0,
				   (uint8_t)near(17, 255), (uint8_t)(below(8) ? 0x80 : any()) };
	struct mtpbank_timers timers = mtpbank_usual_timers;
	struct mtpbank_times times = mtpbank_usual_times;
	mtpbank_end end = { &set };

	if (below(2)) { /* a set that another end can speak with */
		set = (struct mtpbank_set){ 0, (uint16_t)below(16384), (uint16_t)below(16384), 0, 0, (uint8_t)(1 + below(3)), 0x80 };
	} else if (below(2)) {
		set.n1 = (uint16_t)near(128, 65535);
		set.n2 = (uint32_t)near(34672, 0xffffffff);
	}
	for (int n = 0; n < 6; n++)
		((uint32_t *)&timers)[n] = below(32) ? ((uint32_t *)&timers)[n] : (uint32_t)below(3) * 0x7fffffff;
	for (int n = 0; n < 7; n++)
		((uint32_t *)&times)[n] = below(32) ? 1 + (uint32_t)below(40000) : (uint32_t)below(3) * 0x7fffffff;
	int32_t want = wrong(&set, (const uint32_t *)&timers, (const uint32_t *)&times);
	int32_t code = answered(mtpbank_open(&set, &timers, &times, &end));
	NEED(code == want || (want == MTPBANK_OK && code == MTPBANK_NO_MEMORY));
	NEED(code == MTPBANK_OK || end.at == &set);
	if (code != MTPBANK_OK)
		return;
	memset(it, 0, sizeof *it);
	it->end = end;
	it->is_open = true;
	it->links = set.links;
}

static void close_end(struct known *it)
{
	mtpbank_close(it->end);
	calls++;
	it->is_open = false;
}

static void manage(struct known *it, uint8_t link)
{
	bool on = below(2);
	int32_t code = answered(on ? mtpbank_activate(&it->end, link) : mtpbank_deactivate(&it->end, link));
	if (link >= it->links)
		NEED(code == MTPBANK_NO_SUCH_LINK);
	else if (it->activated[link] == on)
		NEED(code == MTPBANK_NOTHING);
	else
		NEED(code == MTPBANK_OK || is_want(code));
	struct mtpbank_look look;
	if (link < it->links && mtpbank_look(&it->end, link, &look) == MTPBANK_OK) {
		NEED(code == MTPBANK_NOTHING ? look.activated == it->activated[link] : true);
		it->activated[link] = look.activated;
	}
}

static void command(struct known *it, uint8_t link)
{
	uint8_t number = (uint8_t)near(9, 255);
	int32_t code = answered(mtpbank_command(&it->end, link, number));
	if (link >= it->links)
		NEED(code == MTPBANK_NO_SUCH_LINK);
	else if (number > MTPBANK_RECOVER)
		NEED(code == MTPBANK_NO_SUCH_COMMAND);
	else
		NEED(code == MTPBANK_OK || (code == MTPBANK_UNSETTLED && (number == MTPBANK_START || number == MTPBANK_EMERGENCY)));
}

/* So many octets of what one end put are heard by the other one, and as many go back. */
static bool pass(struct known *from, struct known *to, uint8_t link, size_t length)
{
	struct mtpbank_heard heard;
	lay(&input, length);
	memcpy(input.at, from->put[link], length);
	lay(&output, length);
	int32_t code = answered(mtpbank_hear(&to->end, link, input.at, length, output.at, length, &heard));
	is_kept(&output, heard.octets);
	octets += heard.octets;
	to->turns[link] += heard.octets;
	to->is_broken[link] |= code == MTPBANK_FAILED;
	memcpy(to->put[link], output.at, heard.octets);
	to->put_length[link] = heard.octets;
	NEED(code == MTPBANK_OK ? heard.octets == length : is_want(code) || code == MTPBANK_FAILED);
	return code == MTPBANK_OK;
}

/* Two ends speak over a link, until it's up or fails. */
static void talk(struct known *a, struct known *b, uint8_t link)
{
	size_t piece = 1 + below(200);
	if (a == b || !b->is_open || link >= a->links || link >= b->links)
		return;
	for (int n = 0; n < 2; n++) {
		struct known *it = n ? a : b;
		struct mtpbank_look look = { 0 };
		if (mtpbank_look(&it->end, link, &look) == MTPBANK_OK && look.word == MTPBANK_OUT) {
			answered(mtpbank_command(&it->end, link, MTPBANK_EMERGENCY));
			answered(mtpbank_command(&it->end, link, MTPBANK_START));
		}
	}
	for (size_t n = below(4) ? 8000 / piece : below(40); n; n--)
		if (!pass(a, b, link, piece) || !pass(b, a, link, piece))
			return;
}

/* What comes is what another end put on its link, or that with a damaged octet, or anything. */
static void fill(uint8_t link)
{
	const struct known *far = &ends[below(ENDS)];
	if (!below(8) || !far->is_open || link >= far->links)
		return;
	size_t count = far->put_length[link] < input.length ? far->put_length[link] : input.length;
	memcpy(input.at, far->put[link], count);
	if (count && !below(64))
		input.at[below(count)] ^= (uint8_t)(1 << below(8));
}

static void hear(struct known *it, uint8_t link)
{
	size_t length = below(4) ? below(300) : below(4097);
	struct mtpbank_heard heard = { 777, 777 };
	lay(&input, length);
	fill(link);
	memcpy(input.was, input.at, length);
	lay(&output, below(8) ? length + below(3) : below(length + 1));
	int32_t code = answered(mtpbank_hear(&it->end, link, input.at, length, output.at, output.length, &heard));
	is_kept(&input, 0);
	is_kept(&output, heard.octets);
	NEED(heard.octets <= length && heard.messages <= heard.octets);
	octets += heard.octets;
	if (link >= it->links) {
		NEED(code == MTPBANK_NO_SUCH_LINK && heard.octets == 0);
		return;
	}
	if (output.length < length) {
		NEED(code == MTPBANK_NO_ROOM && heard.octets == 0);
		return;
	}
	it->turns[link] += heard.octets;
	NEED(code == MTPBANK_OK ? heard.octets == length : is_want(code) || code == MTPBANK_FAILED);
	NEED(!it->is_broken[link] || !length || (code == MTPBANK_FAILED && heard.octets == 0));
	it->is_broken[link] |= code == MTPBANK_FAILED;
	it->put_length[link] = heard.octets < 512 ? heard.octets : 512;
	memcpy(it->put[link], output.at, it->put_length[link]);
}

static void turn(struct known *it, uint8_t link)
{
	struct mtpbank_turned turned, was;
	uint8_t octet;
	lay(&input, 1);
	fill(link);
	octet = input.at[0];
	memset(&turned, MARK, sizeof turned);
	was = turned;
	lay(&output, below(8) ? MTPBANK_LONGEST_UNIT + below(3) : below(MTPBANK_LONGEST_UNIT));
	int32_t code = answered(mtpbank_turn(&it->end, link, octet, output.at, output.length, &turned));
	is_kept(&output, code == MTPBANK_OK ? turned.unit : 0);
	NEED(code == MTPBANK_OK || !memcmp(&turned, &was, sizeof turned));
	if (link >= it->links) {
		NEED(code == MTPBANK_NO_SUCH_LINK);
		return;
	}
	if (output.length < MTPBANK_LONGEST_UNIT) {
		NEED(code == MTPBANK_NO_ROOM);
		return;
	}
	NEED(code == MTPBANK_OK || is_want(code) || code == MTPBANK_FAILED);
	NEED(!it->is_broken[link] || code == MTPBANK_FAILED);
	it->is_broken[link] |= code == MTPBANK_FAILED;
	if (code != MTPBANK_OK)
		return;
	octets++;
	it->turns[link]++;
	it->put[link][0] = turned.put;
	it->put_length[link] = 1;
	NEED(turned.message <= 1 && turned.unit <= MTPBANK_LONGEST_UNIT);
	if (turned.unit) { /* the length indicator tells how many octets there are behind it (Q.703 2.3.3) */
		NEED(turned.unit >= 3);
		size_t behind = turned.unit - 3;
		NEED(output.at[2] == (behind < 63 ? behind : 63));
	}
}

/* The text of a history, from a line on: of so many lines, and legal where it's the whole of an end's. */
static void history(struct known *it, size_t from)
{
	static uint8_t whole[PAGES * 4096 - BEFORE];
	struct mtpbank_told told = { 777, 777 }, again = { 777, 777 };
	struct mtpbank_lengths lengths = { 777, 777 };
	size_t lines_seen = 0;
	lay(&output, below(2) ? 120000 : below(4000));
	int32_t code = answered(mtpbank_history(&it->end, from, output.at, output.length, &told));
	is_kept(&output, code == MTPBANK_OK ? told.octets : 0);
	NEED(code == MTPBANK_OK || code == MTPBANK_NO_ROOM || code == MTPBANK_NO_MEMORY);
	if (code == MTPBANK_NO_MEMORY) {
		NEED(told.octets == 777 && told.lines == 777);
		return;
	}
	NEED((told.octets <= output.length) == (code == MTPBANK_OK));
	if (told.octets > sizeof whole)
		return;
	refuse_at = 0;
	lay(&output, told.octets);
	code = mtpbank_history(&it->end, from, output.at, output.length, &again);
	NEED(code == MTPBANK_OK && !memcmp(&again, &told, sizeof again));
	is_kept(&output, told.octets);
	for (size_t n = 0; n < told.octets; n++)
		lines_seen += output.at[n] == '\n';
	NEED(lines_seen == told.lines && (!told.octets || output.at[told.octets - 1] == '\n'));
	NEED(from ? told.lines || !told.octets : told.lines && !memcmp(output.at, "set links=", 10));
	histories++;
	if (from || it->is_checkpointed)
		return;
	memcpy(whole, output.at, told.octets);
	lay(&lines, 200);
	lay(&output, 200);
	code = mtpbank_text(MTPBANK_AUDIT, whole, told.octets, output.at, 200, lines.at, 200, &lengths);
	NEED(code == MTPBANK_OK && lengths.printed && !lengths.told && !memcmp(output.at, "legal", 5));
	audited++;
}

static void checkpoint(struct known *it)
{
	if (!it->is_checkpointed)
		history(it, 0);
	int32_t code = answered(mtpbank_checkpoint(&it->end));
	NEED(code == MTPBANK_OK || code == MTPBANK_NO_MEMORY);
	it->is_checkpointed |= code == MTPBANK_OK;
}

static void look(struct known *it, uint8_t link)
{
	struct mtpbank_look look, was;
	memset(&look, MARK, sizeof look);
	was = look;
	int32_t code = answered(mtpbank_look(&it->end, link, &look));
	if (link >= it->links) {
		NEED(code == MTPBANK_NO_SUCH_LINK && !memcmp(&look, &was, sizeof look));
		return;
	}
	NEED(code == MTPBANK_OK && look.word <= MTPBANK_OWN_OUTAGE && look.phase <= MTPBANK_PHASE_LEFT);
	NEED(look.cause <= MTPBANK_CAUSE_STOP && look.activated <= 1 && look.activated == it->activated[link]);
	NEED(look.turns >= it->turns[link] && look.turns <= it->turns[link] + refused);
}

static void offer(struct known *it)
{
	uint16_t user = (uint16_t)near(64, 65535);
	uint64_t number = 777;
	lay(&input, below(4) ? 5 + below(30) : below(400));
	if (input.length && below(4))
		input.at[0] = 0x85;
	int32_t code = answered(mtpbank_offer(&it->end, user, input.at, input.length, &number));
	NEED(code == MTPBANK_OK || number == 777);
	if (user > 63)
		NEED(code == MTPBANK_NO_SUCH_USER);
	else if (is_want(code))
		return;
	else if (input.length < 5)
		NEED(code == MTPBANK_TOO_SHORT);
	else if (input.length > 273)
		NEED(code == MTPBANK_TOO_LONG);
	else if (!(input.at[0] & 15))
		NEED(code == MTPBANK_RESERVED);
	else
		NEED(code == MTPBANK_OK || code == MTPBANK_STREAM_FULL);
	if (code == MTPBANK_OK) {
		NEED(number >= it->offered);
		it->offered = number + 1;
	}
}

static void take(struct known *it)
{
	uint16_t user = (uint16_t)near(64, 65535);
	size_t length = 777;
	lay(&output, below(4) ? MTPBANK_LONGEST + below(3) : below(MTPBANK_LONGEST));
	int32_t code = answered(mtpbank_take(&it->end, user, output.at, output.length, &length));
	is_kept(&output, code == MTPBANK_OK ? length : 0);
	NEED(code == MTPBANK_OK ? length >= 5 && length <= MTPBANK_LONGEST && output.at[0] & 15 : length == 777);
	if (user > 63)
		NEED(code == MTPBANK_NO_SUCH_USER);
	else if (output.length < MTPBANK_LONGEST)
		NEED(code == MTPBANK_NO_ROOM);
	else
		NEED(code == MTPBANK_OK || code == MTPBANK_NOTHING || is_want(code));
	taken += code == MTPBANK_OK;
}

static void find(struct known *it)
{
	uint16_t user = (uint16_t)near(64, 65535);
	uint64_t number = below(4) ? below(it->offered + 2) : any() * any();
	struct mtpbank_found found = { 77, 77 };
	int32_t code = answered(mtpbank_find(&it->end, user, number, &found));
	NEED(code == MTPBANK_OK ? found.place <= MTPBANK_PLACE_DISCARDED : found.place == 77 && found.detail == 77);
	if (user > 63)
		NEED(code == MTPBANK_NO_SUCH_USER);
	else
		NEED(code == MTPBANK_OK || code == MTPBANK_UNKNOWN_NUMBER || code == MTPBANK_FINISHED || is_want(code));
}

/* A stored input, some octets of which are others, or are missing; into rooms that fit, are larger, or too small. */
static void text(int count, char **names)
{
	static uint8_t whole[4 * 4096];
	uint8_t number = (uint8_t)near(26, 255);
	FILE *from = count ? fopen(names[below((uint64_t)count)], "rb") : NULL;
	size_t length = from ? fread(whole, 1, sizeof whole, from) : 0;
	struct mtpbank_lengths lengths = { 777, 777 }, again = { 777, 777 };
	if (from)
		fclose(from);
	length = below(4) ? length : below(length + 1);
	lay(&input, length);
	memcpy(input.at, whole, length);
	for (uint64_t n = below(3) ? 0 : below(4); length && n; n--)
		input.at[below(length)] = (uint8_t)any();
	memcpy(input.was, input.at, length);
	lay(&output, below(3) ? 100000 : below(4000));
	lay(&lines, below(3) ? 20000 : below(200));
	int32_t code = answered(mtpbank_text(number, input.at, length, output.at, output.length, lines.at, lines.length,
					     &lengths));
	is_kept(&input, 0);
	is_kept(&output, code == MTPBANK_OK ? lengths.printed : 0);
	is_kept(&lines, code == MTPBANK_OK ? lengths.told : 0);
	if (number > 25 || (number > 10 && number < 16))
		NEED(code == MTPBANK_NO_SUCH_COMMAND);
	else
		NEED(code == MTPBANK_OK || code == MTPBANK_NO_ROOM || code == MTPBANK_NO_MEMORY);
	if (code == MTPBANK_NO_SUCH_COMMAND || code == MTPBANK_NO_MEMORY) {
		NEED(lengths.printed == 777 && lengths.told == 777);
		return;
	}
	bool fits = lengths.printed <= output.length && lengths.told <= lines.length;
	NEED(fits == (code == MTPBANK_OK));
	NEED(code != MTPBANK_OK || !lengths.told || lines.at[lengths.told - 1] == '\n');
	refuse_at = 0;
	if (lengths.printed > 120000 || lengths.told > 120000)
		return;
	lay(&output, lengths.printed);
	lay(&lines, lengths.told);
	code = mtpbank_text(number, input.at, length, output.at, output.length, lines.at, lines.length, &again);
	NEED(code == MTPBANK_OK && !memcmp(&again, &lengths, sizeof again));
	told++;
}

static void call(int count, char **names)
{
	struct known *it = &ends[below(ENDS)];
	uint8_t link = (uint8_t)near(it->is_open ? it->links : 16, 255);
	refuse_at = below(32) ? 0 : 1 + below(8);
	if (!it->is_open) {
		doing = "open";
		open_end(it);
		return;
	}
	switch (below(2000) ? below(64) : 100) {
	case 0:
		doing = "activate";
		manage(it, link);
		break;
	case 1:
		doing = "command";
		command(it, link);
		break;
	case 2:
	case 3:
		doing = "look";
		look(it, link);
		break;
	case 4:
	case 5:
	case 6:
		doing = "offer";
		offer(it);
		break;
	case 7:
	case 8:
	case 9:
		doing = "take";
		take(it);
		break;
	case 10:
		doing = "find";
		find(it);
		break;
	case 11:
		doing = "checkpoint";
		checkpoint(it);
		break;
	case 12:
		doing = "talk";
		talk(it, &ends[below(ENDS)], (uint8_t)below(it->links));
		break;
	case 13:
		doing = "text";
		text(count, names);
		break;
	case 14:
		doing = "open and close";
		open_end(&passing);
		if (passing.is_open)
			close_end(&passing);
		break;
	case 15:
		doing = "history";
		history(it, below(2) ? 0 : below(4) ? below(200) : any());
		break;
	case 16:
	case 17:
	case 18:
		doing = "turn";
		turn(it, link);
		break;
	case 100:
		doing = "close";
		close_end(it);
		break;
	default:
		doing = "hear";
		hear(it, link);
	}
}

int main(int count, char **words)
{
	if (count < 3)
		return 2;
	state = strtoull(words[1], NULL, 10) * 0x9e3779b97f4a7c15ULL + 1;
	uint64_t most = strtoull(words[2], NULL, 10);
	map(&input);
	map(&output);
	map(&lines);
	while (calls < most)
		call(count - 3, words + 3);
	refuse_at = 0;
	for (int n = 0; n < ENDS; n++)
		if (ends[n].is_open)
			close_end(&ends[n]);
	doing = "the end";
	NEED(blocks == 0);
	printf("calls=%llu octets=%llu refused=%llu taken=%llu texts=%llu histories=%llu audited=%llu codes=",
	       (unsigned long long)calls, (unsigned long long)octets, (unsigned long long)refused, (unsigned long long)taken,
	       (unsigned long long)told, (unsigned long long)histories, (unsigned long long)audited);
	for (int n = 0, any_code = 0; n < CODES; n++)
		if (by_code[n])
			printf("%s%d", any_code++ ? "," : "", n);
	printf("\n");
	return 0;
}
