/*! \file mtpbank.h
 * One end of a set of SS7 signalling links (ITU-T Q.703, Q.704), octet by octet: libmtpbank_end.a. At the foot: what the
 * program's subcommands make of octets, libmtpbank_texts.a.
 *
 * An end has a signalling terminal for each of its 1 to 16 links, and the changeover and changeback between them. Its lines
 * are yours: each octet that comes on a link's line is a turn of its terminal, which puts one. So as many octets go out as
 * come in, and a turn is an octet time: the library reads no clock, starts no thread, waits for nothing and does no I/O. It
 * takes memory by three functions that you give (examples/c/memory.c has them over malloc).
 *
 *     struct mtpbank_set set = { .opc = 1, .dpc = 2, .links = 1, .sio = 0x80 };
 *     mtpbank_end end;
 *     if (mtpbank_open(&set, &mtpbank_usual_timers, &mtpbank_usual_times, &end)) ..
 *     mtpbank_activate(&end, 0);
 *     for (;;) { read n octets of link 0's line into in;
 *                mtpbank_hear(&end, 0, in, n, out, n, &heard); write the n octets of out to it;
 *                if (heard.messages) while (!mtpbank_take(&end, 0, room, sizeof room, &length)) .. }
 *
 * Each function but mtpbank_close answers MTPBANK_OK or a code of enum mtpbank_code. What its contract says is proved: which
 * code comes when, and what the end, the octets and the values are then. The caller owes, and nothing checks:
 *
 * - an end comes from mtpbank_open, and wasn't closed; it isn't copied, or one copy alone is used;
 * - each pointer is to what its type says, for as many octets as the length beside it; none is NULL, with a length of 0 either;
 * - no two of them overlap;
 * - one thread at a time calls an end, no signal handler does, and no forked child of a process with threads.
 */
#ifndef MTPBANK_H
#define MTPBANK_H

#include <stdbool.h>
#include <stddef.h>
#include <stdint.h>

#ifdef __cplusplus
extern "C" {
#define MTPBANK_ASSERT(fact, text) static_assert(fact, text)
#else
#define MTPBANK_ASSERT(fact, text) _Static_assert(fact, text)
#endif

/*! What a call answers. The numbers never change. */
enum mtpbank_code {
	MTPBANK_OK = 0,               /*!< done */
	MTPBANK_TOO_SHORT = 1,        /*!< a message of fewer than 5 octets */
	MTPBANK_TOO_LONG = 2,         /*!< a message of more than 273 octets */
	MTPBANK_RESERVED = 3,         /*!< a message of service indicator 0, which is the management's */
	MTPBANK_STREAM_FULL = 4,      /*!< 1,024 messages of the stream are unsent */
	MTPBANK_UNSETTLED = 7,        /*!< the link was left, and what the far end has isn't known yet */
	MTPBANK_UNKNOWN_NUMBER = 8,   /*!< no message has this number */
	MTPBANK_NOTHING = 9,          /*!< there is nothing to take; or a link is activated already, or isn't */
	MTPBANK_NO_SUCH_LINK = 10,    /*!< the set has no such link */
	MTPBANK_FINISHED = 11,        /*!< the message was finished before a checkpoint, which forgot it */
	MTPBANK_NO_MEMORY = 16,       /*!< memory was refused */
	MTPBANK_EXHAUSTED = 17,       /*!< 2^48 entries of history, or turns of a link */
	MTPBANK_FAILED = 18,          /*!< a turn of the link couldn't end before; it takes none any more */
	MTPBANK_PROFILE = 19,         /*!< a unit with 12-bit numbers, which no end of mtpbank_open has */
	MTPBANK_BAD_LINKS = 33,       /*!< not 1 to 16 links */
	MTPBANK_BAD_POINT_CODE = 34,  /*!< a point code over 16383 */
	MTPBANK_BAD_SIO = 35,         /*!< the management's service indicator isn't 0 */
	MTPBANK_BAD_CYCLIC = 36,      /*!< N1 isn't 1 to 127, or N2 not 1 to 34671 */
	MTPBANK_BAD_TIMERS = 37,      /*!< a timer of level 2 is 0 */
	MTPBANK_BAD_TIMES = 38,       /*!< a timer of level 3 is 0 */
	MTPBANK_NO_SUCH_USER = 48,    /*!< users have the numbers 0 to 63 */
	MTPBANK_NO_SUCH_COMMAND = 49, /*!< no command, or no subcommand, has this number */
	MTPBANK_NO_ROOM = 50,         /*!< a buffer is too small */
};

/*! Commands to a link's terminal. */
enum mtpbank_command_number {
	MTPBANK_START = 0,     /*!< into service (Q.703 12) */
	MTPBANK_STOP = 1,      /*!< out of service */
	MTPBANK_EMERGENCY = 2, /*!< it aligns as in an emergency (Q.703 7.2) */
	MTPBANK_CALM = 3,      /*!< it no longer does */
	MTPBANK_BUSY = 4,      /*!< this end is busy (Q.703 9.2) */
	MTPBANK_EASE = 5,      /*!< it no longer is */
	MTPBANK_BLIND = 6,     /*!< the next failure is one after which the far end can't be told an FSN (Q.704 5.6) */
	MTPBANK_OUTAGE = 7,    /*!< a processor outage of this end (Q.703 8.1) */
	MTPBANK_RECOVER = 8,   /*!< it is over */
};

/*! How a link stands, seen from its terminal (Q.703 7.3, 8, 12). */
enum mtpbank_word {
	MTPBANK_OUT = 0,       /*!< out of service */
	MTPBANK_UNALIGNED = 1, /*!< SIO goes out */
	MTPBANK_ALIGNED = 2,   /*!< SIN or SIE goes out */
	MTPBANK_PROVING = 3,   /*!< the same, and it's tried for errors */
	MTPBANK_READY = 4,     /*!< FISUs go out, and none was heard */
	MTPBANK_WAITING = 5,   /*!< in service; its last life isn't settled at the set */
	MTPBANK_UP = 6,        /*!< in service, and up at the set */
	MTPBANK_PAUSED = 7,    /*!< up, with a processor outage of the far end */
	MTPBANK_OWN_OUTAGE = 8, /*!< in service, with a processor outage of this end */
};

/*! Where a link is in its life at its set (Q.704 5). */
enum mtpbank_phase {
	MTPBANK_PHASE_SETTLED = 0, /*!< what the far end has of its messages is known; so it is at first */
	MTPBANK_PHASE_UP = 1,
	MTPBANK_PHASE_LEFT = 2,    /*!< it failed, and that isn't known yet */
};

/*! Why a link failed. */
enum mtpbank_cause {
	MTPBANK_CAUSE_NONE = 0,
	MTPBANK_CAUSE_SUERM = 1,        /*!< too many damaged units (Q.703 10.2) */
	MTPBANK_CAUSE_BSN = 2,          /*!< abnormal BSNs (Q.703 5.3.1) */
	MTPBANK_CAUSE_FIB = 3,          /*!< abnormal FIBs (Q.703 5.3.2) */
	MTPBANK_CAUSE_T1 = 4,           /*!< the far end didn't get ready */
	MTPBANK_CAUSE_T6 = 5,           /*!< the far end was busy too long */
	MTPBANK_CAUSE_T7 = 6,           /*!< no acknowledgement came in time */
	MTPBANK_CAUSE_STATUS = 7,       /*!< a status was heard that ends its service */
	MTPBANK_CAUSE_NOT_POSSIBLE = 8, /*!< it couldn't be aligned */
	MTPBANK_CAUSE_STOP = 9,         /*!< it was stopped at this end */
};

/*! Where a message stands. */
enum mtpbank_place {
	MTPBANK_PLACE_WAITING = 0,   /*!< to be sent on link detail */
	MTPBANK_PLACE_UNACKED = 1,   /*!< sent on link detail, not acknowledged */
	MTPBANK_PLACE_ACKED = 2,     /*!< acknowledged on link detail */
	MTPBANK_PLACE_HELD = 3,      /*!< for link detail, which was left and isn't settled */
	MTPBANK_PLACE_PARKED = 4,    /*!< no link can take it yet */
	MTPBANK_PLACE_BACK = 5,      /*!< its stream changes back by code detail */
	MTPBANK_PLACE_DISCARDED = 6, /*!< given up: detail is 1 emergency, 2 unreasonable FSN, 3 no answer */
};

/*! A set of links. */
struct mtpbank_set {
	uint16_t set; /*!< a number of your own */
	uint16_t opc; /*!< its own point code, 0 to 16383 */
	uint16_t dpc; /*!< the far end's */
	uint16_t n1;  /*!< N1 of the preventive cyclic method (Q.703 6), 1 to 127; 0: basic error correction */
	uint32_t n2;  /*!< N2 of it, 1 to 34671 octets */
	uint8_t links; /*!< how many links, 1 to 16 */
	uint8_t sio;  /*!< SIO of changeover and changeback orders: service indicator 0 and the network indicator, as 0x80 */
};

/*! Timers of level 2, in octet times and none 0 (Q.703 12.3). */
struct mtpbank_timers {
	uint32_t t1; /*!< aligned and ready */
	uint32_t t2; /*!< not aligned */
	uint32_t t3; /*!< aligned */
	uint32_t t5; /*!< sending SIB */
	uint32_t t6; /*!< the far end is busy */
	uint32_t t7; /*!< the wait for an acknowledgement */
};

/*! Timers of level 3, in octet times of the link and none 0 (Q.704 16.8). */
struct mtpbank_times {
	uint32_t t1;  /*!< T1: how long a time-controlled changeover waits; and how long an outage of the far end is borne */
	uint32_t t2;  /*!< T2: the wait for the acknowledgement of a changeover */
	uint32_t t4;  /*!< T4: the wait for that of a changeback, first try */
	uint32_t t5;  /*!< T5: the same, second try */
	uint32_t t17; /*!< T17: how long a link that failed rests */
	uint32_t k1;  /*!< T1 of Q.707; link tests aren't made yet */
	uint32_t k2;  /*!< T2 of Q.707, likewise */
};

/*! Usual timers at 64 kbit/s, 8000 octet times a second. */
static const struct mtpbank_timers mtpbank_usual_timers = { 360000, 400000, 12000, 800, 32000, 8000 };
static const struct mtpbank_times mtpbank_usual_times = { 6400, 11200, 6400, 6400, 8000, 64000, 480000 };

/*! What octets did that were heard. */
struct mtpbank_heard {
	size_t octets;   /*!< how many were heard, and put */
	size_t messages; /*!< in the turns of how many of them messages for users were heard */
};

/*! What an octet did that was heard. */
struct mtpbank_turned {
	size_t unit;     /*!< how many octets the unit has that was appended to what is sent; 0: none was */
	uint8_t put;     /*!< the octet that goes out */
	uint8_t message; /*!< 1 where a message for users was heard, else 0 */
};

/*! How a link stands. The counts are since the opening. */
struct mtpbank_look {
	uint64_t turns;    /*!< octet times */
	uint64_t sent;     /*!< units that were appended to what is sent */
	uint64_t good;     /*!< good units that were heard */
	uint64_t bad;      /*!< damaged ones */
	uint64_t sixteen;  /*!< sixteen octets each, in octet counting (Q.703 4.1) */
	uint8_t word;      /*!< enum mtpbank_word */
	uint8_t phase;     /*!< enum mtpbank_phase */
	uint8_t cause;     /*!< why it failed last: enum mtpbank_cause */
	uint8_t activated; /*!< 1 where level 3 manages it, else 0 */
};

/*! Where a message stands. */
struct mtpbank_found {
	uint8_t place;  /*!< enum mtpbank_place */
	uint8_t detail; /*!< a link, code or cause, as beside each place; else 0 */
};

/*! How much a text of the history is. */
struct mtpbank_told {
	size_t octets; /*!< how many octets it has */
	size_t lines;  /*!< how many lines, each ended by LF */
};

/*! An end that is open: its address. */
typedef struct {
	void *at;
} mtpbank_end;

MTPBANK_ASSERT(sizeof(size_t) == 8, "the library is built for 64 bits");
MTPBANK_ASSERT(sizeof(mtpbank_end) == 8, "mtpbank_end");
MTPBANK_ASSERT(sizeof(struct mtpbank_set) == 16, "mtpbank_set");
MTPBANK_ASSERT(sizeof(struct mtpbank_timers) == 24, "mtpbank_timers");
MTPBANK_ASSERT(sizeof(struct mtpbank_times) == 28, "mtpbank_times");
MTPBANK_ASSERT(sizeof(struct mtpbank_heard) == 16, "mtpbank_heard");
MTPBANK_ASSERT(sizeof(struct mtpbank_turned) == 16, "mtpbank_turned");
MTPBANK_ASSERT(sizeof(struct mtpbank_look) == 48, "mtpbank_look");
MTPBANK_ASSERT(sizeof(struct mtpbank_found) == 2, "mtpbank_found");
MTPBANK_ASSERT(sizeof(struct mtpbank_told) == 16, "mtpbank_told");

/*! The longest message, SIO and SIF. */
#define MTPBANK_LONGEST 273

/*! The longest unit, without check octets and flags. */
#define MTPBANK_LONGEST_UNIT 276

/*! Opens an end, whose links are out of service and not activated.
 *  \param[in] set the set of links
 *  \param[in] timers of level 2; mtpbank_usual_timers at 64 kbit/s
 *  \param[in] times of level 3; mtpbank_usual_times at 64 kbit/s
 *  \param[out] end as it was where the code isn't MTPBANK_OK; else it must be closed once by mtpbank_close
 *  \returns MTPBANK_OK; the first of these, in this order: MTPBANK_BAD_LINKS, MTPBANK_BAD_POINT_CODE, MTPBANK_BAD_SIO,
 *           MTPBANK_BAD_CYCLIC, MTPBANK_BAD_TIMERS, MTPBANK_BAD_TIMES, MTPBANK_NO_MEMORY */
int32_t mtpbank_open(const struct mtpbank_set *set, const struct mtpbank_timers *timers, const struct mtpbank_times *times,
		     mtpbank_end *end);

/*! Closes an end and frees its memory. It, and each copy of it, is no end any more. */
void mtpbank_close(mtpbank_end end);

/*! Level 3 manages a link from now on (Q.704 12.2): it starts the link, and again after each failure, and tells the set when
 *  its timers end. Then nothing but octets has to be given.
 *  \returns MTPBANK_OK; MTPBANK_NO_SUCH_LINK, MTPBANK_NOTHING where it does so already, and nothing is done; MTPBANK_NO_MEMORY
 *           and MTPBANK_EXHAUSTED where what level 3 asked couldn't be carried out */
int32_t mtpbank_activate(mtpbank_end *end, uint8_t link);

/*! Level 3 manages a link no more, and its terminal stops in its next turn.
 *  \returns the same codes; MTPBANK_NOTHING where the link isn't activated */
int32_t mtpbank_deactivate(mtpbank_end *end, uint8_t link);

/*! A command to a link's terminal, obeyed in its next turn. On an activated link level 3 gives start and stop by itself.
 *  \param[in] number enum mtpbank_command_number
 *  \returns MTPBANK_OK; in this order MTPBANK_NO_SUCH_LINK, MTPBANK_NO_SUCH_COMMAND, and MTPBANK_UNSETTLED for a start or an
 *           emergency of a link that was left and isn't settled: nothing is done then */
int32_t mtpbank_command(mtpbank_end *end, uint8_t link, uint8_t number);

/*! Octets came on a link's line, the first one first, the lowest bit of each first: each is a turn of the link's terminal, and
 *  the octet that goes out in it is put at its place. A line of other octet order, as DAHDI's, is to be turned round before
 *  and behind.
 *  \param[in] octets what came, length of them
 *  \param[out] put what goes out, room octets of place: the first heard->octets of them are written, no other
 *  \param[out] heard always written
 *  \returns MTPBANK_OK where all were heard; in this order MTPBANK_NO_SUCH_LINK, and MTPBANK_NO_ROOM where room < length:
 *           nothing is done then; MTPBANK_NO_MEMORY, MTPBANK_EXHAUSTED or MTPBANK_FAILED where the turn of the octet behind the
 *           first heard->octets couldn't end: the link takes no turn any more, and each answers MTPBANK_FAILED; unless memory
 *           was wanted for level 3 alone, where just the octet is lost that this turn put */
int32_t mtpbank_hear(mtpbank_end *end, uint8_t link, const uint8_t *octets, size_t length, uint8_t *put, size_t room,
		     struct mtpbank_heard *heard);

/*! One octet came on a link's line: mtpbank_hear of it, which tells too the unit that is appended in its turn to what is
 *  sent, if one is. So a capture is made of what an end sends: of each call whose turned->unit isn't 0, the first so many
 *  octets of unit.
 *  \param[in] octet what came
 *  \param[out] unit the unit at its front, from BSN and BIB up to what is before the check octets, no other octet; as it
 *              was where the code isn't MTPBANK_OK
 *  \param[in] room at least MTPBANK_LONGEST_UNIT
 *  \param[out] turned as it was where the code isn't MTPBANK_OK
 *  \returns MTPBANK_OK; in this order MTPBANK_NO_SUCH_LINK, and MTPBANK_NO_ROOM where room < MTPBANK_LONGEST_UNIT: nothing
 *           is done then; MTPBANK_NO_MEMORY, MTPBANK_EXHAUSTED or MTPBANK_FAILED as of mtpbank_hear */
int32_t mtpbank_turn(mtpbank_end *end, uint8_t link, uint8_t octet, uint8_t *unit, size_t room,
		     struct mtpbank_turned *turned);

/*! How a link stands.
 *  \param[out] look as it was where the code isn't MTPBANK_OK
 *  \returns MTPBANK_OK; MTPBANK_NO_SUCH_LINK */
int32_t mtpbank_look(mtpbank_end *end, uint8_t link, struct mtpbank_look *look);

/*! A user offers a message: SIO, then the routing label and what is behind it. Messages of one stream (the low four bits of the
 *  label's SLS) come over in order.
 *  \param[in] user 0 to 63
 *  \param[out] number by which mtpbank_find finds it; as it was where the code isn't MTPBANK_OK
 *  \returns MTPBANK_OK; in this order MTPBANK_NO_SUCH_USER, MTPBANK_NO_MEMORY, MTPBANK_EXHAUSTED, MTPBANK_TOO_SHORT,
 *           MTPBANK_TOO_LONG, MTPBANK_RESERVED, MTPBANK_STREAM_FULL: the message wasn't accepted then */
int32_t mtpbank_offer(mtpbank_end *end, uint16_t user, const uint8_t *message, size_t length, uint64_t *number);

/*! A user takes the oldest message that was heard. Each call makes an entry of the history, so call it where heard->messages
 *  isn't 0, until it answers MTPBANK_NOTHING.
 *  \param[out] put the message at its front, no other octet; as it was where the code isn't MTPBANK_OK
 *  \param[in] room at least MTPBANK_LONGEST
 *  \param[out] length of the message; as it was where the code isn't MTPBANK_OK
 *  \returns MTPBANK_OK; in this order MTPBANK_NO_SUCH_USER, and MTPBANK_NO_ROOM where room < MTPBANK_LONGEST: nothing is taken;
 *           MTPBANK_NOTHING; MTPBANK_NO_MEMORY, MTPBANK_EXHAUSTED: nothing is taken */
int32_t mtpbank_take(mtpbank_end *end, uint16_t user, uint8_t *put, size_t room, size_t *length);

/*! A user asks where a message stands.
 *  \param[out] found as it was where the code isn't MTPBANK_OK
 *  \returns MTPBANK_OK; MTPBANK_NO_SUCH_USER, MTPBANK_UNKNOWN_NUMBER, MTPBANK_FINISHED, MTPBANK_NO_MEMORY, MTPBANK_EXHAUSTED */
int32_t mtpbank_find(mtpbank_end *end, uint16_t user, uint64_t number, struct mtpbank_found *found);

/*! The text of the history since the last checkpoint, from a line on: line 0 tells what the end was opened with, and each
 *  other line is an entry. MTPBANK_AUDIT reads it. Where an end takes checkpoints, what it's to read is the text from line
 *  0 on before the first one, a line "checkpoint", the text from line 1 on before the second one, and so forth.
 *  \param[in] from how many lines are passed over; where that is all, the text has no octet
 *  \param[out] put the text at its front, no other octet; as it was where the code isn't MTPBANK_OK
 *  \param[out] told how much the text is, also where it's MTPBANK_NO_ROOM; else as it was
 *  \returns MTPBANK_OK; MTPBANK_NO_MEMORY; MTPBANK_NO_ROOM where room < told->octets: nothing is put. The end stays as it
 *           is */
int32_t mtpbank_history(mtpbank_end *end, size_t from, uint8_t *put, size_t room, struct mtpbank_told *told);

/*! The history begins anew. The library keeps an entry for each event and each unit, some 20 kB a second for an idle link of
 *  64 kbit/s: call this now and then, as once a second.
 *  \returns MTPBANK_OK; MTPBANK_NO_MEMORY, and all is as it was */
int32_t mtpbank_checkpoint(mtpbank_end *end);

/*! Subcommands of the program (docs/TUTORIAL.md, and the --help of each). The numbers never change. */
enum mtpbank_subcommand {
	MTPBANK_PLAY = 0,          /*!< a script of two ends: what each of its lines answers */
	MTPBANK_LADDER = 1,        /*!< a script: its chart */
	MTPBANK_CAPTURE = 2,       /*!< a script: the units that both ends sent, as a file of pcap */
	MTPBANK_HISTORY_A = 3,     /*!< a script: what end a was asked and answered */
	MTPBANK_HISTORY_B = 4,     /*!< a script: what end b was */
	MTPBANK_AUDIT = 5,         /*!< a history: whether it's legal */
	MTPBANK_DECODE = 6,        /*!< units: what they say */
	MTPBANK_DECODE_WIDE = 7,   /*!< units with 12-bit numbers: likewise */
	MTPBANK_TERMINAL = 8,      /*!< lines that drive one end: what it answers */
	MTPBANK_TERMINAL_KEEP = 9, /*!< the same, and a line at fault is answered */
	MTPBANK_UNITS = 10,        /*!< octets of a line: what a terminal sees in them */
	MTPBANK_EXPLAIN = 16,      /*!< added to any but MTPBANK_UNITS: a fault is explained, and numbers have words */
};

/*! How long both texts are. */
struct mtpbank_lengths {
	size_t printed; /*!< what is printed */
	size_t told;    /*!< what is told of a fault; 0 where there was none */
};

MTPBANK_ASSERT(sizeof(struct mtpbank_lengths) == 16, "mtpbank_lengths");

/*! What a subcommand makes of an input; in libmtpbank_texts.a. Nothing is kept from one call to the next, so any threads may
 *  call it.
 *  \param[in] subcommand enum mtpbank_subcommand
 *  \param[in] input length octets of it: at most 2^24 of a script
 *  \param[out] printed printed_room octets of place: what the program prints on standard output, at its front, no other octet
 *  \param[out] told told_room octets of place: the lines that it prints on standard error, at its front, no other octet
 *  \param[out] lengths of both texts
 *  \returns MTPBANK_OK, also where the input has a fault, which is told: what is printed goes up to there then;
 *           MTPBANK_NO_ROOM: printed and told are as they were, and lengths tells what is wanted; MTPBANK_NO_SUCH_COMMAND,
 *           MTPBANK_NO_MEMORY: all is as it was */
int32_t mtpbank_text(uint8_t subcommand, const uint8_t *input, size_t length, uint8_t *printed, size_t printed_room,
		     uint8_t *told, size_t told_room, struct mtpbank_lengths *lengths);

/* What the libraries take memory by; you define them, or link examples/c/memory.c. A block is aligned to 16 octets. The three
 * work on one heap, and are called by the threads that call ends. */
struct mtpbank_block {
	bool ok;  /*!< whether there was memory */
	void *at; /*!< never NULL */
};

/*! A block of size octets. */
struct mtpbank_block rattle_alloc(size_t size, size_t align);
/*! The block at, whose first kept octets count, with size octets now, perhaps elsewhere; where there is no memory it stays. */
struct mtpbank_block rattle_realloc(void *at, size_t kept, size_t size, size_t align);
/*! A block is free again. */
void rattle_dealloc(void *at);

#ifdef __cplusplus
}
#endif

#endif
