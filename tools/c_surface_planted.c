/* Wrong libraries, to see that tools/c_surface.c finds them: each call goes through here to the right one (the linker's
 * --wrap), and PLANTED tells which fault it has. */
#include "mtpbank.h"

#include <string.h>

#define RIGHT(type, name, ...) type __real_mtpbank_##name(__VA_ARGS__); type __wrap_mtpbank_##name(__VA_ARGS__)

/* 1: settings that are wrong in two ways are told by the second one. */
RIGHT(int32_t, open, const struct mtpbank_set *set, const struct mtpbank_timers *timers, const struct mtpbank_times *times,
      mtpbank_end *end)
{
	if (PLANTED == 1 && !times->t17)
		return MTPBANK_BAD_TIMES;
	return __real_mtpbank_open(set, timers, times, end);
}

/* 2: an end that was closed keeps its memory. */
RIGHT(void, close, mtpbank_end end)
{
	if (PLANTED != 2)
		__real_mtpbank_close(end);
}

/* 3: a command that there isn't is told as obeyed. */
RIGHT(int32_t, command, mtpbank_end *end, uint8_t link, uint8_t number)
{
	int32_t code = __real_mtpbank_command(end, link, number);
	return PLANTED == 3 && code == MTPBANK_NO_SUCH_COMMAND ? MTPBANK_OK : code;
}

/* 4: octets are heard on another link; 5: an octet behind those that were heard is put; 6: a turn that broke is told as done. */
RIGHT(int32_t, hear, mtpbank_end *end, uint8_t link, const uint8_t *octets, size_t length, uint8_t *put, size_t room,
      struct mtpbank_heard *heard)
{
	int32_t code = __real_mtpbank_hear(end, PLANTED == 4 && link == 1 ? 0 : link, octets, length, put, room, heard);
	if (PLANTED == 5 && heard->octets < room)
		put[heard->octets] ^= 1;
	return PLANTED == 6 && code == MTPBANK_FAILED ? MTPBANK_OK : code;
}

/* 7: another link is looked at. */
RIGHT(int32_t, look, mtpbank_end *end, uint8_t link, struct mtpbank_look *look)
{
	return __real_mtpbank_look(end, PLANTED == 7 && link == 1 ? 0 : link, look);
}

/* 8: a message that was refused is told as accepted; 9: one octet too many is read. */
RIGHT(int32_t, offer, mtpbank_end *end, uint16_t user, const uint8_t *message, size_t length, uint64_t *number)
{
	int32_t code = __real_mtpbank_offer(end, user, message, length + (PLANTED == 9), number);
	return PLANTED == 8 && code == MTPBANK_RESERVED ? MTPBANK_OK : code;
}

/* 10: an octet behind the message is written; 11: a message is taken into too little room. */
RIGHT(int32_t, take, mtpbank_end *end, uint16_t user, uint8_t *put, size_t room, size_t *length)
{
	int32_t code = __real_mtpbank_take(end, user, put, PLANTED == 11 ? MTPBANK_LONGEST : room, length);
	if (PLANTED == 10 && code == MTPBANK_OK && *length < room)
		put[*length] ^= 1;
	return code;
}

/* 12: a place is told of a message that there isn't. */
RIGHT(int32_t, find, mtpbank_end *end, uint16_t user, uint64_t number, struct mtpbank_found *found)
{
	int32_t code = __real_mtpbank_find(end, user, number, found);
	if (PLANTED == 12 && code == MTPBANK_UNKNOWN_NUMBER)
		found->place = MTPBANK_PLACE_WAITING;
	return code;
}

/* 13: a buffer that just fits is told as too small; 14: the buffer is written although the other one is too small. */
RIGHT(int32_t, text, uint8_t subcommand, const uint8_t *input, size_t length, uint8_t *printed, size_t printed_room,
      uint8_t *told, size_t told_room, struct mtpbank_lengths *lengths)
{
	int32_t code = __real_mtpbank_text(subcommand, input, length, printed, printed_room, told, told_room, lengths);
	if (PLANTED == 13 && code == MTPBANK_OK && lengths->printed == printed_room)
		return MTPBANK_NO_ROOM;
	if (PLANTED == 14 && code == MTPBANK_NO_ROOM && printed_room)
		printed[0] ^= 1;
	return code;
}

/* 15: a unit is told one octet longer than it is. */
RIGHT(int32_t, turn, mtpbank_end *end, uint8_t link, uint8_t octet, uint8_t *unit, size_t room, struct mtpbank_turned *turned)
{
	int32_t code = __real_mtpbank_turn(end, link, octet, unit, room, turned);
	if (PLANTED == 15 && code == MTPBANK_OK && turned->unit)
		turned->unit++;
	return code;
}

/* 16: an octet behind the history's text is written; 17: a history goes on a line too late. */
RIGHT(int32_t, history, mtpbank_end *end, size_t from, uint8_t *put, size_t room, struct mtpbank_told *told)
{
	int32_t code = __real_mtpbank_history(end, PLANTED == 17 && !from ? 1 : from, put, room, told);
	if (PLANTED == 16 && code == MTPBANK_OK && told->octets < room)
		put[told->octets] ^= 1;
	return code;
}
