/* Flehwella: one group's nominations checked as the market operator does, from C11 or C++.
 *
 *     uint8_t room[FLEHWELLA_RESULT_MAX];
 *     int32_t reply = flehwella_check(day, day_length, block, block_length, room, sizeof room);
 *     if (reply < 0)
 *         ...                       // -reply is a flehwella_refusal
 *     else
 *         ...                       // room[0] to room[reply - 1] is the result
 *
 * The function behind this header is proved to reply and to write as said here, for every input. Link with -lflehwella
 * (pkg-config flehwella); the library is x86-64 code, and needs at most memcpy and its like from the C library.
 */
#ifndef FLEHWELLA_H
#define FLEHWELLA_H

#include <stddef.h>
#include <stdint.h>

#ifdef __cplusplus
extern "C" {
#endif

/* The version of this header and of the library it came with. */
#define FLEHWELLA_VERSION "0.6.0"

/* Lengths in bytes of what goes in: a day record; a group record and its unit records, which together are a block. A unit
 * record is of kind 03h, or of kind 04h: that has the fields of 03h and then the two ends of a feasibility interval, and its
 * margins count as far as they lie in the interval. */
#define FLEHWELLA_DAY_LENGTH 12
#define FLEHWELLA_GROUP_LENGTH 10
#define FLEHWELLA_UNIT_LENGTH 26
#define FLEHWELLA_INTERVAL_UNIT_LENGTH 34

/* Lengths in bytes of what comes out: a group result, and a unit result for each unit of the block. */
#define FLEHWELLA_GROUP_RESULT_LENGTH 27
#define FLEHWELLA_UNIT_RESULT_LENGTH 20

/* A block has 1 to FLEHWELLA_UNITS_MAX units, of either kind in any order. */
#define FLEHWELLA_UNITS_MAX 64

/* The length of a block of that many units, all of kind 03h; of a block of that many of kind 03h and that many of kind 04h; and
 * of the result of a block of that many units, of either kind. */
#define FLEHWELLA_BLOCK_LENGTH(units) (FLEHWELLA_GROUP_LENGTH + (units) * FLEHWELLA_UNIT_LENGTH)
#define FLEHWELLA_MIXED_LENGTH(units, interval_units) \
    (FLEHWELLA_BLOCK_LENGTH(units) + (interval_units) * FLEHWELLA_INTERVAL_UNIT_LENGTH)
#define FLEHWELLA_RESULT_LENGTH(units) (FLEHWELLA_GROUP_RESULT_LENGTH + (units) * FLEHWELLA_UNIT_RESULT_LENGTH)

/* The longest block, and room enough for any result. */
#define FLEHWELLA_BLOCK_MAX 2186
#define FLEHWELLA_RESULT_MAX 1307

/* tests/refusals */
/* Every refusal of the house, by its number. flehwella_check gives 1 to 12 and 17 to 19, of which 6 to 9, 11, 18 and 19
 * speak of one unit. */
enum flehwella_refusal {
    /* the record is cut short */
    FLEHWELLA_CUT_SHORT = 1,
    /* a record of a kind that may not come there */
    FLEHWELLA_KIND = 2,
    /* quarters of the day other than 92, 96 or 100 */
    FLEHWELLA_QUARTERS = 3,
    /* a quarter that the day does not have */
    FLEHWELLA_QUARTER = 4,
    /* no unit, or more than 64 */
    FLEHWELLA_UNIT_COUNT = 5,
    /* unit numbers that do not rise */
    FLEHWELLA_UNIT_NUMBER = 6,
    /* class, coincide or nominated other than 0 or 1, or N not 0 though not nominated */
    FLEHWELLA_FLAG = 7,
    /* a quantity outside -1,000,000 to 1,000,000 kWh */
    FLEHWELLA_RANGE = 8,
    /* the step-down margin lies above the step-up margin, or an interval's lower end above its upper */
    FLEHWELLA_CROSSED = 9,
    /* positions older than the limit */
    FLEHWELLA_POSITION_AGE = 10,
    /* margins older than the limit */
    FLEHWELLA_MARGIN_AGE = 11,
    /* the room lent is too small */
    FLEHWELLA_ROOM = 12,
    /* a block that does not come after the one before */
    FLEHWELLA_BLOCK_ORDER = 13,
    /* the end record counts other groups than were accepted */
    FLEHWELLA_END_COUNT = 14,
    /* columns of unequal length */
    FLEHWELLA_COLUMNS = 15,
    /* positions made after the run */
    FLEHWELLA_POSITION_AHEAD = 17,
    /* margins made after the run */
    FLEHWELLA_MARGIN_AHEAD = 18,
    /* the interval leaves no room between the margins */
    FLEHWELLA_WORKING_CROSSED = 19,
    /* a line of a partner's export that is not in its form */
    FLEHWELLA_LINE = 20
};
/* */

/* Checks one block as the first of its day and writes its result into the room.
 *
 * `day` is a day record and `block` a group record with its units; bytes after either are not read. The day is judged
 * first, then the block; the first refused field decides, and a room that is too small is told last. No refusal speaks of
 * a block before this one or of the day's end.
 *
 * Gives back the length written, FLEHWELLA_RESULT_LENGTH(units), or minus the number of a refusal; never 0.
 *
 * The day is what was refused where day_length is below FLEHWELLA_DAY_LENGTH, or where the same day with a block_length of 0
 * gives another reply than -FLEHWELLA_CUT_SHORT; else it is the block. A refusal that speaks of one unit (above) speaks of the
 * k-th, for the least k with which the block cut to its first k units (its byte 5, the unit count, is k, and its length
 * FLEHWELLA_MIXED_LENGTH(a, b), a of the k being of kind 03h and b of kind 04h) is refused by the same number.
 *
 * Accepted: the first bytes of the room, as many as the reply says, are the result, and the room beyond them is untouched.
 * Refused: the whole room is untouched. Room for FLEHWELLA_RESULT_MAX bytes fits any result.
 *
 * The caller owns all three pieces of memory, before and after: nothing is kept, freed or allocated. `day` and `block` are
 * only read. The room must not overlap the other two. No pointer may be null, not even with a length of 0; no length may be
 * above PTRDIFF_MAX; no piece needs any alignment. Nothing may change the three during the call.
 *
 * There is no shared state: any number of threads may call at once, each with a room of its own, and the call may be made
 * from a signal handler. It uses 4096 bytes of stack or less.
 *
 * A result is one group result and then a unit result for each unit, in the block's order. Numbers have the most
 * significant byte first, signed ones (i32) in two's complement; the figure before a field is its place.
 *
 *   group result   0 kind 11h; 1 BRP u16; 3 zone u8; 4 quarter u8; 5 verdict u8; 6 unit count u8;
 *                  7 P, 11 S1, 15 S2, 19 S3, 23 balance (i32 each)
 *   unit result    0 kind 12h; 1 number u16; 3 reason u8; 4 n0, 8 n1, 12 n2, 16 n3 (i32 each)
 *
 *   verdict        0 no cut, 1 injections cut, 2 withdrawals cut; plus 4 where S3 is outside the band
 *   reason         1 not nominated and taken as sold (n0 is -PC: coincide is 1 or the class is 0), 2 n1 is not n0, 4 n2 is not
 *                  n1, 8 n3 is not n2, 16 n3 = 0 is outside the margins; their sum
 */
int32_t flehwella_check(const uint8_t *day, size_t day_length, const uint8_t *block, size_t block_length, uint8_t *room,
                        size_t room_length);

#ifdef __cplusplus
}
#endif

#endif
