/* The program of docs/PROBE.md: it reads frames and answers each by a proved
 * call, one of those that crates/ways/src/lib.rt exports or the C call. */
#include "flehwella.h"

#include <stdbool.h>
#include <stdint.h>
#include <stdio.h>
#include <string.h>

enum { BODY_MAX = 8192, ROOM_MAX = 2304, COLUMN_MAX = 80, FILLER = 0xA5 };
enum { CLOSED = 2 };

/* ---- The calls of the crate `ways` --------------------------------------- */

/* How many numbers a day value has and a call tells, and the first of these where a walk is done. */
enum { DAY = 11, TOLD = 7, DONE = 255 };

/* A slice goes in as where it starts and how long it is. */
#define IN(type, name) const type *name, size_t name##_length
#define OUT(type, name) type *name, size_t name##_length

void ways_judge(IN(int32_t, n0), IN(int32_t, pc), IN(int32_t, step_down), IN(int32_t, step_up), IN(uint8_t, class),
                OUT(int32_t, n1), OUT(int32_t, n2), OUT(int32_t, n3), uint64_t told[TOLD]);
void ways_offer(uint32_t day[DAY], IN(uint8_t, bytes), OUT(uint8_t, room), uint64_t told[TOLD]);
void ways_check_block(const uint32_t day[DAY], IN(uint8_t, bytes), uint64_t told[TOLD]);
void ways_write_day(uint16_t day, uint8_t quarters, uint32_t run, uint16_t position_limit, uint16_t margin_limit,
                    OUT(uint8_t, room), uint64_t told[TOLD]);
void ways_write_block(uint16_t brp, uint8_t zone, uint8_t quarter, uint32_t made, IN(uint16_t, number),
                      IN(uint8_t, class), IN(uint8_t, coincide), IN(uint8_t, nominated), IN(int32_t, n),
                      IN(int32_t, pc), IN(int32_t, step_down), IN(int32_t, step_up), IN(uint32_t, margins_made),
                      IN(uint8_t, kind), IN(int32_t, lower), IN(int32_t, upper), OUT(uint8_t, room),
                      uint64_t told[TOLD]);
void ways_write_end(uint32_t groups, OUT(uint8_t, room), uint64_t told[TOLD]);
void ways_next(IN(uint8_t, bytes), uint32_t state, size_t place, uint64_t told[TOLD]);
void ways_walk_at(IN(uint8_t, bytes), size_t steps, uint64_t told[TOLD]);
void ways_read_line(IN(uint8_t, bytes), uint64_t told[TOLD]);
void ways_write_line(uint16_t number, uint8_t quarter, int32_t n, int32_t step_down, int32_t step_up,
                     OUT(uint8_t, room), uint64_t told[TOLD]);

/* ---- The body of a frame, read from the front ----------------------------- */

typedef struct {
    const uint8_t *at;
    size_t left;
    bool fits; /* false once the body turns out not to fit its call */
} body;

static const uint8_t *take(body *b, size_t length)
{
    static const uint8_t zeros[4];
    if (b->left < length) {
        b->fits = false;
        b->left = 0;
        return zeros;
    }
    const uint8_t *at = b->at;
    b->at += length;
    b->left -= length;
    return at;
}

static uint8_t take_u8(body *b)
{
    return *take(b, 1);
}

static uint16_t take_u16(body *b)
{
    const uint8_t *at = take(b, 2);
    return (uint16_t)(at[0] << 8 | at[1]);
}

static uint32_t take_u32(body *b)
{
    const uint8_t *at = take(b, 4);
    return (uint32_t)at[0] << 24 | (uint32_t)at[1] << 16 | (uint32_t)at[2] << 8 | at[3];
}

static int32_t take_i32(body *b)
{
    return (int32_t)take_u32(b);
}

/* The number, which does not fit the call where it is past its limit. */
static size_t at_most(body *b, size_t most, size_t number)
{
    if (number <= most)
        return number;
    b->fits = false;
    return 0;
}

static void take_lengths(body *b, size_t *lengths, size_t count)
{
    for (size_t i = 0; i < count; i++)
        lengths[i] = at_most(b, COLUMN_MAX, take_u8(b));
}

static void take_i32s(body *b, int32_t *column, size_t length)
{
    for (size_t i = 0; i < length; i++)
        column[i] = take_i32(b);
}

/* Whether all of the body was taken, and fits. */
static bool whole(const body *b)
{
    return b->fits && b->left == 0;
}

/* ---- Day values and room --------------------------------------------------- */

static void take_day(body *b, uint32_t *day)
{
    day[0] = (uint32_t)at_most(b, CLOSED, take_u8(b));
    day[1] = take_u16(b);
    day[2] = take_u8(b);
    day[3] = take_u32(b);
    day[4] = take_u16(b);
    day[5] = take_u16(b);
    day[6] = take_u32(b);
    day[7] = (uint32_t)at_most(b, 1, take_u8(b));
    day[8] = take_u16(b);
    day[9] = take_u8(b);
    day[10] = take_u8(b);
}

static uint8_t room[ROOM_MAX];

/* Takes a length, and lends so much room. */
static size_t take_room(body *b)
{
    const size_t length = at_most(b, ROOM_MAX, take_u16(b));
    memset(room, FILLER, length);
    return length;
}

/* ---- The body of a reply ---------------------------------------------------- */

/* The longest is a walker's: 255 replies of 10 bytes. */
static uint8_t reply[4096];
static size_t replied;

static void give_u8(uint64_t number)
{
    reply[replied++] = (uint8_t)number;
}

static void give_u16(uint64_t number)
{
    give_u8(number >> 8);
    give_u8(number);
}

static void give_u32(uint64_t number)
{
    uint8_t *at = reply + replied;
    at[0] = (uint8_t)(number >> 24);
    at[1] = (uint8_t)(number >> 16);
    at[2] = (uint8_t)(number >> 8);
    at[3] = (uint8_t)number;
    replied += 4;
}

static void give_room(size_t length)
{
    memcpy(reply + replied, room, length);
    replied += length;
}

static void give_i32s(const int32_t *column, size_t length)
{
    for (size_t i = 0; i < length; i++)
        give_u32((uint32_t)column[i]);
}

static void give_day(const uint32_t *day)
{
    give_u8(day[0]);
    give_u16(day[1]);
    give_u8(day[2]);
    give_u32(day[3]);
    give_u16(day[4]);
    give_u16(day[5]);
    give_u32(day[6]);
    give_u8(day[7]);
    give_u16(day[8]);
    give_u8(day[9]);
    give_u8(day[10]);
}

/* The first part of an answer; true where the call was accepted and what it
 * gives back is still to follow. */
static bool give_answer(const uint64_t *told)
{
    if (told[0] == 0) {
        give_u8(0);
        return true;
    }
    give_u8(1);
    give_u8(told[0]);
    give_u32(told[1]);
    return false;
}

static void give_lengths(const uint64_t *told)
{
    if (give_answer(told)) {
        give_u32(told[1]);
        give_u32(told[2]);
    }
}

static void give_written(const uint64_t *told, size_t length)
{
    if (give_answer(told))
        give_u32(told[1]);
    give_room(length);
}

static void give_step(const uint64_t *told)
{
    if (told[0] == DONE) {
        give_u8(2);
    } else if (give_answer(told)) {
        give_u32(told[1]);
        give_u32(told[2]);
        give_u8(told[3]);
    }
}

/* ---- The calls ---------------------------------------------------------------- */

static void columns(body *b)
{
    enum { READ = 4, WRITTEN = 3, ALL = READ + 1 + WRITTEN };
    size_t length[ALL];
    int32_t read[READ][COLUMN_MAX], written[WRITTEN][COLUMN_MAX];
    uint64_t told[TOLD];
    take_lengths(b, length, ALL);
    for (size_t i = 0; i < READ; i++)
        take_i32s(b, read[i], length[i]);
    const uint8_t *class = take(b, length[READ]);
    if (!whole(b))
        return;
    memset(written, FILLER, sizeof written);
    ways_judge(read[0], length[0], read[1], length[1], read[2], length[2], read[3], length[3], class, length[4],
               written[0], length[5], written[1], length[6], written[2], length[7], told);
    if (give_answer(told)) {
        give_u8(told[1]);
        for (size_t i = 2; i < TOLD; i++)
            give_u32(told[i]);
    }
    for (size_t i = 0; i < WRITTEN; i++)
        give_i32s(written[i], length[READ + 1 + i]);
}

static void offer(body *b)
{
    uint32_t day[DAY];
    uint64_t told[TOLD];
    take_day(b, day);
    const size_t length = take_room(b);
    if (!b->fits)
        return;
    ways_offer(day, b->at, b->left, room, length, told);
    give_lengths(told);
    give_day(day);
    give_room(length);
}

static void check_block(body *b)
{
    uint32_t day[DAY];
    uint64_t told[TOLD];
    take_day(b, day);
    if (!b->fits)
        return;
    ways_check_block(day, b->at, b->left, told);
    give_lengths(told);
}

static void write_day(body *b)
{
    uint64_t told[TOLD];
    const uint16_t day = take_u16(b);
    const uint8_t quarters = take_u8(b);
    const uint32_t run = take_u32(b);
    const uint16_t position_limit = take_u16(b);
    const uint16_t margin_limit = take_u16(b);
    const size_t length = take_room(b);
    if (!whole(b))
        return;
    ways_write_day(day, quarters, run, position_limit, margin_limit, room, length, told);
    give_written(told, length);
}

static void write_block(body *b)
{
    size_t of[12];
    uint16_t number[COLUMN_MAX];
    int32_t n[COLUMN_MAX], pc[COLUMN_MAX], step_down[COLUMN_MAX], step_up[COLUMN_MAX], lower[COLUMN_MAX],
        upper[COLUMN_MAX];
    uint32_t made[COLUMN_MAX];
    uint64_t told[TOLD];
    const uint16_t brp = take_u16(b);
    const uint8_t zone = take_u8(b);
    const uint8_t quarter = take_u8(b);
    const uint32_t positions_made = take_u32(b);
    take_lengths(b, of, 12);
    const size_t length = take_room(b);
    for (size_t i = 0; i < of[0]; i++)
        number[i] = take_u16(b);
    const uint8_t *class = take(b, of[1]);
    const uint8_t *coincide = take(b, of[2]);
    const uint8_t *nominated = take(b, of[3]);
    take_i32s(b, n, of[4]);
    take_i32s(b, pc, of[5]);
    take_i32s(b, step_down, of[6]);
    take_i32s(b, step_up, of[7]);
    for (size_t i = 0; i < of[8]; i++)
        made[i] = take_u32(b);
    const uint8_t *kind = take(b, of[9]);
    take_i32s(b, lower, of[10]);
    take_i32s(b, upper, of[11]);
    if (!whole(b))
        return;
    ways_write_block(brp, zone, quarter, positions_made, number, of[0], class, of[1], coincide, of[2], nominated,
                     of[3], n, of[4], pc, of[5], step_down, of[6], step_up, of[7], made, of[8], kind, of[9], lower,
                     of[10], upper, of[11], room, length, told);
    give_written(told, length);
}

static void write_end(body *b)
{
    uint64_t told[TOLD];
    const uint32_t groups = take_u32(b);
    const size_t length = take_room(b);
    if (!whole(b))
        return;
    ways_write_end(groups, room, length, told);
    give_written(told, length);
}

static void next(body *b)
{
    uint64_t told[TOLD];
    const uint32_t state = (uint32_t)at_most(b, CLOSED, take_u8(b));
    const size_t place = take_u32(b);
    if (!b->fits)
        return;
    ways_next(b->at, b->left, state, place, told);
    give_step(told);
}

static void walker(body *b)
{
    uint64_t told[TOLD];
    const size_t times = take_u8(b);
    for (size_t i = 0; i < times; i++) {
        ways_walk_at(b->at, b->left, i, told);
        give_step(told);
    }
}

static void c_call(body *b)
{
    const size_t day_length = take_u8(b);
    const size_t block_length = take_u16(b);
    const size_t length = take_room(b);
    const uint8_t *day = take(b, day_length);
    const uint8_t *block = take(b, block_length);
    if (!whole(b))
        return;
    give_u32((uint32_t)flehwella_check(day, day_length, block, block_length, room, length));
    give_room(length);
}

static void read_line(body *b)
{
    uint64_t told[TOLD];
    ways_read_line(b->at, b->left, told);
    if (give_answer(told)) {
        give_u32(told[1]);
        give_u16(told[2]);
        give_u8(told[3]);
        for (size_t i = 4; i < TOLD; i++)
            give_u32(told[i]);
    }
}

static void write_line(body *b)
{
    uint64_t told[TOLD];
    const uint16_t number = take_u16(b);
    const uint8_t quarter = take_u8(b);
    const int32_t n = take_i32(b);
    const int32_t step_down = take_i32(b);
    const int32_t step_up = take_i32(b);
    const size_t length = take_room(b);
    if (!whole(b))
        return;
    ways_write_line(number, quarter, n, step_down, step_up, room, length, told);
    give_written(told, length);
}

/* ---- Frames ---------------------------------------------------------------------- */

/* The bodies of frames go to the calls by their numbers; nothing is given back
 * to one that does not fit. */
static void answer(size_t call, const uint8_t *bytes, size_t length)
{
    static void (*const calls[])(body *) = {NULL, columns, offer, check_block, write_day, write_block,
                                            write_end, next, walker, c_call, read_line, write_line};
    body b = {bytes, length, true};
    if (length <= BODY_MAX && call > 0 && call < sizeof calls / sizeof calls[0])
        calls[call](&b);
}

static bool write_reply(void)
{
    const size_t length = replied;
    replied = 0;
    give_u32(length - 4);
    return fwrite(reply, 1, length, stdout) == length;
}

int main(void)
{
    static uint8_t bytes[UINT16_MAX];
    uint8_t head[3];
    while (fread(head, 1, sizeof head, stdin) == sizeof head) {
        const size_t length = (size_t)head[1] << 8 | head[2];
        if (fread(bytes, 1, length, stdin) != length)
            break;
        replied = 4; /* the length goes in front once it is known */
        answer(head[0], bytes, length);
        if (!write_reply())
            return 2;
    }
    return fflush(stdout) == 0 ? 0 : 2;
}
