/* The list of a day in C over best.c: its rest is written for speed too, with large reads and writes and two digits at a time.
 * It is for valid days alone: at a refusal it stops with status 1 and no line of it. usage: list <DAY >LIST */
#define _POSIX_C_SOURCE 200809L
#include "../second/second.h"
#include "flehwella.h"

#include <stdint.h>
#include <stdlib.h>
#include <string.h>
#include <unistd.h>

int32_t best_check(const uint8_t *day, size_t day_length, const uint8_t *block, size_t block_length, uint8_t *room, size_t room_length);

/* LINES is more than the lines of one block's result take. */
enum { BUFFER = 1 << 18, LINES = 1 << 13, COUNT = 6, FIGURES = 7, GROUP = FLEHWELLA_GROUP_RESULT_LENGTH, UNIT = FLEHWELLA_UNIT_RESULT_LENGTH, END = 5 };
enum state { FRESH, OPEN, CLOSED };

static uint8_t in[BUFFER], out[BUFFER + LINES];
static char pairs[200];

static inline uint32_t be32(const uint8_t *at)
{
    return (uint32_t)at[0] << 24 | (uint32_t)at[1] << 16 | (uint32_t)at[2] << 8 | at[3];
}

static inline uint32_t be16(const uint8_t *at)
{
    return (uint32_t)at[0] << 8 | at[1];
}

/* ---- Lines: each writes from `to` on, and gives back where it ends ---- */

static inline int digits_of(uint32_t n)
{
    return n < 10 ? 1 : n < 100 ? 2 : n < 1000 ? 3 : n < 10000 ? 4 : n < 100000 ? 5 : n < 1000000 ? 6
         : n < 10000000 ? 7 : n < 100000000 ? 8 : n < 1000000000 ? 9 : 10;
}

static inline uint8_t *number(uint8_t *to, uint32_t n)
{
    uint8_t *const end = to + digits_of(n), *at = end;
    for (; n >= 100; n /= 100)
        memcpy(at -= 2, pairs + n % 100 * 2, 2);
    if (n >= 10)
        memcpy(at - 2, pairs + n * 2, 2);
    else
        at[-1] = (uint8_t)('0' + n);
    return end;
}

static inline uint8_t *field(uint8_t *to, uint32_t n)
{
    *to = ' ';
    return number(to + 1, n);
}

static inline uint8_t *signed_field(uint8_t *to, uint32_t bits)
{
    if (!(bits >> 31))
        return field(to, bits);
    to[0] = ' ';
    to[1] = '-';
    return number(to + 2, 0 - bits);
}

static uint8_t *result_lines(uint8_t *to, const uint8_t *result)
{
    to = field((uint8_t *)memcpy(to, "GROUP", 5) + 5, be16(result + 1));
    for (int i = 3; i < FIGURES; i++)
        to = field(to, result[i]);
    for (int i = FIGURES; i < GROUP; i += 4)
        to = signed_field(to, be32(result + i));
    *to++ = '\n';
    const uint8_t *const end = result + GROUP + UNIT * result[COUNT];
    for (const uint8_t *unit = result + GROUP; unit < end; unit += UNIT) {
        to = field(field((uint8_t *)memcpy(to, "UNIT", 4) + 4, be16(unit + 1)), unit[3]);
        for (int i = 4; i < UNIT; i += 4)
            to = signed_field(to, be32(unit + i));
        *to++ = '\n';
    }
    return to;
}

static void flush(const uint8_t *to)
{
    for (const uint8_t *from = out; from < to;) {
        const ssize_t written = write(1, from, (size_t)(to - from));
        if (written < 0)
            exit(2);
        from += written;
    }
}

/* ---- The day ---- */

static struct {
    enum state state;
    uint8_t record[FLEHWELLA_DAY_LENGTH];
    uint32_t groups;
    int64_t last;
} day = {FRESH, {0}, 0, -1};

/* The length of a block that was accepted, each of whose units goes by its own kind. */
static inline size_t block_length(const uint8_t *block)
{
    const uint8_t *unit = block + SECOND_GROUP_LENGTH;
    for (int i = 0; i < block[5]; i++)
        unit += unit[0] == SECOND_KIND_UNIT ? SECOND_UNIT_LENGTH : SECOND_UNIT_WITH_ENDS_LENGTH;
    return (size_t)(unit - block);
}

/* The line of the record, or those of the block, in front of the bytes; `from` moves past it. */
static uint8_t *front_lines(uint8_t *to, const uint8_t **from, size_t length)
{
    const uint8_t *const at = *from;
    if (day.state == OPEN && at[0] == 0x02) {
        uint8_t room[FLEHWELLA_RESULT_MAX];
        const int64_t key = (int64_t)be16(at + 1) << 16 | be16(at + 3);
        if (best_check(day.record, sizeof day.record, at, length, room, sizeof room) < 0 || key <= day.last)
            exit(1);
        day.last = key;
        day.groups++;
        *from += block_length(at);
        return result_lines(to, room);
    }
    if (day.state == FRESH && at[0] == 0x01 && length >= sizeof day.record) {
        memcpy(day.record, at, sizeof day.record);
        day.state = OPEN;
        *from += sizeof day.record;
        to = field(field(field((uint8_t *)memcpy(to, "DAY", 3) + 3, be16(at + 1)), at[3]), be32(at + 4));
    } else if (day.state == OPEN && at[0] == 0x0F && length >= END && be32(at + 1) == day.groups) {
        day.state = CLOSED;
        *from += END;
        to = field((uint8_t *)memcpy(to, "END", 3) + 3, day.groups);
    } else {
        exit(1);
    }
    *to = '\n';
    return to + 1;
}

int main(void)
{
    for (int i = 0; i < 100; i++) {
        pairs[2 * i] = (char)('0' + i / 10);
        pairs[2 * i + 1] = (char)('0' + i % 10);
    }
    const uint8_t *from = in;
    uint8_t *to = out;
    size_t length = 0;
    for (int ended = 0; !ended || length > 0;) {
        if (!ended && length < SECOND_BLOCK_MAX) {
            memmove(in, from, length);
            from = in;
            const ssize_t got = read(0, in + length, sizeof in - length);
            if (got < 0)
                return 2;
            ended = got == 0;
            length += (size_t)got;
            continue;
        }
        const uint8_t *const front = from;
        to = front_lines(to, &from, length);
        length -= (size_t)(from - front);
        if (to - out >= BUFFER) {
            flush(to);
            to = out;
        }
    }
    flush(to);
    return day.state == CLOSED ? 0 : 1;
}
