/* Blocks to judge, and three programs that judge them: the C call, the second program and best.c.
 *
 *   calls same SEEDS                         prints, by case, how many blocks were compared and how many differ
 *   calls judge PROGRAM CASE UNITS ROUNDS    judges the blocks in so many rounds, for a count from outside
 *   calls time CASE UNITS ROUNDS             prints nanoseconds a block of each program, a line for each round
 *   calls block CASE UNITS                   writes a day record and one block
 *   calls blocks CASE UNITS                  writes the blocks of a round
 *   calls day KIND BLOCKS                    writes a day of so many blocks of all sizes, of one case or, by `mix`, of all in turn
 *
 * A round judges BLOCKS blocks of one case and size with other figures in each: one block again and again would let the
 * processor learn every branch, and flatter code that branches on the figures. */
#define _POSIX_C_SOURCE 200809L
#include "../second/second.h"
#include "cases.h"

#include <stdio.h>
#include <stdlib.h>
#include <string.h>
#include <time.h>

typedef int32_t judge(const uint8_t *, size_t, const uint8_t *, size_t, uint8_t *, size_t);
judge best_check;

static const struct {
    const char *name;
    judge *call;
} programs[] = {{"call", flehwella_check}, {"second", second_check}, {"best", best_check}};

enum { PROGRAMS = 3, BLOCKS = 509, FILLER = 0x5A, BEYOND = 64 };

static uint8_t day[FLEHWELLA_DAY_LENGTH], blocks[BLOCKS][SECOND_BLOCK_MAX], room[FLEHWELLA_RESULT_MAX + BEYOND];
static size_t block_length; /* of each block of a round */

static void stop(const char *why)
{
    fprintf(stderr, "calls: %s\n", why);
    exit(2);
}

static enum which case_named(const char *name)
{
    for (int c = 0; c < CASES; c++)
        if (strcmp(name, case_names[c]) == 0)
            return (enum which)c;
    stop("no such case");
    return CASES;
}

static int program_named(const char *name)
{
    for (int p = 0; p < PROGRAMS; p++)
        if (strcmp(name, programs[p].name) == 0)
            return p;
    stop("no such program");
    return PROGRAMS;
}

static int units_told(const char *word)
{
    const int units = atoi(word);
    if (units < 1 || units > FLEHWELLA_UNITS_MAX)
        stop("1 to 64 units");
    return units;
}

/* ---- Rounds ---- */

static void put_blocks(enum which which, int units)
{
    for (int i = 0; i < BLOCKS; i++)
        block_length = put_block(blocks[i], 7, 40, which, units, (uint64_t)i + 1);
}

static void judge_round(int program, int units)
{
    judge *const call = programs[program].call;
    for (int i = 0; i < BLOCKS; i++)
        if (call(day, sizeof day, blocks[i], block_length, room, FLEHWELLA_RESULT_MAX) != FLEHWELLA_RESULT_LENGTH(units))
            stop("a block is refused");
}

/* A first round of every program, so that what is learnt at first is not counted and 0 rounds cost the same whichever is named. */
static void judge_first(int units)
{
    for (int p = 0; p < PROGRAMS; p++)
        judge_round(p, units);
}

static double now(void)
{
    struct timespec at;
    clock_gettime(CLOCK_MONOTONIC, &at);
    return (double)at.tv_sec * 1e9 + (double)at.tv_nsec;
}

static void time_rounds(int units, long rounds)
{
    for (long r = 0; r < rounds; r++) {
        double spent[PROGRAMS];
        for (int k = 0; k < PROGRAMS; k++) { /* another one begins each round */
            const int p = (int)((r + k) % PROGRAMS);
            const double from = now();
            judge_round(p, units);
            spent[p] = (now() - from) / BLOCKS;
        }
        printf("%.2f %.2f %.2f\n", spent[0], spent[1], spent[2]);
    }
}

/* ---- The same replies and bytes ---- */

/* Whether all programs reply alike to a block and leave the same room, with what lies beyond its length. */
static int alike(const uint8_t *block, size_t length, size_t room_length)
{
    uint8_t first[sizeof room];
    int32_t reply = 0;
    for (int p = 0; p < PROGRAMS; p++) {
        memset(room, FILLER, sizeof room);
        const int32_t got = programs[p].call(day, sizeof day, block, length, room, room_length);
        if (p == 0) {
            reply = got;
            memcpy(first, room, sizeof room);
        } else if (got != reply || memcmp(first, room, sizeof room) != 0) {
            return 0;
        }
    }
    return 1;
}

static int32_t number_at(const uint8_t *at)
{
    return (int32_t)((uint32_t)at[0] << 24 | (uint32_t)at[1] << 16 | (uint32_t)at[2] << 8 | at[3]);
}

/* Lays a block anew with units of both kinds in any order, and gives back its length. The ends drawn cross neither each other nor
 * the margins, but for one in 200, whose working margins do. */
static size_t mix_kinds(uint8_t *to, const uint8_t *block, uint64_t *draw)
{
    const uint8_t *from = block + SECOND_GROUP_LENGTH;
    uint8_t *const front = to;
    to = (uint8_t *)memcpy(to, block, SECOND_GROUP_LENGTH) + SECOND_GROUP_LENGTH;
    for (int i = 0; i < block[5]; i++) {
        const int32_t m_down = number_at(from + 14), m_up = number_at(from + 18);
        uint8_t *const unit = memcpy(to, from, SECOND_UNIT_LENGTH);
        from += from[0] == SECOND_KIND_UNIT ? SECOND_UNIT_LENGTH : SECOND_UNIT_WITH_ENDS_LENGTH;
        to += SECOND_UNIT_LENGTH;
        unit[0] = below(2, draw) ? SECOND_KIND_UNIT : SECOND_KIND_UNIT_WITH_ENDS;
        if (unit[0] == SECOND_KIND_UNIT)
            continue;
        const int32_t lower = below(200, draw) ? m_up - below(5000, draw) : m_up + 1;
        const int32_t upper = (lower > m_down ? lower : m_down) + below(5000, draw);
        to = put(put(to, 4, (uint32_t)lower), 4, (uint32_t)upper);
    }
    return (size_t)(to - front);
}

/* A block as it is, with a byte changed, cut short, and with too little room: how many of the five are not judged alike. */
static long differing(uint8_t *block, size_t length, size_t written, uint64_t *draw)
{
    long differ = 0;
    differ += !alike(block, length, FLEHWELLA_RESULT_MAX);
    differ += !alike(block, length, written);
    differ += !alike(block, length, written - 1);
    differ += !alike(block, length - 1 - drawn(draw) % 30, written);
    block[drawn(draw) % length] ^= (uint8_t)(1 << drawn(draw) % 8);
    differ += !alike(block, length, written);
    return differ;
}

/* Each block, and the same with units of both kinds. */
static void compare_case(enum which which, uint64_t seeds)
{
    uint8_t *const block = blocks[0], *const mixed = blocks[1];
    long compared = 0, differ = 0;
    for (uint64_t seed = 1; seed <= seeds; seed++)
        for (int units = 1; units <= FLEHWELLA_UNITS_MAX; units++) {
            const size_t length = put_block(block, 7, 40, which, units, seed), written = FLEHWELLA_RESULT_LENGTH((size_t)units);
            uint64_t draw = (seed * 64 + (uint64_t)units) * 0x9E3779B97F4A7C15ULL;
            const size_t mixed_length = mix_kinds(mixed, block, &draw);
            differ += differing(block, length, written, &draw);
            differ += differing(mixed, mixed_length, written, &draw);
            compared += 10;
        }
    printf("%s %ld %ld\n", case_names[which], compared, differ);
}

/* ---- Days ---- */

static void write_bytes(const uint8_t *bytes, size_t length)
{
    if (fwrite(bytes, 1, length, stdout) != length)
        stop("could not write");
}

static void write_day(const char *kind, long count)
{
    const int mixed = strcmp(kind, "mix") == 0;
    const enum which one = mixed ? CASES : case_named(kind);
    write_bytes(day, sizeof day);
    for (long i = 0; i < count; i++) {
        const int units = 1 + (int)(i * 37 % FLEHWELLA_UNITS_MAX);
        const enum which which = mixed ? (enum which)((i + i / FLEHWELLA_UNITS_MAX) % CASES) : one; /* from 576 blocks on every case at every size */
        write_bytes(blocks[0], put_block(blocks[0], (int)(i / QUARTERS), (int)(i % QUARTERS), which, units, (uint64_t)i + 1));
    }
    uint8_t end[SECOND_END_LENGTH];
    put(put(end, 1, SECOND_KIND_END), 4, (uint32_t)count);
    write_bytes(end, sizeof end);
}

int main(int words, char **word)
{
    const char *const what = words > 1 ? word[1] : "";
    put_day(day);
    if (strcmp(what, "same") == 0 && words == 3) {
        for (int c = 0; c < CASES; c++)
            compare_case((enum which)c, (uint64_t)atol(word[2]));
    } else if (strcmp(what, "judge") == 0 && words == 6) {
        const int program = program_named(word[2]), units = units_told(word[4]);
        put_blocks(case_named(word[3]), units);
        judge_first(units);
        for (long rounds = atol(word[5]); rounds > 0; rounds--)
            judge_round(program, units);
    } else if (strcmp(what, "time") == 0 && words == 5) {
        const int units = units_told(word[3]);
        put_blocks(case_named(word[2]), units);
        judge_first(units);
        time_rounds(units, atol(word[4]));
    } else if (strcmp(what, "block") == 0 && words == 4) {
        write_bytes(day, sizeof day);
        write_bytes(blocks[0], put_block(blocks[0], 7, 40, case_named(word[2]), units_told(word[3]), 1));
    } else if (strcmp(what, "blocks") == 0 && words == 4) {
        put_blocks(case_named(word[2]), units_told(word[3]));
        for (int i = 0; i < BLOCKS; i++)
            write_bytes(blocks[i], block_length);
    } else if (strcmp(what, "day") == 0 && words == 4) {
        write_day(word[2], atol(word[3]));
    } else {
        stop("same SEEDS, judge PROGRAM CASE UNITS ROUNDS, time CASE UNITS ROUNDS, block or blocks CASE UNITS, day KIND BLOCKS");
    }
    return 0;
}
