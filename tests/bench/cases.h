/* Blocks to judge, by case, units and seed: each seed gives other figures. All lie in the limits of documents 01 and 02. */
#ifndef CASES_H
#define CASES_H

#include "flehwella.h"

#include <stddef.h>
#include <stdint.h>

enum { DAY = 9510, QUARTERS = 96, RUN = 13693800, MADE = RUN - 30 };

enum which {
    NOCUT,  /* every unit sells what it nominates */
    INTO1,  /* classes in turn: class 0 loses all, class 1 about half, so that every unit is cut */
    WORST,  /* one class, and 1 kWh sold in all: remainders differ where sizes do, and all units but one get an odd kWh */
    MSIGN,  /* no cut; half of the units withdraw */
    MNOM,   /* no cut; half of the units are not nominated, and coincide */
    RANDOM, /* anything valid without interval ends */
    MCUT,   /* a cut; class, direction and what is sold differ from unit to unit */
    TIED,   /* one class, odd sizes that rise, half of the total sold: from 2 units on remainders are equal, and half of them get an odd kWh */
    ENDS,   /* as NOCUT, but every unit has interval ends, and they are narrower than its margins */
    CASES
};
static const char *const case_names[CASES] = {"nocut", "into1", "worst", "msign", "mnom", "random", "mcut", "tied", "ends"};

/* A unit of kind 03h has no ends. */
struct unit {
    int kind, class_of, coincide, nominated;
    int32_t n, pc, m_down, m_up, lower, upper;
};

static inline uint8_t *put(uint8_t *at, int bytes, uint32_t value)
{
    for (int i = 0; i < bytes; i++)
        at[i] = (uint8_t)(value >> 8 * (bytes - 1 - i));
    return at + bytes;
}

static inline void put_day(uint8_t *at)
{
    at = put(at, 1, 0x01);
    at = put(at, 2, DAY);
    at = put(at, 1, QUARTERS);
    at = put(at, 4, RUN);
    at = put(at, 2, 120);
    put(at, 2, 1440);
}

/* The next of the numbers that the seed gives, and one below a bound (xorshift64*). */
static inline uint32_t drawn(uint64_t *seed)
{
    *seed ^= *seed >> 12;
    *seed ^= *seed << 25;
    *seed ^= *seed >> 27;
    return (uint32_t)(*seed * 0x2545F4914F6CDD1DULL >> 32);
}

static inline int32_t below(int32_t bound, uint64_t *seed)
{
    return (int32_t)(drawn(seed) % (uint32_t)bound);
}

/* Unit `i` of `units`. */
static inline struct unit unit_of(enum which which, int i, int units, uint64_t *seed)
{
    const int32_t size = 1000 + (i * 997 + below(1013, seed)) % 1013;
    struct unit u = {0x03, i % 2, 0, 1, size, -size, -5000, 5000, 0, 0};
    switch (which) {
    case INTO1: /* a unit that is alone sells half, though it is of class 0 */
        u.pc = units == 1 || u.class_of ? -size / 2 : 0;
        break;
    case WORST:
        u.class_of = 0;
        u.pc = i == 0 ? -1 : 0;
        break;
    case MSIGN:
        if (below(2, seed)) {
            u.n = -size;
            u.pc = size;
        }
        break;
    case MNOM:
        if (below(2, seed)) {
            u.n = u.nominated = 0;
            u.coincide = 1;
        }
        break;
    case RANDOM:
        u.class_of = below(2, seed);
        u.coincide = below(2, seed);
        u.nominated = below(8, seed) != 0;
        u.n = u.nominated ? below(6001, seed) - 2000 : 0;
        u.pc = 500 - below(3000, seed);
        u.m_down = below(4000, seed) - 3000;
        u.m_up = u.m_down + below(5000, seed);
        break;
    case MCUT: /* one in four withdraws and sells nothing */
        u.class_of = below(2, seed);
        if (below(4, seed) == 0) {
            u.n = -size;
            u.pc = 0;
        } else {
            u.pc = -below(300, seed) - u.class_of * (size / 2);
        }
        break;
    case TIED: /* where units are odd in number the last size is even, so that half of the total is whole */
        u.class_of = 0;
        u.n = 1001 + 32 * i + 2 * below(16, seed) + (units % 2 == 1 && i == units - 1);
        u.pc = -(u.n + i % 2) / 2;
        break;
    case ENDS:
        u.kind = 0x04;
        u.lower = -4000;
        u.upper = 4000;
        break;
    default:
        break;
    }
    return u;
}

/* A block of the key (brp, 1, quarter); its length is given back. */
static inline size_t put_block(uint8_t *at, int brp, int quarter, enum which which, int units, uint64_t seed)
{
    const uint8_t *const front = at;
    seed = seed * 2654435761u + 88172645463325252ULL;
    for (int i = 0; i < 4; i++) /* small seeds lie near each other at first */
        drawn(&seed);
    at = put(at, 1, 0x02);
    at = put(at, 2, (uint32_t)brp);
    at = put(at, 1, 1);
    at = put(at, 1, (uint32_t)quarter);
    at = put(at, 1, (uint32_t)units);
    at = put(at, 4, MADE);
    for (int i = 0; i < units; i++) {
        const struct unit u = unit_of(which, i, units, &seed);
        at = put(at, 1, (uint32_t)u.kind);
        at = put(at, 2, (uint32_t)(10 + 3 * i));
        at = put(at, 1, (uint32_t)u.class_of);
        at = put(at, 1, (uint32_t)u.coincide);
        at = put(at, 1, (uint32_t)u.nominated);
        at = put(at, 4, (uint32_t)u.n);
        at = put(at, 4, (uint32_t)u.pc);
        at = put(at, 4, (uint32_t)u.m_down);
        at = put(at, 4, (uint32_t)u.m_up);
        at = put(at, 4, MADE);
        if (u.kind == 0x04)
            at = put(put(at, 4, (uint32_t)u.lower), 4, (uint32_t)u.upper);
    }
    return (size_t)(at - front);
}

#endif
