/* The ways in of document 01, with requests 2 ("late or early"), 3 ("feasibility
 * intervals of their own"), 4 ("implicit nominations we missed"), 6 ("the small
 * engine always loses the odd kWh") and 7 ("read our partners' export") of document
 * 02. The parts follow the sections of 01: quantities and signs, the steps, house
 * records, the table of the day, ways in; a partner's lines stand behind the writers. */
#include "second.h"

#include <stdbool.h>
#include <stdio.h>
#include <stdlib.h>
#include <string.h>

/* ---- Numbers given back ------------------------------------------------- */

enum {
    CUT_SHORT = 1,
    KIND_NOT_PERMITTED = 2,
    BAD_QUARTERS = 3,
    BAD_QUARTER = 4,
    BAD_UNIT_COUNT = 5,
    NUMBER_NOT_RISING = 6,
    BAD_CHOICE = 7,
    OUT_OF_RANGE = 8,
    ENDS_CROSSED = 9, /* of the margins or of the interval, or not the full ones of a 03h */
    POSITION_STALE = 10,
    MARGINS_STALE = 11,
    ROOM_SHORT = 12,
    BLOCK_NOT_RISING = 13,
    BAD_END_COUNT = 14,
    UNEQUAL_COLUMNS = 15,
    POSITION_AHEAD = 17, /* 16 belongs to a request of 02 that is not in here */
    MARGINS_AHEAD = 18,
    WORKING_MARGINS_CROSSED = 19,
    MALFORMED_LINE = 20
};

static const second_refusal accepted = {0, 0};

static second_refusal refuse(uint8_t number, size_t place)
{
    const second_refusal refusal = {number, place};
    return refusal;
}

/* ---- Bytes: the most significant first, signed ones two's complement ---- */

static uint16_t get_u16(const uint8_t *at)
{
    return (uint16_t)(at[0] << 8 | at[1]);
}

static uint32_t get_u32(const uint8_t *at)
{
    return (uint32_t)at[0] << 24 | (uint32_t)at[1] << 16 | (uint32_t)at[2] << 8 | at[3];
}

static int32_t get_i32(const uint8_t *at)
{
    /* Through memory, because the conversion of a large unsigned value to a
     * signed one is left to the compiler while int32_t is two's complement. */
    const uint32_t bits = get_u32(at);
    int32_t value;
    memcpy(&value, &bits, sizeof value);
    return value;
}

static void put_u16(uint8_t *at, uint16_t value)
{
    at[0] = (uint8_t)(value >> 8);
    at[1] = (uint8_t)value;
}

static void put_u32(uint8_t *at, uint32_t value)
{
    /* Through an array, because a compiler then makes one swapped store of it
     * where it would vectorise single stores badly. */
    const uint8_t bytes[4] = {(uint8_t)(value >> 24), (uint8_t)(value >> 16),
                              (uint8_t)(value >> 8), (uint8_t)value};
    memcpy(at, bytes, sizeof bytes);
}

static void put_i32(uint8_t *at, int32_t value)
{
    put_u32(at, (uint32_t)value);
}

/* ---- Quantities and signs ----------------------------------------------- */

enum { QUANTITY_MAX = 1000000 };

static bool in_range(int32_t quantity)
{
    return quantity >= -QUANTITY_MAX && quantity <= QUANTITY_MAX;
}

/* The one place where a position becomes a nomination: a sale is a negative
 * position and matches a positive nomination. */
static int32_t nomination_of_position(int32_t position)
{
    return -position;
}

static bool count_permitted(size_t count)
{
    return count >= 1 && count <= SECOND_UNITS_MAX;
}

/* ---- The steps ---------------------------------------------------------- */

/* Whether the implicit nomination is taken. Document 000, footnote 3, also gives it
 * to a unit that is not enabled (class 0), even where BRP and BSP differ. */
static bool implicit_taken(bool nominated, bool coincide, uint8_t class_of)
{
    return !nominated && (coincide || class_of == 0);
}

static int32_t considered(bool nominated, bool implicit, int32_t n, int32_t pc)
{
    if (nominated)
        return n;
    return implicit ? nomination_of_position(pc) : 0;
}

static int32_t step_1(int32_t n0, int32_t m_down, int32_t m_up)
{
    if (n0 > 0 && n0 > m_up)
        return m_up;
    if (n0 < 0 && n0 < m_down)
        return m_down;
    return n0;
}

static int32_t step_3(int32_t n2, int32_t m_down, int32_t m_up)
{
    if (n2 > 0 && n2 < m_down)
        return m_down;
    if (n2 < 0 && n2 > m_up)
        return m_up;
    return n2;
}

typedef struct {
    int32_t low, high;
} band;

/* From the smaller to the larger of 0 and the nomination that matches P, so that
 * P = 0 leaves 0 alone. */
static band band_of(int32_t p)
{
    const int32_t match = nomination_of_position(p);
    const band sale = {0, match}, purchase = {match, 0};
    return match >= 0 ? sale : purchase;
}

/* Step 2 within one class: cuts `cut` kWh pro quota from the units listed in
 * `member`, whose sizes in the direction cut are above 0 and sum to `total`. */
static void cut_class(size_t members, const uint8_t *member, const int32_t *size,
                      int32_t total, int32_t cut, int32_t direction, int32_t *n2)
{
    int32_t remainder[SECOND_UNITS_MAX], rank[SECOND_UNITS_MAX];
    int32_t left = cut;

    for (size_t k = 0; k < members; k++) {
        const int64_t product = (int64_t)cut * size[k];
        const int32_t whole = (int32_t)(product / total);
        remainder[k] = (int32_t)(product % total);
        /* Request 6: who comes first among equal remainders. A size is at most
         * 1,000,000 and so leaves six bits free; in them an earlier unit counts
         * higher, so that it comes first among equal sizes. */
        rank[k] = size[k] * SECOND_UNITS_MAX + (SECOND_UNITS_MAX - 1 - (int32_t)k);
        n2[member[k]] -= direction * whole;
        left -= whole;
    }
    if (left == 0)
        return;
    /* One kWh more for each unit that has fewer than `left` units before it; by |
     * and &, since a branch on these figures would be guessed wrong too often. */
    for (size_t k = 0; k < members; k++) {
        int32_t before = 0;
        for (size_t j = 0; j < members; j++)
            before += (remainder[j] > remainder[k]) |
                      ((remainder[j] == remainder[k]) & (rank[j] > rank[k]));
        if (before < left)
            n2[member[k]] -= direction;
    }
}

/* Step 2: cuts `excess` kWh from injections (direction 1) or withdrawals
 * (direction -1), class 0 first and class 1 for the rest. */
static void cut_group(size_t count, const int32_t *n1, const uint8_t *class_of,
                      int32_t direction, int32_t excess, int32_t *n2)
{
    for (uint8_t class_cut = 0; class_cut <= 1 && excess > 0; class_cut++) {
        uint8_t member[SECOND_UNITS_MAX];
        int32_t size[SECOND_UNITS_MAX];
        size_t members = 0;
        int32_t total = 0;

        for (size_t i = 0; i < count; i++) {
            if (class_of[i] == class_cut && direction * n1[i] > 0) {
                member[members] = (uint8_t)i;
                size[members] = direction * n1[i];
                total += size[members];
                members++;
            }
        }
        const int32_t cut = excess < total ? excess : total;
        if (cut > 0)
            cut_class(members, member, size, total, cut, direction, n2);
        excess -= cut;
    }
}

static int32_t sum(size_t count, const int32_t *column)
{
    int32_t total = 0;
    for (size_t i = 0; i < count; i++)
        total += column[i];
    return total;
}

/* All three steps, the balance and the group verdict, for a group whose checks
 * have passed: 64 quantities of at most 1,000,000 sum within 32 bits. */
static void judge(size_t count, const int32_t *n0, const int32_t *pc,
                  const int32_t *m_down, const int32_t *m_up, const uint8_t *class_of,
                  int32_t *n1, int32_t *n2, int32_t *n3, second_totals *totals)
{
    for (size_t i = 0; i < count; i++)
        n1[i] = step_1(n0[i], m_down[i], m_up[i]);

    const int32_t p = sum(count, pc);
    const int32_t s1 = sum(count, n1);
    const band adequate = band_of(p);
    uint8_t verdict = 0;

    for (size_t i = 0; i < count; i++)
        n2[i] = n1[i];
    if (s1 > adequate.high) {
        verdict = 1;
        cut_group(count, n1, class_of, 1, s1 - adequate.high, n2);
    } else if (s1 < adequate.low) {
        verdict = 2;
        cut_group(count, n1, class_of, -1, adequate.low - s1, n2);
    }

    for (size_t i = 0; i < count; i++)
        n3[i] = step_3(n2[i], m_down[i], m_up[i]);

    const int32_t s3 = sum(count, n3);
    if (s3 < adequate.low || s3 > adequate.high)
        verdict += 4;

    totals->verdict = verdict;
    totals->p = p;
    totals->s1 = s1;
    totals->s2 = sum(count, n2);
    totals->s3 = s3;
    totals->balance = nomination_of_position(p) - s3;
}

static uint8_t unit_reason(bool implicit, int32_t m_down, int32_t m_up, int32_t n0,
                           int32_t n1, int32_t n2, int32_t n3)
{
    uint8_t reason = 0;
    if (implicit)
        reason += 1;
    if (n1 != n0)
        reason += 2;
    if (n2 != n1)
        reason += 4;
    if (n3 != n2)
        reason += 8;
    if (n3 == 0 && (m_down > 0 || m_up < 0))
        reason += 16;
    return reason;
}

/* Ways in, columns. Order: 15, 5, per unit 7, 8, 9; a unit's place is its index. */
second_refusal second_columns(second_i32s n0, second_i32s pc, second_i32s m_down,
                              second_i32s m_up, second_u8s class_of,
                              second_i32s_out n1, second_i32s_out n2,
                              second_i32s_out n3, second_totals *totals)
{
    const size_t count = n0.len;

    if (pc.len != count || m_down.len != count || m_up.len != count ||
        class_of.len != count || n1.len != count || n2.len != count || n3.len != count)
        return refuse(UNEQUAL_COLUMNS, 0);
    if (!count_permitted(count))
        return refuse(BAD_UNIT_COUNT, 0);
    for (size_t i = 0; i < count; i++) {
        if (class_of.at[i] > 1)
            return refuse(BAD_CHOICE, i);
        if (!in_range(n0.at[i]) || !in_range(pc.at[i]) || !in_range(m_down.at[i]) ||
            !in_range(m_up.at[i]))
            return refuse(OUT_OF_RANGE, i);
        if (m_down.at[i] > m_up.at[i])
            return refuse(ENDS_CROSSED, i);
    }
    judge(count, n0.at, pc.at, m_down.at, m_up.at, class_of.at, n1.at, n2.at, n3.at,
          totals);
    return accepted;
}

/* ---- House records ------------------------------------------------------ */

static bool quarters_permitted(uint8_t quarters)
{
    return quarters == 92 || quarters == 96 || quarters == 100;
}

/* An age is a whole-number difference: that of a minute made after the run is
 * negative and never wraps round to a large one, so that a stamp ahead of the run
 * (a wrong clock) is never told as a stale one. */
static int64_t age_of(uint32_t run, uint32_t made)
{
    return (int64_t)run - (int64_t)made;
}

static bool key_above(second_key key, second_key last)
{
    if (key.brp != last.brp)
        return key.brp > last.brp;
    if (key.zone != last.zone)
        return key.zone > last.zone;
    return key.quarter > last.quarter;
}

/* Places of fields within their records. */
enum {
    DAY_AT_DELIVERY_DAY = 1,
    DAY_AT_QUARTERS = 3,
    DAY_AT_RUN = 4,
    DAY_AT_POSITION_AGE_LIMIT = 8,
    DAY_AT_MARGIN_AGE_LIMIT = 10,

    GROUP_AT_BRP = 1,
    GROUP_AT_ZONE = 3,
    GROUP_AT_QUARTER = 4,
    GROUP_AT_COUNT = 5,
    GROUP_AT_POSITIONS_MADE = 6,

    UNIT_AT_NUMBER = 1,
    UNIT_AT_CLASS = 3,
    UNIT_AT_COINCIDE = 4,
    UNIT_AT_NOMINATED = 5,
    UNIT_AT_N = 6,
    UNIT_AT_PC = 10,
    UNIT_AT_M_DOWN = 14,
    UNIT_AT_M_UP = 18,
    UNIT_AT_MADE = 22,
    UNIT_AT_LOWER = 26,
    UNIT_AT_UPPER = 30,

    END_AT_COUNT = 1
};

/* A unit carries its kind and both interval ends, so that it writes back as it
 * came; that of a 03h has the full ends, which narrow no margin. */
typedef struct {
    uint8_t kind;
    uint16_t number;
    uint8_t class_of, coincide, nominated;
    int32_t n, pc, m_down, m_up;
    uint32_t made;
    int32_t lower, upper;
} unit;

enum { FULL_LOWER = -QUANTITY_MAX, FULL_UPPER = QUANTITY_MAX };

static bool unit_kind_permitted(uint8_t kind)
{
    return kind == SECOND_KIND_UNIT || kind == SECOND_KIND_UNIT_WITH_ENDS;
}

/* The length of a unit record of one of the two kinds. */
static size_t unit_length(uint8_t kind)
{
    return kind == SECOND_KIND_UNIT ? SECOND_UNIT_LENGTH : SECOND_UNIT_WITH_ENDS_LENGTH;
}

/* The margins that the steps and the reasons read. */
static int32_t working_m_down(const unit *u)
{
    return u->m_down > u->lower ? u->m_down : u->lower;
}

static int32_t working_m_up(const unit *u)
{
    return u->m_up < u->upper ? u->m_up : u->upper;
}

static unit get_unit(const uint8_t *at)
{
    const bool with_ends = at[0] == SECOND_KIND_UNIT_WITH_ENDS;
    const unit u = {
        .kind = at[0],
        .number = get_u16(at + UNIT_AT_NUMBER),
        .class_of = at[UNIT_AT_CLASS],
        .coincide = at[UNIT_AT_COINCIDE],
        .nominated = at[UNIT_AT_NOMINATED],
        .n = get_i32(at + UNIT_AT_N),
        .pc = get_i32(at + UNIT_AT_PC),
        .m_down = get_i32(at + UNIT_AT_M_DOWN),
        .m_up = get_i32(at + UNIT_AT_M_UP),
        .made = get_u32(at + UNIT_AT_MADE),
        .lower = with_ends ? get_i32(at + UNIT_AT_LOWER) : FULL_LOWER,
        .upper = with_ends ? get_i32(at + UNIT_AT_UPPER) : FULL_UPPER,
    };
    return u;
}

static void put_unit(uint8_t *at, const unit *u)
{
    at[0] = u->kind;
    put_u16(at + UNIT_AT_NUMBER, u->number);
    at[UNIT_AT_CLASS] = u->class_of;
    at[UNIT_AT_COINCIDE] = u->coincide;
    at[UNIT_AT_NOMINATED] = u->nominated;
    put_i32(at + UNIT_AT_N, u->n);
    put_i32(at + UNIT_AT_PC, u->pc);
    put_i32(at + UNIT_AT_M_DOWN, u->m_down);
    put_i32(at + UNIT_AT_M_UP, u->m_up);
    put_u32(at + UNIT_AT_MADE, u->made);
    if (u->kind == SECOND_KIND_UNIT_WITH_ENDS) {
        put_i32(at + UNIT_AT_LOWER, u->lower);
        put_i32(at + UNIT_AT_UPPER, u->upper);
    }
}

/* The checks that reader and block writer share, in their order 6, 7, 8, 9, 19. The
 * place is that within the unit record. The first unit has none before it. The full
 * ends are in range and in order and cross no margin, so that others alone are looked
 * at; a 03h that was read has them, so that only the writer can refuse its ends.
 * Inline, so that a compiler keeps a unit that was read in registers. */
static inline second_refusal check_unit(const unit *u, bool first, uint16_t number_before)
{
    if (!first && u->number <= number_before)
        return refuse(NUMBER_NOT_RISING, UNIT_AT_NUMBER);

    if (u->class_of > 1)
        return refuse(BAD_CHOICE, UNIT_AT_CLASS);
    if (u->coincide > 1)
        return refuse(BAD_CHOICE, UNIT_AT_COINCIDE);
    if (u->nominated > 1)
        return refuse(BAD_CHOICE, UNIT_AT_NOMINATED);
    if (u->nominated == 0 && u->n != 0)
        return refuse(BAD_CHOICE, UNIT_AT_N);

    if (!in_range(u->n))
        return refuse(OUT_OF_RANGE, UNIT_AT_N);
    if (!in_range(u->pc))
        return refuse(OUT_OF_RANGE, UNIT_AT_PC);
    if (!in_range(u->m_down))
        return refuse(OUT_OF_RANGE, UNIT_AT_M_DOWN);
    if (!in_range(u->m_up))
        return refuse(OUT_OF_RANGE, UNIT_AT_M_UP);
    const bool full = u->lower == FULL_LOWER && u->upper == FULL_UPPER;
    if (!full && !in_range(u->lower))
        return refuse(OUT_OF_RANGE, UNIT_AT_LOWER);
    if (!full && !in_range(u->upper))
        return refuse(OUT_OF_RANGE, UNIT_AT_UPPER);

    if (u->m_down > u->m_up)
        return refuse(ENDS_CROSSED, UNIT_AT_M_UP);
    if (full)
        return accepted;
    if (u->lower > u->upper || u->kind == SECOND_KIND_UNIT)
        return refuse(ENDS_CROSSED, UNIT_AT_UPPER);

    if (working_m_down(u) > working_m_up(u))
        return refuse(WORKING_MARGINS_CROSSED, UNIT_AT_LOWER);
    return accepted;
}

/* ---- The table of the day ----------------------------------------------- */

/* For each kind that may open an offer: its length, the state that takes it and
 * the state after it. Closed takes none. */
typedef struct {
    uint8_t kind;
    uint8_t length;
    second_state taken_in;
    second_state then;
} row;

static const row table[] = {
    {SECOND_KIND_DAY, SECOND_DAY_LENGTH, SECOND_FRESH, SECOND_OPEN},
    {SECOND_KIND_GROUP, SECOND_GROUP_LENGTH, SECOND_OPEN, SECOND_OPEN},
    {SECOND_KIND_END, SECOND_END_LENGTH, SECOND_OPEN, SECOND_CLOSED},
};

/* A record's order: 1 if empty, 2, 1. The record starts at `at`, which is not
 * past the end; the place of 1 is the length of everything at hand. */
static second_refusal open_record(second_state state, const uint8_t *bytes, size_t len,
                                  size_t at, const row **found)
{
    if (at == len)
        return refuse(CUT_SHORT, len);
    for (size_t i = 0; i < sizeof table / sizeof table[0]; i++) {
        if (table[i].kind == bytes[at] && table[i].taken_in == state) {
            if (len - at < table[i].length)
                return refuse(CUT_SHORT, len);
            *found = &table[i];
            return accepted;
        }
    }
    return refuse(KIND_NOT_PERMITTED, at);
}

/* The same order for the unit record of a block that starts at `at`: either kind
 * may come, and whether it is cut short goes by its own length. */
static second_refusal open_unit(const uint8_t *bytes, size_t len, size_t at)
{
    if (at == len)
        return refuse(CUT_SHORT, len);
    if (!unit_kind_permitted(bytes[at]))
        return refuse(KIND_NOT_PERMITTED, at);
    if (len - at < unit_length(bytes[at]))
        return refuse(CUT_SHORT, len);
    return accepted;
}

/* ---- Ways in: one record or block, offered to a day --------------------- */

/* A block whose checks have passed, as the columns that the steps work on; the
 * margins are the working ones. */
typedef struct {
    second_key key;
    size_t count;
    size_t length; /* of its records together */
    uint16_t number[SECOND_UNITS_MAX];
    uint8_t class_of[SECOND_UNITS_MAX];
    bool implicit[SECOND_UNITS_MAX];
    int32_t n0[SECOND_UNITS_MAX];
    int32_t pc[SECOND_UNITS_MAX];
    int32_t m_down[SECOND_UNITS_MAX];
    int32_t m_up[SECOND_UNITS_MAX];
} block;

/* The length of a result, and the place of unit result number `count`, counted
 * from 0. */
static size_t result_length(size_t count)
{
    return SECOND_GROUP_RESULT_LENGTH + count * SECOND_UNIT_RESULT_LENGTH;
}

/* The fields of a block whose group record is whole. Group: 4, 5, 13, 17 or 10;
 * each unit in turn: 2 and 1, then 6, 7, 8, 9, 19, 18 or 11. Stale and ahead cannot
 * both be true of one stamp, so that they share a rank and a place. */
static second_refusal read_block(const second_day *day, const uint8_t *bytes, size_t len,
                                 block *b)
{
    b->key.brp = get_u16(bytes + GROUP_AT_BRP);
    b->key.zone = bytes[GROUP_AT_ZONE];
    b->key.quarter = bytes[GROUP_AT_QUARTER];
    b->count = bytes[GROUP_AT_COUNT];
    const int64_t position_age =
        age_of(day->run, get_u32(bytes + GROUP_AT_POSITIONS_MADE));

    if (b->key.quarter >= day->quarters)
        return refuse(BAD_QUARTER, GROUP_AT_QUARTER);
    if (!count_permitted(b->count))
        return refuse(BAD_UNIT_COUNT, GROUP_AT_COUNT);
    if (day->seen && !key_above(b->key, day->last))
        return refuse(BLOCK_NOT_RISING, GROUP_AT_BRP);
    if (position_age < 0)
        return refuse(POSITION_AHEAD, GROUP_AT_POSITIONS_MADE);
    if (position_age > day->position_age_limit)
        return refuse(POSITION_STALE, GROUP_AT_POSITIONS_MADE);

    uint16_t number_before = 0;
    size_t at = SECOND_GROUP_LENGTH;
    for (size_t i = 0; i < b->count; i++) {
        second_refusal refusal = open_unit(bytes, len, at);
        if (refusal.number != 0)
            return refusal;

        const unit u = get_unit(bytes + at);
        refusal = check_unit(&u, i == 0, number_before);
        if (refusal.number != 0)
            return refuse(refusal.number, at + refusal.place);
        const int64_t margin_age = age_of(day->run, u.made);
        if (margin_age < 0)
            return refuse(MARGINS_AHEAD, at + UNIT_AT_MADE);
        if (margin_age > day->margin_age_limit)
            return refuse(MARGINS_STALE, at + UNIT_AT_MADE);

        number_before = u.number;
        b->number[i] = u.number;
        b->class_of[i] = u.class_of;
        b->implicit[i] = implicit_taken(u.nominated, u.coincide, u.class_of);
        b->n0[i] = considered(u.nominated, b->implicit[i], u.n, u.pc);
        b->pc[i] = u.pc;
        b->m_down[i] = working_m_down(&u);
        b->m_up[i] = working_m_up(&u);
        at += unit_length(u.kind);
    }
    b->length = at;
    return accepted;
}

/* Judges the block and writes group result (11h) and unit results (12h) into room
 * that is long enough; the plain figures are places in those records. */
static void write_result(const block *b, uint8_t *room)
{
    int32_t n1[SECOND_UNITS_MAX], n2[SECOND_UNITS_MAX], n3[SECOND_UNITS_MAX];
    second_totals totals;

    judge(b->count, b->n0, b->pc, b->m_down, b->m_up, b->class_of, n1, n2, n3, &totals);

    room[0] = SECOND_KIND_GROUP_RESULT;
    put_u16(room + 1, b->key.brp);
    room[3] = b->key.zone;
    room[4] = b->key.quarter;
    room[5] = totals.verdict;
    room[6] = (uint8_t)b->count;
    put_i32(room + 7, totals.p);
    put_i32(room + 11, totals.s1);
    put_i32(room + 15, totals.s2);
    put_i32(room + 19, totals.s3);
    put_i32(room + 23, totals.balance);

    for (size_t i = 0; i < b->count; i++) {
        uint8_t *at = room + result_length(i);
        at[0] = SECOND_KIND_UNIT_RESULT;
        put_u16(at + 1, b->number[i]);
        at[3] = unit_reason(b->implicit[i], b->m_down[i], b->m_up[i], b->n0[i], n1[i],
                            n2[i], n3[i]);
        put_i32(at + 4, b->n0[i]);
        put_i32(at + 8, n1[i]);
        put_i32(at + 12, n2[i]);
        put_i32(at + 16, n3[i]);
    }
}

/* An open value that no run of calls gives is 2 for every offer that is not
 * empty; the count could not rise any more, or no quarter would be right. */
static bool impossible(const second_day *day)
{
    return day->state == SECOND_OPEN &&
           (day->groups == UINT32_MAX || !quarters_permitted(day->quarters));
}

/* What comes before the fields of anything offered to a day. */
static second_refusal open_offer(const second_day *day, const uint8_t *bytes, size_t len,
                                 const row **found)
{
    if (len > 0 && impossible(day))
        return refuse(KIND_NOT_PERMITTED, 0);
    return open_record(day->state, bytes, len, 0, found);
}

static second_refusal offer_day(second_day *day, const uint8_t *bytes, second_taken *taken)
{
    const uint8_t quarters = bytes[DAY_AT_QUARTERS];
    if (!quarters_permitted(quarters))
        return refuse(BAD_QUARTERS, DAY_AT_QUARTERS);

    const second_day opened = {
        .state = day->state, /* the table gives the state after */
        .delivery_day = get_u16(bytes + DAY_AT_DELIVERY_DAY),
        .quarters = quarters,
        .run = get_u32(bytes + DAY_AT_RUN),
        .position_age_limit = get_u16(bytes + DAY_AT_POSITION_AGE_LIMIT),
        .margin_age_limit = get_u16(bytes + DAY_AT_MARGIN_AGE_LIMIT),
        .groups = 0,
        .seen = 0,
        .last = {0, 0, 0},
    };
    *day = opened;
    taken->used = SECOND_DAY_LENGTH;
    taken->written = 0;
    return accepted;
}

static second_refusal offer_block(second_day *day, const uint8_t *bytes, size_t len,
                                  uint8_t *room, size_t room_len, second_taken *taken)
{
    block b;
    const second_refusal refusal = read_block(day, bytes, len, &b);
    if (refusal.number != 0)
        return refusal;
    if (room_len < result_length(b.count))
        return refuse(ROOM_SHORT, 0);

    write_result(&b, room);
    day->groups++;
    day->seen = 1;
    day->last = b.key;
    taken->used = b.length;
    taken->written = result_length(b.count);
    return accepted;
}

static second_refusal offer_end(const second_day *day, const uint8_t *bytes,
                                second_taken *taken)
{
    if (get_u32(bytes + END_AT_COUNT) != day->groups)
        return refuse(BAD_END_COUNT, END_AT_COUNT);
    taken->used = SECOND_END_LENGTH;
    taken->written = 0;
    return accepted;
}

second_refusal second_offer(second_day *day, const uint8_t *bytes, size_t len,
                            uint8_t *room, size_t room_len, second_taken *taken)
{
    const row *found;
    second_refusal refusal = open_offer(day, bytes, len, &found);
    if (refusal.number != 0)
        return refusal;

    switch (found->kind) {
    case SECOND_KIND_DAY:
        refusal = offer_day(day, bytes, taken);
        break;
    case SECOND_KIND_GROUP:
        refusal = offer_block(day, bytes, len, room, room_len, taken);
        break;
    default: /* SECOND_KIND_END, the last row of the table */
        refusal = offer_end(day, bytes, taken);
        break;
    }
    if (refusal.number == 0)
        day->state = found->then;
    return refusal;
}

second_refusal second_check_block(const second_day *day, const uint8_t *bytes, size_t len,
                                  second_taken *taken)
{
    block b;
    const row *found;

    if (len > 0 && bytes[0] != SECOND_KIND_GROUP)
        return refuse(KIND_NOT_PERMITTED, 0);
    second_refusal refusal = open_offer(day, bytes, len, &found);
    if (refusal.number != 0)
        return refusal;
    refusal = read_block(day, bytes, len, &b);
    if (refusal.number != 0)
        return refusal;
    taken->used = b.length;
    taken->written = result_length(b.count);
    return accepted;
}

/* ---- Ways in: writers --------------------------------------------------- */

/* The limit of a quarter where no day is at hand. */
enum { QUARTERS_MOST = 100 };

/* Order: 3, 12. */
second_refusal second_write_day(uint16_t delivery_day, uint8_t quarters, uint32_t run,
                                uint16_t position_age_limit, uint16_t margin_age_limit,
                                uint8_t *room, size_t room_len, size_t *written)
{
    if (!quarters_permitted(quarters))
        return refuse(BAD_QUARTERS, 0);
    if (room_len < SECOND_DAY_LENGTH)
        return refuse(ROOM_SHORT, 0);

    room[0] = SECOND_KIND_DAY;
    put_u16(room + DAY_AT_DELIVERY_DAY, delivery_day);
    room[DAY_AT_QUARTERS] = quarters;
    put_u32(room + DAY_AT_RUN, run);
    put_u16(room + DAY_AT_POSITION_AGE_LIMIT, position_age_limit);
    put_u16(room + DAY_AT_MARGIN_AGE_LIMIT, margin_age_limit);
    *written = SECOND_DAY_LENGTH;
    return accepted;
}

static unit unit_of_columns(const second_unit_columns *units, size_t i)
{
    const unit u = {
        .number = units->number.at[i],
        .class_of = units->class_of.at[i],
        .coincide = units->coincide.at[i],
        .nominated = units->nominated.at[i],
        .n = units->n.at[i],
        .pc = units->pc.at[i],
        .m_down = units->m_down.at[i],
        .m_up = units->m_up.at[i],
        .made = units->made.at[i],
        .kind = units->kind.at[i],
        .lower = units->lower.at[i],
        .upper = units->upper.at[i],
    };
    return u;
}

/* Order: 15, 4, 5, per unit 2, 6, 7, 8, 9, 19, then 12; a unit's place is its index.
 * No age and no order of blocks is judged, since no day is at hand. */
second_refusal second_write_block(second_key key, uint32_t positions_made,
                                  const second_unit_columns *units, uint8_t *room,
                                  size_t room_len, size_t *written)
{
    const size_t count = units->number.len;

    if (units->class_of.len != count || units->coincide.len != count ||
        units->nominated.len != count || units->n.len != count ||
        units->pc.len != count || units->m_down.len != count ||
        units->m_up.len != count || units->made.len != count ||
        units->kind.len != count || units->lower.len != count ||
        units->upper.len != count)
        return refuse(UNEQUAL_COLUMNS, 0);
    if (key.quarter >= QUARTERS_MOST)
        return refuse(BAD_QUARTER, 0);
    if (!count_permitted(count))
        return refuse(BAD_UNIT_COUNT, 0);
    size_t length = SECOND_GROUP_LENGTH;
    for (size_t i = 0; i < count; i++) {
        const unit u = unit_of_columns(units, i);
        if (!unit_kind_permitted(u.kind))
            return refuse(KIND_NOT_PERMITTED, i);
        const second_refusal refusal =
            check_unit(&u, i == 0, i == 0 ? 0 : units->number.at[i - 1]);
        if (refusal.number != 0)
            return refuse(refusal.number, i);
        length += unit_length(u.kind);
    }
    if (room_len < length)
        return refuse(ROOM_SHORT, 0);

    room[0] = SECOND_KIND_GROUP;
    put_u16(room + GROUP_AT_BRP, key.brp);
    room[GROUP_AT_ZONE] = key.zone;
    room[GROUP_AT_QUARTER] = key.quarter;
    room[GROUP_AT_COUNT] = (uint8_t)count;
    put_u32(room + GROUP_AT_POSITIONS_MADE, positions_made);
    uint8_t *at = room + SECOND_GROUP_LENGTH;
    for (size_t i = 0; i < count; i++) {
        const unit u = unit_of_columns(units, i);
        put_unit(at, &u);
        at += unit_length(u.kind);
    }
    *written = length;
    return accepted;
}

second_refusal second_write_end(uint32_t count, uint8_t *room, size_t room_len,
                                size_t *written)
{
    if (room_len < SECOND_END_LENGTH)
        return refuse(ROOM_SHORT, 0);
    room[0] = SECOND_KIND_END;
    put_u32(room + END_AT_COUNT, count);
    *written = SECOND_END_LENGTH;
    return accepted;
}

/* ---- A partner's export (request 7) ------------------------------------- */

enum { AMOUNTS = 3, KWH_IN_MWH = 1000 }; /* N, M- and M+, in this order */

/* Bytes read from the front; `right` is false once something else stood there than
 * had to. */
typedef struct {
    const uint8_t *bytes;
    size_t len;
    size_t at;
    bool right;
} text;

/* The byte that comes next is read if it is the one asked for. */
static bool comes(text *t, uint8_t byte)
{
    if (t->at == t->len || t->bytes[t->at] != byte)
        return false;
    t->at++;
    return true;
}

static void must_come(text *t, uint8_t byte)
{
    t->right = comes(t, byte) && t->right;
}

static bool digit_comes(const text *t)
{
    return t->at < t->len && t->bytes[t->at] >= '0' && t->bytes[t->at] <= '9';
}

static uint32_t next_digit(text *t)
{
    return (uint32_t)(t->bytes[t->at++] - '0');
}

/* Past every limit of a line, and as kWh still within 32 bits: a larger numeral,
 * however long, counts as this one. */
enum { NUMERAL_TOP = 1000000 };

/* The digits of a number or of a whole part: one at least, and a 0 opens them only
 * when it is the whole of them, so that `00` and `01` are no spelling of 0 and 1. */
static uint32_t take_numeral(text *t)
{
    const size_t start = t->at;
    uint32_t value = 0;

    while (digit_comes(t)) {
        value = value * 10 + next_digit(t);
        if (value > NUMERAL_TOP)
            value = NUMERAL_TOP;
    }
    const size_t digits = t->at - start;
    if (digits == 0 || (digits > 1 && t->bytes[start] == '0'))
        t->right = false;
    return value;
}

/* MWh with a comma and exactly three decimals, as kWh. A fourth decimal is seen by the
 * `;` that does not come. */
static int32_t take_amount(text *t)
{
    const uint32_t whole = take_numeral(t);
    uint32_t decimals = 0;

    must_come(t, ',');
    for (int i = 0; i < 3; i++) {
        if (!digit_comes(t)) {
            t->right = false;
            break;
        }
        decimals = decimals * 10 + next_digit(t);
    }
    return (int32_t)(whole * KWH_IN_MWH + decimals);
}

/* An amount as a quantity by its letter: `I` is injection, `P` withdrawal, and zero is
 * always `I`. */
static int32_t take_letter(text *t, int32_t amount)
{
    if (amount != 0 && comes(t, 'P'))
        return -amount;
    must_come(t, 'I');
    return amount;
}

/* The order is 20 for all eight fields from left to right, then 4, 8, 9. Each has the
 * place where its field starts; that of 8 and 9 is the amount's, not its letter's. What
 * must follow a field belongs to it, so that a line which ends behind a `;` is wrong in
 * the field that should start there. Only amounts and quarters are named as too large,
 * so that a number above 65535 is malformed. */
second_refusal second_read_line(const uint8_t *bytes, size_t len, second_line *line,
                                size_t *used)
{
    text t = {bytes, len, 0, true};
    size_t amount_at[AMOUNTS];
    int32_t quantity[AMOUNTS];

    const uint32_t number = take_numeral(&t);
    must_come(&t, ';');
    if (!t.right || number > UINT16_MAX)
        return refuse(MALFORMED_LINE, 0);

    const size_t quarter_at = t.at;
    const uint32_t quarter = take_numeral(&t);
    must_come(&t, ';');
    if (!t.right)
        return refuse(MALFORMED_LINE, quarter_at);

    for (size_t i = 0; i < AMOUNTS; i++) {
        amount_at[i] = t.at;
        const int32_t amount = take_amount(&t);
        must_come(&t, ';');
        if (!t.right)
            return refuse(MALFORMED_LINE, amount_at[i]);

        const size_t letter_at = t.at;
        quantity[i] = take_letter(&t, amount);
        must_come(&t, i + 1 < AMOUNTS ? ';' : '\n');
        if (!t.right)
            return refuse(MALFORMED_LINE, letter_at);
    }

    if (quarter >= QUARTERS_MOST)
        return refuse(BAD_QUARTER, quarter_at);
    for (size_t i = 0; i < AMOUNTS; i++) {
        if (!in_range(quantity[i]))
            return refuse(OUT_OF_RANGE, amount_at[i]);
    }
    if (quantity[1] > quantity[2])
        return refuse(ENDS_CROSSED, amount_at[2]);

    line->number = (uint16_t)number;
    line->quarter = (uint8_t)quarter;
    line->n = quantity[0];
    line->m_down = quantity[1];
    line->m_up = quantity[2];
    *used = t.at;
    return accepted;
}

static char letter_of(int32_t quantity)
{
    return quantity < 0 ? 'P' : 'I';
}

/* Order: 4, 8, 9, 12. */
second_refusal second_write_line(const second_line *line, uint8_t *room, size_t room_len,
                                 size_t *written)
{
    if (line->quarter >= QUARTERS_MOST)
        return refuse(BAD_QUARTER, 0);
    if (!in_range(line->n) || !in_range(line->m_down) || !in_range(line->m_up))
        return refuse(OUT_OF_RANGE, 0);
    if (line->m_down > line->m_up)
        return refuse(ENDS_CROSSED, 0);

    const div_t n = div(abs(line->n), KWH_IN_MWH);
    const div_t m_down = div(abs(line->m_down), KWH_IN_MWH);
    const div_t m_up = div(abs(line->m_up), KWH_IN_MWH);
    char bytes[SECOND_LINE_MAX + 1]; /* and the zero that ends a string */
    const size_t length = (size_t)snprintf(
        bytes, sizeof bytes, "%d;%d;%d,%03d;%c;%d,%03d;%c;%d,%03d;%c\n", line->number,
        line->quarter, n.quot, n.rem, letter_of(line->n), m_down.quot, m_down.rem,
        letter_of(line->m_down), m_up.quot, m_up.rem, letter_of(line->m_up));
    if (room_len < length)
        return refuse(ROOM_SHORT, 0);
    memcpy(room, bytes, length);
    *written = length;
    return accepted;
}

/* ---- Ways in: the walk -------------------------------------------------- */

static second_step step_refused(second_refusal refusal)
{
    const second_step step = {.outcome = SECOND_REFUSED, .refusal = refusal};
    return step;
}

/* The record's order, of the fields only 5, then each unit's 2 and 1, by its own
 * kind. */
second_step second_next(const uint8_t *bytes, size_t len, second_state state, size_t place)
{
    const size_t at = place < len ? place : len;

    if (state == SECOND_CLOSED && at == len) {
        const second_step done = {.outcome = SECOND_DONE};
        return done;
    }
    const row *found;
    second_refusal refusal = open_record(state, bytes, len, at, &found);
    if (refusal.number != 0)
        return step_refused(refusal);

    size_t length = found->length;
    if (found->kind == SECOND_KIND_GROUP) {
        const size_t count = bytes[at + GROUP_AT_COUNT];
        if (!count_permitted(count))
            return step_refused(refuse(BAD_UNIT_COUNT, at + GROUP_AT_COUNT));
        for (size_t i = 0; i < count; i++) {
            refusal = open_unit(bytes, len, at + length);
            if (refusal.number != 0)
                return step_refused(refusal);
            length += unit_length(bytes[at + length]);
        }
    }
    const second_step step = {
        .outcome = SECOND_EXTENT,
        .start = at,
        .end = at + length,
        .state = found->then,
    };
    return step;
}

second_walker second_walker_open(const uint8_t *bytes, size_t len)
{
    const second_walker walker = {bytes, len, SECOND_FRESH, 0};
    return walker;
}

second_step second_walker_next(second_walker *walker)
{
    const second_step step =
        second_next(walker->bytes, walker->len, walker->state, walker->place);
    if (step.outcome == SECOND_EXTENT) {
        walker->state = step.state;
        walker->place = step.end;
    }
    return step;
}

/* ---- Ways in: the C call ------------------------------------------------ */

/* The day bytes are judged first, as a record offered to a fresh day; the block
 * is the first of its day, and only a block may come. */
int second_check(const uint8_t *day, size_t day_len, const uint8_t *block_bytes,
                 size_t block_len, uint8_t *room, size_t room_len)
{
    second_day value = {.state = SECOND_FRESH};
    second_taken taken;

    second_refusal refusal = second_offer(&value, day, day_len, NULL, 0, &taken);
    if (refusal.number != 0)
        return -refusal.number;
    if (block_len > 0 && block_bytes[0] != SECOND_KIND_GROUP)
        return -KIND_NOT_PERMITTED;
    refusal = second_offer(&value, block_bytes, block_len, room, room_len, &taken);
    return refusal.number != 0 ? -refusal.number : (int)taken.written;
}
