/* The C call as tight as its author could write it by hand in C for x86-64 without extensions: how close the proved one comes
 * to what the processor can do. It knows the documents alone, and gives the same replies and bytes.
 *
 * Four units are taken at a time in vectors of 128 bits. It differs from a plain program in this:
 *  - the checks of a unit are no branches: faults are gathered, and where one is found, or a block has fewer than four units,
 *    the second program judges the block;
 *  - units that are all 03h or all 04h are read by places known beforehand; those of a block with both are looked up first;
 *  - whole parts and remainders of the shares come from exact arithmetic on doubles: C n is below 2^53 and so exact, and the
 *    quotient, below 10^6, lies at least 1/T from the next whole number, far more than its rounding;
 *  - the odd kWh go to the units whose remainders lie above a threshold, which is found by counting in vectors; sizes and places
 *    are looked at only where it would part equal remainders;
 *  - results are built in vectors, turned into rows and stored 16 bytes at a time. */
#include "../second/second.h"

#include <immintrin.h>
#include <string.h>

typedef __m128i v4;
#define ALL(x) _mm_set1_epi32((int)(x))
#define ZERO _mm_setzero_si128()
#define AND _mm_and_si128
#define OR _mm_or_si128
#define XOR _mm_xor_si128
#define NOTAND _mm_andnot_si128 /* ~a & b */
#define ADD _mm_add_epi32
#define SUB _mm_sub_epi32
#define GT _mm_cmpgt_epi32
#define EQ _mm_cmpeq_epi32
#define LOAD(p) _mm_loadu_si128((const v4 *)(const void *)(p))
#define STORE(p, x) _mm_storeu_si128((v4 *)(void *)(p), x)
#define TOP 0x80000000u /* turns the order of unsigned numbers into that of signed ones, which vectors compare */

enum {
    QUANTITY_MAX = 1000000,
    UNITS_MIN = 4,
    KEY_MAX = (1 << 26) - 1, /* a remainder is below 64 * QUANTITY_MAX, and a size with its place hardly above */
    KEYS_FEW = 16 /* so few keys are counted each against each, since a bisection is guessed wrong at every turn */
};

static inline uint32_t get_u32(const uint8_t *at)
{
    uint32_t value;
    memcpy(&value, at, sizeof value);
    return __builtin_bswap32(value);
}

static inline uint32_t get_u16(const uint8_t *at)
{
    return (uint32_t)(at[0] << 8 | at[1]);
}

static inline void put_i32(uint8_t *at, int32_t value)
{
    const uint32_t bytes = __builtin_bswap32((uint32_t)value);
    memcpy(at, &bytes, sizeof bytes);
}

static inline v4 load_4(const uint8_t *at)
{
    int value;
    memcpy(&value, at, sizeof value);
    return _mm_cvtsi32_si128(value);
}

static inline v4 load_8(const uint8_t *at)
{
    return _mm_loadl_epi64((const v4 *)(const void *)at);
}

/* The four bytes of each number turned round. */
static inline v4 turned(v4 x)
{
    x = OR(_mm_slli_epi16(x, 8), _mm_srli_epi16(x, 8));
    return _mm_shufflehi_epi16(_mm_shufflelo_epi16(x, 0xB1), 0xB1);
}

static inline v4 chosen(v4 mask, v4 a, v4 b)
{
    return OR(AND(mask, a), NOTAND(mask, b));
}

static inline v4 least(v4 a, v4 b)
{
    return chosen(GT(a, b), b, a);
}

static inline v4 most(v4 a, v4 b)
{
    return chosen(GT(a, b), a, b);
}

static inline int32_t total(v4 x)
{
    x = ADD(x, _mm_shuffle_epi32(x, 0xEE));
    return _mm_cvtsi128_si32(ADD(x, _mm_shuffle_epi32(x, 0x55)));
}

static inline int all_set(v4 mask)
{
    return _mm_movemask_epi8(mask) == 0xFFFF;
}

/* Four rows to four columns, and back. */
static inline void transpose(v4 *a, v4 *b, v4 *c, v4 *d)
{
    const v4 t0 = _mm_unpacklo_epi32(*a, *b), t1 = _mm_unpacklo_epi32(*c, *d);
    const v4 t2 = _mm_unpackhi_epi32(*a, *b), t3 = _mm_unpackhi_epi32(*c, *d);
    *a = _mm_unpacklo_epi64(t0, t1);
    *b = _mm_unpackhi_epi64(t0, t1);
    *c = _mm_unpacklo_epi64(t2, t3);
    *d = _mm_unpackhi_epi64(t2, t3);
}

/* ---- Reading ---- */

/* What is kept of the units; columns that are read past the last unit have room for it. */
struct columns {
    int32_t n0[64], n1[68], m_down[64], m_up[64], head[64], class_of[68], not_implicit[64], loss[68], key[72], rank[72];
};

struct gathered {
    v4 faults, rising, p, s1;
};

/* Whether a quantity is outside its range. */
static inline v4 outside(v4 quantity)
{
    return GT(ADD(quantity, ALL(QUANTITY_MAX + TOP)), ALL((2 * QUANTITY_MAX) ^ TOP));
}

/* Four units one behind the other, and where the interval ends of each stand; not looked at where all units are 03h. */
struct four {
    const uint8_t *unit[4], *ends[4];
};

/* The two numbers at each of four places. */
static inline __attribute__((always_inline)) void load_pairs(const uint8_t *const *at, v4 *first, v4 *second)
{
    const __m128 a = _mm_castsi128_ps(_mm_unpacklo_epi64(load_8(at[0]), load_8(at[1])));
    const __m128 b = _mm_castsi128_ps(_mm_unpacklo_epi64(load_8(at[2]), load_8(at[3])));
    *first = _mm_castps_si128(_mm_shuffle_ps(a, b, 0x88));
    *second = _mm_castps_si128(_mm_shuffle_ps(a, b, 0xDD));
}

/* Reads four units into the columns at i; those of `mine` count in the sums. The number before the first is `before`, and that
 * of the last is given back. Their kinds are a fault where they are not all `kind`; 0 takes both. */
static inline __attribute__((always_inline)) v4 read_4(struct four at, int kind, struct columns *c, unsigned i, struct gathered *g,
                                                       v4 before, v4 mine, uint32_t run, uint32_t age_limit)
{
    v4 head, flags;
    load_pairs(at.unit, &head, &flags); /* kind, number, class; coincide, nominated */
    const v4 wrong = kind != 0 ? XOR(AND(head, ALL(0xFE0000FFu)), ALL(kind)) : AND(head, ALL(0xFE000000u));
    v4 faults = OR(wrong, AND(flags, ALL(0xFEFE)));
    const v4 number = OR(AND(head, ALL(0xFF00)), AND(_mm_srli_epi32(head, 16), ALL(0xFF)));
    g->rising = AND(g->rising, GT(number, OR(_mm_slli_si128(number, 4), before)));
    const v4 class_of = _mm_srai_epi32(_mm_slli_epi32(head, 7), 31);
    const v4 coincide = _mm_srai_epi32(_mm_slli_epi32(flags, 31), 31), nominated = _mm_srai_epi32(_mm_slli_epi32(flags, 23), 31);

    v4 n = turned(LOAD(at.unit[0] + 6)), pc = turned(LOAD(at.unit[1] + 6));
    v4 m_down = turned(LOAD(at.unit[2] + 6)), m_up = turned(LOAD(at.unit[3] + 6));
    transpose(&n, &pc, &m_down, &m_up); /* until here each was a unit's four quantities */
    faults = OR(faults, OR(OR(outside(n), outside(pc)), OR(outside(m_down), outside(m_up))));
    if (kind != SECOND_KIND_UNIT) {
        v4 lower, upper;
        load_pairs(at.ends, &lower, &upper);
        lower = turned(lower);
        upper = turned(upper);
        faults = OR(faults, OR(outside(lower), outside(upper)));
        m_down = most(m_down, lower);
        m_up = least(m_up, upper);
    }
    /* Margins or ends that cross do so as working margins too. */
    faults = OR(faults, OR(GT(m_down, m_up), NOTAND(nominated, n)));
    const v4 made = turned(_mm_unpacklo_epi64(_mm_unpacklo_epi32(load_4(at.unit[0] + 22), load_4(at.unit[1] + 22)),
                                              _mm_unpacklo_epi32(load_4(at.unit[2] + 22), load_4(at.unit[3] + 22))));
    faults = OR(faults, GT(XOR(made, ALL(TOP)), ALL(run ^ TOP)));
    faults = OR(faults, GT(XOR(SUB(ALL(run), made), ALL(TOP)), ALL(age_limit ^ TOP)));
    g->faults = OR(g->faults, faults);

    /* A unit of class 1 takes no implicit nomination where BRP and BSP differ; one of class 0, which is not enabled, takes it. */
    const v4 not_implicit = OR(nominated, NOTAND(coincide, class_of)), n0 = OR(n, NOTAND(not_implicit, SUB(ZERO, pc)));
    const v4 n1 = OR(AND(GT(n0, ZERO), least(n0, m_up)), AND(GT(ZERO, n0), most(n0, m_down)));
    g->p = ADD(g->p, AND(pc, mine));
    g->s1 = ADD(g->s1, AND(n1, mine));
    STORE(c->n0 + i, n0);
    STORE(c->n1 + i, n1);
    STORE(c->m_down + i, m_down);
    STORE(c->m_up + i, m_up);
    STORE(c->head + i, head);
    STORE(c->class_of + i, class_of);
    STORE(c->not_implicit + i, not_implicit);
    return _mm_srli_si128(number, 12);
}

static const int32_t masks[8] = {0, 0, 0, 0, -1, -1, -1, -1};

/* Where the units of a block stand that has both kinds. */
struct places {
    const uint8_t *unit[SECOND_UNITS_MAX], *ends[SECOND_UNITS_MAX];
};

static inline __attribute__((always_inline)) struct four four_at(const uint8_t *unit, int kind, const struct places *places, unsigned i)
{
    struct four at;
    for (unsigned k = 0; k < 4; k++)
        if (kind == 0) {
            at.unit[k] = places->unit[i + k];
            at.ends[k] = places->ends[i + k];
        } else {
            at.unit[k] = unit + (kind == SECOND_KIND_UNIT ? SECOND_UNIT_LENGTH : SECOND_UNIT_WITH_ENDS_LENGTH) * (size_t)(i + k);
            at.ends[k] = at.unit[k] + SECOND_UNIT_LENGTH;
        }
    return at;
}

/* Reads all units, which are of the kind or, where it is 0, stand at the places; whether there was no fault. What is left over of
 * four at a time is taken again with the units before it. */
static inline __attribute__((always_inline)) int read_units(const uint8_t *unit, int kind, const struct places *places, unsigned units,
                                                            struct columns *c, struct gathered *found, uint32_t run, uint32_t age_limit)
{
    const v4 nothing_before = _mm_set_epi32(0, 0, 0, -1), all = ALL(-1);
    const unsigned odd = units % 4, last = units - 4;
    struct gathered g = {ZERO, all, ZERO, ZERO};
    v4 before = nothing_before;
    for (unsigned i = 0; i + 4 <= units; i += 4)
        before = read_4(four_at(unit, kind, places, i), kind, c, i, &g, before, all, run, age_limit);
    if (odd) {
        read_4(four_at(unit, kind, places, last), kind, c, last, &g, nothing_before, LOAD(masks + odd), run, age_limit);
        STORE(c->n1 + units, ZERO);
        STORE(c->class_of + units, ZERO);
    }
    *found = g;
    return all_set(EQ(g.faults, ZERO)) && all_set(g.rising);
}

/* The same of units of both kinds, which are gone through first for their places: those of a 03h have the full ends. */
static __attribute__((noinline)) int read_both(const uint8_t *unit, size_t length, unsigned units, struct columns *c, struct gathered *g,
                                               uint32_t run, uint32_t age_limit)
{
    static const uint8_t full_ends[8] = {0xFF, 0xF0, 0xBD, 0xC0, 0x00, 0x0F, 0x42, 0x40};
    struct places places;
    for (unsigned i = 0; i < units; i++) {
        if (length < SECOND_UNIT_LENGTH)
            return 0;
        const int with_ends = unit[0] == SECOND_KIND_UNIT_WITH_ENDS;
        const size_t mine = with_ends ? SECOND_UNIT_WITH_ENDS_LENGTH : SECOND_UNIT_LENGTH;
        if (length < mine || (!with_ends && unit[0] != SECOND_KIND_UNIT))
            return 0;
        places.unit[i] = unit;
        places.ends[i] = with_ends ? unit + SECOND_UNIT_LENGTH : full_ends;
        unit += mine;
        length -= mine;
    }
    return read_units(NULL, 0, &places, units, c, g, run, age_limit);
}

/* Which kind all units of a block seem to have, by its first and its last; 0 where they seem to have both. */
static inline int kind_of_all(const uint8_t *unit, size_t length, unsigned units)
{
    if (unit[0] == SECOND_KIND_UNIT && unit[SECOND_UNIT_LENGTH * (units - 1)] == SECOND_KIND_UNIT)
        return SECOND_KIND_UNIT;
    if (unit[0] == SECOND_KIND_UNIT_WITH_ENDS && length >= SECOND_UNIT_WITH_ENDS_LENGTH * (size_t)units &&
        unit[SECOND_UNIT_WITH_ENDS_LENGTH * (units - 1)] == SECOND_KIND_UNIT_WITH_ENDS)
        return SECOND_KIND_UNIT_WITH_ENDS;
    return 0;
}

/* ---- The odd kWh ---- */

/* Keys are below 2^26, and with this bit they are ordered as floats too, whose lesser and greater are one instruction each. */
#define BIT 0x40000000
#define FLOATS(x) _mm_castsi128_ps(OR(x, ALL(BIT)))

static inline int32_t key_of(__m128 x)
{
    return _mm_cvtsi128_si32(_mm_castps_si128(x)) ^ BIT;
}

/* The lesser, but for keys that are passed over: their masks make them NaN, and beside a NaN the second operand is taken. */
static inline __m128 least_but(__m128 least, v4 key, v4 passed_over)
{
    return _mm_min_ps(FLOATS(OR(key, passed_over)), least);
}

static inline int32_t least_of(__m128 x)
{
    x = _mm_min_ps(x, _mm_movehl_ps(x, x));
    return key_of(_mm_min_ps(x, _mm_shuffle_ps(x, x, 0x55)));
}

static inline int32_t most_of(__m128 x)
{
    x = _mm_max_ps(x, _mm_movehl_ps(x, x));
    return key_of(_mm_max_ps(x, _mm_shuffle_ps(x, x, 0x55)));
}

static inline uint32_t count_above(const int32_t *key, unsigned units, int32_t bar)
{
    v4 even = ZERO, odd = ZERO;
    for (unsigned i = 0; i < units; i += 8) {
        even = SUB(even, GT(LOAD(key + i), ALL(bar)));
        odd = SUB(odd, GT(LOAD(key + i + 4), ALL(bar)));
    }
    return (uint32_t)total(ADD(even, odd));
}

/* Moves both ends to the outermost keys between them: those above low, and not above high. */
static inline void narrow(const int32_t *key, unsigned units, int32_t *low, int32_t *high)
{
    __m128 first = FLOATS(ALL(KEY_MAX)), last = FLOATS(ZERO);
    for (unsigned i = 0; i < units; i += 4) {
        const v4 mine = LOAD(key + i);
        first = least_but(first, mine, GT(ALL(*low + 1), mine));
        last = _mm_max_ps(last, FLOATS(NOTAND(GT(mine, ALL(*high)), mine)));
    }
    *low = least_of(first) - 1;
    *high = most_of(last);
}

/* What exactly `left` of the keys lie above, where more of them lie above low and fewer above high; or what fewer do, the key of
 * equal ones that would be parted. */
struct threshold {
    int32_t key;
    int parts;
};

static inline struct threshold bisected(const int32_t *key, unsigned units, uint32_t left, int32_t low, int32_t high)
{
    uint32_t above_low = UINT32_MAX, above_high = 0;
    while (high - low > 1) {
        const int32_t middle = low + (high - low) / 2;
        const uint32_t above = count_above(key, units, middle);
        if (above == left)
            return (struct threshold){middle, 0};
        const int wasted = above == above_low || above == above_high; /* keys lie close together, or are equal */
        if (above > left) {
            low = middle;
            above_low = above;
        } else {
            high = middle;
            above_high = above;
        }
        if (wasted)
            narrow(key, units, &low, &high);
    }
    return (struct threshold){high, 1};
}

/* The same of few: the key that has exactly `left` above it, or 0 where there is none, since equal ones would be parted. */
static inline int32_t counted(const int32_t *key, unsigned units, uint32_t left)
{
    v4 found = ZERO;
    for (unsigned i = 0; i < units; i += 4) {
        const v4 mine = LOAD(key + i);
        v4 above = ALL(left);
        for (unsigned j = 0; j < units; j++)
            above = ADD(above, GT(ALL(key[j]), mine));
        found = OR(found, AND(EQ(above, ZERO), mine));
    }
    found = OR(found, _mm_shuffle_epi32(found, 0xEE));
    return _mm_cvtsi128_si32(OR(found, _mm_shuffle_epi32(found, 0x55)));
}

/* Ranks units among those of an equal key: the larger above the smaller, and of equal sizes the earlier above the later, by
 * places that fall from 63. */
static inline v4 rank_of(const int32_t *n1, v4 back, v4 *places)
{
    const v4 rank = ADD(_mm_slli_epi32(SUB(XOR(LOAD(n1), back), back), 6), *places);
    *places = SUB(*places, ALL(4));
    return rank;
}

/* Gives the odd kWh of many units where those of the key `bar` are parted. */
static __attribute__((noinline)) void part_many(struct columns *c, unsigned units, uint32_t left, v4 back, int32_t bar)
{
    v4 above = ZERO, places = _mm_set_epi32(60, 61, 62, 63);
    unsigned i = 0;
    for (; i < units; i += 4) {
        const v4 key = LOAD(c->key + i);
        above = SUB(above, GT(key, ALL(bar)));
        STORE(c->rank + i, AND(EQ(key, ALL(bar)), rank_of(c->n1 + i, back, &places)));
    }
    STORE(c->rank + i, ZERO);
    int32_t low = 0, high = KEY_MAX;
    narrow(c->rank, units, &low, &high);
    const int32_t rank = bisected(c->rank, units, left - (uint32_t)total(above), low, high).key;
    for (i = 0; i < units; i += 4) {
        const v4 more = OR(GT(LOAD(c->key + i), ALL(bar)), GT(LOAD(c->rank + i), ALL(rank)));
        STORE(c->loss + i, SUB(LOAD(c->loss + i), more));
    }
}

/* The same of few, where any are parted: key and rank together are below 2^52, and so one double. */
static __attribute__((noinline)) void part_few(struct columns *c, unsigned units, uint32_t left, v4 back)
{
    double both[KEYS_FEW];
    const __m128d above_ranks = _mm_set1_pd(1 << 26);
    v4 places = _mm_set_epi32(60, 61, 62, 63);
    for (unsigned i = 0; i < units; i += 4) {
        const v4 key = LOAD(c->key + i), rank = rank_of(c->n1 + i, back, &places);
        const v4 key_b = _mm_shuffle_epi32(key, 0xEE), rank_b = _mm_shuffle_epi32(rank, 0xEE);
        _mm_storeu_pd(both + i, _mm_add_pd(_mm_mul_pd(_mm_cvtepi32_pd(key), above_ranks), _mm_cvtepi32_pd(rank)));
        _mm_storeu_pd(both + i + 2, _mm_add_pd(_mm_mul_pd(_mm_cvtepi32_pd(key_b), above_ranks), _mm_cvtepi32_pd(rank_b)));
    }
    for (unsigned i = 0; i < units; i += 4) {
        const __m128d a = _mm_loadu_pd(both + i), b = _mm_loadu_pd(both + i + 2);
        v4 spare_a = ALL(left), spare_b = spare_a; /* less those that come before */
        for (unsigned j = 0; j < units; j++) {
            const __m128d other = _mm_set1_pd(both[j]);
            spare_a = ADD(spare_a, _mm_castpd_si128(_mm_cmpgt_pd(other, a)));
            spare_b = ADD(spare_b, _mm_castpd_si128(_mm_cmpgt_pd(other, b)));
        }
        const v4 spare = _mm_castps_si128(_mm_shuffle_ps(_mm_castsi128_ps(spare_a), _mm_castsi128_ps(spare_b), 0x88));
        STORE(c->loss + i, SUB(LOAD(c->loss + i), GT(spare, ZERO)));
    }
}

/* ---- Step 2 ---- */

/* Works out what each unit loses of the excess, but for odd kWh that no tie parts: those go to the units with a key above the one given back. */
static inline __attribute__((always_inline)) v4 cut(struct columns *c, unsigned units, int32_t excess)
{
    const v4 back = excess < 0 ? ALL(-1) : ZERO; /* turns withdrawals into sizes */
    uint32_t lost = excess < 0 ? (uint32_t)-excess : (uint32_t)excess;
    v4 total_0 = ZERO, total_1 = ZERO;
    for (unsigned i = 0; i < units; i += 4) {
        const v4 z = SUB(XOR(LOAD(c->n1 + i), back), back), size = AND(z, GT(z, ZERO)), class_of = LOAD(c->class_of + i);
        STORE(c->loss + i, size);
        total_0 = ADD(total_0, NOTAND(class_of, size));
        total_1 = ADD(total_1, AND(class_of, size));
    }
    uint32_t shared = (uint32_t)total(total_0);
    v4 sharing = ZERO; /* the class that shares; where it is class 1, class 0 loses all */
    if (lost >= shared) {
        lost -= shared;
        shared = (uint32_t)total(total_1);
        sharing = ALL(-1);
    }
    const __m128d C = _mm_set1_pd((double)lost), T = _mm_set1_pd((double)(shared ? shared : 1));
    v4 given = ZERO;
    unsigned i = 0;
    for (; i < units; i += 4) {
        const v4 size = LOAD(c->loss + i), shares = EQ(LOAD(c->class_of + i), sharing), part = AND(size, shares);
        const __m128d a = _mm_mul_pd(_mm_cvtepi32_pd(part), C), b = _mm_mul_pd(_mm_cvtepi32_pd(_mm_shuffle_epi32(part, 0xEE)), C);
        const v4 whole_a = _mm_cvttpd_epi32(_mm_div_pd(a, T)), whole_b = _mm_cvttpd_epi32(_mm_div_pd(b, T));
        const v4 rest_a = _mm_cvttpd_epi32(_mm_sub_pd(a, _mm_mul_pd(_mm_cvtepi32_pd(whole_a), T)));
        const v4 rest_b = _mm_cvttpd_epi32(_mm_sub_pd(b, _mm_mul_pd(_mm_cvtepi32_pd(whole_b), T)));
        const v4 whole = _mm_unpacklo_epi64(whole_a, whole_b);
        given = ADD(given, whole);
        STORE(c->loss + i, OR(whole, NOTAND(shares, AND(size, sharing))));
        STORE(c->key + i, _mm_unpacklo_epi64(rest_a, rest_b));
    }
    STORE(c->key + i, ZERO); /* a bisection reads eight at a time */
    const uint32_t left = lost - (uint32_t)total(given);
    if (left == 0)
        return ALL(INT32_MAX);
    if (units <= KEYS_FEW) {
        const int32_t bar = counted(c->key, units, left);
        if (bar != 0)
            return ALL(bar);
        part_few(c, units, left, back);
    } else {
        const struct threshold bar = bisected(c->key, units, left, 0, (int32_t)shared);
        if (!bar.parts)
            return ALL(bar.key);
        part_many(c, units, left, back, bar.key);
    }
    return ALL(INT32_MAX);
}

/* ---- Results ---- */

/* Lays the results of four units, and adds n3 of those of `mine`. */
static inline __attribute__((always_inline)) v4 write_4(uint8_t *at, const struct columns *c, unsigned i, int32_t excess, v4 bar,
                                                        v4 mine, v4 s3)
{
    v4 n0 = LOAD(c->n0 + i), n1 = LOAD(c->n1 + i), n2 = n1;
    const v4 m_down = LOAD(c->m_down + i), m_up = LOAD(c->m_up + i);
    if (excess != 0) {
        const v4 loss = SUB(LOAD(c->loss + i), GT(LOAD(c->key + i), bar)), back = excess < 0 ? ALL(-1) : ZERO;
        n2 = SUB(n1, SUB(XOR(loss, back), back));
    }
    v4 n3 = OR(AND(GT(n2, ZERO), most(n2, m_down)), AND(GT(ZERO, n2), least(n2, m_up)));
    const v4 off_margins = AND(EQ(n3, ZERO), OR(GT(m_down, ZERO), GT(ZERO, m_up)));
    v4 reason = OR(NOTAND(LOAD(c->not_implicit + i), ALL(1 << 24)), AND(off_margins, ALL(16 << 24)));
    reason = OR(reason, NOTAND(EQ(n0, n1), ALL(2 << 24)));
    reason = OR(reason, OR(NOTAND(EQ(n1, n2), ALL(4 << 24)), NOTAND(EQ(n2, n3), ALL(8 << 24))));
    int32_t head[4];
    STORE(head, OR(OR(reason, ALL(SECOND_KIND_UNIT_RESULT)), AND(LOAD(c->head + i), ALL(0x00FFFF00))));
    s3 = ADD(s3, AND(n3, mine));
    transpose(&n0, &n1, &n2, &n3); /* from here each is a unit's n0 to n3 */
    memcpy(at, head, 4);
    STORE(at + 4, turned(n0));
    memcpy(at + 20, head + 1, 4);
    STORE(at + 24, turned(n1));
    memcpy(at + 40, head + 2, 4);
    STORE(at + 44, turned(n2));
    memcpy(at + 60, head + 3, 4);
    STORE(at + 64, turned(n3));
    return s3;
}

int32_t best_check(const uint8_t *day, size_t day_length, const uint8_t *block, size_t block_length, uint8_t *room, size_t room_length);
int32_t best_check(const uint8_t *day, size_t day_length, const uint8_t *block, size_t block_length, uint8_t *room, size_t room_length)
{
    if (day_length < SECOND_DAY_LENGTH || day[0] != SECOND_KIND_DAY || block_length < SECOND_GROUP_LENGTH ||
        block[0] != SECOND_KIND_GROUP)
        return second_check(day, day_length, block, block_length, room, room_length);
    const unsigned quarters = day[3], units = block[5];
    const uint32_t run = get_u32(day + 4), position_age_limit = get_u16(day + 8), margin_age_limit = get_u16(day + 10);
    const uint32_t made = get_u32(block + 6);
    const size_t written = SECOND_GROUP_RESULT_LENGTH + SECOND_UNIT_RESULT_LENGTH * (size_t)units;
    if ((quarters != 92 && quarters != 96 && quarters != 100) || block[4] >= quarters || units < UNITS_MIN ||
        units > SECOND_UNITS_MAX || made > run || run - made > position_age_limit ||
        block_length < SECOND_GROUP_LENGTH + SECOND_UNIT_LENGTH * (size_t)units || room_length < written)
        return second_check(day, day_length, block, block_length, room, room_length);

    struct columns c;
    struct gathered g;
    const uint8_t *const unit = block + SECOND_GROUP_LENGTH;
    const size_t length = block_length - SECOND_GROUP_LENGTH;
    const int kind = kind_of_all(unit, length, units);
    int right = 0;
    if (kind == SECOND_KIND_UNIT)
        right = read_units(unit, SECOND_KIND_UNIT, NULL, units, &c, &g, run, margin_age_limit);
    else if (kind == SECOND_KIND_UNIT_WITH_ENDS)
        right = read_units(unit, SECOND_KIND_UNIT_WITH_ENDS, NULL, units, &c, &g, run, margin_age_limit);
    if (!right && !read_both(unit, length, units, &c, &g, run, margin_age_limit))
        return second_check(day, day_length, block, block_length, room, room_length);

    const int32_t p = total(g.p), s1 = total(g.s1), high = -p > 0 ? -p : 0, low = -p < 0 ? -p : 0;
    const int32_t excess = s1 > high ? s1 - high : s1 < low ? s1 - low : 0;
    const v4 bar = excess != 0 ? cut(&c, units, excess) : ZERO;
    uint8_t *const result = room + SECOND_GROUP_RESULT_LENGTH;
    const unsigned odd = units % 4, last = units - 4;
    v4 sums = ZERO;
    for (unsigned i = 0; i + 4 <= units; i += 4)
        sums = write_4(result + SECOND_UNIT_RESULT_LENGTH * i, &c, i, excess, bar, ALL(-1), sums);
    if (odd)
        sums = write_4(result + SECOND_UNIT_RESULT_LENGTH * last, &c, last, excess, bar, LOAD(masks + odd), sums);
    const int32_t s3 = total(sums);
    memcpy(room, block, 5);
    room[0] = SECOND_KIND_GROUP_RESULT;
    room[5] = (uint8_t)((excess > 0 ? 1 : excess < 0 ? 2 : 0) + (s3 > high || s3 < low ? 4 : 0));
    room[6] = (uint8_t)units;
    put_i32(room + 7, p);
    put_i32(room + 11, s1);
    put_i32(room + 15, s1 - excess);
    put_i32(room + 19, s3);
    put_i32(room + 23, -p - s3);
    return (int32_t)written;
}
