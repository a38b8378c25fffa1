/* The second program: the ways in of document 01 ("Ways in"), with requests 2, 3,
 * 4, 6 and 7 of document 02 in place, written from the documents alone so that the
 * proved product can be compared with it in bulk.
 * This header is what a program that links second.o may use. */
#ifndef SECOND_H
#define SECOND_H

#include <stddef.h>
#include <stdint.h>

/* Lengths of house records, and what follows from at most 64 units a group, each
 * of them with interval ends in the longest block. */
enum {
    SECOND_DAY_LENGTH = 12,
    SECOND_GROUP_LENGTH = 10,
    SECOND_UNIT_LENGTH = 26,
    SECOND_UNIT_WITH_ENDS_LENGTH = 34,
    SECOND_END_LENGTH = 5,
    SECOND_GROUP_RESULT_LENGTH = 27,
    SECOND_UNIT_RESULT_LENGTH = 20,
    SECOND_UNITS_MAX = 64,
    SECOND_BLOCK_MAX =
        SECOND_GROUP_LENGTH + SECOND_UNITS_MAX * SECOND_UNIT_WITH_ENDS_LENGTH,
    SECOND_RESULT_MAX =
        SECOND_GROUP_RESULT_LENGTH + SECOND_UNITS_MAX * SECOND_UNIT_RESULT_LENGTH
};

/* Kinds of house record. */
enum {
    SECOND_KIND_DAY = 0x01,
    SECOND_KIND_GROUP = 0x02,
    SECOND_KIND_UNIT = 0x03,
    SECOND_KIND_UNIT_WITH_ENDS = 0x04,
    SECOND_KIND_END = 0x0F,
    SECOND_KIND_GROUP_RESULT = 0x11,
    SECOND_KIND_UNIT_RESULT = 0x12
};

/* "Numbers given back": number 0 means accepted, otherwise number and place. */
typedef struct {
    uint8_t number;
    size_t place;
} second_refusal;

/* A group as columns. Each column carries its own length, because unequal
 * lengths are a refusal (15) and not a mistake of the caller. */
typedef struct {
    const int32_t *at;
    size_t len;
} second_i32s;

typedef struct {
    const uint32_t *at;
    size_t len;
} second_u32s;

typedef struct {
    const uint16_t *at;
    size_t len;
} second_u16s;

typedef struct {
    const uint8_t *at;
    size_t len;
} second_u8s;

typedef struct {
    int32_t *at;
    size_t len;
} second_i32s_out;

typedef struct {
    uint8_t verdict;
    int32_t p, s1, s2, s3, balance;
} second_totals;

second_refusal second_columns(second_i32s n0, second_i32s pc, second_i32s m_down,
                              second_i32s m_up, second_u8s class_of,
                              second_i32s_out n1, second_i32s_out n2,
                              second_i32s_out n3, second_totals *totals);

/* A day, which goes into a call and comes back as a value. */
typedef enum { SECOND_FRESH = 0, SECOND_OPEN = 1, SECOND_CLOSED = 2 } second_state;

typedef struct {
    uint16_t brp;
    uint8_t zone;
    uint8_t quarter;
} second_key;

typedef struct {
    second_state state;
    uint16_t delivery_day;
    uint8_t quarters;
    uint32_t run;
    uint16_t position_age_limit;
    uint16_t margin_age_limit;
    uint32_t groups;
    uint8_t seen; /* 0: no block yet; 1: `last` is the key of the last one */
    second_key last;
} second_day;

typedef struct {
    size_t used;
    size_t written;
} second_taken;

/* Offers one record or block; `day`, `taken` and the room change only when it
 * is accepted. */
second_refusal second_offer(second_day *day, const uint8_t *bytes, size_t len,
                            uint8_t *room, size_t room_len, second_taken *taken);

/* The same judgement of one block with no room lent: 12 is never given, and a
 * kind other than 02h is 2 in every state. */
second_refusal second_check_block(const second_day *day, const uint8_t *bytes,
                                  size_t len, second_taken *taken);

/* Writers. `written` changes only when the record is accepted. */
second_refusal second_write_day(uint16_t delivery_day, uint8_t quarters, uint32_t run,
                                uint16_t position_age_limit, uint16_t margin_age_limit,
                                uint8_t *room, size_t room_len, size_t *written);

typedef struct {
    second_u16s number;
    second_u8s class_of, coincide, nominated;
    second_i32s n, pc, m_down, m_up;
    second_u32s made;
    second_u8s kind;
    second_i32s lower, upper; /* interval ends; of a 03h the full ones */
} second_unit_columns;

second_refusal second_write_block(second_key key, uint32_t positions_made,
                                  const second_unit_columns *units, uint8_t *room,
                                  size_t room_len, size_t *written);

second_refusal second_write_end(uint32_t count, uint8_t *room, size_t room_len,
                                size_t *written);

/* One line of a partner's export: one unit in one quarter, in kWh. */
typedef struct {
    uint16_t number;
    uint8_t quarter;
    int32_t n, m_down, m_up;
} second_line;

/* The longest line is `65535;99;1000,000;P;1000,000;P;1000,000;P` and its line feed. */
enum { SECOND_LINE_MAX = 42 };

/* Reads the line at the front of the bytes; those after its line feed are not read.
 * `line` and `used` change only when it is accepted. */
second_refusal second_read_line(const uint8_t *bytes, size_t len, second_line *line,
                                size_t *used);

/* Writes one, with its line feed. */
second_refusal second_write_line(const second_line *line, uint8_t *room, size_t room_len,
                                 size_t *written);

/* A walk over a day that lies whole in lent memory, by slice and place. */
typedef enum { SECOND_EXTENT = 0, SECOND_REFUSED = 1, SECOND_DONE = 2 } second_outcome;

typedef struct {
    second_outcome outcome;
    size_t start, end;      /* of an extent */
    second_state state;     /* after an extent */
    second_refusal refusal; /* of a refusal */
} second_step;

second_step second_next(const uint8_t *bytes, size_t len, second_state state, size_t place);

/* A walker opened on those bytes, which remembers where it stands. */
typedef struct {
    const uint8_t *bytes;
    size_t len;
    second_state state;
    size_t place;
} second_walker;

second_walker second_walker_open(const uint8_t *bytes, size_t len);
second_step second_walker_next(second_walker *walker);

/* The C call: the written length, or minus the refusal number. */
int second_check(const uint8_t *day, size_t day_len, const uint8_t *block,
                 size_t block_len, uint8_t *room, size_t room_len);

#endif
