/* The program around the library: `second probe` speaks the frames of
 * docs/PROBE.md, `second list` is the day list of document 01. */
#include "second.h"

#include <stdbool.h>
#include <stdio.h>
#include <stdlib.h>
#include <string.h>

#ifdef __SANITIZE_ADDRESS__
/* Looking for leaks takes seconds at each exit: it is asked for where it is wanted, by ASAN_OPTIONS=detect_leaks=1. */
const char *__asan_default_options(void);
const char *__asan_default_options(void)
{
    return "detect_leaks=0";
}
#endif

static void stop(const char *why)
{
    fprintf(stderr, "second: %s\n", why);
    exit(2);
}

static uint16_t be16(const uint8_t *at)
{
    return (uint16_t)(at[0] << 8 | at[1]);
}

static uint32_t be32(const uint8_t *at)
{
    return (uint32_t)be16(at) << 16 | be16(at + 2);
}

static int32_t signed32(uint32_t bits)
{
    int32_t value;
    memcpy(&value, &bits, sizeof value);
    return value;
}

/* ---- Probe: memory lent to a call --------------------------------------- */

enum { BODY_MAX = 8192, ROOM_MAX = 2304, COLUMN_MAX = 80, FILLER = 0xA5 };

/* Each piece lent is its own exact allocation, so that a sanitised build sees
 * every byte read or written beyond it. */
static void *lent[24];
static size_t lent_count;

static void *lend(size_t bytes)
{
    void *piece = malloc(bytes);
    if (piece == NULL && bytes > 0)
        stop("out of memory");
    lent[lent_count++] = piece;
    return piece;
}

static void take_back(void)
{
    while (lent_count > 0)
        free(lent[--lent_count]);
}

/* ---- Probe: the body of a frame, read from the front -------------------- */

typedef struct {
    const uint8_t *at;
    size_t left;
    bool fits; /* false once the body turns out not to fit its call */
} body;

static const uint8_t *take(body *b, size_t bytes)
{
    static const uint8_t zeros[4];
    if (!b->fits || b->left < bytes) {
        b->fits = false;
        return zeros;
    }
    const uint8_t *at = b->at;
    b->at += bytes;
    b->left -= bytes;
    return at;
}

static uint8_t take_u8(body *b)
{
    return *take(b, 1);
}

static uint16_t take_u16(body *b)
{
    return be16(take(b, 2));
}

static uint32_t take_u32(body *b)
{
    return be32(take(b, 4));
}

static uint8_t take_at_most(body *b, uint8_t most)
{
    const uint8_t value = take_u8(b);
    if (value > most)
        b->fits = false;
    return b->fits ? value : 0;
}

static size_t take_room_length(body *b)
{
    const size_t length = take_u16(b);
    if (length > ROOM_MAX)
        b->fits = false;
    return b->fits ? length : 0;
}

static uint8_t *lend_room(size_t length)
{
    uint8_t *room = lend(length);
    if (length > 0)
        memset(room, FILLER, length);
    return room;
}

static uint8_t *take_bytes(body *b, size_t length)
{
    if (!b->fits || b->left < length) {
        b->fits = false;
        length = 0;
    }
    uint8_t *copy = lend(length);
    if (length > 0)
        memcpy(copy, take(b, length), length);
    return copy;
}

static second_u8s take_u8s(body *b, size_t count)
{
    const second_u8s column = {take_bytes(b, count), count};
    return column;
}

static second_u16s take_u16s(body *b, size_t count)
{
    uint16_t *entries = lend(count * sizeof *entries);
    for (size_t i = 0; i < count; i++)
        entries[i] = take_u16(b);
    const second_u16s column = {entries, count};
    return column;
}

static second_u32s take_u32s(body *b, size_t count)
{
    uint32_t *entries = lend(count * sizeof *entries);
    for (size_t i = 0; i < count; i++)
        entries[i] = take_u32(b);
    const second_u32s column = {entries, count};
    return column;
}

static second_i32s take_i32s(body *b, size_t count)
{
    int32_t *entries = lend(count * sizeof *entries);
    for (size_t i = 0; i < count; i++)
        entries[i] = signed32(take_u32(b));
    const second_i32s column = {entries, count};
    return column;
}

static second_i32s_out lend_i32s(size_t count)
{
    int32_t *entries = lend(count * sizeof *entries);
    if (count > 0)
        memset(entries, FILLER, count * sizeof *entries);
    const second_i32s_out column = {entries, count};
    return column;
}

static second_day take_day(body *b)
{
    second_day day = {.state = SECOND_FRESH};
    day.state = (second_state)take_at_most(b, SECOND_CLOSED);
    day.delivery_day = take_u16(b);
    day.quarters = take_u8(b);
    day.run = take_u32(b);
    day.position_age_limit = take_u16(b);
    day.margin_age_limit = take_u16(b);
    day.groups = take_u32(b);
    day.seen = take_at_most(b, 1);
    day.last.brp = take_u16(b);
    day.last.zone = take_u8(b);
    day.last.quarter = take_u8(b);
    /* A key that was never seen is not read, and a reply shows it as zero. */
    if (!day.seen)
        memset(&day.last, 0, sizeof day.last);
    return day;
}

static bool whole(const body *b)
{
    return b->fits && b->left == 0;
}

/* ---- Probe: the body of a reply ----------------------------------------- */

/* Room for the longest reply: an offer's answer, day value and room; a walker's
 * 255 replies of 10 bytes are shorter together. */
static uint8_t reply[4096];
static size_t reply_len;

static void give_u8(uint8_t value)
{
    reply[reply_len++] = value;
}

static void give_u16(uint16_t value)
{
    give_u8((uint8_t)(value >> 8));
    give_u8((uint8_t)value);
}

static void give_u32(uint32_t value)
{
    give_u16((uint16_t)(value >> 16));
    give_u16((uint16_t)value);
}

static void give_i32(int32_t value)
{
    give_u32((uint32_t)value);
}

static void give_bytes(const uint8_t *bytes, size_t length)
{
    if (length > 0)
        memcpy(reply + reply_len, bytes, length);
    reply_len += length;
}

static void give_column(second_i32s_out column)
{
    for (size_t i = 0; i < column.len; i++)
        give_i32(column.at[i]);
}

static void give_day(const second_day *day)
{
    give_u8((uint8_t)day->state);
    give_u16(day->delivery_day);
    give_u8(day->quarters);
    give_u32(day->run);
    give_u16(day->position_age_limit);
    give_u16(day->margin_age_limit);
    give_u32(day->groups);
    give_u8(day->seen);
    give_u16(day->last.brp);
    give_u8(day->last.zone);
    give_u8(day->last.quarter);
}

/* The first part of an answer; true where the call was accepted and what it
 * gives back is still to follow. */
static bool give_answer(second_refusal refusal)
{
    if (refusal.number == 0) {
        give_u8(0);
        return true;
    }
    give_u8(1);
    give_u8(refusal.number);
    give_u32((uint32_t)refusal.place);
    return false;
}

static void give_taken(second_refusal refusal, second_taken taken)
{
    if (give_answer(refusal)) {
        give_u32((uint32_t)taken.used);
        give_u32((uint32_t)taken.written);
    }
}

static void give_written(second_refusal refusal, size_t written)
{
    if (give_answer(refusal))
        give_u32((uint32_t)written);
}

static void give_step(const second_step *step)
{
    switch (step->outcome) {
    case SECOND_EXTENT:
        give_u8(0);
        give_u32((uint32_t)step->start);
        give_u32((uint32_t)step->end);
        give_u8((uint8_t)step->state);
        break;
    case SECOND_REFUSED:
        give_answer(step->refusal);
        break;
    case SECOND_DONE:
        give_u8(2);
        break;
    }
}

/* ---- Probe: the calls --------------------------------------------------- */

static void probe_columns(body *b)
{
    size_t length[8];
    for (size_t i = 0; i < 8; i++)
        length[i] = take_at_most(b, COLUMN_MAX);
    const second_i32s n0 = take_i32s(b, length[0]);
    const second_i32s pc = take_i32s(b, length[1]);
    const second_i32s m_down = take_i32s(b, length[2]);
    const second_i32s m_up = take_i32s(b, length[3]);
    const second_u8s class_of = take_u8s(b, length[4]);
    if (!whole(b))
        return;

    const second_i32s_out n1 = lend_i32s(length[5]);
    const second_i32s_out n2 = lend_i32s(length[6]);
    const second_i32s_out n3 = lend_i32s(length[7]);
    second_totals totals;
    const second_refusal refusal =
        second_columns(n0, pc, m_down, m_up, class_of, n1, n2, n3, &totals);
    if (give_answer(refusal)) {
        give_u8(totals.verdict);
        give_i32(totals.p);
        give_i32(totals.s1);
        give_i32(totals.s2);
        give_i32(totals.s3);
        give_i32(totals.balance);
    }
    give_column(n1);
    give_column(n2);
    give_column(n3);
}

static void probe_offer(body *b)
{
    second_day day = take_day(b);
    const size_t room_len = take_room_length(b);
    const size_t len = b->left;
    const uint8_t *bytes = take_bytes(b, len);
    if (!whole(b))
        return;

    uint8_t *room = lend_room(room_len);
    second_taken taken = {0, 0};
    const second_refusal refusal = second_offer(&day, bytes, len, room, room_len, &taken);
    give_taken(refusal, taken);
    give_day(&day);
    give_bytes(room, room_len);
}

static void probe_check_block(body *b)
{
    const second_day day = take_day(b);
    const size_t len = b->left;
    const uint8_t *bytes = take_bytes(b, len);
    if (!whole(b))
        return;

    second_taken taken = {0, 0};
    const second_refusal refusal = second_check_block(&day, bytes, len, &taken);
    give_taken(refusal, taken);
}

static void probe_write_day(body *b)
{
    const uint16_t delivery_day = take_u16(b);
    const uint8_t quarters = take_u8(b);
    const uint32_t run = take_u32(b);
    const uint16_t position_age_limit = take_u16(b);
    const uint16_t margin_age_limit = take_u16(b);
    const size_t room_len = take_room_length(b);
    if (!whole(b))
        return;

    uint8_t *room = lend_room(room_len);
    size_t written = 0;
    const second_refusal refusal =
        second_write_day(delivery_day, quarters, run, position_age_limit,
                         margin_age_limit, room, room_len, &written);
    give_written(refusal, written);
    give_bytes(room, room_len);
}

static void probe_write_block(body *b)
{
    second_key key;
    key.brp = take_u16(b);
    key.zone = take_u8(b);
    key.quarter = take_u8(b);
    const uint32_t positions_made = take_u32(b);
    size_t length[12];
    for (size_t i = 0; i < 12; i++)
        length[i] = take_at_most(b, COLUMN_MAX);
    const size_t room_len = take_room_length(b);
    second_unit_columns units;
    units.number = take_u16s(b, length[0]);
    units.class_of = take_u8s(b, length[1]);
    units.coincide = take_u8s(b, length[2]);
    units.nominated = take_u8s(b, length[3]);
    units.n = take_i32s(b, length[4]);
    units.pc = take_i32s(b, length[5]);
    units.m_down = take_i32s(b, length[6]);
    units.m_up = take_i32s(b, length[7]);
    units.made = take_u32s(b, length[8]);
    units.kind = take_u8s(b, length[9]);
    units.lower = take_i32s(b, length[10]);
    units.upper = take_i32s(b, length[11]);
    if (!whole(b))
        return;

    uint8_t *room = lend_room(room_len);
    size_t written = 0;
    const second_refusal refusal =
        second_write_block(key, positions_made, &units, room, room_len, &written);
    give_written(refusal, written);
    give_bytes(room, room_len);
}

static void probe_write_end(body *b)
{
    const uint32_t count = take_u32(b);
    const size_t room_len = take_room_length(b);
    if (!whole(b))
        return;

    uint8_t *room = lend_room(room_len);
    size_t written = 0;
    const second_refusal refusal = second_write_end(count, room, room_len, &written);
    give_written(refusal, written);
    give_bytes(room, room_len);
}

static void probe_next(body *b)
{
    const second_state state = (second_state)take_at_most(b, SECOND_CLOSED);
    const uint32_t place = take_u32(b);
    const size_t len = b->left;
    const uint8_t *bytes = take_bytes(b, len);
    if (!whole(b))
        return;

    const second_step step = second_next(bytes, len, state, place);
    give_step(&step);
}

static void probe_walker(body *b)
{
    const uint8_t times = take_u8(b);
    const size_t len = b->left;
    const uint8_t *bytes = take_bytes(b, len);
    if (!whole(b))
        return;

    second_walker walker = second_walker_open(bytes, len);
    for (uint8_t i = 0; i < times; i++) {
        const second_step step = second_walker_next(&walker);
        give_step(&step);
    }
}

static void probe_c_call(body *b)
{
    const size_t day_len = take_u8(b);
    const size_t block_len = take_u16(b);
    const size_t room_len = take_room_length(b);
    const uint8_t *day = take_bytes(b, day_len);
    const uint8_t *block = take_bytes(b, block_len);
    if (!whole(b))
        return;

    uint8_t *room = lend_room(room_len);
    give_i32(second_check(day, day_len, block, block_len, room, room_len));
    give_bytes(room, room_len);
}

static void probe_read_line(body *b)
{
    const size_t len = b->left;
    const uint8_t *bytes = take_bytes(b, len);
    if (!whole(b))
        return;

    second_line line;
    size_t used;
    if (give_answer(second_read_line(bytes, len, &line, &used))) {
        give_u32((uint32_t)used);
        give_u16(line.number);
        give_u8(line.quarter);
        give_i32(line.n);
        give_i32(line.m_down);
        give_i32(line.m_up);
    }
}

static void probe_write_line(body *b)
{
    second_line line;
    line.number = take_u16(b);
    line.quarter = take_u8(b);
    line.n = signed32(take_u32(b));
    line.m_down = signed32(take_u32(b));
    line.m_up = signed32(take_u32(b));
    const size_t room_len = take_room_length(b);
    if (!whole(b))
        return;

    uint8_t *room = lend_room(room_len);
    size_t written = 0;
    const second_refusal refusal = second_write_line(&line, room, room_len, &written);
    give_written(refusal, written);
    give_bytes(room, room_len);
}

/* One reply frame for one frame; a body that does not fit its call, or a call
 * that does not exist, gets a reply frame of length 0. */
static void answer_frame(uint8_t call, const uint8_t *bytes, size_t len)
{
    static void (*const calls[])(body *) = {
        NULL,
        probe_columns,
        probe_offer,
        probe_check_block,
        probe_write_day,
        probe_write_block,
        probe_write_end,
        probe_next,
        probe_walker,
        probe_c_call,
        probe_read_line,
        probe_write_line,
    };
    body b = {bytes, len, len <= BODY_MAX};

    reply_len = 4; /* the length goes before the body once it is known */
    if (call >= 1 && call < sizeof calls / sizeof calls[0])
        calls[call](&b);
    take_back();

    const size_t end = reply_len;
    reply_len = 0;
    give_u32((uint32_t)(end - 4));
    if (fwrite(reply, 1, end, stdout) != end)
        stop("cannot write");
}

static int probe(void)
{
    static uint8_t bytes[UINT16_MAX];
    static char in_buffer[1 << 18], out_buffer[1 << 18];
    uint8_t head[3];

    setvbuf(stdin, in_buffer, _IOFBF, sizeof in_buffer);
    setvbuf(stdout, out_buffer, _IOFBF, sizeof out_buffer);
    while (fread(head, 1, sizeof head, stdin) == sizeof head) {
        const size_t len = be16(head + 1);
        if (fread(bytes, 1, len, stdin) != len)
            break;
        answer_frame(head[0], bytes, len);
    }
    if (ferror(stdin))
        stop("cannot read");
    if (fflush(stdout) != 0)
        stop("cannot write");
    return 0;
}

/* ---- The day list: lines out -------------------------------------------- */

/* Lines gather here; a block's lines are shorter than LINES_MAX together. */
enum { LINES_MAX = 1 << 13, OUT_SIZE = 1 << 18 };
static char out[OUT_SIZE];
static size_t out_len;

static void flush_lines(void)
{
    if (fwrite(out, 1, out_len, stdout) != out_len || fflush(stdout) != 0)
        stop("cannot write");
    out_len = 0;
}

static void put_text(const char *text)
{
    const size_t length = strlen(text);
    memcpy(out + out_len, text, length);
    out_len += length;
}

static void put_number(uint64_t value)
{
    char digits[20];
    size_t count = 0;
    do {
        digits[count++] = (char)('0' + value % 10);
        value /= 10;
    } while (value > 0);
    while (count > 0)
        out[out_len++] = digits[--count];
}

static void put_field(int64_t value)
{
    out[out_len++] = ' ';
    if (value < 0) {
        out[out_len++] = '-';
        put_number((uint64_t)-value);
    } else {
        put_number((uint64_t)value);
    }
}

static void put_line_feed(void)
{
    out[out_len++] = '\n';
}

static void put_day_line(const second_day *day)
{
    put_text("DAY");
    put_field(day->delivery_day);
    put_field(day->quarters);
    put_field(day->run);
    put_line_feed();
}

static void put_end_line(const second_day *day)
{
    put_text("END");
    put_field(day->groups);
    put_line_feed();
}

static void put_signed_fields(const uint8_t *at, size_t count)
{
    for (size_t i = 0; i < count; i++)
        put_field(signed32(be32(at + 4 * i)));
}

/* The lines of one block, from its group result and unit results. */
static void put_result_lines(const uint8_t *result)
{
    const size_t count = result[6];

    put_text("GROUP");
    put_field(be16(result + 1));
    put_field(result[3]);
    put_field(result[4]);
    put_field(result[5]);
    put_field(result[6]);
    put_signed_fields(result + 7, 5);
    put_line_feed();
    for (size_t i = 0; i < count; i++) {
        const uint8_t *at =
            result + SECOND_GROUP_RESULT_LENGTH + i * SECOND_UNIT_RESULT_LENGTH;
        put_text("UNIT");
        put_field(be16(at + 1));
        put_field(at[3]);
        put_signed_fields(at + 4, 4);
        put_line_feed();
    }
}

static void put_refused_line(uint8_t number, uint64_t place)
{
    put_text("REFUSED ");
    put_number(number);
    out[out_len++] = ' ';
    put_number(place);
    put_line_feed();
}

/* ---- The day list: standard input in chunks ----------------------------- */

enum { IN_SIZE = 1 << 18 };

typedef struct {
    uint8_t bytes[IN_SIZE];
    size_t from, to; /* what is at hand and not yet used */
    uint64_t start;  /* the place in the input of bytes[from] */
    bool ended;
} input;

/* Sees to it that the longest block is at hand, or all that the input still
 * holds; only then can a record be told to be cut short. */
static void fill(input *in)
{
    if (in->ended || in->to - in->from >= SECOND_BLOCK_MAX)
        return;
    memmove(in->bytes, in->bytes + in->from, in->to - in->from);
    in->to -= in->from;
    in->from = 0;
    const size_t wanted = IN_SIZE - in->to;
    const size_t got = fread(in->bytes + in->to, 1, wanted, stdin);
    if (ferror(stdin))
        stop("cannot read");
    in->to += got;
    in->ended = got < wanted;
}

static int list(void)
{
    static input in;
    uint8_t result[SECOND_RESULT_MAX];
    second_day day = {.state = SECOND_FRESH};

    for (;;) {
        fill(&in);
        if (day.state == SECOND_CLOSED && in.from == in.to)
            break;
        if (OUT_SIZE - out_len < LINES_MAX)
            flush_lines();

        second_taken taken;
        const second_refusal refusal = second_offer(
            &day, in.bytes + in.from, in.to - in.from, result, sizeof result, &taken);
        if (refusal.number != 0) {
            put_refused_line(refusal.number, in.start + refusal.place);
            break;
        }
        const uint8_t kind = in.bytes[in.from];
        in.from += taken.used;
        in.start += taken.used;
        if (kind == SECOND_KIND_DAY)
            put_day_line(&day);
        else if (kind == SECOND_KIND_GROUP)
            put_result_lines(result);
        else
            put_end_line(&day);
    }
    flush_lines();
    return 0;
}

int main(int argc, char **argv)
{
    if (argc == 2 && strcmp(argv[1], "probe") == 0)
        return probe();
    if (argc == 2 && strcmp(argv[1], "list") == 0)
        return list();
    fprintf(stderr, "usage: second probe | second list\n");
    return 2;
}
