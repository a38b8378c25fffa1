/* Speaks the frames of docs/PROBE.md for call 9, the C call, over the static library: a frame that is not of call 9 or does
 * not fit it gets a reply of length 0. Each piece lent ends where a page begins that may be neither read nor written. */
#define _DEFAULT_SOURCE
#include <flehwella.h>

#include <stdio.h>
#include <stdlib.h>
#include <string.h>
#include <sys/mman.h>

enum { CALL = 9, HEAD = 5, BODY_MAX = 8192, ROOM_MAX = 2304, PIECE = 65536, FILLER = 0xA5 };

_Static_assert(FLEHWELLA_MIXED_LENGTH(0, FLEHWELLA_UNITS_MAX) == FLEHWELLA_BLOCK_MAX, "the longest block");
_Static_assert(FLEHWELLA_MIXED_LENGTH(FLEHWELLA_UNITS_MAX, 0) == FLEHWELLA_BLOCK_LENGTH(FLEHWELLA_UNITS_MAX), "03h alone");
_Static_assert(FLEHWELLA_MIXED_LENGTH(1, 1) == 70 && FLEHWELLA_MIXED_LENGTH(1 + 1, 2 + 1) == 164, "both kinds");
_Static_assert(FLEHWELLA_BLOCK_LENGTH(1) == 36 && FLEHWELLA_BLOCK_MAX == 2186, "what document 01 and request 3 say");
_Static_assert(FLEHWELLA_RESULT_LENGTH(FLEHWELLA_UNITS_MAX) == FLEHWELLA_RESULT_MAX, "the longest result");

/* The end of a piece of PIECE bytes, before a page that is shut. */
static uint8_t *piece(void)
{
    void *at = mmap(NULL, 2 * PIECE, PROT_READ | PROT_WRITE, MAP_PRIVATE | MAP_ANONYMOUS, -1, 0);
    if (at == MAP_FAILED || mprotect((uint8_t *)at + PIECE, PIECE, PROT_NONE) != 0) {
        perror("calls");
        exit(2);
    }
    return (uint8_t *)at + PIECE;
}

static size_t size_at(const uint8_t *at)
{
    return (size_t)at[0] << 8 | at[1];
}

static void put_u32(uint32_t number)
{
    for (int shift = 24; shift >= 0; shift -= 8)
        putchar((int)(number >> shift & 0xFF));
}

static int fits(int call, const uint8_t *body, size_t length)
{
    return call == CALL && length >= HEAD && length <= BODY_MAX && size_at(body + 3) <= ROOM_MAX &&
           length == HEAD + body[0] + size_at(body + 1);
}

int main(void)
{
    uint8_t *const day_end = piece(), *const block_end = piece(), *const room_end = piece();
    static uint8_t frame[3], body[UINT16_MAX];
    while (fread(frame, 1, sizeof frame, stdin) == sizeof frame) {
        const size_t length = size_at(frame + 1);
        if (fread(body, 1, length, stdin) != length)
            break;
        if (!fits(frame[0], body, length)) {
            put_u32(0);
            continue;
        }
        const size_t day_length = body[0], block_length = size_at(body + 1), room_length = size_at(body + 3);
        uint8_t *day = day_end - day_length, *block = block_end - block_length, *room = room_end - room_length;
        memcpy(day, body + HEAD, day_length);
        memcpy(block, body + HEAD + day_length, block_length);
        memset(room, FILLER, room_length);
        const int32_t reply = flehwella_check(day, day_length, block, block_length, room, room_length);
        put_u32((uint32_t)(4 + room_length));
        put_u32((uint32_t)reply);
        fwrite(room, 1, room_length, stdout);
    }
    return 0;
}
